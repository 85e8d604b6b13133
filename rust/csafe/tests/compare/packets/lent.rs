//! Packet readers on lent bytes: any number and any bytes are one.

use csafe::packet::{self, HELD_LEN};
use csafe::Error;
use plain::packet::{self as plain_rust, Read};
use plain::packet_line::Answer;

use super::pair::{bytes_of, check_held, Done};
use crate::common::Xorshift;
use crate::cuts::any_chunk;
use crate::output::{hex, told, Output};
use crate::packet_damage::{any_byte, any_character, PacketTraffic, PlainPacket, START, STOP};
use crate::packet_held::{PacketHeld, INSIDE, MODES, OUTSIDE};
use crate::tally::Tally;

/// Lengths that no call leaves in a reader's number: more than its bytes, up to the most that a number has.
const TOO_MANY: [u64; 7] = [
    255,
    256,
    257,
    65_536,
    1 << 32,
    (1 << 61) + 254,
    (1 << 62) - 1,
];

/// A reader on lent bytes between two margins, and what it has to hold.
struct Lent {
    output: Output,
    state: u64,
    held: PacketHeld,
}

impl Lent {
    fn new(bytes: [u8; HELD_LEN], state: u64) -> Lent {
        let mut output = Output::new(HELD_LEN);
        *bytes_of(&mut output) = bytes;
        Lent {
            output,
            state,
            held: PacketHeld::new(bytes, state),
        }
    }

    /// Feeds a chunk by one call, which has to do what its bytes do singly.
    fn feed(&mut self, chunk: &[u8]) -> Done {
        let (before, state) = (self.held.clone(), self.state);
        let input = || {
            let reader = format!("the reader {state:#X} {}", hex(before.bytes()));
            format!("{} fed to {reader}", hex(chunk))
        };
        let expected = self.expected(chunk);
        let fed = packet::feed(bytes_of(&mut self.output), &mut self.state, chunk);
        let done = Done::by_ours(fed.taken, fed.told);
        assert_eq!(done, expected, "{}", told(&input));
        check_held(&self.held, &self.output, self.state, &input);
        done
    }

    /// Feeds a line in chunks, and counts what is told.
    fn feed_all(&mut self, line: &[u8], random: &mut Xorshift, tally: &mut Tally) {
        let mut rest = line;
        while !rest.is_empty() {
            let done = self.feed(&rest[..any_chunk(random, rest.len())]);
            rest = &rest[done.taken..];
            if let Some(answer) = &done.answer {
                tally.add(answer);
            }
        }
    }

    /// What the bytes of a chunk do up to the first that is answered.
    fn expected(&mut self, chunk: &[u8]) -> Done {
        for (at, byte) in chunk.iter().enumerate() {
            let (answer, unit) = answered(&self.held, *byte);
            self.held.take(*byte, &unit);
            if answer.is_some() {
                let taken = at + 1;
                return Done {
                    taken,
                    answer,
                    unit,
                };
            }
        }
        Done::nothing(chunk.len())
    }

    fn finish(&mut self) {
        let before = self.state;
        let input = || format!("finishing the reader {before:#X}");
        let expected = match before % MODES {
            OUTSIDE => Ok(()),
            _ => Err(Error::Truncated),
        };
        assert_eq!(
            packet::finish(&mut self.state),
            expected,
            "{}",
            told(&input)
        );
        self.held.finish();
        check_held(&self.held, &self.output, self.state, &input);
    }
}

/// What a byte gives, and the data unit of a packet. A start flag ends whatever is open as 6. At the stop flag a
/// candidate that is too long to be held is 2, and any other is read as the slice from its start flag to this stop
/// flag.
fn answered(reader: &PacketHeld, byte: u8) -> (Option<Answer>, Vec<u8>) {
    let mode = reader.state() % MODES;
    let (answer, unit) = match byte {
        _ if mode == OUTSIDE => return (None, Vec::new()),
        START => (Err(6), Vec::new()),
        STOP if mode == INSIDE => read(body_of(reader)),
        STOP => (Err(2), Vec::new()),
        _ => return (None, Vec::new()),
    };
    (Some(answer), unit)
}

/// The bytes of an open candidate. A length of 254 or more counts as a full array.
fn body_of(reader: &PacketHeld) -> &[u8] {
    let len = reader.state() / MODES;
    &reader.bytes()[..len.min(254) as usize]
}

/// What the independent side reads of a start flag, these bytes and a stop flag.
fn read(body: &[u8]) -> (Answer, Vec<u8>) {
    let wire = [&[START], body, &[STOP]].concat();
    let mut unit = vec![0; wire.len()];
    let answer = plain_rust::read(&wire, &mut unit);
    unit.truncate(answer.map_or(0, |read| read.len));
    (answer, unit)
}

/// The bytes of a reader that holds a whole packet with so many characters of data, and others behind them.
fn bytes_with_packet(len: usize, others: u8) -> [u8; HELD_LEN] {
    let mut wire = Vec::new();
    let unit = vec![b'~'; len];
    let header = *b"U18";
    PlainPacket { header, unit }.put_wire(&mut wire);
    let mut bytes = [others; HELD_LEN];
    bytes[..len + 5].copy_from_slice(&wire[1..len + 6]);
    bytes
}

/// A length of 254 or more counts as a full array, as the header says: "more than there are counts as all".
#[test]
fn a_number_with_too_great_a_length_holds_all_bytes() {
    let (header, len) = (*b"U18", 249);
    let bytes = bytes_with_packet(len, 0x00);
    for held in [254].into_iter().chain(TOO_MANY) {
        for mode in 0..MODES {
            let new = || Lent::new(bytes, MODES * held + mode);
            let expected = match mode {
                OUTSIDE => None,
                INSIDE => Some(Ok(Read { header, len })),
                _ => Some(Err(2)),
            };
            let answer = new().feed(&[STOP]).answer;
            assert_eq!(answer, expected, "{held}, mode {mode}");

            // With one byte more an open candidate is too long.
            let longer = (mode != OUTSIDE).then_some(Err(2));
            let answer = new().feed(b"0\x17").answer;
            assert_eq!(answer, longer, "{held}, mode {mode}");
        }
    }
}

/// The greatest state is that of a candidate that is too long.
#[test]
fn the_greatest_state_is_a_reader() {
    let new = || Lent::new([STOP; HELD_LEN], u64::MAX);
    let answer = |chunk: &[u8]| new().feed(chunk).answer;
    assert_eq!(answer(&[]), None);
    assert_eq!(answer(b"0"), None);
    assert_eq!(answer(&[STOP]), Some(Err(2)));
    assert_eq!(answer(&[START]), Some(Err(6)));
    new().finish();
}

/// An open candidate with a flag among its bytes is refused as a slice with that flag is. Only held bytes count.
#[test]
fn flags_in_the_bytes_of_a_reader_are_refused_at_the_stop_flag() {
    for flag in [START, STOP] {
        for place in [0, 1, 100, 252, 253] {
            let mut bytes = bytes_with_packet(249, 0x00);
            bytes[place] = flag;
            let lent = |len: u64| Lent::new(bytes, MODES * len + INSIDE);
            let answer = |len| lent(len).feed(&[STOP]).answer;
            for len in [place as u64 + 1, 254].into_iter().chain(TOO_MANY) {
                assert_eq!(answer(len), Some(Err(6)), "{flag:02X} at {place} of {len}");
            }
            assert_ne!(answer(place as u64), Some(Err(6)), "{flag:02X} at {place}");
        }
    }
}

/// Bytes behind those that are held are not looked at, and stay where they are.
#[test]
fn only_held_bytes_count() {
    let header = *b"U18";
    for len in [0, 1, 2, 3, 4, 100, 248] {
        for others in [START, STOP, 0xFF] {
            let mut lent = Lent::new(
                bytes_with_packet(len, others),
                MODES * (len as u64 + 5) + INSIDE,
            );
            let answer = lent.feed(&[STOP]).answer;
            assert_eq!(answer, Some(Ok(Read { header, len })), "{len} {others:02X}");
        }
    }
}

/// Bytes of which many, few or none are allowed, and often a whole packet first.
fn any_bytes(random: &mut Xorshift) -> [u8; HELD_LEN] {
    let share = [0, 1, 30][random.below(3)];
    let mut bytes = match random.below(3) {
        0 => [0x00; HELD_LEN],
        _ => bytes_with_packet(random.below(250), any_byte(random)),
    };
    for byte in &mut bytes {
        if random.below(100) < share {
            *byte = match random.below(2) {
                0 => any_byte(random),
                _ => any_character(random),
            };
        }
    }
    bytes
}

/// A state with a length that calls leave, that up to the last digit, where a packet may end, one of those that calls
/// don't leave, or any length at all. The mode is often that of an open candidate.
fn any_state(random: &mut Xorshift, bytes: &[u8; HELD_LEN]) -> u64 {
    let mode = [0, 1, 1, 1, 2, 3][random.below(6)];
    let last = bytes.iter().rposition(u8::is_ascii_digit);
    mode + MODES
        * match random.below(4) {
            0 => random.below(HELD_LEN + 1) as u64,
            1 => TOO_MANY[random.below(TOO_MANY.len())],
            2 => last.map_or(0, |last| last as u64 + 1),
            _ => random.number() / MODES,
        }
}

#[test]
fn any_number_and_any_bytes_are_a_reader() {
    let mut random = Xorshift::new();
    let mut traffic = PacketTraffic::default();
    let mut tally = Tally::default();
    for _ in 0..100_000 {
        let bytes = any_bytes(&mut random);
        let mut lent = Lent::new(bytes, any_state(&mut random, &bytes));
        let line = match random.below(4) {
            0 | 1 => &[STOP],
            _ => traffic.any(&mut random),
        };
        lent.feed_all(line, &mut random, &mut tally);
        if random.below(2) == 0 {
            lent.finish();
        }
    }
    tally.has_each(&[0, 2, 4, 5, 6, 22], 1_000);
}
