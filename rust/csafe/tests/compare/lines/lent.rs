//! Readers on lent bytes: any numbers and any bytes are one, and a call has the origin of the function that is called.

use csafe::line::{self, HELD_LEN};
use csafe::{Error, Located};
use plain::frame::{self as plain_rust, Origin, Read};
use plain::line::Answer;

use super::{check_held, refused_at, Done, FULL};
use crate::by_origin;
use crate::common::Xorshift;
use crate::cuts::any_chunk;
use crate::frame_damage::{ESCAPE, EXTENDED_START, STANDARD_START, STOP};
use crate::held::{
    counts_of, Held, IN_EXTENDED, IN_STANDARD, LINE_LIMIT, MODES, OUTSIDE, OVERLONG,
};
use crate::output::{hex, told, Output};
use crate::tally::Tally;
use crate::traces::Traffic;
use crate::ORIGINS;

/// Counts of a reader that is far from full, and the position in them.
const COUNTS: u64 = 9 << 32 | POSITION as u64;
const POSITION: u32 = 5;

/// Lengths that no call leaves in a reader's number: more than its bytes, up to the most that a number has.
const TOO_MANY: [u64; 7] = [
    119,
    120,
    256,
    65_536,
    1 << 32,
    (1 << 61) + 118,
    (1 << 62) - 1,
];

/// A reader on lent bytes between two margins, and what it has to hold.
struct Lent {
    output: Output,
    state: u64,
    counts: u64,
    held: Held,
}

impl Lent {
    fn new(bytes: [u8; HELD_LEN], state: u64, counts: u64) -> Lent {
        let mut output = Output::new(HELD_LEN);
        output.lent().copy_from_slice(&bytes);
        Lent {
            output,
            state,
            counts,
            held: Held::new(bytes, state, counts),
        }
    }

    /// Feeds a chunk by one call, which has to do what its bytes do singly.
    fn feed(&mut self, origin: Origin, chunk: &[u8]) -> Done {
        let (before, numbers) = (self.held.clone(), (self.state, self.counts));
        let input = || {
            let reader = format!("the reader {numbers:#X?} {}", hex(before.bytes()));
            format!("{origin:?}, {} fed to {reader}", hex(chunk))
        };
        let expected = self.expected(origin, chunk);
        let bytes = self.output.lent().try_into();
        let bytes = bytes.expect("the room is that of a reader");
        let fed = by_origin::feed(origin, bytes, &mut self.state, &mut self.counts, chunk);
        let done = Done::by_ours(fed.taken, fed.told);
        assert_eq!(done, expected, "{}", told(&input));
        check_held(&self.held, &self.output, (self.state, self.counts), &input);
        let kept = (self.state, self.counts) == numbers;
        assert!(
            done.taken > 0 || kept,
            "no byte was taken, and the numbers changed: {}",
            told(&input)
        );
        done
    }

    /// Feeds a line in chunks, each for an origin of its own, and counts what is told. Where the reader is full, it is
    /// finished.
    fn feed_mixed(&mut self, line: &[u8], random: &mut Xorshift, tally: &mut Tally) {
        let mut rest = line;
        while !rest.is_empty() {
            let origin = ORIGINS[random.below(ORIGINS.len())];
            let done = self.feed(origin, &rest[..any_chunk(random, rest.len())]);
            rest = &rest[done.taken..];
            match done.answer {
                Answer::Nothing => {}
                Answer::Frame { .. } => tally.add(&Ok(())),
                Answer::Refused { code, .. } => tally.add::<()>(&Err(code)),
            }
            if done.answer == FULL {
                self.finish();
            }
        }
    }

    /// What the bytes of a chunk do up to the first that is answered. One that a full reader gets is answered where it
    /// is the first.
    fn expected(&mut self, origin: Origin, chunk: &[u8]) -> Done {
        let done = |taken, answer, contents| Done {
            taken,
            answer,
            contents,
        };
        for (at, byte) in chunk.iter().enumerate() {
            if self.held.is_full() {
                let answer = if at == 0 { FULL } else { Answer::Nothing };
                return done(at, answer, Vec::new());
            }
            let (answer, contents) = answered(origin, &self.held, *byte);
            self.held.take(*byte, &contents);
            if answer != Answer::Nothing {
                return done(at + 1, answer, contents);
            }
        }
        done(chunk.len(), Answer::Nothing, Vec::new())
    }

    fn finish(&mut self) {
        let before = (self.state, self.counts);
        let input = || format!("finishing the reader {before:#X?}");
        let position = position_of(&self.held);
        let answer = Error::Truncated;
        let expected = match self.held.state() % MODES {
            OUTSIDE => Ok(()),
            _ => Err(Located { position, answer }),
        };
        let finished = line::finish(&mut self.state, &mut self.counts);
        assert_eq!(finished, expected, "{}", told(&input));
        self.held.finish();
        check_held(&self.held, &self.output, (self.state, self.counts), &input);
    }
}

/// What a byte that is taken gives, and the contents of a frame. A start flag ends whatever is open as 6. At the stop
/// flag a candidate that is too long to be held is 2, and the others are read as the slice from their start flag to
/// this stop flag.
fn answered(origin: Origin, reader: &Held, byte: u8) -> (Answer, Vec<u8>) {
    let position = position_of(reader);
    let refused = |code| (refused_at(position, code), Vec::new());
    let judged = |start| match read(origin, start, body_of(reader)) {
        Ok((frame, contents)) => (Answer::Frame { position, frame }, contents),
        Err(code) => refused(code),
    };
    let nothing = (Answer::Nothing, Vec::new());
    match (byte, reader.state() % MODES) {
        (_, OUTSIDE) => nothing,
        (EXTENDED_START | STANDARD_START, _) => refused(6),
        (STOP, IN_EXTENDED) => judged(EXTENDED_START),
        (STOP, IN_STANDARD) => judged(STANDARD_START),
        (STOP, _) => refused(2),
        _ => nothing,
    }
}

/// The position of the start flag of an open candidate.
fn position_of(reader: &Held) -> u32 {
    reader.counts() as u32
}

/// The bytes of an open candidate. A length of 118 or more counts as a full array.
fn body_of(reader: &Held) -> &[u8] {
    let len = reader.state() / MODES;
    &reader.bytes()[..len.min(118) as usize]
}

/// What the independent side reads of a start flag, these bytes and a stop flag.
fn read(origin: Origin, start: u8, body: &[u8]) -> Result<(Read, Vec<u8>), u8> {
    let wire = [&[start], body, &[STOP]].concat();
    let mut out = vec![0; wire.len()];
    let read = plain_rust::read(origin, &wire, &mut out)?;
    let (Read::Standard { len } | Read::Extended { len, .. }) = read;
    out.truncate(len);
    Ok((read, out))
}

/// The origin is that of the call that takes the stop flag. Where the candidate was opened does not matter.
#[test]
fn a_lent_reader_has_the_origin_of_each_call() {
    const OPENED: [u8; 3] = [STANDARD_START, 0x41, 0x41];
    let frame = Read::Standard { len: 1 };
    let mut lent = Lent::new([0; HELD_LEN], 0, 0);
    for position in [0, 8, 16] {
        assert_eq!(lent.feed(Origin::Trace, &OPENED).answer, Answer::Nothing);
        let refused = lent.feed(Origin::Live, &[STOP]).answer;
        assert_eq!(refused, refused_at(position, 17));
        let position = position + 4;
        assert_eq!(lent.feed(Origin::Live, &OPENED).answer, Answer::Nothing);
        let told = lent.feed(Origin::Trace, &[STOP]).answer;
        assert_eq!(told, Answer::Frame { position, frame });
    }
}

#[test]
fn a_lent_reader_is_fed_random_lines_at_both_origins() {
    let mut random = Xorshift::new();
    let mut traffic = Traffic::default();
    let mut tally = Tally::default();
    let mut lent = Lent::new([0; HELD_LEN], 0, 0);
    for _ in 0..50_000 {
        lent.feed_mixed(traffic.any(&mut random), &mut random, &mut tally);
    }
    tally.has_each(&[0, 2, 3, 4, 5, 6, 17], 100);
}

/// What the stop flag gives by the mode of a reader whose bytes are all held: nothing outside, 2 where the candidate is
/// too long, and a frame or a refusal of all 118 bytes. They are 0, so a frame's checksum and its addresses are too.
fn at_the_stop_flag(origin: Origin, mode: u64) -> Answer {
    let position = POSITION;
    let frame_at = |frame| Answer::Frame { position, frame };
    match (mode, origin) {
        (OUTSIDE, _) => Answer::Nothing,
        (IN_STANDARD, Origin::Live) => refused_at(position, 17),
        (IN_STANDARD, Origin::Trace) => frame_at(Read::Standard { len: 117 }),
        (IN_EXTENDED, _) => frame_at(Read::Extended {
            to: 0x00,
            from: 0x00,
            len: 115,
        }),
        _ => refused_at(position, 2),
    }
}

/// A length of 118 or more counts as a full array, as the header says: "more than there are counts as all".
#[test]
fn a_number_with_too_great_a_length_holds_all_bytes() {
    for len in [118].into_iter().chain(TOO_MANY) {
        for mode in OUTSIDE..=OVERLONG {
            for origin in ORIGINS {
                let new = || Lent::new([0x00; HELD_LEN], MODES * len + mode, COUNTS);
                let done = new().feed(origin, &[STOP]);
                let expected = at_the_stop_flag(origin, mode);
                assert_eq!(done.answer, expected, "{origin:?}, {len}, mode {mode}");

                // With one byte more an open candidate is too long.
                let done = new().feed(origin, &[0x00, STOP]);
                let longer = match mode {
                    OUTSIDE => Answer::Nothing,
                    _ => refused_at(POSITION, 2),
                };
                assert_eq!(done.answer, longer, "{origin:?}, {len}, mode {mode}");
            }
        }
    }
}

/// The greatest state is that of a candidate that is too long.
#[test]
fn the_greatest_state_is_a_reader() {
    for origin in ORIGINS {
        let new = || Lent::new([STOP; HELD_LEN], u64::MAX, COUNTS);
        let answer = |chunk| new().feed(origin, chunk).answer;
        assert_eq!(answer(&[]), Answer::Nothing);
        assert_eq!(answer(&[0x41]), Answer::Nothing);
        assert_eq!(answer(&[STOP]), refused_at(POSITION, 2));
        assert_eq!(answer(&[STANDARD_START]), refused_at(POSITION, 6));
        assert_eq!(answer(&[EXTENDED_START]), refused_at(POSITION, 6));
        new().finish();
    }
}

/// The greatest counts are those of a full reader. No call leaves their position, which is told all the same.
#[test]
fn the_greatest_counts_are_a_reader() {
    for origin in ORIGINS {
        for state in [OUTSIDE, IN_STANDARD, IN_EXTENDED, OVERLONG, u64::MAX] {
            let new = || Lent::new([0x00; HELD_LEN], state, u64::MAX);
            let answer = |chunk: &[u8]| new().feed(origin, chunk).answer;
            assert_eq!(answer(&[]), Answer::Nothing);
            for byte in [0x41, STOP, STANDARD_START, EXTENDED_START, ESCAPE] {
                assert_eq!(answer(&[byte]), FULL);
            }
            new().finish();
        }
    }
}

/// An open candidate with a flag among its bytes is refused as a slice with that flag is. Only held bytes count.
#[test]
fn flags_in_the_bytes_of_a_reader_are_refused_at_the_stop_flag() {
    for flag in [EXTENDED_START, STANDARD_START, STOP] {
        for len in [118].into_iter().chain(TOO_MANY) {
            for mode in [IN_STANDARD, IN_EXTENDED] {
                for origin in ORIGINS {
                    let mut bytes = [0x00; HELD_LEN];
                    bytes[HELD_LEN - 1] = flag;
                    let lent = |len| Lent::new(bytes, MODES * len + mode, COUNTS);
                    let refused = refused_at(POSITION, 6);
                    assert_eq!(lent(len).feed(origin, &[STOP]).answer, refused);
                    assert_ne!(lent(117).feed(origin, &[STOP]).answer, refused);
                }
            }
        }
    }
}

/// Bytes of which many, few or none are F0 to F3. Half of the time the last is the checksum of a frame of either kind.
fn any_bytes(random: &mut Xorshift) -> [u8; HELD_LEN] {
    let share = [0, 1, 50][random.below(3)];
    let mut bytes: Vec<u8> = random.bytes(HELD_LEN, share);
    if random.below(2) == 0 {
        bytes.iter_mut().for_each(|byte| *byte = (*byte).min(0xEF));
    }
    let first = 2 * random.below(2);
    let sum = |bytes: &[u8]| bytes.iter().fold(0, |sum, byte| sum ^ byte);
    if random.below(2) == 0 {
        bytes[HELD_LEN - 1] = sum(&bytes[first..HELD_LEN - 1]);
    }
    bytes.try_into().expect("there are as many")
}

/// A state with a length that calls leave, one of those that they don't, or any number at all.
fn any_state(random: &mut Xorshift) -> u64 {
    let mode = random.below(4) as u64;
    match random.below(3) {
        0 => mode + MODES * random.below(HELD_LEN + 1) as u64,
        1 => mode + MODES * TOO_MANY[random.below(TOO_MANY.len())],
        _ => random.number(),
    }
}

/// Counts of a reader that has taken few bytes, of one that is nearly full and may have any position, or any at all.
fn any_counts(random: &mut Xorshift) -> u64 {
    let position = random.number() >> 32;
    match random.below(3) {
        0 => counts_of(random.below(300) as u32) | random.below(300) as u64,
        1 => counts_of(LINE_LIMIT - random.below(300) as u32) | position,
        _ => random.number(),
    }
}

#[test]
fn any_numbers_and_any_bytes_are_a_reader() {
    let mut random = Xorshift::new();
    let mut traffic = Traffic::default();
    let mut tally = Tally::default();
    for _ in 0..100_000 {
        let (bytes, state) = (any_bytes(&mut random), any_state(&mut random));
        let mut lent = Lent::new(bytes, state, any_counts(&mut random));
        let line = match random.below(4) {
            0 => &[STOP],
            1 => &[ESCAPE, STOP][..],
            _ => traffic.any(&mut random),
        };
        lent.feed_mixed(line, &mut random, &mut tally);
        if random.below(2) == 0 {
            lent.finish();
        }
    }
    tally.has_each(&[0, 2, 3, 4, 5, 6, 16, 17], 1_000);
}
