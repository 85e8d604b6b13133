//! Treadmill packets written, read from a slice, and read from a line on both sides.

mod chunks;
mod lent;
mod lines;
mod pair;

use csafe::packet::{self, Header, Packet, UNIT_LIMIT, WIRE_LIMIT};
use csafe::Error;
use plain::packet::{self as plain_rust, Read};

use crate::common::Xorshift;
use crate::frames::of_alphabet;
use crate::output::{hex, same, told, Output};
use crate::packet_damage::{
    any_byte, any_character, spoil_packet, PlainPacket, PACKET_ALPHABET, START, STOP,
};
use crate::tally::Tally;

/// Room for every packet and every data unit.
const AMPLE: usize = 300;

/// How many bytes a packet has apart from its data unit.
const AROUND_UNIT: usize = 7;

/// Lengths of data units.
const LENGTHS: [usize; 7] = [0, 1, 4, 20, 100, 248, 249];

/// What the independent side answers for a packet.
fn as_read(packet: Packet<'_>) -> Read {
    Read {
        header: packet.header.bytes(),
        len: packet.unit.len(),
    }
}

/// Reads a slice on both sides and answers what both said.
fn read_on_both(wire: &[u8], room: usize) -> Result<Read, u8> {
    let (mut our_output, mut their_output) = (Output::new(room), Output::new(room));
    let input = || format!("reading {} with room {room}", hex(wire));
    let first = our_output.lent().as_ptr();
    let packet = packet::read(wire, our_output.lent());
    if let Ok(packet) = packet {
        assert!(
            packet.unit.as_ptr() == first,
            "the data unit is not first in the output: {}",
            told(&input)
        );
        let mut again = [0; WIRE_LIMIT];
        let written = packet.write(&mut again);
        assert!(
            written == Ok(wire.len()) && again[..wire.len()] == *wire,
            "written again it differs: {}",
            told(&input)
        );
    }
    let ours = packet.map(as_read).map_err(Error::number);
    let theirs = plain_rust::read(wire, their_output.lent());
    same(
        (&ours, &our_output),
        (&theirs, &their_output),
        |read| read.len,
        &input,
    );
    ours
}

/// Writes a packet on both sides and answers the bytes, or what both said.
fn written_on_both(header: [u8; 3], unit: &[u8], room: usize) -> Result<Vec<u8>, u8> {
    let (mut our_output, mut their_output) = (Output::new(room), Output::new(room));
    let ours = packet::write(Header::new(&header), unit, our_output.lent());
    let ours = ours.map_err(Error::number);
    let theirs = plain_rust::write(header, unit, their_output.lent());
    let input = || format!("writing {header:02X?} {} with room {room}", hex(unit));
    same(
        (&ours, &our_output),
        (&theirs, &their_output),
        |len| *len,
        &input,
    );
    ours.map(|len| our_output.result(len).to_vec())
}

/// A sound packet whose data unit has so many characters.
fn sound_packet(random: &mut Xorshift, len: usize) -> Vec<u8> {
    let unit: Vec<u8> = (0..len).map(|_| any_character(random)).collect();
    let mut wire = Vec::new();
    let header = *b"S02";
    PlainPacket { header, unit }.put_wire(&mut wire);
    wire
}

/// Whether a byte is allowed at a place of a packet of this length, between its flags.
fn is_allowed(byte: u8, place: usize, len: usize) -> bool {
    match place {
        1 => byte.is_ascii_uppercase(),
        2 | 3 => byte.is_ascii_digit(),
        _ if place >= len - 3 => byte.is_ascii_digit(),
        _ => matches!(byte, 0x1D | 0x20..=0x7E),
    }
}

#[test]
fn every_short_slice_is_read_alike() {
    let mut tally = Tally::default();
    for len in 0..=AROUND_UNIT as u32 {
        for number in 0..PACKET_ALPHABET.len().pow(len) {
            tally.add(&read_on_both(
                &of_alphabet(&PACKET_ALPHABET, number, len),
                2,
            ));
        }
    }
    // `A00` with its checksum is the one packet among them.
    tally.has_each(&[0], 1);
    tally.has_each(&[4, 5, 6, 22], 10);
}

/// The answer follows from the place and the byte: no other byte that is allowed leaves the sum as it was, because two
/// of them differ by less than 100.
#[test]
fn every_change_of_one_byte_is_refused_alike() {
    let mut random = Xorshift::new();
    let mut tally = Tally::default();
    for len in LENGTHS {
        let packet = sound_packet(&mut random, len);
        let last = packet.len() - 1;
        let mut changed = packet.clone();
        for place in 0..=last {
            for byte in 0..=u8::MAX {
                changed[place] = byte;
                let expected = match byte {
                    _ if byte == packet[place] => 0,
                    START | STOP => 6,
                    _ if place == 0 || place == last => 6,
                    _ if !is_allowed(byte, place, packet.len()) => 22,
                    _ => 5,
                };
                let answer = read_on_both(&changed, AMPLE);
                let number = answer.err().unwrap_or(0);
                assert_eq!(
                    number,
                    expected,
                    "{byte:02X} at {place} of {}",
                    hex(&packet)
                );
                tally.add(&answer);
            }
            changed[place] = packet[place];
        }
    }
    tally.has_each(&[0, 5, 6, 22], 500);
}

#[test]
fn random_and_damaged_packets_are_read_alike() {
    let mut random = Xorshift::new();
    let (mut written, mut read) = (Tally::default(), Tally::default());
    let (mut plain, mut wire) = (PlainPacket::default(), Vec::new());
    for _ in 0..400_000 {
        plain.renew(&mut random);
        plain.put_wire(&mut wire);
        let answer = written_on_both(plain.header, &plain.unit, any_room(&mut random, wire.len()));
        if let Ok(bytes) = &answer {
            assert!(*bytes == wire, "{} is not {}", hex(bytes), hex(&wire));
        }
        written.add(&answer);
        spoil_packet(&mut wire, &mut random);
        let room = any_room(&mut random, plain.unit.len());
        read.add(&read_on_both(&wire, room));
    }
    written.has_each(&[0, 1, 2, 22], 1_000);
    read.has_each(&[0, 1, 2, 4, 5, 6, 22], 1_000);
}

/// The length of an output: any, about that of the result, or ample.
fn any_room(random: &mut Xorshift, exact: usize) -> usize {
    match random.below(4) {
        0 => random.below(AMPLE),
        1 => (exact + 1).saturating_sub(random.below(3)),
        _ => AMPLE,
    }
}

#[test]
fn random_bytes_between_flags_are_read_alike() {
    let mut random = Xorshift::new();
    let mut tally = Tally::default();
    for _ in 0..100_000 {
        let len = random.below(270);
        let mut wire = vec![START];
        wire.extend((0..len).map(|_| match random.below(50) {
            0 => any_byte(&mut random),
            _ => any_character(&mut random),
        }));
        wire.push(STOP);
        tally.add(&read_on_both(&wire, random.below(AMPLE)));
    }
    tally.has_each(&[2, 4, 6, 22], 500);
}

#[test]
fn a_packet_is_read_and_written_exactly_where_there_is_room() {
    let mut random = Xorshift::new();
    for len in LENGTHS {
        let wire = sound_packet(&mut random, len);
        let unit = &wire[4..4 + len];
        for room in 0..len + AROUND_UNIT + 3 {
            let header = *b"S02";
            let read = match room < len {
                true => Err(1),
                false => Ok(Read { header, len }),
            };
            assert_eq!(read_on_both(&wire, room), read, "{len} bytes, room {room}");
            let written = match room < len + AROUND_UNIT {
                true => Err(1),
                false => Ok(wire.clone()),
            };
            assert_eq!(written_on_both(header, unit, room), written);
        }
    }
}

/// A data unit of 249 bytes is written and read, and one of 250 is refused with 2 whatever else is wrong.
#[test]
fn packets_about_the_limit_are_treated_alike() {
    let mut random = Xorshift::new();
    for len in 240..=260 {
        let wire = sound_packet(&mut random, len);
        let unit = &wire[4..4 + len];
        let taken = len <= UNIT_LIMIT;
        assert_eq!(taken, wire.len() <= WIRE_LIMIT);
        for (header, room) in [(*b"S02", AMPLE), (*b"s02", 0), (*b"S0A", 5)] {
            let expected = match (taken, header) {
                (true, [b'S', b'0', b'2']) => Ok(wire.clone()),
                (true, _) => Err(22),
                (false, _) => Err(2),
            };
            assert_eq!(written_on_both(header, unit, room), expected, "{len}");
        }
        assert_eq!(read_on_both(&wire, AMPLE).is_ok(), taken);
        let mut wrong = wire.clone();
        wrong[1 + random.below(wire.len() - 2)] = 0x7F;
        let expected = if taken { 22 } else { 2 };
        assert_eq!(read_on_both(&wrong, 0), Err(expected), "{len}");
    }
}

/// Each of the three bytes takes every value, two at a time.
#[test]
fn every_header_is_treated_alike() {
    let mut tally = Tally::default();
    for first in 0..=u8::MAX {
        for second in 0..=u8::MAX {
            for header in [
                [first, second, b'9'],
                [b'Z', first, second],
                [first, b'0', second],
            ] {
                let answer = written_on_both(header, b" ", 8);
                let sound = (1..=3).all(|place| is_allowed(header[place - 1], place, 8));
                assert_eq!(answer.is_ok(), sound, "{header:02X?}");
                tally.add(&answer);
            }
        }
    }
    tally.has_each(&[0, 22], 600);
}

/// Every byte at every place of data units of four lengths.
#[test]
fn every_byte_of_a_data_unit_is_treated_alike() {
    let mut tally = Tally::default();
    for len in [1, 2, 33, UNIT_LIMIT] {
        let mut unit = vec![b'~'; len];
        for place in 0..len {
            for byte in 0..=u8::MAX {
                unit[place] = byte;
                let answer = written_on_both(*b"U18", &unit, AMPLE);
                assert_eq!(answer.is_ok(), matches!(byte, 0x1D | 0x20..=0x7E));
                if let Ok(wire) = &answer {
                    assert!(read_on_both(wire, len).is_ok(), "{}", hex(wire));
                }
                tally.add(&answer);
            }
            unit[place] = b'~';
        }
    }
    tally.has_each(&[0, 22], 10_000);
}

#[test]
fn very_long_slices_are_refused_alike() {
    for len in [257, 4_096, 65_536, 100_003] {
        let mut wire = vec![b'0'; len];
        assert_eq!(written_on_both(*b"S02", &wire, AMPLE), Err(2));
        assert_eq!(read_on_both(&wire, AMPLE), Err(6));
        wire[0] = START;
        wire[len - 1] = STOP;
        assert_eq!(read_on_both(&wire, AMPLE), Err(2));
        for flag in [START, STOP] {
            wire[len / 2] = flag;
            assert_eq!(read_on_both(&wire, AMPLE), Err(6));
        }
    }
}
