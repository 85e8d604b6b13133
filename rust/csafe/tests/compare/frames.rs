//! Frames written and read on both sides, on a live line and in a trace.

use csafe::frame::{self, Frame, Kind};
use csafe::Error;
use plain::frame::{self as plain_rust, Origin, Read};

use crate::by_origin;
use crate::common::Xorshift;
use crate::frame_damage::{damage, damage_with_checksum, Plain, STANDARD_START, STOP};
use crate::lengths::measured_on_both;
use crate::output::{hex, same, told, Output};
use crate::tally::Tally;
use crate::traces::ALPHABET;
use crate::ORIGINS;

/// Room for every frame and every contents.
const AMPLE: usize = 256;

/// What the independent side answers for a frame.
pub fn as_read(frame: Frame<'_>) -> Read {
    let len = frame.contents.len();
    match frame.kind {
        Kind::Standard => Read::Standard { len },
        Kind::Extended { to, from } => Read::Extended { to, from, len },
    }
}

fn contents_len(read: &Read) -> usize {
    match read {
        Read::Standard { len } | Read::Extended { len, .. } => *len,
    }
}

/// Reads a slice on both sides and answers what both said.
fn read_on_both(origin: Origin, wire: &[u8], room: usize) -> Result<Read, u8> {
    let (mut our_output, mut their_output) = (Output::new(room), Output::new(room));
    let input = || format!("{origin:?}, reading {} with room {room}", hex(wire));
    let first = our_output.lent().as_ptr();
    let frame = by_origin::read(origin, wire, our_output.lent());
    if let Ok(frame) = frame {
        assert!(
            frame.contents.as_ptr() == first,
            "the contents are not first in the output: {}",
            told(&input)
        );
        assert!(
            origin == Origin::Trace || frame.kind != Kind::Standard,
            "a standard frame is read: {}",
            told(&input)
        );
        assert!(
            written_again(origin, frame) == wire,
            "written again it differs: {}",
            told(&input)
        );
    }
    let ours = frame.map(as_read).map_err(Error::number);
    let theirs = plain_rust::read(origin, wire, their_output.lent());
    same(
        (&ours, &our_output),
        (&theirs, &their_output),
        contents_len,
        &input,
    );
    ours
}

/// The frame in an output of the length that is told, which has to be filled.
fn written_again(origin: Origin, frame: Frame<'_>) -> Vec<u8> {
    let contents = frame.contents;
    let length = match frame.kind {
        Kind::Standard => by_origin::standard_length(origin, contents),
        Kind::Extended { .. } => frame.length(),
    };
    let mut out = vec![0; length.unwrap_or(0)];
    let written = match frame.kind {
        Kind::Standard => by_origin::write_standard(origin, contents, &mut out),
        Kind::Extended { .. } => frame.write(&mut out),
    };
    assert_eq!(
        written,
        Ok(out.len()),
        "the length of {frame:?} that is told"
    );
    out
}

/// Writes a frame on both sides and answers the bytes, or what both said.
fn written_on_both(origin: Origin, plain: &Plain, room: usize) -> Result<Vec<u8>, u8> {
    let (mut our_output, mut their_output) = (Output::new(room), Output::new(room));
    let contents = &plain.contents;
    let (ours, theirs) = match plain.addresses {
        None => (
            by_origin::write_standard(origin, contents, our_output.lent()),
            plain_rust::write_standard(origin, contents, their_output.lent()),
        ),
        Some((to, from)) => (
            frame::write_extended(to, from, contents, our_output.lent()),
            plain_rust::write_extended(to, from, contents, their_output.lent()),
        ),
    };
    let ours = ours.map_err(Error::number);
    let input = || {
        format!(
            "{origin:?}, writing {} to {:02X?} with room {room}",
            hex(contents),
            plain.addresses
        )
    };
    same(
        (&ours, &our_output),
        (&theirs, &their_output),
        |len| *len,
        &input,
    );
    let fits = |len| if len <= room { Ok(len) } else { Err(1) };
    assert_eq!(
        ours,
        measured_on_both(origin, plain).and_then(fits),
        "what was written (left) is not of the length that is told (right): {}",
        told(&input)
    );
    ours.map(|len| our_output.result(len).to_vec())
}

/// So many bytes of an alphabet, which are the digits of a number, lowest first.
pub fn of_alphabet(alphabet: &[u8], number: usize, len: u32) -> Vec<u8> {
    let digit = |at| number / alphabet.len().pow(at) % alphabet.len();
    (0..len).map(|at| alphabet[digit(at)]).collect()
}

#[test]
fn every_short_slice_is_read_alike() {
    for origin in ORIGINS {
        let mut tally = Tally::default();
        for len in 0..=6 {
            for number in 0..ALPHABET.len().pow(len) {
                let wire = of_alphabet(&ALPHABET, number, len);
                for room in [0, 1, 8] {
                    tally.add(&read_on_both(origin, &wire, room));
                }
            }
        }
        tally.has_each_of(origin, &[0, 1, 3, 4, 5, 6], 20);
    }
}

#[test]
fn every_pair_between_flags_is_read_alike() {
    for first in 0..=u8::MAX {
        for second in 0..=u8::MAX {
            for start in [0xF0, 0xF1] {
                for origin in ORIGINS {
                    let _ = read_on_both(origin, &[start, first, second, STOP], 4);
                    let summed = [start, 0x01, first, second, second, STOP];
                    let _ = read_on_both(origin, &summed, 4);
                }
            }
        }
    }
}

/// Damages a frame in three of four cases.
fn spoil(wire: &mut Vec<u8>, random: &mut Xorshift) {
    match random.below(4) {
        0 => {}
        1 => damage_with_checksum(wire, random),
        _ => {
            for _ in 0..=random.below(3) {
                damage(wire, random);
            }
        }
    }
}

#[test]
fn random_and_damaged_frames_are_read_alike() {
    for origin in ORIGINS {
        let mut random = Xorshift::new();
        let mut tally = Tally::default();
        let (mut plain, mut wire) = (Plain::default(), Vec::new());
        for _ in 0..400_000 {
            plain.renew(&mut random);
            plain.put_wire(&mut wire);
            if let Ok(written) = written_on_both(origin, &plain, AMPLE) {
                assert_eq!(hex(&written), hex(&wire));
            }
            spoil(&mut wire, &mut random);
            let room = match random.below(3) {
                0 => random.below(130),
                _ => AMPLE,
            };
            tally.add(&read_on_both(origin, &wire, room));
        }
        tally.has_each_of(origin, &[0, 1, 2, 3, 4, 5, 6], 300);
    }
}

/// What a live line has to answer, by what a trace answers to the same slice with ample room: a sound standard frame is
/// refused with 17 whatever the room, and a room that is too short counts after that.
fn live_by_trace(wire: &[u8], room: usize) -> Result<Read, u8> {
    match read_on_both(Origin::Trace, wire, AMPLE) {
        Ok(Read::Standard { .. }) => Err(17),
        Ok(read) if contents_len(&read) > room => Err(1),
        other => other,
    }
}

#[test]
fn a_live_line_refuses_sound_standard_frames_with_17_and_answers_all_else_as_a_trace() {
    let mut random = Xorshift::new();
    let mut tally = Tally::default();
    let (mut plain, mut wire) = (Plain::default(), Vec::new());
    for _ in 0..200_000 {
        plain.renew(&mut random);
        plain.put_wire(&mut wire);
        spoil(&mut wire, &mut random);
        let room = random.below(130);
        let live = read_on_both(Origin::Live, &wire, room);
        let expected = live_by_trace(&wire, room);
        assert_eq!(live, expected, "{} with room {room}", hex(&wire));
        tally.add(&live);
    }
    tally.has_each(&[0, 1, 2, 3, 4, 5, 6, 17], 300);
}

/// 17 comes before 1 in reading: no room is too short for it. In a trace the same rooms are.
#[test]
fn no_room_is_too_short_to_be_refused_with_17() {
    let mut wire = Vec::new();
    for len in [1, 2, 23, 60, 117] {
        let plain = Plain {
            addresses: None,
            contents: vec![0x00; len],
        };
        plain.put_wire(&mut wire);
        for room in 0..len + 2 {
            assert_eq!(read_on_both(Origin::Live, &wire, room), Err(17));
            let in_trace = match room < len {
                true => Err(1),
                false => Ok(Read::Standard { len }),
            };
            assert_eq!(read_on_both(Origin::Trace, &wire, room), in_trace);
        }
    }
}

#[test]
fn random_bytes_between_flags_are_read_alike() {
    let mut random = Xorshift::new();
    for _ in 0..200_000 {
        let len = random.below(125);
        let share = [0, 2, 20][random.below(3)];
        let mut wire = random.bytes(len, share);
        wire.insert(0, 0xF0 + random.below(2) as u8);
        wire.push(STOP);
        let room = random.below(AMPLE);
        for origin in ORIGINS {
            let _ = read_on_both(origin, &wire, room);
        }
    }
}

#[test]
fn frames_about_the_limit_are_treated_alike() {
    for origin in ORIGINS {
        let mut tally = Tally::default();
        for addresses in [None, Some((0x05, 0x00)), Some((0xF1, 0xF3))] {
            for len in 100..=122 {
                for escapes in 0..=6 {
                    let mut contents = vec![0x00; len];
                    contents[..escapes].fill(0xF2);
                    let plain = Plain {
                        addresses,
                        contents,
                    };
                    tally.add(&limit_kept(origin, &plain));
                }
            }
        }
        tally.has_each_of(origin, &[0, 2], 20);
    }
}

/// What both sides said of writing a frame. It is written, and read, exactly where it is within the limit and, on a
/// live line, has addresses.
fn limit_kept(origin: Origin, plain: &Plain) -> Result<Vec<u8>, u8> {
    let mut wire = Vec::new();
    plain.put_wire(&mut wire);
    let taken = origin == Origin::Trace || plain.addresses.is_some();
    let written = written_on_both(origin, plain, AMPLE);
    let expected = taken && wire.len() <= frame::WIRE_LIMIT;
    assert_eq!(written.is_ok(), expected, "{origin:?} {}", hex(&wire));
    let read = read_on_both(origin, &wire, AMPLE);
    assert_eq!(read.is_ok(), expected, "{origin:?} {}", hex(&wire));
    written
}

#[test]
fn random_contents_are_written_alike() {
    for origin in ORIGINS {
        let mut random = Xorshift::new();
        let mut tally = Tally::default();
        let mut plain = Plain::default();
        for _ in 0..200_000 {
            plain.renew(&mut random);
            let share = [0, 5, 50][random.below(3)];
            let len = random.below(201);
            if random.below(2) == 0 {
                plain.contents = random.bytes(len, share);
            }
            tally.add(&written_and_read(origin, &plain, &mut random));
        }
        tally.has_each_of(origin, &[0, 1, 2], 1_000);
    }
}

/// What both sides said of writing a frame into any room, which is read back where it was written.
fn written_and_read(origin: Origin, plain: &Plain, random: &mut Xorshift) -> Result<Vec<u8>, u8> {
    let mut wire = Vec::new();
    plain.put_wire(&mut wire);
    let room = match random.below(3) {
        0 => random.below(AMPLE),
        1 => wire.len() + 1 - random.below(3),
        _ => AMPLE,
    };
    let written = written_on_both(origin, plain, room)?;
    assert_eq!(hex(&written), hex(&wire));
    let len = plain.contents.len();
    let read = read_on_both(origin, &written, len);
    assert_eq!(read.as_ref().map(contents_len), Ok(len));
    Ok(written)
}

/// The methods of a frame are live, so they write no standard one that a trace has, and tell no length of it.
#[test]
fn a_standard_frame_of_a_trace_is_not_written_by_its_methods() {
    for len in [0, 1, 117, 118, 200] {
        let contents = &vec![0x41; len];
        let kind = Kind::Standard;
        let frame = Frame { kind, contents };
        assert_eq!(frame.length(), Err(Error::Unnamed));
        for room in [0, 1, AMPLE] {
            let mut output = Output::new(room);
            assert_eq!(frame.write(output.lent()), Err(Error::Unnamed));
            assert!(output.kept_past(0), "{len} bytes with room {room}");
        }
    }
}

/// 17 comes before 2 in writing, and after 6 and 2 in reading.
#[test]
fn very_long_slices_are_refused_alike() {
    for (origin, unwritten) in [(Origin::Live, 17), (Origin::Trace, 2)] {
        for len in [121, 255, 256, 4_096, 65_536, 100_003] {
            let mut wire = vec![0x00; len];
            let plain = Plain {
                addresses: None,
                contents: wire.clone(),
            };
            assert_eq!(written_on_both(origin, &plain, AMPLE), Err(unwritten));
            assert_eq!(read_on_both(origin, &wire, AMPLE), Err(6));
            wire[0] = STANDARD_START;
            wire[len - 1] = STOP;
            assert_eq!(read_on_both(origin, &wire, AMPLE), Err(2));
            wire[len / 2] = STOP;
            assert_eq!(read_on_both(origin, &wire, AMPLE), Err(6));
        }
    }
}
