//! One changed byte in sound frames, which both sides have to read as it is foretold.

use csafe::frame::WIRE_LIMIT;
use csafe::Error;
use plain::damage::{is_allowed, part_at, read_changed, Part};
use plain::frame::{self as plain_rust, Origin, Read};

use crate::by_origin;
use crate::common::Xorshift;
use crate::frame_damage::{Plain, ESCAPE, EXTENDED_START, STOP};
use crate::frames::as_read;
use crate::output::{hex, same, told, Output};
use crate::ORIGINS;

/// Room for every contents.
const AMPLE: usize = 256;

/// How many frames of each kind are changed.
const FRAMES: usize = 200;

/// In frames of at most so many bytes every change is tried, in longer ones some at each index.
const SHORT: usize = 14;

/// Bytes at the ends of those that are not stuffed, and the second bytes of escapes.
const EDGES: [u8; 7] = [0x00, 0x01, 0x02, 0x03, 0xEF, 0xF4, 0xFF];

/// How many bytes are tried beside the edges.
const RANDOM_BYTES: usize = 3;

/// A sound frame and its bytes on the wire.
#[derive(Default)]
pub struct Sound {
    pub plain: Plain,
    pub wire: Vec<u8>,
}

impl Sound {
    /// Any sound frame of the kind that is wanted.
    pub fn any(random: &mut Xorshift, wanted: impl Fn(&Sound) -> bool) -> Sound {
        let mut sound = Sound::default();
        loop {
            sound.plain.renew(random);
            sound.plain.put_wire(&mut sound.wire);
            if sound.wire.len() <= WIRE_LIMIT && wanted(&sound) {
                return sound;
            }
        }
    }

    fn is_extended(&self) -> bool {
        self.plain.addresses.is_some()
    }

    fn is_longest(&self) -> bool {
        self.wire.len() == WIRE_LIMIT
    }

    fn has_addresses(&self, wanted: impl Fn(u8, u8) -> bool) -> bool {
        self.plain
            .addresses
            .is_some_and(|(to, from)| wanted(to, from))
    }

    /// The bytes between the flags before stuffing, each with its part.
    fn parts(&self) -> Vec<(Part, u8)> {
        let Plain {
            addresses,
            contents,
        } = &self.plain;
        let checksum = contents.iter().fold(0, |sum, byte| sum ^ byte);
        let mut parts = Vec::new();
        if let Some((to, from)) = *addresses {
            parts.extend([(Part::Destination, to), (Part::Source, from)]);
        }
        parts.extend(contents.iter().map(|byte| (Part::Contents, *byte)));
        parts.push((Part::Checksum, checksum));
        parts
    }
}

fn is_stuffed(byte: u8) -> bool {
    (EXTENDED_START..=ESCAPE).contains(&byte)
}

/// The kinds of frames that are changed. Some of them come seldom by chance.
const KINDS: [fn(&Sound) -> bool; 12] = [
    |_| true,
    |sound| sound.wire.len() <= SHORT,
    |sound| sound.wire.contains(&ESCAPE),
    |sound| sound.wire.len() <= SHORT && sound.wire.contains(&ESCAPE),
    |sound| sound.is_extended() && sound.plain.contents.is_empty(),
    |sound| !sound.is_extended() && sound.plain.contents.is_empty(),
    |sound| sound.is_extended() && sound.is_longest(),
    |sound| !sound.is_extended() && sound.is_longest(),
    |sound| sound.is_longest() && sound.wire.contains(&ESCAPE),
    |sound| sound.has_addresses(|to, from| is_stuffed(to) && is_stuffed(from)),
    |sound| sound.has_addresses(|to, from| is_stuffed(to) && !is_stuffed(from)),
    |sound| sound.has_addresses(|to, from| !is_stuffed(to) && is_stuffed(from)),
];

/// Frames of every kind.
fn frames(random: &mut Xorshift) -> Vec<Sound> {
    let mut frames = Vec::new();
    for wanted in KINDS {
        frames.extend((0..FRAMES).map(|_| Sound::any(random, wanted)));
    }
    frames
}

/// How often a byte of each part was changed.
#[derive(Default)]
pub struct PartTally([usize; 4]);

impl PartTally {
    pub fn add(&mut self, part: Part) {
        self.0[part as usize] += 1;
    }

    pub fn has_each(&self, least: usize) {
        for part in [
            Part::Destination,
            Part::Source,
            Part::Contents,
            Part::Checksum,
        ] {
            let count = self.0[part as usize];
            assert!(count >= least, "{part:?} was changed only {count} times");
        }
    }
}

/// The bytes to which the one at an index may be changed.
fn allowed(wire: &[u8], index: usize) -> Vec<u8> {
    let all = 0..=u8::MAX;
    all.filter(|new| is_allowed(wire, index, *new)).collect()
}

/// Some of them, or all in a short frame.
fn some_allowed(wire: &[u8], index: usize, random: &mut Xorshift) -> Vec<u8> {
    if wire.len() <= SHORT {
        return allowed(wire, index);
    }
    let mut bytes = random.bytes(RANDOM_BYTES, 0);
    bytes.extend(EDGES);
    bytes.retain(|new| is_allowed(wire, index, *new));
    bytes
}

/// The frame with one byte changed.
pub fn changed(wire: &[u8], index: usize, new: u8) -> Vec<u8> {
    let mut changed = wire.to_vec();
    changed[index] = new;
    changed
}

/// Reads a slice on both sides. The answer has to be the expected one, and a frame has to have these contents.
fn check_read(origin: Origin, wire: &[u8], room: usize, expected: (Result<Read, u8>, &[u8])) {
    let (mut our_output, mut their_output) = (Output::new(room), Output::new(room));
    let input = || format!("{origin:?}, reading {} with room {room}", hex(wire));
    let ours = by_origin::read(origin, wire, our_output.lent());
    let ours = ours.map(as_read).map_err(Error::number);
    let theirs = plain_rust::read(origin, wire, their_output.lent());
    let (answer, contents) = expected;
    let len = contents.len();
    same(
        (&ours, &our_output),
        (&theirs, &their_output),
        |_| len,
        &input,
    );
    assert_eq!(
        ours,
        answer,
        "both sides (left) don't answer as foretold (right): {}",
        told(&input)
    );
    assert!(
        answer.is_err() || our_output.result(len) == contents,
        "the contents are not {}: {}",
        hex(contents),
        told(&input)
    );
}

/// The changed frame is read as foretold with ample room and with just enough. With a byte less 1 stands in place of
/// a frame, and 5 stays.
fn check_change(sound: &Sound, index: usize, new: u8) {
    let wire = changed(&sound.wire, index, new);
    let contents = &sound.plain.contents[..];
    for origin in ORIGINS {
        let foretold = read_changed(origin, &sound.wire, index, new);
        let foretold = foretold.expect("the frame is sound");
        for room in [AMPLE, contents.len()] {
            check_read(origin, &wire, room, (foretold, contents));
        }
        if let Some(room) = contents.len().checked_sub(1) {
            check_read(origin, &wire, room, (foretold.and(Err(1)), contents));
        }
    }
}

fn check_index(sound: &Sound, index: usize, random: &mut Xorshift, tally: &mut PartTally) {
    for new in some_allowed(&sound.wire, index, random) {
        check_change(sound, index, new);
        let part = part_at(&sound.wire, index);
        tally.add(part.expect("only bytes between the flags may be changed"));
    }
}

#[test]
fn an_allowed_change_is_told_by_5_or_changes_one_address() {
    let mut random = Xorshift::new();
    let mut tally = PartTally::default();
    for sound in frames(&mut random) {
        for index in 0..sound.wire.len() {
            check_index(&sound, index, &mut random, &mut tally);
        }
    }
    tally.has_each(10_000);
}

/// The parts of bytes on the wire, and which of them may be changed, have to follow from the frame before stuffing:
/// a byte that is not stuffed stands on the wire itself and may become any other that is not, and an escape has two
/// bytes that may not be changed.
#[test]
fn parts_and_allowed_changes_follow_from_the_frame_before_stuffing() {
    for sound in frames(&mut Xorshift::new()) {
        let mut index = 1;
        for (part, byte) in sound.parts() {
            index += match is_stuffed(byte) {
                true => check_escape(&sound.wire, index, part),
                false => check_single(&sound.wire, index, part, byte),
            };
        }
        for flag in [0, index] {
            assert_eq!(part_at(&sound.wire, flag), None, "{}", hex(&sound.wire));
            assert_eq!(allowed(&sound.wire, flag), []);
        }
        assert_eq!(index + 1, sound.wire.len());
    }
}

/// Answers how many bytes stand on the wire for one that is stuffed.
fn check_escape(wire: &[u8], index: usize, part: Part) -> usize {
    for index in [index, index + 1] {
        assert_eq!(part_at(wire, index), Some(part), "{index} of {}", hex(wire));
        assert_eq!(allowed(wire, index), [], "{index} of {}", hex(wire));
    }
    2
}

/// Answers how many bytes stand on the wire for one that is not stuffed.
fn check_single(wire: &[u8], index: usize, part: Part, byte: u8) -> usize {
    assert_eq!(wire[index], byte);
    assert_eq!(part_at(wire, index), Some(part), "{index} of {}", hex(wire));
    let all = 0..=u8::MAX;
    let others = all.filter(|new| *new != byte && !is_stuffed(*new));
    let others: Vec<u8> = others.collect();
    assert_eq!(allowed(wire, index), others, "{index} of {}", hex(wire));
    1
}

/// The stop to 05, and the stop to F1, whose destination is escaped.
pub const STOP_TO_05: &[u8] = &[
    0xF0, 0x05, 0x00, 0x76, 0x04, 0x13, 0x02, 0x01, 0x02, 0x60, STOP,
];
const STOP_TO_F1: &[u8] = &[
    0xF0, 0xF3, 0x01, 0x00, 0x76, 0x04, 0x13, 0x02, 0x01, 0x02, 0x60, STOP,
];

/// The contents of a stop, and the same with the source 00 before them.
const TERMINATE: &[u8] = &[0x76, 0x04, 0x13, 0x02, 0x01, 0x02];
const SHIFTED: &[u8] = &[0x00, 0x76, 0x04, 0x13, 0x02, 0x01, 0x02];

/// An extended frame whose source is 01 and whose contents begin with 00, and a standard one with two escapes.
const FROM_01: &[u8] = &[0xF0, 0x05, 0x01, 0x00, 0x41, 0x41, STOP];
const STANDARD: &[u8] = &[0xF1, 0xF3, 0x01, 0xF3, 0x01, STOP];

/// What reading answers, and the contents of a frame.
type Answered = (Result<Read, u8>, &'static [u8]);

const fn extended(to: u8, from: u8, contents: &'static [u8]) -> Answered {
    let len = contents.len();
    (Ok(Read::Extended { to, from, len }), contents)
}

const fn refused(number: u8) -> Answered {
    (Err(number), &[])
}

/// Changes outside of the rule: what they are, the frame, the index, the new byte, and what reading answers.
#[rustfmt::skip]
const EXCLUDED: [(&str, &[u8], usize, u8, Answered); 15] = [
    ("F3 in the contents", STOP_TO_05, 3, 0xF3, refused(3)),
    ("F3 in the checksum", STOP_TO_05, 9, 0xF3, refused(3)),
    ("F3 in an address", STOP_TO_05, 1, 0xF3, refused(5)),
    ("F3 in an address, before 01", FROM_01, 1, 0xF3, extended(0xF1, 0x00, &[0x41])),
    ("right after F3, to no escape", STOP_TO_F1, 2, 0x05, refused(3)),
    ("right after F3, to another escape", STOP_TO_F1, 2, 0x02, extended(0xF2, 0x00, TERMINATE)),
    ("right after F3 in the contents", STANDARD, 2, 0x05, refused(3)),
    ("right after F3 in the checksum", STANDARD, 4, 0x05, refused(3)),
    ("F3 itself", STOP_TO_F1, 1, 0x05, extended(0x05, 0x01, SHIFTED)),
    ("F2 in the contents", STOP_TO_05, 4, 0xF2, refused(6)),
    ("F2 in an address", STOP_TO_05, 1, 0xF2, refused(6)),
    ("F2 in the checksum", STOP_TO_05, 9, 0xF2, refused(6)),
    ("F0 in the contents", STOP_TO_05, 4, 0xF0, refused(6)),
    ("F1 in an address", STOP_TO_05, 2, 0xF1, refused(6)),
    ("the byte that stands there", STOP_TO_05, 3, 0x76, extended(0x05, 0x00, TERMINATE)),
];

/// Each of these changes is outside of the rule and is answered otherwise than the rule would say.
#[test]
fn no_exclusion_can_be_left_out() {
    for (name, wire, index, new, answered) in EXCLUDED {
        assert!(!is_allowed(wire, index, new), "{name}");
        for origin in ORIGINS {
            check_read(origin, &changed(wire, index, new), AMPLE, answered);
            let by_rule = read_changed(origin, wire, index, new);
            let by_rule = by_rule.expect("the frame is sound");
            assert_ne!(by_rule, answered.0, "{name}");
        }
    }
}
