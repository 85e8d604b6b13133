//! A sound frame on a line, with one byte changed: no call is answered otherwise but the one with its stop flag.

use plain::damage::{part_at, read_changed};
use plain::frame::Origin;
use plain::line::Answer;

use super::{Done, Readers};
use crate::common::Xorshift;
use crate::cuts::any_chunk;
use crate::damage::{changed, PartTally, Sound, STOP_TO_05};
use crate::frame_damage::any_allowed_change;
use crate::output::hex;
use crate::traces::Traffic;
use crate::ORIGINS;

/// How many frames are changed at each origin.
const FRAMES: usize = 5_000;

/// An answer with the contents of a frame. Before it stand the number of the line and how many of its bytes were fed
/// by then, one more for its finish.
type Told = ((usize, usize), Answer, Vec<u8>);

/// What all readers of both sides tell of lines with a finish after each, in chunks whose lengths `chunk` chooses.
fn answers_to(
    origin: Origin,
    lines: &[Vec<u8>],
    mut chunk: impl FnMut(usize) -> usize,
) -> Vec<Told> {
    let mut readers = Readers::new(origin);
    let mut all = Vec::new();
    for (number, line) in lines.iter().enumerate() {
        let input = || format!("{origin:?}, line {number} of {}", hex_lines(lines));
        for (fed, done) in calls_on(&mut readers, line, &mut chunk, &input) {
            all.push(((number, fed), done.answer, done.contents));
        }
        let finish = (number, line.len() + 1);
        all.push((finish, readers.finish(&input), Vec::new()));
    }
    all.retain(|(_, answer, _)| *answer != Answer::Nothing);
    all
}

/// The bytes of lines, with a bar between two.
fn hex_lines(lines: &[Vec<u8>]) -> String {
    let lines = lines.iter().map(|line| hex(line));
    lines.collect::<Vec<_>>().join(" | ")
}

/// What each call on a line did, and how many bytes were fed by then.
fn calls_on(
    readers: &mut Readers,
    line: &[u8],
    mut chunk: impl FnMut(usize) -> usize,
    input: &dyn Fn() -> String,
) -> Vec<(usize, Done)> {
    let mut calls = Vec::new();
    let mut at = 0;
    while at < line.len() {
        let len = chunk(line.len() - at);
        let done = readers.feed_chunk(&line[at..at + len], input);
        at += done.taken;
        calls.push((at, done));
    }
    calls
}

/// What stands around a frame: lines before its own, bytes before and after it on that line, and lines after that.
struct Surroundings {
    lines_before: Vec<Vec<u8>>,
    before: Vec<u8>,
    after: Vec<u8>,
    lines_after: Vec<Vec<u8>>,
}

impl Surroundings {
    fn any(random: &mut Xorshift) -> Surroundings {
        Surroundings {
            lines_before: any_lines(random),
            before: any_bytes(random),
            after: any_bytes(random),
            lines_after: any_lines(random),
        }
    }

    fn around(&self, wire: &[u8]) -> Vec<Vec<u8>> {
        let mut lines = self.lines_before.clone();
        lines.push([&self.before, wire, &self.after].concat());
        lines.extend_from_slice(&self.lines_after);
        lines
    }

    /// Where the answer to a frame's stop flag stands among all answers.
    fn place_of_answer(&self, wire: &[u8], all: &[Told]) -> Option<usize> {
        let call = (self.lines_before.len(), self.before.len() + wire.len());
        all.iter().position(|told| told.0 == call)
    }
}

/// No line or one.
fn any_lines(random: &mut Xorshift) -> Vec<Vec<u8>> {
    let count = random.below(2);
    (0..count).map(|_| any_bytes(random)).collect()
}

/// Frames, damaged ones and stray bytes, often none, and often with an end that leaves a candidate open.
fn any_bytes(random: &mut Xorshift) -> Vec<u8> {
    let mut traffic = Traffic::default();
    let mut bytes = Vec::new();
    for _ in 0..random.below(3) {
        bytes.extend(traffic.any(random));
    }
    if random.below(2) == 0 {
        bytes.truncate(random.below(bytes.len() + 1));
    }
    bytes
}

/// Feeds the frame as it is, and with the change by the byte and in chunks of any length.
fn check_change(origin: Origin, sound: &Sound, (index, new): (usize, u8), random: &mut Xorshift) {
    let surroundings = Surroundings::any(random);
    let mut expected = answers_to(origin, &surroundings.around(&sound.wire), |_| 1);
    let place = surroundings.place_of_answer(&sound.wire, &expected);
    let (_, answer, contents) = &mut expected[place.expect("a frame's stop flag is answered")];
    let foretold = read_changed(origin, &sound.wire, index, new);
    let position = surroundings.before.len() as u32;
    let (new_answer, new_contents) = match foretold.expect("the frame is sound") {
        Ok(frame) => (
            Answer::Frame { position, frame },
            sound.plain.contents.clone(),
        ),
        Err(code) => (Answer::Refused { position, code }, Vec::new()),
    };
    assert_ne!(*answer, new_answer, "{index} of {}", hex(&sound.wire));
    (*answer, *contents) = (new_answer, new_contents);

    let lines = surroundings.around(&changed(&sound.wire, index, new));
    let singly = answers_to(origin, &lines, |_| 1);
    assert_eq!(
        singly,
        expected,
        "{origin:?}, {index} of {}",
        hex(&sound.wire)
    );
    let by_chunk = answers_to(origin, &lines, |left| any_chunk(random, left));
    assert_eq!(
        by_chunk,
        expected,
        "{origin:?}, {index} of {}",
        hex(&sound.wire)
    );
}

#[test]
fn an_allowed_change_is_told_at_the_stop_flag_alone() {
    for origin in ORIGINS {
        let mut random = Xorshift::new();
        let mut tally = PartTally::default();
        for _ in 0..FRAMES {
            let sound = Sound::any(&mut random, |_| true);
            let Some(change) = any_allowed_change(&sound.wire, &mut random) else {
                continue;
            };
            check_change(origin, &sound, change, &mut random);
            let part = part_at(&sound.wire, change.0);
            tally.add(part.expect("only bytes between the flags may be changed"));
        }
        tally.has_each(200);
    }
}

/// A flag that is put between the flags is answered where it stands. After a stop flag there, the frame's own stop flag
/// gets no answer.
#[test]
fn a_flag_between_the_flags_is_told_too() {
    let refused = |fed, position, code| ((0, fed), Answer::Refused { position, code }, Vec::new());
    let cases = [
        (0xF2, vec![refused(4, 0, 4)]),
        (0xF0, vec![refused(4, 0, 6), refused(11, 3, 5)]),
        (0xF1, vec![refused(4, 0, 6), refused(11, 3, 5)]),
    ];
    for (flag, expected) in cases {
        for origin in ORIGINS {
            let lines = [changed(STOP_TO_05, 3, flag)];
            assert_eq!(answers_to(origin, &lines, |_| 1), expected);
            assert_eq!(answers_to(origin, &lines, |left| left), expected);
        }
    }
}
