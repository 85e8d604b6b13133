//! Lines fed to both readers, of a live line and of a trace: to ours in chunks of any length, to the independent one
//! byte by byte and by the chunk.

mod chunks;
mod damage;
mod filled;
mod lent;
mod limit;
mod pair;

use csafe::line::HELD_LEN;
use csafe::{Error, LineReader, Located, OwnedFrame};
use plain::frame::Origin;
use plain::line::Answer;

use crate::common::Xorshift;
use crate::cuts::any_chunk;
use crate::frame_damage::{EXTENDED_START, STANDARD_START, STOP};
use crate::frames::of_alphabet;
use crate::held::{first_of, Held};
use crate::output::{hex, told, Output};
use crate::traces::{Traffic, ALPHABET};
use crate::ORIGINS;

use pair::{Done, Pair, Told};

/// A frame whose contents are 41.
const FRAME: [u8; 6] = [EXTENDED_START, 0x05, 0x00, 0x41, 0x41, STOP];

/// What a full reader answers to any byte.
const FULL: Answer = refused_at(0, 16);

const fn refused_at(position: u32, code: u8) -> Answer {
    Answer::Refused { position, code }
}

/// The lent bytes of a reader and its two numbers are what it has to hold, and no byte around them changed.
fn check_held(held: &Held, lent: &Output, numbers: (u64, u64), input: &dyn Fn() -> String) {
    assert!(
        lent.result(HELD_LEN) == held.bytes(),
        "the reader's bytes are {}, not {}: {}",
        hex(lent.result(HELD_LEN)),
        hex(held.bytes()),
        told(input)
    );
    let expected = (held.state(), held.counts());
    assert_eq!(numbers, expected, "the numbers: {}", told(input));
    assert!(
        lent.kept_past(HELD_LEN),
        "bytes around the reader changed: {}",
        told(input)
    );
}

/// Our reader for an origin.
fn our_reader(origin: Origin) -> LineReader {
    match origin {
        Origin::Live => LineReader::new(),
        Origin::Trace => LineReader::for_trace(),
    }
}

/// Readers of both sides for one origin. Ours stands three times: on lent bytes, as the type that owns its bytes, and
/// as that type behind its iterator.
struct Readers {
    pair: Pair,
    owned: LineReader,
    iterated: LineReader,
}

impl Readers {
    fn new(origin: Origin) -> Readers {
        Readers {
            pair: Pair::with_count(origin, 0),
            owned: our_reader(origin),
            iterated: our_reader(origin),
        }
    }

    fn origin(&self) -> Origin {
        self.pair.origin
    }

    /// Feeds a line, in chunks whose lengths `chunk` chooses from the number of bytes that are left.
    fn feed(&mut self, line: &[u8], mut chunk: impl FnMut(usize) -> usize) {
        let mut at = 0;
        while at < line.len() {
            let len = chunk(line.len() - at);
            let origin = self.origin();
            let input = || {
                format!(
                    "{origin:?}, {len} bytes from {at} of the line {}",
                    hex(line)
                )
            };
            at += self.feed_chunk(&line[at..at + len], &input).taken;
        }
    }

    fn feed_chunk(&mut self, chunk: &[u8], input: &dyn Fn() -> String) -> Done {
        let done = self.pair.feed(chunk, input);
        let owned = self.owned.feed(chunk);
        Done::by_ours(owned.taken, owned.told).check_same(&done, "ours, on its own bytes,", input);
        let iterated = self.feed_iterated(chunk);
        iterated.check_same(&done, "our iterator", input);
        done
    }

    /// The iterator goes on to the end of its chunk, so it gets no more than a call takes. It is dropped after its
    /// first answer.
    fn feed_iterated(&mut self, chunk: &[u8]) -> Done {
        let chunk = first_of(chunk);
        let mut answers = self.iterated.answers(chunk);
        let told = answers.next();
        let taken = chunk.len() - answers.rest().len();
        Done::by_ours(taken, told.as_ref().map(borrowed))
    }

    fn finish(&mut self, input: &dyn Fn() -> String) -> Answer {
        let done = self.pair.finish(input);
        for reader in [&mut self.owned, &mut self.iterated] {
            let ours = Done::by_ours(0, reader.finish().err().map(Err));
            assert_eq!(ours.answer, done, "{}", told(input));
        }
        done
    }

    /// The answers have to have occurred this often, and 17 on a live line alone.
    fn has_each(&self, numbers: &[usize], least: usize) {
        let Pair { origin, tally, .. } = &self.pair;
        tally.has_each_of(*origin, numbers, least);
    }
}

/// An answer of the iterator, as a call gives it.
fn borrowed(told: &Result<Located<OwnedFrame>, Located<Error>>) -> Told<'_> {
    match told {
        Ok(Located { position, answer }) => Ok(Located {
            position: *position,
            answer: answer.frame(),
        }),
        Err(refused) => Err(*refused),
    }
}

/// Readers of each origin.
fn readers() -> [Readers; 2] {
    ORIGINS.map(Readers::new)
}

/// Feeds a line to new readers of each origin, in chunks whose lengths `chunk` chooses, and finishes it.
fn feed_and_finish(line: &[u8], mut chunk: impl FnMut(usize) -> usize) {
    for mut readers in readers() {
        readers.feed(line, &mut chunk);
        readers.finish(&|| format!("finishing after the line {}", hex(line)));
    }
}

#[test]
fn every_short_line_is_read_alike() {
    let mut random = Xorshift::new();
    for len in 0..=6 {
        for number in 0..ALPHABET.len().pow(len) {
            let line = of_alphabet(&ALPHABET, number, len);
            feed_and_finish(&line, |left| any_chunk(&mut random, left));
        }
    }
}

#[test]
fn random_and_damaged_lines_are_read_alike() {
    for mut readers in readers() {
        let mut random = Xorshift::new();
        let mut traffic = Traffic::default();
        for number in 0..300_000 {
            let mut line = Vec::new();
            for _ in 0..=random.below(4) {
                line.extend(traffic.any(&mut random));
            }
            if random.below(4) == 0 {
                line.truncate(random.below(line.len() + 1));
            }
            readers.feed(&line, |left| any_chunk(&mut random, left));
            if random.below(3) == 0 {
                readers.finish(&|| format!("finishing after line {number}, {}", hex(&line)));
            }
        }
        readers.has_each(&[0, 2, 3, 4, 5, 6], 1_000);
    }
}

#[test]
fn candidates_about_the_limit_are_read_alike() {
    for start in [EXTENDED_START, STANDARD_START] {
        for len in 110..=130 {
            for end in [STOP, start] {
                let mut line = vec![0x00; len + 2];
                line[0] = start;
                line[len + 1] = end;
                for step in 1..=len + 2 {
                    feed_and_finish(&line, |left| step.min(left));
                }
            }
        }
    }
}

#[test]
fn long_chunks_are_read_alike() {
    let mut random = Xorshift::new();
    let mut traffic = Traffic::default();
    let mut line = Vec::new();
    while line.len() < 1_000_000 {
        line.extend(traffic.any(&mut random));
    }
    for limit in [65_535, 65_536, 65_537, line.len()] {
        feed_and_finish(&line, |left| limit.min(left));
    }
    let stray = vec![0x41; 1 << 20];
    for mut readers in readers() {
        for part in [&stray[..], &[STANDARD_START], &stray, &[STOP]] {
            readers.feed(part, |left| left);
        }
        readers.pair.tally.has_each(&[2], 1);
    }
}

/// Finishes with and without an open candidate between sound standard frames, which are answered alike each time.
#[test]
fn a_reader_keeps_its_origin() {
    const STANDARD: [u8; 4] = [STANDARD_START, 0x41, 0x41, STOP];
    for mut readers in readers() {
        for before in [&[][..], &[0x55], &[STANDARD_START, 0x41], &[EXTENDED_START]] {
            readers.feed(before, |left| left);
            readers.finish(&|| format!("finishing after {}", hex(before)));
            readers.feed(&STANDARD, |left| left);
        }
        let tally = &readers.pair.tally;
        match readers.origin() {
            Origin::Live => tally.has_each(&[17], 4),
            Origin::Trace => tally.has_each(&[0], 4),
        }
    }
}

#[test]
fn a_reader_by_default_is_live() {
    let mut reader = LineReader::default();
    let fed = reader.feed(&[STANDARD_START, 0x41, 0x41, STOP]);
    let position = 0;
    let answer = Error::Unnamed;
    assert_eq!(fed.told, Some(Err(Located { position, answer })));
}
