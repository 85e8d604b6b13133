//! Line readers: ours is fed chunks of any length, the independent one the same bytes singly.

use csafe::line::HELD_LEN;
use plain::frame::Origin;
use plain::line::Line;

use crate::answer::{Answer, Function, Outcome};
use crate::both::literal;
use crate::common::Xorshift;
use crate::frame_damage::EXTENDED_START;
use crate::held::{counts_of, first_of, Held, CHUNK_LIMIT, LINE_LIMIT};
use crate::lent_output::Output;
use crate::tally::Tally;
use crate::traces::Traffic;
use crate::{ours, theirs, Comparison};

/// How many readers are kept to go on from later.
const KEPT: usize = 4;

/// One line in so many begins with about as many bytes without a flag as a call takes, or twice as many.
const LONG_SHARE: usize = 1_024;

/// The most bytes that such a beginning is shorter by, so that the end of what a call takes stands in the rest.
const SHORTER_BY: usize = 256;

/// One line in so many is fed to readers that are nearly full.
const NEARLY_FULL_SHARE: usize = 32;

/// What a reader answers that takes no more bytes.
const FULL: u8 = 16;

/// A reader on both sides, and what ours has to hold.
#[derive(Clone)]
struct Reader {
    origin: Origin,
    lent: Output,
    state: u64,
    counts: u64,
    theirs: Line,
    held: Held,
}

impl Reader {
    /// A reader that has taken so many bytes, outside of any candidate.
    fn with_count(origin: Origin, count: u32) -> Reader {
        let lent = Output::new(HELD_LEN);
        let counts = counts_of(count);
        let held = Held::new(held_bytes(&lent), 0, counts);
        Reader {
            origin,
            lent,
            state: 0,
            counts,
            theirs: Line::with_count(origin, count),
            held,
        }
    }

    fn feed(&mut self, chunk: &[u8]) -> (usize, Answer) {
        let (state, counts) = (&mut self.state, &mut self.counts);
        match self.lent.lent().try_into() {
            Ok(bytes) => ours::feed(self.origin, bytes, state, counts, chunk),
            Err(_) => unreachable!("the room is that of a reader"),
        }
    }

    /// Feeds the independent reader up to its first answer. A byte that it can't take is refused where it is the first,
    /// and left for the next call where it is not.
    fn feed_singly(&mut self, chunk: &[u8]) -> (usize, Answer) {
        let chunk = first_of(chunk);
        for (at, byte) in chunk.iter().enumerate() {
            let is_full = self.held.is_full();
            if is_full && at > 0 {
                return (at, Answer::nothing());
            }
            let answer = theirs::feed(&mut self.theirs, *byte);
            let contents = match answer.outcome() {
                Outcome::Accepted => self.theirs.contents(),
                _ => &[],
            };
            self.held.take(*byte, contents);
            if answer != Answer::nothing() {
                return (at + usize::from(!is_full), answer);
            }
        }
        (chunk.len(), Answer::nothing())
    }

    fn is_as_held(&self) -> bool {
        self.lent.result(HELD_LEN) == self.held.bytes()
            && self.state == self.held.state()
            && self.counts == self.held.counts()
            && self.lent.kept_past(HELD_LEN)
    }
}

fn held_bytes(lent: &Output) -> [u8; HELD_LEN] {
    let mut bytes = [0; HELD_LEN];
    bytes.copy_from_slice(lent.result(HELD_LEN));
    bytes
}

pub struct Lines {
    reader: Reader,
    /// Our reader's bytes, state and counts before the last call.
    before: ([u8; HELD_LEN], u64, u64),
    kept: [Reader; KEPT],
    traffic: Traffic,
    line: Vec<u8>,
}

impl Comparison for Lines {
    fn kind(&self) -> &'static str {
        match self.reader.origin {
            Origin::Live => "live lines",
            Origin::Trace => "lines of traces",
        }
    }

    fn step(&mut self, random: &mut Xorshift, tally: &mut Tally) -> Result<(), String> {
        self.put_line(random);
        if random.below(NEARLY_FULL_SHARE) == 0 {
            self.reader = Reader::with_count(self.reader.origin, any_large_count(random));
        }
        let mut at = 0;
        while at < self.line.len() {
            let len = any_chunk(random, self.line.len() - at);
            let (taken, answer) = self.feed(at, len, tally)?;
            at += taken;
            if answer.number == FULL {
                self.finish(tally)?;
            }
        }
        if random.below(3) == 0 {
            self.finish(tally)?;
        }
        let place = random.below(KEPT);
        match random.below(16) {
            0 => self.kept[place].clone_from(&self.reader),
            1 => self.reader.clone_from(&self.kept[place]),
            _ => {}
        }
        Ok(())
    }
}

impl Lines {
    pub fn new(origin: Origin) -> Lines {
        Lines {
            reader: Reader::with_count(origin, 0),
            before: ([0; HELD_LEN], 0, 0),
            kept: std::array::from_fn(|_| Reader::with_count(origin, 0)),
            traffic: Traffic::default(),
            line: Vec::new(),
        }
    }

    fn put_line(&mut self, random: &mut Xorshift) {
        self.line.clear();
        if random.below(LONG_SHARE) == 0 {
            self.put_long_beginning(random);
        }
        for _ in 0..=random.below(4) {
            self.line.extend(self.traffic.any(random));
        }
        if random.below(4) == 0 {
            self.line.truncate(random.below(self.line.len() + 1));
        }
    }

    /// Bytes without a flag, so that no answer ends a call before it has taken all that it may.
    fn put_long_beginning(&mut self, random: &mut Xorshift) {
        let limits = 1 + random.below(2);
        let len = limits * CHUNK_LIMIT - random.below(SHORTER_BY);
        let filler = random.below(usize::from(EXTENDED_START)) as u8;
        self.line.resize(len, filler);
    }

    fn keep_before(&mut self) {
        let Reader {
            lent,
            state,
            counts,
            ..
        } = &self.reader;
        self.before = (held_bytes(lent), *state, *counts);
    }

    fn feed(
        &mut self,
        at: usize,
        len: usize,
        tally: &mut Tally,
    ) -> Result<(usize, Answer), String> {
        self.keep_before();
        let chunk = &self.line[at..at + len];
        let (taken, ours) = self.reader.feed(chunk);
        let (their_taken, theirs) = self.reader.feed_singly(chunk);
        let function = match self.reader.origin {
            Origin::Live => Function::Feed,
            Origin::Trace => Function::TraceFeed,
        };
        let is_kept = taken > 0 || self.reader.counts == self.before.2;
        if taken != their_taken || ours != theirs || !self.reader.is_as_held() || !is_kept {
            let input = format!("input {}\n", literal(chunk));
            let answers = [(taken, ours), (their_taken, theirs)];
            return Err(self.difference(function, &input, answers));
        }
        tally.add(function, ours);
        Ok((taken, ours))
    }

    fn finish(&mut self, tally: &mut Tally) -> Result<(), String> {
        self.keep_before();
        let ours = ours::finish(&mut self.reader.state, &mut self.reader.counts);
        let theirs = theirs::finish(&mut self.reader.theirs);
        self.reader.held.finish();
        if ours != theirs || !self.reader.is_as_held() {
            return Err(self.difference(Function::Finish, "", [(0, ours), (0, theirs)]));
        }
        tally.add(Function::Finish, ours);
        Ok(())
    }

    fn difference(&self, function: Function, input: &str, answers: [(usize, Answer); 2]) -> String {
        let reader = &self.reader;
        let [(taken, ours), (their_taken, theirs)] = answers;
        let (bytes, state, counts) = &self.before;
        let around = match reader.lent.kept_past(HELD_LEN) {
            true => "",
            false => "\n       bytes around the reader changed",
        };
        format!(
            "{}\nbytes {}\nstate {state:#X}, counts {counts:#X}\n{input}ours:  taken {taken}, {ours}\n       state {:#X}, counts {:#X}, bytes {}{around}\nplain: taken {their_taken}, {theirs}\n       state {:#X}, counts {:#X}, bytes {}",
            function.name(),
            literal(bytes),
            reader.state,
            reader.counts,
            literal(reader.lent.result(HELD_LEN)),
            reader.held.state(),
            reader.held.counts(),
            literal(reader.held.bytes()),
        )
    }
}

/// How many bytes a reader has taken that is full, or will be within a few bytes, a few lines or a few long chunks.
fn any_large_count(random: &mut Xorshift) -> u32 {
    let most_left = [8, 400, 3 * CHUNK_LIMIT][random.below(3)];
    LINE_LIMIT - random.below(most_left) as u32
}

/// The length of a chunk, often 1 and often all.
pub fn any_chunk(random: &mut Xorshift, left: usize) -> usize {
    match random.below(4) {
        0 => 1,
        1 => random.below(8).min(left),
        2 => random.below(left + 1),
        _ => left,
    }
}
