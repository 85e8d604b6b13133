//! Our reader on lent bytes beside the independent one.

use std::fmt;

use csafe::line::{self, HELD_LEN};
use csafe::{Error, Frame, Located};
use plain::frame::{Origin, Read};
use plain::line::{Answer, Line};

use super::check_held;
use crate::by_origin;
use crate::frames::as_read;
use crate::held::{counts_of, first_of, Held};
use crate::output::{hex, told, Output};
use crate::tally::Tally;

/// What one of our readers tells.
pub type Told<'a> = Result<Located<Frame<'a>>, Located<Error>>;

/// What a call did: how many bytes it took, what it answered with which position, and the contents of a frame.
#[derive(Debug, PartialEq)]
pub struct Done {
    pub taken: usize,
    pub answer: Answer,
    pub contents: Vec<u8>,
}

impl Done {
    pub fn by_ours(taken: usize, told: Option<Told<'_>>) -> Done {
        let (answer, contents) = match told {
            None => (Answer::Nothing, Vec::new()),
            Some(Ok(Located { position, answer })) => {
                let frame = as_read(answer);
                (Answer::Frame { position, frame }, answer.contents.to_vec())
            }
            Some(Err(Located { position, answer })) => {
                let code = answer.number();
                (Answer::Refused { position, code }, Vec::new())
            }
        };
        Done {
            taken,
            answer,
            contents,
        }
    }

    pub fn by_theirs(taken: usize, answer: Answer, line: &Line) -> Done {
        let contents = match answer {
            Answer::Frame { .. } => line.contents().to_vec(),
            _ => Vec::new(),
        };
        Done {
            taken,
            answer,
            contents,
        }
    }

    pub fn check_same(&self, expected: &Done, which: &str, input: &dyn Fn() -> String) {
        assert!(
            self == expected,
            "{which} {self}, and the independent reader, byte by byte, {expected}: {}",
            told(input)
        );
    }
}

impl fmt::Display for Done {
    fn fmt(&self, f: &mut fmt::Formatter<'_>) -> fmt::Result {
        let (taken, answer) = (self.taken, self.answer);
        write!(
            f,
            "took {taken} and told {answer:?} {}",
            hex(&self.contents)
        )
    }
}

/// Both readers for one origin: ours on lent bytes between two margins, and the independent one twice, fed byte by byte
/// and by the chunk.
pub struct Pair {
    pub origin: Origin,
    lent: Output,
    state: u64,
    counts: u64,
    theirs: Line,
    theirs_by_chunk: Line,
    held: Held,
    pub tally: Tally,
}

impl Pair {
    /// Readers that have taken so many bytes, outside of any candidate.
    pub fn with_count(origin: Origin, count: u32) -> Pair {
        let lent = Output::new(HELD_LEN);
        let bytes = lent.result(HELD_LEN).try_into();
        let counts = counts_of(count);
        Pair {
            origin,
            lent,
            state: 0,
            counts,
            theirs: Line::with_count(origin, count),
            theirs_by_chunk: Line::with_count(origin, count),
            held: Held::new(bytes.expect("the room is that of a reader"), 0, counts),
            tally: Tally::default(),
        }
    }

    /// Feeds a chunk by one call, which has to do what its bytes do singly.
    pub fn feed(&mut self, chunk: &[u8], input: &dyn Fn() -> String) -> Done {
        let done = self.feed_singly(chunk);
        let counts = self.counts;
        let lent = self.feed_lent(chunk);
        lent.check_same(&done, "ours, on lent bytes,", input);
        let (taken, answer) = self.theirs_by_chunk.feed_chunk(chunk);
        let by_chunk = Done::by_theirs(taken, answer, &self.theirs_by_chunk);
        by_chunk.check_same(&done, "the independent reader, by the chunk,", input);
        check_held(&self.held, &self.lent, (self.state, self.counts), input);
        assert!(
            taken > 0 || self.counts == counts,
            "no byte was taken, and the counts changed: {}",
            told(input)
        );
        self.count(&done, input);
        done
    }

    /// Counts an answer, which is no standard frame on a live line.
    fn count(&mut self, done: &Done, input: &dyn Fn() -> String) {
        match done.answer {
            Answer::Nothing => {}
            Answer::Frame { frame, .. } => {
                let standard = matches!(frame, Read::Standard { .. });
                assert!(
                    self.origin == Origin::Trace || !standard,
                    "a standard frame is told: {}",
                    told(input)
                );
                self.tally.add(&Ok(()));
            }
            Answer::Refused { code, .. } => self.tally.add::<()>(&Err(code)),
        }
    }

    fn feed_lent(&mut self, chunk: &[u8]) -> Done {
        let bytes = self.lent.lent().try_into();
        let bytes = bytes.expect("the room is that of a reader");
        let (state, counts) = (&mut self.state, &mut self.counts);
        let fed = by_origin::feed(self.origin, bytes, state, counts, chunk);
        Done::by_ours(fed.taken, fed.told)
    }

    /// The independent reader is fed up to its first answer. A byte that it can't take is refused where it is the first
    /// of the chunk, and left for the next call where it is not.
    fn feed_singly(&mut self, chunk: &[u8]) -> Done {
        let chunk = first_of(chunk);
        for (at, byte) in chunk.iter().enumerate() {
            let is_full = self.held.is_full();
            if is_full && at > 0 {
                return Done::by_theirs(at, Answer::Nothing, &self.theirs);
            }
            let answer = self.theirs.feed(*byte);
            let taken = at + usize::from(!is_full);
            let done = Done::by_theirs(taken, answer, &self.theirs);
            self.held.take(*byte, &done.contents);
            if answer != Answer::Nothing {
                return done;
            }
        }
        Done::by_theirs(chunk.len(), Answer::Nothing, &self.theirs)
    }

    pub fn finish(&mut self, input: &dyn Fn() -> String) -> Answer {
        let ours = line::finish(&mut self.state, &mut self.counts);
        let answer = Done::by_ours(0, ours.err().map(Err)).answer;
        self.held.finish();
        assert_eq!(answer, self.theirs.finish(), "{}", told(input));
        assert_eq!(answer, self.theirs_by_chunk.finish(), "{}", told(input));
        check_held(&self.held, &self.lent, (self.state, self.counts), input);
        answer
    }
}
