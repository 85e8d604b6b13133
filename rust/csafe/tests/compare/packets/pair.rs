//! Our packet reader, in each of its forms, beside the independent one.

use std::fmt;

use csafe::packet::{self, HELD_LEN};
use csafe::{Error, Packet, PacketReader};
use plain::packet_line::{Answer, PacketLine};

use super::as_read;
use crate::held::first_of;
use crate::output::{hex, told, Output};
use crate::packet_held::PacketHeld;
use crate::tally::Tally;

/// What a call did: how many bytes it took, what it answered, and the data unit of a packet.
#[derive(Debug, PartialEq)]
pub struct Done {
    pub taken: usize,
    pub answer: Option<Answer>,
    pub unit: Vec<u8>,
}

impl Done {
    pub fn nothing(taken: usize) -> Done {
        Done {
            taken,
            answer: None,
            unit: Vec::new(),
        }
    }

    pub fn by_ours(taken: usize, told: Option<Result<Packet<'_>, Error>>) -> Done {
        Done {
            taken,
            answer: told.map(|told| told.map(as_read).map_err(Error::number)),
            unit: told.map_or(Vec::new(), |told| {
                told.map_or(Vec::new(), |packet| packet.unit.to_vec())
            }),
        }
    }

    pub fn by_theirs(taken: usize, answer: Option<Answer>, line: &PacketLine) -> Done {
        Done {
            taken,
            answer,
            unit: match answer {
                Some(Ok(_)) => line.unit().to_vec(),
                _ => Vec::new(),
            },
        }
    }

    pub fn check_same(&self, expected: &Done, which: &str, input: &dyn Fn() -> String) {
        assert!(
            self == expected,
            "{which} {self}, and the independent reader, byte by byte, {expected}: {}",
            told(input)
        );
    }
}

impl fmt::Display for Done {
    fn fmt(&self, f: &mut fmt::Formatter<'_>) -> fmt::Result {
        let (taken, answer) = (self.taken, self.answer);
        write!(f, "took {taken} and told {answer:?} {}", hex(&self.unit))
    }
}

/// The lent bytes of a reader and its number are what it has to hold, and no byte around them changed.
pub fn check_held(held: &PacketHeld, lent: &Output, state: u64, input: &dyn Fn() -> String) {
    assert!(
        lent.result(HELD_LEN) == held.bytes(),
        "the reader's bytes are {}, not {}: {}",
        hex(lent.result(HELD_LEN)),
        hex(held.bytes()),
        told(input)
    );
    assert_eq!(state, held.state(), "the number: {}", told(input));
    assert!(
        lent.kept_past(HELD_LEN),
        "bytes around the reader changed: {}",
        told(input)
    );
}

/// The lent bytes as a call takes them.
pub fn bytes_of(lent: &mut Output) -> &mut [u8; HELD_LEN] {
    let bytes = lent.lent().try_into();
    bytes.expect("the room is that of a reader")
}

/// Readers of both sides. Ours stands three times: on lent bytes between two margins, as the type that owns its bytes,
/// and as that type behind its iterator. The independent one stands twice: fed byte by byte and by the chunk.
pub struct Readers {
    lent: Output,
    state: u64,
    owned: PacketReader,
    iterated: PacketReader,
    theirs: PacketLine,
    theirs_by_chunk: PacketLine,
    held: PacketHeld,
    pub tally: Tally,
}

impl Readers {
    pub fn new() -> Readers {
        let mut lent = Output::new(HELD_LEN);
        let held = PacketHeld::new(*bytes_of(&mut lent), 0);
        Readers {
            lent,
            state: 0,
            owned: PacketReader::new(),
            iterated: PacketReader::default(),
            theirs: PacketLine::new(),
            theirs_by_chunk: PacketLine::new(),
            held,
            tally: Tally::default(),
        }
    }

    /// Feeds a line, in chunks whose lengths `chunk` chooses from the number of bytes that are left.
    pub fn feed(&mut self, line: &[u8], mut chunk: impl FnMut(usize) -> usize) {
        let mut at = 0;
        while at < line.len() {
            let len = chunk(line.len() - at);
            let input = || format!("{len} bytes from {at} of the line {}", hex(line));
            at += self.feed_chunk(&line[at..at + len], &input).taken;
        }
    }

    /// Feeds a chunk by one call, which has to do what its bytes do singly.
    pub fn feed_chunk(&mut self, chunk: &[u8], input: &dyn Fn() -> String) -> Done {
        let done = self.feed_singly(chunk);
        let lent = packet::feed(bytes_of(&mut self.lent), &mut self.state, chunk);
        Done::by_ours(lent.taken, lent.told).check_same(&done, "ours, on lent bytes,", input);
        check_held(&self.held, &self.lent, self.state, input);
        let owned = self.owned.feed(chunk);
        Done::by_ours(owned.taken, owned.told).check_same(&done, "ours, on its own bytes,", input);
        let iterated = self.feed_iterated(chunk);
        iterated.check_same(&done, "our iterator", input);
        let (taken, answer) = self.theirs_by_chunk.feed_chunk(chunk);
        let by_chunk = Done::by_theirs(taken, answer, &self.theirs_by_chunk);
        by_chunk.check_same(&done, "the independent reader, by the chunk,", input);
        if let Some(answer) = &done.answer {
            self.tally.add(answer);
        }
        done
    }

    /// The independent reader is fed up to its first answer.
    fn feed_singly(&mut self, chunk: &[u8]) -> Done {
        let chunk = first_of(chunk);
        for (at, byte) in chunk.iter().enumerate() {
            let answer = self.theirs.feed(*byte);
            let done = Done::by_theirs(at + 1, answer, &self.theirs);
            self.held.take(*byte, &done.unit);
            if answer.is_some() {
                return done;
            }
        }
        Done::nothing(chunk.len())
    }

    /// The iterator goes on to the end of its chunk, so it gets no more than a call takes. It is dropped after its
    /// first answer.
    fn feed_iterated(&mut self, chunk: &[u8]) -> Done {
        let chunk = first_of(chunk);
        let mut answers = self.iterated.answers(chunk);
        let told = answers.next();
        let taken = chunk.len() - answers.rest().len();
        let told = told.as_ref().map(|told| match told {
            Ok(packet) => Ok(packet.packet()),
            Err(error) => Err(*error),
        });
        Done::by_ours(taken, told)
    }

    /// Finishes each reader. All have to answer alike.
    pub fn finish(&mut self, input: &dyn Fn() -> String) -> Option<Answer> {
        let answer = self.theirs.finish();
        self.held.finish();
        let lent = packet::finish(&mut self.state);
        for ours in [lent, self.owned.finish(), self.iterated.finish()] {
            let ours = Done::by_ours(0, ours.err().map(Err)).answer;
            assert_eq!(ours, answer, "{}", told(input));
        }
        assert_eq!(self.theirs_by_chunk.finish(), answer, "{}", told(input));
        check_held(&self.held, &self.lent, self.state, input);
        answer
    }
}
