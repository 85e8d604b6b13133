//! A reader for a live line or a trace, fed byte by byte or by chunks of bytes.

use std::ops::Range;

use crate::frame::{self, Origin, BODY_MAX, START_EXTENDED, START_STANDARD, STOP};
use crate::refusal;

/// The most bytes that are taken of one chunk.
pub const CHUNK_MAX: usize = 65_536;

/// The most bytes that a reader takes between two finishes.
pub const COUNT_MAX: u32 = 4_294_967_295;

/// Bytes tested together in the search for a flag.
pub(crate) const BLOCK: usize = 32;

/// What a call on the line tells. The position is that of the candidate's start
/// flag among the bytes taken since the reader was new or finished, from 0 on.
#[derive(Clone, Copy, Debug, PartialEq, Eq)]
pub enum Answer {
    Nothing,
    Frame { position: u32, frame: frame::Read },
    Refused { position: u32, code: u8 },
}

/// The answer of a full reader to a byte, which belongs to no candidate.
const FULL: Answer = Answer::Refused {
    position: 0,
    code: refusal::FULL,
};

#[derive(Clone, Copy, Debug, PartialEq, Eq)]
enum Mode {
    /// No candidate is open; bytes are stray.
    Outside,
    /// A candidate is open that began with this flag.
    Open(u8),
    /// The open candidate is over-long and skipped until a flag.
    Long,
}

/// The line reader. One buffer serves the open candidate and, once it is
/// terminated, the contents of its frame, so that never more is kept than may
/// stand between two flags.
#[derive(Clone, Debug)]
pub struct Line {
    /// It stays the same, after a finish too.
    origin: Origin,
    body: [u8; BODY_MAX],
    len: usize,
    mode: Mode,
    contents: Range<usize>,
    /// How many bytes were taken since the reader was new or finished.
    count: u32,
    /// The position of the start flag of the open candidate.
    position: u32,
}

impl Line {
    pub fn new(origin: Origin) -> Self {
        Line::with_count(origin, 0)
    }

    /// A reader outside of any candidate that has taken so many bytes.
    pub fn with_count(origin: Origin, count: u32) -> Self {
        Line {
            origin,
            body: [0; BODY_MAX],
            len: 0,
            mode: Mode::Outside,
            contents: 0..0,
            count,
            position: 0,
        }
    }

    /// Takes the next byte of the line. A reader that has taken [`COUNT_MAX`] bytes
    /// refuses it and stays as it is.
    #[inline]
    pub fn feed(&mut self, byte: u8) -> Answer {
        if self.count == COUNT_MAX {
            return FULL;
        }
        match byte {
            START_STANDARD | START_EXTENDED => self.open(byte),
            STOP => self.terminate(),
            _ => {
                self.extend(&[byte]);
                Answer::Nothing
            }
        }
    }

    /// Takes bytes up to the first that is answered, and tells how many were
    /// taken. With no answer all of them are. A chunk longer than [`CHUNK_MAX`]
    /// is cut to its first [`CHUNK_MAX`] bytes, and one that the reader can't take
    /// whole to those that it can. Where it can't take the first byte, none is taken
    /// and that byte is refused.
    #[inline]
    pub fn feed_chunk(&mut self, chunk: &[u8]) -> (usize, Answer) {
        let left = (COUNT_MAX - self.count) as usize;
        if left == 0 && !chunk.is_empty() {
            return (0, FULL);
        }
        let chunk = &chunk[..chunk.len().min(CHUNK_MAX).min(left)];
        let mut taken = 0;
        while let Some(run) = first_flag(&chunk[taken..]) {
            self.extend(&chunk[taken..taken + run]);
            taken += run + 1;
            let answer = self.feed(chunk[taken - 1]);
            if answer != Answer::Nothing {
                return (taken, answer);
            }
        }
        self.extend(&chunk[taken..]);
        (chunk.len(), Answer::Nothing)
    }

    /// Ends the input, of a full reader too; the reader can be used again as a new
    /// one of its origin.
    pub fn finish(&mut self) -> Answer {
        let answer = self.truncation();
        self.mode = Mode::Outside;
        self.count = 0;
        answer
    }

    /// The contents of the frame told last, until the next start flag.
    pub fn contents(&self) -> &[u8] {
        &self.body[self.contents.clone()]
    }

    pub(crate) fn is_open(&self) -> bool {
        self.mode != Mode::Outside
    }

    /// Takes bytes without a flag among them, which never give an answer. The reader
    /// must be able to take them all.
    #[inline]
    pub(crate) fn extend(&mut self, bytes: &[u8]) {
        self.count += bytes.len() as u32;
        if !matches!(self.mode, Mode::Open(_)) {
            return;
        }
        match self.body[self.len..].get_mut(..bytes.len()) {
            Some(room) => {
                room.copy_from_slice(bytes);
                self.len += bytes.len();
            }
            None => self.mode = Mode::Long,
        }
    }

    fn open(&mut self, start: u8) -> Answer {
        let answer = self.truncation();
        self.mode = Mode::Open(start);
        self.len = 0;
        self.contents = 0..0;
        self.position = self.count;
        self.count += 1;
        answer
    }

    fn terminate(&mut self) -> Answer {
        let (mode, position) = (self.mode, self.position);
        self.mode = Mode::Outside;
        self.count += 1;
        let told = match mode {
            Mode::Outside => return Answer::Nothing,
            Mode::Open(start) => self.judge(start),
            Mode::Long => Err(refusal::LONG),
        };
        match told {
            Ok(frame) => Answer::Frame { position, frame },
            Err(code) => Answer::Refused { position, code },
        }
    }

    fn judge(&mut self, start: u8) -> Result<frame::Read, u8> {
        let len = frame::unstuff(&mut self.body[..self.len])?;
        let (frame, contents) = frame::judge(self.origin, start, &self.body[..len])?;
        // The contents stand right before the checksum, the last byte.
        self.contents = len - 1 - contents.len()..len - 1;
        Ok(frame)
    }

    /// The answer to whatever ends an open candidate before its stop flag.
    fn truncation(&self) -> Answer {
        if !self.is_open() {
            return Answer::Nothing;
        }
        Answer::Refused {
            position: self.position,
            code: refusal::TRUNCATED,
        }
    }
}

/// The place of the first flag. Whole blocks are passed over first, because a
/// block is tested without a branch for each byte.
pub(crate) fn first_flag(bytes: &[u8]) -> Option<usize> {
    let blocks = bytes.chunks_exact(BLOCK);
    let clear = BLOCK * blocks.take_while(|block| !frame::any_flag(block)).count();
    let flag = |&byte: &u8| frame::is_flag(byte);
    Some(clear + bytes[clear..].iter().position(flag)?)
}
