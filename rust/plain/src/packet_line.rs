//! A reader for the packets on a line, fed byte by byte or by chunks of bytes.

use crate::line::{BLOCK, CHUNK_MAX};
use crate::packet::{self, BODY_MAX, HEADER_LEN, START, STOP};
use crate::refusal;

/// What is told of a candidate: the packet, or the number of the refusal.
pub type Answer = Result<packet::Read, u8>;

#[derive(Clone, Copy, Debug, PartialEq, Eq)]
enum Mode {
    /// No candidate is open; bytes are stray.
    Outside,
    /// A candidate is open.
    Open,
    /// The open candidate is over-long and skipped until 01 or 17.
    Long,
}

/// The line reader. One buffer serves the open candidate and, once it is terminated,
/// the data unit of its packet.
#[derive(Clone, Debug)]
pub struct PacketLine {
    body: [u8; BODY_MAX],
    len: usize,
    mode: Mode,
    unit_len: usize,
}

impl PacketLine {
    pub fn new() -> Self {
        PacketLine {
            body: [0; BODY_MAX],
            len: 0,
            mode: Mode::Outside,
            unit_len: 0,
        }
    }

    /// Takes the next byte of the line.
    #[inline]
    pub fn feed(&mut self, byte: u8) -> Option<Answer> {
        match byte {
            START => self.open(),
            STOP => self.terminate(),
            _ => {
                self.extend(&[byte]);
                None
            }
        }
    }

    /// Takes bytes up to the first that is answered, and tells how many were taken.
    /// With no answer all of them are. A chunk longer than [`CHUNK_MAX`] is cut to its
    /// first [`CHUNK_MAX`] bytes.
    #[inline]
    pub fn feed_chunk(&mut self, chunk: &[u8]) -> (usize, Option<Answer>) {
        let chunk = &chunk[..chunk.len().min(CHUNK_MAX)];
        let mut taken = 0;
        while let Some(run) = first_end(&chunk[taken..]) {
            self.extend(&chunk[taken..taken + run]);
            taken += run + 1;
            let answer = self.feed(chunk[taken - 1]);
            if answer.is_some() {
                return (taken, answer);
            }
        }
        self.extend(&chunk[taken..]);
        (chunk.len(), None)
    }

    /// Ends the input; the reader can be used again as a new one.
    pub fn finish(&mut self) -> Option<Answer> {
        let answer = self.truncation();
        self.mode = Mode::Outside;
        self.unit_len = 0;
        answer
    }

    /// The data unit of the packet told last, until the next 01 or finish.
    pub fn unit(&self) -> &[u8] {
        &self.body[HEADER_LEN..][..self.unit_len]
    }

    /// Takes bytes without 01 and 17 among them, which never give an answer.
    #[inline]
    fn extend(&mut self, bytes: &[u8]) {
        if self.mode != Mode::Open {
            return;
        }
        match self.body[self.len..].get_mut(..bytes.len()) {
            Some(room) => {
                room.copy_from_slice(bytes);
                self.len += bytes.len();
            }
            None => self.mode = Mode::Long,
        }
    }

    fn open(&mut self) -> Option<Answer> {
        let answer = self.truncation();
        self.mode = Mode::Open;
        self.len = 0;
        self.unit_len = 0;
        answer
    }

    fn terminate(&mut self) -> Option<Answer> {
        let mode = self.mode;
        self.mode = Mode::Outside;
        match mode {
            Mode::Outside => None,
            Mode::Open => Some(self.judge()),
            Mode::Long => Some(Err(refusal::LONG)),
        }
    }

    fn judge(&mut self) -> Answer {
        let (packet, unit) = packet::judge(&self.body[..self.len])?;
        self.unit_len = unit.len();
        Ok(packet)
    }

    /// The answer to whatever ends an open candidate before its 17.
    fn truncation(&self) -> Option<Answer> {
        (self.mode != Mode::Outside).then_some(Err(refusal::TRUNCATED))
    }
}

impl Default for PacketLine {
    fn default() -> Self {
        PacketLine::new()
    }
}

/// The place of the first byte that starts or stops a packet. Whole blocks are passed
/// over first, because a block is tested without a branch for each byte.
fn first_end(bytes: &[u8]) -> Option<usize> {
    let blocks = bytes.chunks_exact(BLOCK);
    let clear = BLOCK * blocks.take_while(|block| !packet::any_end(block)).count();
    let end = |&byte: &u8| packet::is_end(byte);
    Some(clear + bytes[clear..].iter().position(end)?)
}
