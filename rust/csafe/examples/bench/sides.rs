//! The two sides of the comparison, behind one trait, and the line readers of both.
//!
//! Each answer becomes one number before the caller sees it, on both sides by the same functions. Handed over as it
//! is, an answer would be stored and loaded again, at a cost that depends on how a side lays it out. The numbers are
//! laid out as neither side lays out its own answers, so that the change is work for both.

use csafe::frame::{self, Frame, Kind};
use csafe::{lease, line, trace, Error, LineReader, Located};
use plain::frame::{self as plain_frame, Origin};
use plain::lease as plain_lease;
use plain::line::{self as plain_line, Answer};

pub const TABLE_LEN: usize = lease::TABLE_LEN;
pub const CHUNK_LIMIT: usize = line::CHUNK_LIMIT;

/// A side. Equal answers of the two sides are equal numbers. Standard frames are written and measured in a trace,
/// because on a live line they are refused without a look at their contents.
pub trait Side {
    fn read(origin: Origin, wire: &[u8], out: &mut [u8]) -> u64;
    fn write_standard(contents: &[u8], out: &mut [u8]) -> u64;
    fn write_extended(to: u8, from: u8, contents: &[u8], out: &mut [u8]) -> u64;
    fn standard_length(contents: &[u8]) -> u64;
    fn extended_length(to: u8, from: u8, contents: &[u8]) -> u64;
    fn hold(table: &mut [u8], address: u32, token: u64) -> u64;
    fn release(table: &mut [u8], address: u32, token: u64) -> u64;
    fn stop(table: &[u8], address: u32, token: u64, out: &mut [u8]) -> u64;
}

/// A side as far as it has a line reader.
pub trait LineSide {
    type Line: Line;
}

/// A line reader. Equal answers are equal numbers.
pub trait Line {
    fn new(origin: Origin) -> Self;
    /// Feeds bytes up to the first that is answered, shows the answer and its position with the contents, which are
    /// empty for a refusal, and tells how many bytes were taken.
    fn feed(&mut self, chunk: &[u8], see: impl FnMut(u64, &[u8])) -> usize;
}

/// The proved library, called through the package.
pub struct Ours;

/// The independent implementation.
pub struct Plain;

/// The independent line reader, fed byte by byte.
pub struct PlainByByte;

impl Side for Ours {
    #[inline(always)]
    fn read(origin: Origin, wire: &[u8], out: &mut [u8]) -> u64 {
        our_read(match origin {
            Origin::Live => frame::read(wire, out),
            Origin::Trace => trace::read(wire, out),
        })
    }

    #[inline(always)]
    fn write_standard(contents: &[u8], out: &mut [u8]) -> u64 {
        our_len(trace::write_standard(contents, out))
    }

    #[inline(always)]
    fn write_extended(to: u8, from: u8, contents: &[u8], out: &mut [u8]) -> u64 {
        our_len(frame::write_extended(to, from, contents, out))
    }

    #[inline(always)]
    fn standard_length(contents: &[u8]) -> u64 {
        our_len(trace::standard_length(contents))
    }

    #[inline(always)]
    fn extended_length(to: u8, from: u8, contents: &[u8]) -> u64 {
        our_len(frame::extended_length(to, from, contents))
    }

    #[inline(always)]
    fn hold(table: &mut [u8], address: u32, token: u64) -> u64 {
        our_len(lease::hold(table, address, token).map(|()| 0))
    }

    #[inline(always)]
    fn release(table: &mut [u8], address: u32, token: u64) -> u64 {
        our_len(lease::release(table, address, token).map(|()| 0))
    }

    #[inline(always)]
    fn stop(table: &[u8], address: u32, token: u64, out: &mut [u8]) -> u64 {
        our_len(lease::stop(table, address, token, out))
    }
}

impl LineSide for Ours {
    type Line = LineReader;
}

impl Line for LineReader {
    fn new(origin: Origin) -> LineReader {
        match origin {
            Origin::Live => LineReader::new(),
            Origin::Trace => LineReader::for_trace(),
        }
    }

    #[inline(always)]
    fn feed(&mut self, chunk: &[u8], mut see: impl FnMut(u64, &[u8])) -> usize {
        let fed = LineReader::feed(self, chunk);
        match fed.told {
            Some(Ok(Located { position, answer })) => {
                see(our_read(Ok(answer)) | place(position), answer.contents)
            }
            Some(Err(Located { position, answer })) => {
                see(our_read(Err(answer)) | place(position), &[])
            }
            None => {}
        }
        fed.taken
    }
}

#[inline(always)]
fn our_len(answer: Result<usize, Error>) -> u64 {
    match answer {
        Ok(len) => accepted(len),
        Err(error) => refused(error.number()),
    }
}

#[inline(always)]
fn our_read(answer: Result<Frame<'_>, Error>) -> u64 {
    match answer {
        Ok(Frame { kind, contents }) => match kind {
            Kind::Standard => accepted(contents.len()),
            Kind::Extended { to, from } => addressed(to, from, contents.len()),
        },
        Err(error) => refused(error.number()),
    }
}

impl Side for Plain {
    #[inline(always)]
    fn read(origin: Origin, wire: &[u8], out: &mut [u8]) -> u64 {
        plain_read(plain_frame::read(origin, wire, out))
    }

    #[inline(always)]
    fn write_standard(contents: &[u8], out: &mut [u8]) -> u64 {
        plain_len(plain_frame::write_standard(Origin::Trace, contents, out))
    }

    #[inline(always)]
    fn write_extended(to: u8, from: u8, contents: &[u8], out: &mut [u8]) -> u64 {
        plain_len(plain_frame::write_extended(to, from, contents, out))
    }

    #[inline(always)]
    fn standard_length(contents: &[u8]) -> u64 {
        plain_len(plain_frame::standard_length(Origin::Trace, contents))
    }

    #[inline(always)]
    fn extended_length(to: u8, from: u8, contents: &[u8]) -> u64 {
        plain_len(plain_frame::extended_length(to, from, contents))
    }

    #[inline(always)]
    fn hold(table: &mut [u8], address: u32, token: u64) -> u64 {
        plain_len(plain_lease::hold(table, address, token).map(|()| 0))
    }

    #[inline(always)]
    fn release(table: &mut [u8], address: u32, token: u64) -> u64 {
        plain_len(plain_lease::release(table, address, token).map(|()| 0))
    }

    #[inline(always)]
    fn stop(table: &[u8], address: u32, token: u64, out: &mut [u8]) -> u64 {
        plain_len(plain_lease::stop(table, address, token, out))
    }
}

impl LineSide for Plain {
    type Line = plain_line::Line;
}

impl Line for plain_line::Line {
    fn new(origin: Origin) -> plain_line::Line {
        plain_line::Line::new(origin)
    }

    #[inline(always)]
    fn feed(&mut self, chunk: &[u8], see: impl FnMut(u64, &[u8])) -> usize {
        let (taken, told) = self.feed_chunk(chunk);
        show(self, told, see);
        taken
    }
}

impl LineSide for PlainByByte {
    type Line = ByByte;
}

pub struct ByByte(plain_line::Line);

impl Line for ByByte {
    fn new(origin: Origin) -> ByByte {
        ByByte(plain_line::Line::new(origin))
    }

    #[inline(always)]
    fn feed(&mut self, chunk: &[u8], see: impl FnMut(u64, &[u8])) -> usize {
        for (at, byte) in chunk.iter().enumerate() {
            let told = self.0.feed(*byte);
            if told != Answer::Nothing {
                show(&self.0, told, see);
                return at + 1;
            }
        }
        chunk.len()
    }
}

/// Shows what the independent reader told, if anything.
#[inline(always)]
fn show(line: &plain_line::Line, told: Answer, mut see: impl FnMut(u64, &[u8])) {
    match told {
        Answer::Frame { position, frame } => {
            see(plain_read(Ok(frame)) | place(position), line.contents())
        }
        Answer::Refused { position, code } => see(plain_read(Err(code)) | place(position), &[]),
        Answer::Nothing => {}
    }
}

#[inline(always)]
fn plain_len(answer: Result<usize, u8>) -> u64 {
    match answer {
        Ok(len) => accepted(len),
        Err(number) => refused(number),
    }
}

#[inline(always)]
fn plain_read(answer: Result<plain_frame::Read, u8>) -> u64 {
    match answer {
        Ok(plain_frame::Read::Standard { len }) => accepted(len),
        Ok(plain_frame::Read::Extended { to, from, len }) => addressed(to, from, len),
        Err(number) => refused(number),
    }
}

/// From the lowest bit on a number has the length in 8 bits, the refusal in 8, the position on a line in 24, and the
/// two addresses in 8 each with a bit over them.
#[inline(always)]
fn accepted(len: usize) -> u64 {
    len as u64
}

#[inline(always)]
fn refused(number: u8) -> u64 {
    u64::from(number) << 8
}

#[inline(always)]
fn place(position: u32) -> u64 {
    u64::from(position) << 16
}

#[inline(always)]
fn addressed(to: u8, from: u8, len: usize) -> u64 {
    1 << 56 | u64::from(from) << 48 | u64::from(to) << 40 | len as u64
}
