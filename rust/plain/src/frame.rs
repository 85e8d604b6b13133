//! Frames on the wire: flags, byte stuffing and checksum.

use crate::refusal;

pub(crate) const START_EXTENDED: u8 = 0xF0;
pub(crate) const START_STANDARD: u8 = 0xF1;
pub(crate) const STOP: u8 = 0xF2;
pub(crate) const ESCAPE: u8 = 0xF3;

const WIRE_MAX: usize = 120;
/// Bytes that may stand between the flags, escapes counted as two.
pub(crate) const BODY_MAX: usize = WIRE_MAX - 2;
/// Contents of the longest standard frame without escapes.
pub(crate) const CONTENTS_MAX: usize = BODY_MAX - 1;

pub(crate) const HOST: u8 = 0x00;

/// Where a frame comes from or goes to. A standard frame names no sender, so it
/// is refused on a live line, and read and written as it stands in a trace.
#[derive(Clone, Copy, Debug, PartialEq, Eq)]
pub enum Origin {
    Live,
    Trace,
}

/// A frame that was read; its contents are the first `len` bytes of the output.
#[derive(Clone, Copy, Debug, PartialEq, Eq)]
pub enum Read {
    Standard { len: usize },
    Extended { to: u8, from: u8, len: usize },
}

/// Writes a standard frame and returns its length on the wire.
///
/// Refusals, in this order: 17 on a live line, 2, 1.
pub fn write_standard(origin: Origin, contents: &[u8], out: &mut [u8]) -> Result<usize, u8> {
    check_standard(origin)?;
    write(START_STANDARD, &[], contents, out)
}

/// Writes an extended frame and returns its length on the wire.
///
/// Refusals, in this order: 2, 1.
pub fn write_extended(to: u8, from: u8, contents: &[u8], out: &mut [u8]) -> Result<usize, u8> {
    write(START_EXTENDED, &[to, from], contents, out)
}

/// The length of a standard frame on the wire.
///
/// Refusals, in this order: 17 on a live line, 2.
pub fn standard_length(origin: Origin, contents: &[u8]) -> Result<usize, u8> {
    check_standard(origin)?;
    measured(&[], contents).map(|frame| frame.len)
}

/// The length of an extended frame on the wire.
///
/// Refusal: 2.
pub fn extended_length(to: u8, from: u8, contents: &[u8]) -> Result<usize, u8> {
    measured(&[to, from], contents).map(|frame| frame.len)
}

/// Reads a slice that must be one frame and nothing else, and puts the contents
/// into `out`.
///
/// Refusals, in this order: 6, 2, 3, 4, 5, 17 on a live line, 1.
pub fn read(origin: Origin, wire: &[u8], out: &mut [u8]) -> Result<Read, u8> {
    let [start @ (START_STANDARD | START_EXTENDED), body @ .., STOP] = wire else {
        return Err(refusal::TRUNCATED);
    };
    let stuffed = any_special(body);
    if stuffed && any_flag(body) {
        return Err(refusal::TRUNCATED);
    }
    if body.len() > BODY_MAX {
        return Err(refusal::LONG);
    }
    let mut scratch;
    let unstuffed = if stuffed {
        scratch = [0; BODY_MAX];
        let copy = &mut scratch[..body.len()];
        copy.copy_from_slice(body);
        let len = unstuff(copy)?;
        &scratch[..len]
    } else {
        body
    };
    let (frame, contents) = judge(origin, *start, unstuffed)?;
    out.get_mut(..contents.len())
        .ok_or(refusal::NO_ROOM)?
        .copy_from_slice(contents);
    Ok(frame)
}

/// The address as that of a machine or a console.
///
/// Refusal: 9.
pub(crate) fn machine(address: u32) -> Result<u8, u8> {
    match u8::try_from(address) {
        Ok(machine @ 0x01..=0xFC) => Ok(machine),
        _ => Err(refusal::ADDRESS),
    }
}

/// Whether `byte` starts or stops a frame.
pub(crate) fn is_flag(byte: u8) -> bool {
    matches!(byte, START_EXTENDED..=STOP)
}

/// Whether a flag stands in `bytes`. Looking at every byte, without an early
/// exit, lets the compiler test many at once.
pub(crate) fn any_flag(bytes: &[u8]) -> bool {
    bytes.iter().fold(false, |any, &byte| any | is_flag(byte))
}

/// Undoes the stuffing in place and returns the new length.
pub(crate) fn unstuff(body: &mut [u8]) -> Result<usize, u8> {
    if !body.contains(&ESCAPE) {
        return Ok(body.len());
    }
    let (mut from, mut to) = (0, 0);
    while from < body.len() {
        let mut byte = body[from];
        if byte == ESCAPE {
            from += 1;
            byte = match body.get(from) {
                Some(code @ 0..=3) => START_EXTENDED + code,
                _ => return Err(refusal::ESCAPE),
            };
        }
        body[to] = byte;
        from += 1;
        to += 1;
    }
    Ok(to)
}

/// Judges the unstuffed bytes between the flags: length, then checksum, then
/// whether the origin takes a frame of this kind.
pub(crate) fn judge(origin: Origin, start: u8, unstuffed: &[u8]) -> Result<(Read, &[u8]), u8> {
    let (frame, contents, sum) = match (start, unstuffed) {
        (START_STANDARD, [contents @ .., sum]) => {
            let len = contents.len();
            (Read::Standard { len }, contents, *sum)
        }
        (START_EXTENDED, &[to, from, ref contents @ .., sum]) => {
            let len = contents.len();
            (Read::Extended { to, from, len }, contents, sum)
        }
        _ => return Err(refusal::SHORT),
    };
    if checksum(contents) != sum {
        return Err(refusal::SUM);
    }
    if start == START_STANDARD {
        check_standard(origin)?;
    }
    Ok((frame, contents))
}

/// Refuses a standard frame on a live line.
fn check_standard(origin: Origin) -> Result<(), u8> {
    match origin {
        Origin::Live => Err(refusal::UNNAMED),
        Origin::Trace => Ok(()),
    }
}

fn write(start: u8, addresses: &[u8], contents: &[u8], out: &mut [u8]) -> Result<usize, u8> {
    let Measured { sum, stuffed, len } = measured(addresses, contents)?;
    let out = out.get_mut(..len).ok_or(refusal::NO_ROOM)?;
    out[0] = start;
    let mut at = 1 + stuff(addresses, &mut out[1..]);
    if stuffed == contents.len() {
        out[at..at + stuffed].copy_from_slice(contents);
    } else {
        stuff(contents, &mut out[at..]);
    }
    at += stuffed;
    stuff(&[sum], &mut out[at..]);
    out[len - 1] = STOP;
    Ok(len)
}

/// A frame's checksum, the length of its stuffed contents and of the whole frame.
struct Measured {
    sum: u8,
    stuffed: usize,
    len: usize,
}

/// Two flags, and between them each byte once, or twice where it is F0 to F3.
fn measured(addresses: &[u8], contents: &[u8]) -> Result<Measured, u8> {
    if contents.len() > CONTENTS_MAX {
        return Err(refusal::LONG);
    }
    let sum = checksum(contents);
    let stuffed = stuffed_len(contents);
    let len = 2 + stuffed_len(addresses) + stuffed + stuffed_len(&[sum]);
    if len > WIRE_MAX {
        return Err(refusal::LONG);
    }
    Ok(Measured { sum, stuffed, len })
}

/// The exclusive or of the unstuffed contents; addresses are not covered.
fn checksum(contents: &[u8]) -> u8 {
    contents.iter().fold(0, |sum, byte| sum ^ byte)
}

/// Whether `byte` is sent as two bytes: F0 to F3.
pub(crate) fn is_special(byte: u8) -> bool {
    byte & 0xFC == START_EXTENDED
}

fn any_special(bytes: &[u8]) -> bool {
    bytes
        .iter()
        .fold(false, |any, &byte| any | is_special(byte))
}

/// The length of at most 117 bytes once stuffed; so the number of escapes fits
/// in a byte, which is counted faster than a wider number.
fn stuffed_len(bytes: &[u8]) -> usize {
    let escapes = bytes
        .iter()
        .fold(0u8, |count, &byte| count + u8::from(is_special(byte)));
    bytes.len() + usize::from(escapes)
}

/// Stuffs `bytes` into `out`, which has room, and returns the stuffed length.
fn stuff(bytes: &[u8], out: &mut [u8]) -> usize {
    let mut at = 0;
    for &byte in bytes {
        if is_special(byte) {
            out[at] = ESCAPE;
            out[at + 1] = byte - START_EXTENDED;
            at += 2;
        } else {
            out[at] = byte;
            at += 1;
        }
    }
    at
}
