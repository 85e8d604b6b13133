//! Packets of treadmills: 01, a letter and two digits as header, a data unit, a checksum of
//! two digits, 17. Nothing is escaped, because characters are never 01 or 17.

use crate::refusal;

pub(crate) const START: u8 = 0x01;
pub(crate) const STOP: u8 = 0x17;
/// Stands between the texts of a data unit.
const SEPARATOR: u8 = 0x1D;

const WIRE_MAX: usize = 256;
/// Bytes that may stand between 01 and 17.
pub(crate) const BODY_MAX: usize = WIRE_MAX - 2;
pub(crate) const HEADER_LEN: usize = 3;
const SUM_LEN: usize = 2;
/// The data unit of the longest packet.
const UNIT_MAX: usize = BODY_MAX - HEADER_LEN - SUM_LEN;

/// A packet that was read; its data unit is the first `len` bytes of the output.
#[derive(Clone, Copy, Debug, PartialEq, Eq)]
pub struct Read {
    pub header: [u8; HEADER_LEN],
    pub len: usize,
}

/// Writes a packet and returns its length on the wire.
///
/// Refusals, in this order: 2, 22, 1.
pub fn write(header: [u8; HEADER_LEN], unit: &[u8], out: &mut [u8]) -> Result<usize, u8> {
    if unit.len() > UNIT_MAX {
        return Err(refusal::LONG);
    }
    if !is_header(header) || !is_unit(unit) {
        return Err(refusal::CHARACTER);
    }
    let len = 1 + HEADER_LEN + unit.len() + SUM_LEN + 1;
    let out = out.get_mut(..len).ok_or(refusal::NO_ROOM)?;
    let (unit_at, sum_at) = (1 + HEADER_LEN, len - 1 - SUM_LEN);
    out[0] = START;
    out[1..unit_at].copy_from_slice(&header);
    out[unit_at..sum_at].copy_from_slice(unit);
    out[sum_at..len - 1].copy_from_slice(&checksum(header, unit));
    out[len - 1] = STOP;
    Ok(len)
}

/// Reads a slice that must be one packet and nothing else, and puts the data unit
/// into `out`.
///
/// Refusals, in this order: 6, 2, 4, 22, 5, 1.
pub fn read(wire: &[u8], out: &mut [u8]) -> Result<Read, u8> {
    let [START, body @ .., STOP] = wire else {
        return Err(refusal::TRUNCATED);
    };
    if any_end(body) {
        return Err(refusal::TRUNCATED);
    }
    if body.len() > BODY_MAX {
        return Err(refusal::LONG);
    }
    let (packet, unit) = judge(body)?;
    out.get_mut(..unit.len())
        .ok_or(refusal::NO_ROOM)?
        .copy_from_slice(unit);
    Ok(packet)
}

/// Whether `byte` starts or stops a packet.
pub(crate) fn is_end(byte: u8) -> bool {
    matches!(byte, START | STOP)
}

/// Whether a byte that starts or stops a packet stands in `bytes`. Looking at every byte,
/// without an early exit, lets the compiler test many at once.
pub(crate) fn any_end(bytes: &[u8]) -> bool {
    let ends = bytes.iter().map(|&byte| u8::from(is_end(byte)));
    ends.fold(0, |any, end| any | end) != 0
}

/// Judges the bytes between 01 and 17: their number, then each at its place, then the
/// checksum. Also gives the data unit.
pub(crate) fn judge(body: &[u8]) -> Result<(Read, &[u8]), u8> {
    let &[letter, tens, ones, ref unit @ .., sum_tens, sum_ones] = body else {
        return Err(refusal::SHORT);
    };
    let (header, sum) = ([letter, tens, ones], [sum_tens, sum_ones]);
    if !is_header(header) || !is_unit(unit) || !are_digits(&sum) {
        return Err(refusal::CHARACTER);
    }
    if checksum(header, unit) != sum {
        return Err(refusal::SUM);
    }
    let len = unit.len();
    Ok((Read { header, len }, unit))
}

fn is_header([letter, digits @ ..]: [u8; HEADER_LEN]) -> bool {
    letter.is_ascii_uppercase() && are_digits(&digits)
}

fn are_digits(characters: &[u8]) -> bool {
    characters.iter().all(u8::is_ascii_digit)
}

/// Whether each of the characters may stand in a data unit, without an early exit too.
fn is_unit(characters: &[u8]) -> bool {
    let allowed = |byte| matches!(byte, SEPARATOR | b' '..=b'~');
    characters
        .iter()
        .fold(true, |all, &byte| all & allowed(byte))
}

/// The sum of header and data unit modulo 100, as two digits.
fn checksum(header: [u8; HEADER_LEN], unit: &[u8]) -> [u8; SUM_LEN] {
    let bytes = header.iter().chain(unit);
    let sum = bytes.map(|&byte| u32::from(byte)).sum::<u32>() % 100;
    [sum / 10, sum % 10].map(|digit| b'0' + digit as u8)
}
