//! Stored traces, in which standard frames are read as they stand.
//!
//! A standard frame names no sender, so [`frame`](crate::frame) and [`line`](mod@crate::line) refuse it as
//! [`Error::Unnamed`]. A trace that was kept has such frames all the same, and whoever reads it wants to see them.
//! The functions of this module take them. In everything else they do what the functions of the same names do there.
//!
//! They are for traces that are kept on disk and for tests. Bytes that go to a machine or come from one must not go
//! through them.
//!
//! [`LineReader::for_trace`](crate::LineReader::for_trace) reads a trace in chunks, and [`feed`] does so on lent bytes.
//!
//! # Example
//!
//! A trace is read to its end.
//!
//! ```
//! use csafe::frame::Kind;
//! use csafe::{trace, LineReader};
//!
//! let mut kept = vec![0; trace::standard_length(&[0x80])?];
//! trace::write_standard(&[0x80], &mut kept)?;
//! kept.extend([0x55, 0xF0, 0x00, 0x05, 0x81, 0x81, 0xF2]);
//!
//! let mut reader = LineReader::for_trace();
//! let frames: Vec<_> = reader.answers(&kept).collect::<Result<_, _>>()?;
//! reader.finish()?;
//! let told: Vec<_> = frames.iter().map(|told| (told.position, told.answer.kind())).collect();
//! assert_eq!(told, [(0, Kind::Standard), (5, Kind::Extended { to: 0x00, from: 0x05 })]);
//! # Ok::<(), Box<dyn std::error::Error>>(())
//! ```

use crate::line::{Fed, HELD_LEN};
use crate::{ffi, Error, Frame};

/// Writes a standard frame first in the output and answers its length on the wire.
///
/// # Errors
///
/// In this order:
///
/// 1. [`Error::TooLong`]: the frame would be over [`WIRE_LIMIT`](crate::frame::WIRE_LIMIT) on the wire.
/// 2. [`Error::NoRoom`]: the output is shorter than the frame.
///
/// ```
/// use csafe::trace;
///
/// let mut wire = [0; 8];
/// let len = trace::write_standard(&[0xF1], &mut wire)?;
/// assert_eq!(wire[..len], [0xF1, 0xF3, 0x01, 0xF3, 0x01, 0xF2]);
/// # Ok::<(), csafe::Error>(())
/// ```
#[inline]
pub fn write_standard(contents: &[u8], out: &mut [u8]) -> Result<usize, Error> {
    Ok(ffi::trace_write_standard(contents, out).accepted()?.len())
}

/// How many bytes a standard frame takes on the wire, which is the room that [`write_standard`] needs.
///
/// # Errors
///
/// [`Error::TooLong`]: the frame would be over [`WIRE_LIMIT`](crate::frame::WIRE_LIMIT) on the wire.
///
/// ```
/// use csafe::{trace, Error};
///
/// let mut wire = vec![0; trace::standard_length(&[0xF1])?];
/// trace::write_standard(&[0xF1], &mut wire)?;
/// assert_eq!(wire, [0xF1, 0xF3, 0x01, 0xF3, 0x01, 0xF2]);
///
/// assert_eq!(trace::standard_length(&[0; 118]), Err(Error::TooLong));
/// # Ok::<(), Error>(())
/// ```
#[inline]
pub fn standard_length(contents: &[u8]) -> Result<usize, Error> {
    Ok(ffi::trace_standard_length(contents).accepted()?.len())
}

/// Reads a slice that has to be one frame, from its start flag to its stop flag, of either kind. Its contents are put
/// first in the output, and the frame that is answered borrows them there.
///
/// # Errors
///
/// In this order:
///
/// 1. [`Error::Truncated`]: the slice does not begin with a start flag, does not end with a stop flag, or has a flag
///    between them.
/// 2. [`Error::TooLong`]: it is over [`WIRE_LIMIT`](crate::frame::WIRE_LIMIT) long.
/// 3. [`Error::BadEscape`]: F3 is not followed by 00 to 03.
/// 4. [`Error::TooShort`]: a checksum or an address is missing.
/// 5. [`Error::BadChecksum`]: the checksum is not the one that the contents have.
/// 6. [`Error::NoRoom`]: the output is shorter than the contents.
///
/// ```
/// use csafe::frame::{self, Kind};
/// use csafe::{trace, Error};
///
/// let kept = [0xF1, 0x24, 0x02, 0x03, 0x00, 0x25, 0xF2];
/// let mut out = [0; frame::CONTENTS_LIMIT];
/// assert_eq!(frame::read(&kept, &mut out), Err(Error::Unnamed));
///
/// let frame = trace::read(&kept, &mut out)?;
/// assert_eq!(frame.kind, Kind::Standard);
/// assert_eq!(frame.contents, [0x24, 0x02, 0x03, 0x00]);
/// # Ok::<(), Error>(())
/// ```
#[inline]
pub fn read<'a>(wire: &[u8], out: &'a mut [u8]) -> Result<Frame<'a>, Error> {
    let answer = ffi::trace_read(wire, out).accepted()?;
    Ok(answer.frame_in(out))
}

/// As [`line::feed`](crate::line::feed), but that standard frames are told as frames. [`line::finish`] ends the input
/// of such a reader too.
///
/// The numbers of a reader do not say whether it is fed a trace, so the caller feeds all bytes of a trace here.
///
/// # Errors
///
/// What is told is refused as by [`LineReader::feed`](crate::LineReader::feed) of a reader for a trace.
///
/// ```
/// use csafe::frame::Kind;
/// use csafe::line::{self, HELD_LEN};
/// use csafe::{trace, Error, Located};
///
/// let (mut bytes, mut state, mut counts) = ([0; HELD_LEN], 0, 0);
/// let chunk = [0xF1, 0x41, 0x41, 0xF2, 0xF1];
/// let fed = trace::feed(&mut bytes, &mut state, &mut counts, &chunk);
/// assert_eq!(fed.taken, 4);
/// assert_eq!(fed.told.unwrap()?.answer.kind, Kind::Standard);
///
/// let fed = trace::feed(&mut bytes, &mut state, &mut counts, &chunk[4..]);
/// assert_eq!((fed.taken, fed.told), (1, None));
/// let truncated = Located { position: 4, answer: Error::Truncated };
/// assert_eq!(line::finish(&mut state, &mut counts), Err(truncated));
/// # Ok::<(), Located<Error>>(())
/// ```
///
/// [`line::finish`]: crate::line::finish
#[inline]
#[must_use = "the bytes that were not taken have to be fed again, and what was told is told once"]
pub fn feed<'a>(
    bytes: &'a mut [u8; HELD_LEN],
    state: &mut u64,
    counts: &mut u64,
    chunk: &[u8],
) -> Fed<'a> {
    let (taken, told) = ffi::trace_feed(bytes, state, counts, chunk);
    Fed::of(bytes, taken, told)
}
