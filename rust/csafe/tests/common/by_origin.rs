//! The calls of the package whose answers depend on where bytes come from: each as it is for a live line, and as it is
//! for a trace.

use csafe::line::{self, Fed, HELD_LEN};
use csafe::{frame, trace, Error, Frame};
use plain::frame::Origin;

pub fn write_standard(origin: Origin, contents: &[u8], out: &mut [u8]) -> Result<usize, Error> {
    match origin {
        Origin::Live => frame::write_standard(contents, out),
        Origin::Trace => trace::write_standard(contents, out),
    }
}

pub fn standard_length(origin: Origin, contents: &[u8]) -> Result<usize, Error> {
    match origin {
        Origin::Live => frame::standard_length(contents),
        Origin::Trace => trace::standard_length(contents),
    }
}

pub fn read<'a>(origin: Origin, wire: &[u8], out: &'a mut [u8]) -> Result<Frame<'a>, Error> {
    match origin {
        Origin::Live => frame::read(wire, out),
        Origin::Trace => trace::read(wire, out),
    }
}

pub fn feed<'a>(
    origin: Origin,
    bytes: &'a mut [u8; HELD_LEN],
    state: &mut u64,
    counts: &mut u64,
    chunk: &[u8],
) -> Fed<'a> {
    match origin {
        Origin::Live => line::feed(bytes, state, counts, chunk),
        Origin::Trace => trace::feed(bytes, state, counts, chunk),
    }
}
