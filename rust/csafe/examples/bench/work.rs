//! What both sides do, written once for both. The same code is checked and timed.

use std::hint::black_box;

use plain::frame::Origin;

use crate::inputs::{Kind, FROM, TO};
use crate::sides::{Line, LineSide, Side, CHUNK_LIMIT, TABLE_LEN};

/// Where a buffer begins shows in the times, so it is the start of a line of the cache for both sides.
#[repr(align(64))]
pub struct Aligned<T>(pub T);

/// Calls of a side on one input.
pub trait Work<S> {
    /// Makes the calls once and shows each answer with the bytes that it is about.
    fn run(&mut self, see: impl FnMut(u64, &[u8]));
}

pub struct Reading<'a>(pub Origin, pub &'a [Vec<u8>]);

impl<S: Side> Work<S> for Reading<'_> {
    #[inline(always)]
    fn run(&mut self, mut see: impl FnMut(u64, &[u8])) {
        let Aligned(out) = &mut Aligned([0; 128]);
        for wire in self.1 {
            let answer = S::read(self.0, black_box(wire), black_box(out));
            see(answer, out);
        }
    }
}

pub struct Writing<'a>(pub Kind, pub &'a [Vec<u8>]);

impl<S: Side> Work<S> for Writing<'_> {
    #[inline(always)]
    fn run(&mut self, mut see: impl FnMut(u64, &[u8])) {
        let Aligned(out) = &mut Aligned([0; 128]);
        // Addresses that the compiler knew would let it write a frame's beginning in advance.
        let (to, from) = black_box((TO, FROM));
        for contents in self.1 {
            let contents = black_box(contents);
            let answer = match self.0 {
                Kind::Standard => S::write_standard(contents, black_box(out)),
                Kind::Extended => S::write_extended(to, from, contents, black_box(out)),
            };
            see(answer, out);
        }
    }
}

pub struct Measuring<'a>(pub Kind, pub &'a [Vec<u8>]);

impl<S: Side> Work<S> for Measuring<'_> {
    #[inline(always)]
    fn run(&mut self, mut see: impl FnMut(u64, &[u8])) {
        // Addresses that the compiler knew would let it count them in advance.
        let (to, from) = black_box((TO, FROM));
        for contents in self.1 {
            let contents = black_box(contents);
            let answer = match self.0 {
                Kind::Standard => S::standard_length(contents),
                Kind::Extended => S::extended_length(to, from, contents),
            };
            see(answer, &[]);
        }
    }
}

/// A line is fed in chunks of the greatest length that a call takes.
pub struct Feeding<'a>(pub Origin, pub &'a [u8]);

impl<S: LineSide> Work<S> for Feeding<'_> {
    #[inline(always)]
    fn run(&mut self, mut see: impl FnMut(u64, &[u8])) {
        let Aligned(line) = &mut Aligned(S::Line::new(self.0));
        for chunk in black_box(self.1).chunks(CHUNK_LIMIT) {
            let mut rest = chunk;
            while !rest.is_empty() {
                let taken = line.feed(rest, &mut see);
                rest = &rest[taken..];
            }
        }
    }
}

/// Each address is held and then freed, after which the table is as it was.
pub struct Holding<'a>(pub Leases, pub &'a [(u32, u64)]);

impl<S: Side> Work<S> for Holding<'_> {
    #[inline(always)]
    fn run(&mut self, mut see: impl FnMut(u64, &[u8])) {
        for (address, token) in self.1 {
            let answer = S::hold(black_box(&mut self.0), *address, *token);
            see(answer, &self.0);
        }
        for (address, token) in self.1 {
            let answer = S::release(black_box(&mut self.0), *address, *token);
            see(answer, &self.0);
        }
    }
}

pub struct Stopping<'a>(pub Leases, pub &'a [(u32, u64)]);

impl<S: Side> Work<S> for Stopping<'_> {
    #[inline(always)]
    fn run(&mut self, mut see: impl FnMut(u64, &[u8])) {
        let Aligned(out) = &mut Aligned([0; 16]);
        for (address, token) in self.1 {
            let table = black_box(&self.0);
            let answer = S::stop(table, *address, *token, black_box(out));
            see(answer, out);
        }
    }
}

/// The bytes of a lease table.
pub type Leases = [u8; TABLE_LEN];

pub const FREE: Leases = [0; TABLE_LEN];

/// A table on which each of the addresses is held.
pub fn held<S: Side>(leases: &[(u32, u64)]) -> Leases {
    let mut table = FREE;
    for (address, token) in leases {
        assert_eq!(S::hold(&mut table, *address, *token), 0);
    }
    table
}
