//! The boundary to the three static libraries, and the only module with unsafe code.
//!
//! The declarations stand in the order and with the names of `csafe.h`, those of the library for traces after those for
//! a live line, and those for packets last. The test `declarations` compares both with the exported functions of the
//! Rattle source, name by name and type by type.

use core::sync::atomic::{compiler_fence, Ordering};

use crate::frame::{Frame, Kind};
use crate::line::HELD_LEN;
use crate::packet::{self, Header, Packet};
use crate::{Error, Located};

#[rustfmt::skip]
mod exported {
    extern "C" {
        pub fn csafe_write_standard(contents: *const u8, contents_len: usize, out: *mut u8, out_len: usize) -> u64;
        pub fn csafe_write_extended(to: u8, from: u8, contents: *const u8, contents_len: usize, out: *mut u8, out_len: usize) -> u64;
        pub fn csafe_standard_length(contents: *const u8, contents_len: usize) -> u64;
        pub fn csafe_extended_length(to: u8, from: u8, contents: *const u8, contents_len: usize) -> u64;
        pub fn csafe_read(wire: *const u8, wire_len: usize, out: *mut u8, out_len: usize) -> u64;
        pub fn csafe_feed(bytes: *mut u8, state: *mut u64, counts: *mut u64, input: *const u8, input_len: usize, taken: *mut u64, position: *mut u32) -> u64;
        pub fn csafe_finish(state: *mut u64, counts: *mut u64, position: *mut u32) -> u64;
        pub fn csafe_write_distance_workout(metres: u32, split_metres: u32, watts: u16, out: *mut u8, out_len: usize) -> u64;
        pub fn csafe_write_time_workout(seconds: u32, split_hundredths: u32, watts: u16, out: *mut u8, out_len: usize) -> u64;
        pub fn csafe_write_distance_workout_frame(address: u32, metres: u32, split_metres: u32, watts: u16, out: *mut u8, out_len: usize) -> u64;
        pub fn csafe_write_time_workout_frame(address: u32, seconds: u32, split_hundredths: u32, watts: u16, out: *mut u8, out_len: usize) -> u64;
        pub fn csafe_hold(table: *mut u8, table_len: usize, address: u32, token: u64) -> u64;
        pub fn csafe_release(table: *mut u8, table_len: usize, address: u32, token: u64) -> u64;
        pub fn csafe_stop(table: *const u8, table_len: usize, address: u32, token: u64, out: *mut u8, out_len: usize) -> u64;
        pub fn csafe_trace_write_standard(contents: *const u8, contents_len: usize, out: *mut u8, out_len: usize) -> u64;
        pub fn csafe_trace_standard_length(contents: *const u8, contents_len: usize) -> u64;
        pub fn csafe_trace_read(wire: *const u8, wire_len: usize, out: *mut u8, out_len: usize) -> u64;
        pub fn csafe_trace_feed(bytes: *mut u8, state: *mut u64, counts: *mut u64, input: *const u8, input_len: usize, taken: *mut u64, position: *mut u32) -> u64;
        pub fn csafe_packet_write(letter: u8, tens: u8, ones: u8, unit: *const u8, unit_len: usize, out: *mut u8, out_len: usize) -> u64;
        pub fn csafe_packet_read(wire: *const u8, wire_len: usize, out: *mut u8, out_len: usize) -> u64;
        pub fn csafe_packet_feed(bytes: *mut u8, state: *mut u64, input: *const u8, input_len: usize, taken: *mut u64) -> u64;
        pub fn csafe_packet_finish(state: *mut u64) -> u64;
    }
}

/// The kind of an extended frame in an answer, and what stands for a kind where the line reader told nothing.
const EXTENDED: u8 = 1;
const NOTHING: u8 = 2;

/// What each exported function answers: from the lowest byte on a refusal's number or 0, the kind, the two
/// addresses, and in the upper half the length. Where a packet was read, the header's letter and its two digits stand
/// in place of kind and addresses.
#[derive(Clone, Copy)]
pub(crate) struct Answer(u64);

impl Answer {
    /// The refusal that the answer tells, or the answer itself.
    #[inline]
    pub(crate) fn accepted(self) -> Result<Answer, Error> {
        match self.byte(0) {
            0 => Ok(self),
            number => {
                // Keeps the compiler from merging this match with the one on the number, after which a result would
                // take a jump through a table as well.
                compiler_fence(Ordering::SeqCst);
                Err(Error::with_number(number))
            }
        }
    }

    /// Whether the line reader told anything. All other functions for frames always do.
    #[inline]
    pub(crate) fn is_told(self) -> bool {
        self.byte(1) != NOTHING
    }

    /// Whether the packet reader told anything. A packet has a letter, which is not 0.
    #[inline]
    pub(crate) fn is_packet_told(self) -> bool {
        self.0 != 0
    }

    /// The length of the result.
    #[inline]
    pub(crate) fn len(self) -> usize {
        (self.0 >> 32) as usize
    }

    /// The frame that was read, whose contents are the first of these bytes. The contracts of the library keep the
    /// length within them.
    #[inline]
    pub(crate) fn frame_in(self, bytes: &[u8]) -> Frame<'_> {
        Frame {
            kind: self.kind(),
            contents: &bytes[..self.len()],
        }
    }

    /// The packet that was read, whose data unit is the first of these bytes. The contracts of the library keep the
    /// length within them.
    #[inline]
    pub(crate) fn packet_in(self, bytes: &[u8]) -> Packet<'_> {
        Packet {
            header: Header::new(&[self.byte(1), self.byte(2), self.byte(3)]),
            unit: &bytes[..self.len()],
        }
    }

    #[inline]
    fn kind(self) -> Kind {
        if self.byte(1) == EXTENDED {
            return Kind::Extended {
                to: self.byte(2),
                from: self.byte(3),
            };
        }
        Kind::Standard
    }

    #[inline]
    fn byte(self, index: u32) -> u8 {
        (self.0 >> (8 * index)) as u8
    }
}

#[inline]
pub(crate) fn write_standard(contents: &[u8], out: &mut [u8]) -> Answer {
    // SAFETY: each pointer comes with the length of its slice, and the function stays within them. The exclusive
    // borrow of the output keeps the two apart.
    Answer(unsafe {
        exported::csafe_write_standard(
            contents.as_ptr(),
            contents.len(),
            out.as_mut_ptr(),
            out.len(),
        )
    })
}

#[inline]
pub(crate) fn write_extended(to: u8, from: u8, contents: &[u8], out: &mut [u8]) -> Answer {
    // SAFETY: as for `write_standard`; any addresses are taken.
    Answer(unsafe {
        exported::csafe_write_extended(
            to,
            from,
            contents.as_ptr(),
            contents.len(),
            out.as_mut_ptr(),
            out.len(),
        )
    })
}

#[inline]
pub(crate) fn standard_length(contents: &[u8]) -> Answer {
    // SAFETY: the pointer comes with the length of its slice, and the function reads within it and writes nothing.
    Answer(unsafe { exported::csafe_standard_length(contents.as_ptr(), contents.len()) })
}

#[inline]
pub(crate) fn extended_length(to: u8, from: u8, contents: &[u8]) -> Answer {
    // SAFETY: as for `standard_length`; any addresses are taken.
    Answer(unsafe { exported::csafe_extended_length(to, from, contents.as_ptr(), contents.len()) })
}

#[inline]
pub(crate) fn read(wire: &[u8], out: &mut [u8]) -> Answer {
    // SAFETY: as for `write_standard`.
    Answer(unsafe { exported::csafe_read(wire.as_ptr(), wire.len(), out.as_mut_ptr(), out.len()) })
}

#[inline]
pub(crate) fn feed(
    bytes: &mut [u8; HELD_LEN],
    state: &mut u64,
    counts: &mut u64,
    input: &[u8],
) -> (usize, Located<Answer>) {
    let (mut taken, mut position) = (0, 0);
    // SAFETY: the first pointer is to as many bytes as the function takes there. The input's comes with its length,
    // and the function stays within it. The exclusive borrows keep all six apart. Any two numbers are a reader's.
    let answer = Answer(unsafe {
        exported::csafe_feed(
            bytes.as_mut_ptr(),
            state,
            counts,
            input.as_ptr(),
            input.len(),
            &mut taken,
            &mut position,
        )
    });
    (taken as usize, Located { position, answer })
}

#[inline]
pub(crate) fn finish(state: &mut u64, counts: &mut u64) -> Located<Answer> {
    let mut position = 0;
    // SAFETY: each pointer is to a number that is borrowed exclusively. Any two numbers are a reader's.
    let answer = Answer(unsafe { exported::csafe_finish(state, counts, &mut position) });
    Located { position, answer }
}

#[inline]
pub(crate) fn trace_write_standard(contents: &[u8], out: &mut [u8]) -> Answer {
    // SAFETY: as for `write_standard`.
    Answer(unsafe {
        exported::csafe_trace_write_standard(
            contents.as_ptr(),
            contents.len(),
            out.as_mut_ptr(),
            out.len(),
        )
    })
}

#[inline]
pub(crate) fn trace_standard_length(contents: &[u8]) -> Answer {
    // SAFETY: as for `standard_length`.
    Answer(unsafe { exported::csafe_trace_standard_length(contents.as_ptr(), contents.len()) })
}

#[inline]
pub(crate) fn trace_read(wire: &[u8], out: &mut [u8]) -> Answer {
    // SAFETY: as for `write_standard`.
    Answer(unsafe {
        exported::csafe_trace_read(wire.as_ptr(), wire.len(), out.as_mut_ptr(), out.len())
    })
}

#[inline]
pub(crate) fn trace_feed(
    bytes: &mut [u8; HELD_LEN],
    state: &mut u64,
    counts: &mut u64,
    input: &[u8],
) -> (usize, Located<Answer>) {
    let (mut taken, mut position) = (0, 0);
    // SAFETY: as for `feed`.
    let answer = Answer(unsafe {
        exported::csafe_trace_feed(
            bytes.as_mut_ptr(),
            state,
            counts,
            input.as_ptr(),
            input.len(),
            &mut taken,
            &mut position,
        )
    });
    (taken as usize, Located { position, answer })
}

#[inline]
pub(crate) fn write_distance(metres: u32, split: u32, watts: u16, out: &mut [u8]) -> Answer {
    // SAFETY: the pointer comes with the length of its slice, which is borrowed exclusively; any numbers are taken.
    Answer(unsafe {
        exported::csafe_write_distance_workout(metres, split, watts, out.as_mut_ptr(), out.len())
    })
}

#[inline]
pub(crate) fn write_time(seconds: u32, split: u32, watts: u16, out: &mut [u8]) -> Answer {
    // SAFETY: as for `write_distance`.
    Answer(unsafe {
        exported::csafe_write_time_workout(seconds, split, watts, out.as_mut_ptr(), out.len())
    })
}

#[inline]
pub(crate) fn write_distance_frame(
    address: u32,
    metres: u32,
    split: u32,
    watts: u16,
    out: &mut [u8],
) -> Answer {
    // SAFETY: as for `write_distance`.
    Answer(unsafe {
        exported::csafe_write_distance_workout_frame(
            address,
            metres,
            split,
            watts,
            out.as_mut_ptr(),
            out.len(),
        )
    })
}

#[inline]
pub(crate) fn write_time_frame(
    address: u32,
    seconds: u32,
    split: u32,
    watts: u16,
    out: &mut [u8],
) -> Answer {
    // SAFETY: as for `write_distance`.
    Answer(unsafe {
        exported::csafe_write_time_workout_frame(
            address,
            seconds,
            split,
            watts,
            out.as_mut_ptr(),
            out.len(),
        )
    })
}

#[inline]
pub(crate) fn hold(table: &mut [u8], address: u32, token: u64) -> Answer {
    // SAFETY: as for `write_distance`; a table of any length is taken.
    Answer(unsafe { exported::csafe_hold(table.as_mut_ptr(), table.len(), address, token) })
}

#[inline]
pub(crate) fn release(table: &mut [u8], address: u32, token: u64) -> Answer {
    // SAFETY: as for `hold`.
    Answer(unsafe { exported::csafe_release(table.as_mut_ptr(), table.len(), address, token) })
}

#[inline]
pub(crate) fn stop(table: &[u8], address: u32, token: u64, out: &mut [u8]) -> Answer {
    // SAFETY: each pointer comes with the length of its slice, and the table is only read. The exclusive borrow of
    // the output keeps the two apart.
    Answer(unsafe {
        exported::csafe_stop(
            table.as_ptr(),
            table.len(),
            address,
            token,
            out.as_mut_ptr(),
            out.len(),
        )
    })
}

#[inline]
pub(crate) fn packet_write(header: Header, unit: &[u8], out: &mut [u8]) -> Answer {
    let [letter, tens, ones] = header.bytes();
    // SAFETY: as for `write_standard`; any header is taken.
    Answer(unsafe {
        exported::csafe_packet_write(
            letter,
            tens,
            ones,
            unit.as_ptr(),
            unit.len(),
            out.as_mut_ptr(),
            out.len(),
        )
    })
}

#[inline]
pub(crate) fn packet_read(wire: &[u8], out: &mut [u8]) -> Answer {
    // SAFETY: as for `write_standard`.
    Answer(unsafe {
        exported::csafe_packet_read(wire.as_ptr(), wire.len(), out.as_mut_ptr(), out.len())
    })
}

#[inline]
pub(crate) fn packet_feed(
    bytes: &mut [u8; packet::HELD_LEN],
    state: &mut u64,
    input: &[u8],
) -> (usize, Answer) {
    let mut taken = 0;
    // SAFETY: the first pointer is to as many bytes as the function takes there. The input's comes with its length,
    // and the function stays within it. The exclusive borrows keep all four apart. Any number is a reader's.
    let answer = Answer(unsafe {
        exported::csafe_packet_feed(
            bytes.as_mut_ptr(),
            state,
            input.as_ptr(),
            input.len(),
            &mut taken,
        )
    });
    (taken as usize, answer)
}

#[inline]
pub(crate) fn packet_finish(state: &mut u64) -> Answer {
    // SAFETY: the pointer is to a number that is borrowed exclusively. Any number is a reader's.
    Answer(unsafe { exported::csafe_packet_finish(state) })
}

#[cfg(test)]
mod tests {
    use plain::workout::{self, Goal, Workout};

    use super::*;

    #[test]
    fn an_answer_is_taken_apart() {
        let bytes = [0x76, 0x04, 0x13, 0x02, 0x01, 0x02, 0x60];
        let extended = Answer(0x0000_0006_F105_0100);
        assert!(extended.accepted().is_ok());
        assert!(extended.is_told());
        assert_eq!(extended.len(), 6);
        let kind = Kind::Extended {
            to: 0x05,
            from: 0xF1,
        };
        let contents = &bytes[..6];
        assert_eq!(extended.frame_in(&bytes), Frame { kind, contents });
        let empty = Answer(0);
        assert!(empty.is_told());
        let (kind, contents) = (Kind::Standard, &bytes[..0]);
        assert_eq!(empty.frame_in(&bytes), Frame { kind, contents });
        assert!(!Answer(0x200).is_told());
    }

    #[test]
    fn no_number_but_0_is_a_result() {
        for number in 1..=u8::MAX {
            let refused = Answer(u64::from(number)).accepted().err();
            assert_eq!(refused.map(Error::number), Some(number));
        }
    }

    #[test]
    fn frame_answers_are_whole_numbers_of_the_layout() {
        let out = &mut [0; 128];
        assert_eq!(write_standard(&[0xF1], out).0, 17);
        assert_eq!(write_standard(&[0; 118], out).0, 17);
        assert_eq!(write_extended(0xFF, 0xFD, &[], out).0, 5 << 32);
        assert_eq!(write_extended(0xFF, 0xFD, &[], &mut out[..4]).0, 1);
        assert_eq!(standard_length(&[0xF1]).0, 17);
        assert_eq!(standard_length(&[0; 118]).0, 17);
        assert_eq!(extended_length(0xFF, 0xFD, &[]).0, 5 << 32);
        assert_eq!(extended_length(0xFF, 0xFD, &[0; 116]).0, 2);
        assert_eq!(read(&[0xF1, 0x41, 0x41, 0xF2], out).0, 17);
        let extended = [0xF0, 0xFF, 0xFD, 0x41, 0x41, 0xF2];
        assert_eq!(read(&extended, out).0, 0x0000_0001_FDFF_0100);
        assert_eq!(read(&extended, &mut []).0, 1);
        assert_eq!(read(&extended[..5], out).0, 6);
    }

    /// The two numbers of a reader: its state, and its counts.
    type Numbers = (u64, u64);

    /// What a call that feeds does: the bytes taken, the answer and its position, the state and how many bytes were
    /// taken in all.
    fn fed(
        (taken, told): (usize, Located<Answer>),
        (state, counts): Numbers,
    ) -> (usize, u64, u32, Numbers) {
        let Located { position, answer } = told;
        (taken, answer.0, position, (state, counts >> 32))
    }

    #[test]
    fn line_answers_are_whole_numbers_of_the_layout() {
        let (bytes, state, counts) = (&mut [0; HELD_LEN], &mut 0, &mut 0);
        let mut feed = |input: &[u8]| {
            let done = feed(bytes, state, counts, input);
            fed(done, (*state, *counts))
        };
        assert_eq!(feed(&[0xF1, 0x00, 0xF2]), (3, 17, 0, (0, 3)));
        assert_eq!(feed(&[]), (0, 0x200, 0, (0, 3)));
        assert_eq!(feed(&[0x41, 0xF2]), (2, 0x200, 0, (0, 5)));
        assert_eq!(feed(&[0xF0, 0xFF, 0xFD]), (3, 0x200, 0, (4 * 2 + 2, 8)));
        assert_eq!(
            feed(&[0x41, 0x41, 0xF2, 0x41]),
            (3, 0x0000_0001_FDFF_0100, 5, (0, 11))
        );
        assert_eq!(feed(&[0xF1, 0x41, 0x42, 0xF2]), (4, 5, 11, (0, 15)));
        assert_eq!(feed(&[0xF1; 2]), (2, 6, 15, (1, 17)));
        assert_eq!(feed(&[0x41; 119]), (119, 0x200, 0, (3, 136)));
        assert_eq!(feed(&[0xF2]), (1, 2, 16, (0, 137)));
        assert_eq!(feed(&[0x41; 65_537]), (65_536, 0x200, 0, (0, 65_673)));
    }

    #[test]
    fn a_finish_answers_with_the_position_of_what_is_open() {
        let (mut state, mut counts) = (4 * 2 + 2, 8 << 32 | 5);
        let told = finish(&mut state, &mut counts);
        assert_eq!((told.answer.0, told.position), (6, 5));
        assert_eq!((state, counts), (0, 0));
        counts |= 9 << 32;
        let told = finish(&mut state, &mut counts);
        assert_eq!((told.answer.0, told.position), (0x200, 0));
        assert_eq!((state, counts), (0, 0));
    }

    #[test]
    fn a_full_reader_answers_16_and_keeps_its_numbers() {
        const OPEN: u64 = 4 * 2 + 2;
        const FULL: u64 = 0xFFFF_FFFF_0000_0005;
        let bytes = &mut [0; HELD_LEN];
        for feed in [feed, trace_feed] {
            let (mut state, mut counts) = (OPEN, FULL);
            let done = feed(bytes, &mut state, &mut counts, &[0xF0, 0xF2]);
            let kept = (OPEN, FULL >> 32);
            assert_eq!(fed(done, (state, counts)), (0, 16, 0, kept));
            let done = feed(bytes, &mut state, &mut counts, &[]);
            assert_eq!(fed(done, (state, counts)), (0, 0x200, 0, kept));
            assert_eq!(counts, FULL);
            let told = finish(&mut state, &mut counts);
            assert_eq!((told.answer.0, told.position), (6, 5));
        }
    }

    #[test]
    fn trace_answers_are_whole_numbers_of_the_layout() {
        let out = &mut [0; 128];
        assert_eq!(trace_write_standard(&[0xF1], out).0, 6 << 32);
        assert_eq!(trace_write_standard(&[0; 118], out).0, 2);
        assert_eq!(trace_write_standard(&[0xF1], &mut out[..5]).0, 1);
        assert_eq!(trace_standard_length(&[0xF1]).0, 6 << 32);
        assert_eq!(trace_standard_length(&[0; 118]).0, 2);
        let standard = [0xF1, 0x41, 0x41, 0xF2];
        assert_eq!(trace_read(&standard, out).0, 1 << 32);
        assert_eq!(trace_read(&standard, &mut []).0, 1);
        let extended = [0xF0, 0xFF, 0xFD, 0x41, 0x41, 0xF2];
        assert_eq!(trace_read(&extended, out).0, 0x0000_0001_FDFF_0100);
        let (bytes, state, counts) = (&mut [0; HELD_LEN], &mut 0, &mut 0);
        let mut feed = |input: &[u8]| {
            let done = trace_feed(bytes, state, counts, input);
            fed(done, (*state, *counts))
        };
        assert_eq!(feed(&[0xF1, 0x00, 0xF2]), (3, 0, 0, (0, 3)));
        assert_eq!(feed(&[0xF1, 0x41]), (2, 0x200, 0, (4 + 1, 5)));
        assert_eq!(feed(&[0x41, 0xF2, 0x41]), (2, 1 << 32, 3, (0, 7)));
        assert_eq!(feed(&[0x41; 65_537]), (65_536, 0x200, 0, (0, 65_543)));
    }

    #[test]
    fn workout_answers_are_whole_numbers_of_the_layout() {
        let out = &mut [0; 23];
        assert_eq!(write_distance(2_000, 500, 200, out).0, 23 << 32);
        assert_eq!(write_distance(99, 99, 200, out).0, 12);
        assert_eq!(write_time(1_200, 24_000, 100, out).0, 23 << 32);
        assert_eq!(write_time(1_200, 24_000, 100, &mut []).0, 1);
        let wire = &mut [0; 28];
        let whole = write_distance_frame(0x05, 2_000, 500, 200, wire);
        assert_eq!(whole.0, 28 << 32);
        assert_eq!(write_distance_frame(0x105, 2_000, 500, 200, wire).0, 9);
        assert_eq!(write_distance_frame(0x05, 99, 99, 200, wire).0, 12);
        let whole = write_time_frame(0x05, 1_200, 24_000, 100, wire);
        assert_eq!(whole.0, 28 << 32);
        assert_eq!(write_time_frame(0x05, 1_200, 24_000, 100, out).0, 1);
    }

    /// What the independent implementation answers to a workout in a frame, as a number of the layout.
    fn framed_by_plain(address: u32, goal: Goal, watts: u16, out: &mut [u8]) -> u64 {
        match workout::write_frame(address, Workout { goal, watts }, out) {
            Ok(len) => (len as u64) << 32,
            Err(number) => number.into(),
        }
    }

    /// Addresses that are no bytes reach these functions from C alone, so they are compared here.
    #[test]
    fn workouts_are_framed_alike_for_any_number_as_an_address() {
        let beyond = [0x105, 0x1FC, 0x1_0005, 0x8000_0005, 0xFFFF_FF05, u32::MAX];
        let mut refused = 0;
        for address in (0..=300).chain(beyond) {
            for (number, split) in [(2_000, 0x01F0), (600, 0x4EF0), (99, 99)] {
                let (metres, seconds, watts) = (number, number, 0xF0F3);
                for room in 0..=60 {
                    let (mut ours, mut theirs) = ([0xA5; 60], [0xA5; 60]);
                    let answer =
                        write_distance_frame(address, metres, split, watts, &mut ours[..room]);
                    let goal = Goal::Distance { metres, split };
                    let expected = framed_by_plain(address, goal, watts, &mut theirs[..room]);
                    assert_eq!((answer.0, ours), (expected, theirs), "{address:#X}");
                    refused += usize::from(answer.0 == 9);
                    let answer =
                        write_time_frame(address, seconds, split, watts, &mut ours[..room]);
                    let goal = Goal::Time { seconds, split };
                    let expected = framed_by_plain(address, goal, watts, &mut theirs[..room]);
                    assert_eq!((answer.0, ours), (expected, theirs), "{address:#X}");
                }
            }
        }
        // Address 0, the 48 from 253 to 300, and those beyond.
        assert_eq!(refused, (1 + 48 + beyond.len()) * 3 * 61);
    }

    #[test]
    fn lease_answers_are_whole_numbers_of_the_layout() {
        let table = &mut [0; 2_048];
        let out = &mut [0; 16];
        assert_eq!(hold(table, 0x05, 71).0, 0);
        assert_eq!(hold(table, 0x05, 71).0, 10);
        assert_eq!(hold(table, 0x06, 0).0, 14);
        assert_eq!(stop(table, 0x05, 71, out).0, 11 << 32);
        assert_eq!(stop(table, 0x105, 71, out).0, 9);
        assert_eq!(release(table, 0x05, 72).0, 11);
        assert_eq!(release(table, 0x05, 71).0, 0);
        assert_eq!(release(&mut table[1..], 0x05, 71).0, 18);
    }

    /// `S02` with the data unit `w` has the checksum 00.
    const PACKET: [u8; 8] = *b"\x01S02w00\x17";

    #[test]
    fn a_packets_answer_is_taken_apart() {
        let told = Answer(0x0000_0002_3230_5300);
        assert!(told.accepted().is_ok());
        assert!(told.is_packet_told());
        let packet = told.packet_in(b"1.50");
        let header = Header::new(b"S02");
        let unit = b"1.";
        assert_eq!(packet, Packet { header, unit });
        assert!(!Answer(0).is_packet_told());
    }

    #[test]
    fn packet_answers_are_whole_numbers_of_the_layout() {
        let out = &mut [0; 256];
        let header = Header::new(b"S02");
        assert_eq!(packet_write(header, b"w", out).0, 8 << 32);
        assert_eq!(out[..8], PACKET);
        assert_eq!(packet_write(header, &[b'w'; 250], out).0, 2);
        assert_eq!(packet_write(Header::new(b"s02"), b"w", out).0, 22);
        assert_eq!(packet_write(header, b"w", &mut out[..7]).0, 1);
        assert_eq!(packet_read(&PACKET, out).0, 0x0000_0001_3230_5300);
        assert_eq!(packet_read(&PACKET, &mut []).0, 1);
        assert_eq!(packet_read(&PACKET[1..], out).0, 6);
        assert_eq!(packet_read(b"\x01S028\x17", out).0, 4);
        assert_eq!(packet_read(b"\x01S028A\x17", out).0, 22);
        assert_eq!(packet_read(b"\x01S0282\x17", out).0, 5);
    }

    #[test]
    fn packet_line_answers_are_whole_numbers_of_the_layout() {
        let (bytes, state) = (&mut [0; packet::HELD_LEN], &mut 0);
        let mut feed = |input: &[u8]| {
            let (taken, answer) = packet_feed(bytes, state, input);
            (taken, answer.0, *state)
        };
        assert_eq!(feed(&[]), (0, 0, 0));
        assert_eq!(feed(b"\x06\x17"), (2, 0, 0));
        assert_eq!(feed(&PACKET[..4]), (4, 0, 4 * 3 + 1));
        assert_eq!(feed(b"w00\x17\x06"), (4, 0x0000_0001_3230_5300, 0));
        assert_eq!(feed(b"\x01S0282\x17"), (7, 5, 0));
        assert_eq!(feed(b"\x01\x01"), (2, 6, 1));
        assert_eq!(feed(&[b'0'; 254]), (254, 0, 4 * 254 + 1));
        assert_eq!(feed(b"0"), (1, 0, 2));
        assert_eq!(feed(b"\x17"), (1, 2, 0));
        assert_eq!(feed(&[b'0'; 65_537]), (65_536, 0, 0));
    }

    #[test]
    fn a_packet_finish_answers_6_where_a_candidate_is_open() {
        for (open, answer) in [(0, 0), (4 * 3, 0), (1, 6), (4 * 254 + 1, 6), (2, 6), (3, 6)] {
            let mut state = open;
            assert_eq!((packet_finish(&mut state).0, state), (answer, 0), "{open}");
        }
    }
}
