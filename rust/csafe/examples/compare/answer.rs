//! Answers as plain data, and what each function can answer.

use std::fmt;

use Outcome::{Accepted, Nothing, Refused};

/// The kinds of a result. A line reader that told nothing has a kind of its own.
pub const STANDARD: u8 = 0;
pub const EXTENDED: u8 = 1;
pub const NOTHING: u8 = 2;

/// What a call answered: a refusal's number or 0, of a frame its kind and addresses, of a packet its header, of a
/// result its length, and of what a line reader told its position. They are 0 where there are none.
#[derive(Clone, Copy, Debug, Default, PartialEq, Eq)]
pub struct Answer {
    pub number: u8,
    pub kind: u8,
    pub to: u8,
    pub from: u8,
    pub header: [u8; 3],
    pub len: usize,
    pub position: u32,
}

impl Answer {
    pub fn refused(number: u8) -> Answer {
        Answer {
            number,
            ..Answer::default()
        }
    }

    /// A result of this length that is no frame and no packet read.
    pub fn done(len: usize) -> Answer {
        Answer {
            len,
            ..Answer::default()
        }
    }

    pub fn standard(len: usize) -> Answer {
        Answer {
            kind: STANDARD,
            ..Answer::done(len)
        }
    }

    pub fn extended(to: u8, from: u8, len: usize) -> Answer {
        Answer {
            kind: EXTENDED,
            to,
            from,
            ..Answer::done(len)
        }
    }

    pub fn packet(header: [u8; 3], len: usize) -> Answer {
        Answer {
            header,
            ..Answer::done(len)
        }
    }

    pub fn nothing() -> Answer {
        Answer {
            kind: NOTHING,
            ..Answer::default()
        }
    }

    pub fn at(self, position: u32) -> Answer {
        Answer { position, ..self }
    }

    pub fn outcome(self) -> Outcome {
        match (self.number, self.kind) {
            (0, NOTHING) => Nothing,
            (0, _) => Accepted,
            (number, _) => Refused(number),
        }
    }
}

impl fmt::Display for Answer {
    fn fmt(&self, f: &mut fmt::Formatter<'_>) -> fmt::Result {
        let Answer {
            number,
            kind,
            to,
            from,
            header,
            len,
            position,
        } = self;
        write!(
            f,
            "number {number}, kind {kind}, to 0x{to:02X}, from 0x{from:02X}, header {header:02X?}, length {len}, position {position}"
        )
    }
}

/// What is counted of an answer.
#[derive(Clone, Copy)]
pub enum Outcome {
    Accepted,
    Nothing,
    Refused(u8),
}

/// The exported functions, and the listing program.
#[derive(Clone, Copy)]
pub enum Function {
    WriteStandard,
    WriteExtended,
    StandardLength,
    ExtendedLength,
    Read,
    Feed,
    Finish,
    TraceWriteStandard,
    TraceStandardLength,
    TraceRead,
    TraceFeed,
    WriteDistanceWorkout,
    WriteTimeWorkout,
    WriteDistanceWorkoutFrame,
    WriteTimeWorkoutFrame,
    Hold,
    Release,
    Stop,
    PacketWrite,
    PacketRead,
    PacketFeed,
    PacketFinish,
    Listing,
}

/// Each function with its name and every answer that it can give.
#[rustfmt::skip]
pub const FUNCTIONS: [(Function, &str, &[Outcome]); 23] = [
    (Function::WriteStandard, "csafe_write_standard", &[Refused(17)]),
    (Function::WriteExtended, "csafe_write_extended", &[Accepted, Refused(2), Refused(1)]),
    (Function::StandardLength, "csafe_standard_length", &[Refused(17)]),
    (Function::ExtendedLength, "csafe_extended_length", &[Accepted, Refused(2)]),
    (Function::Read, "csafe_read",
        &[Accepted, Refused(6), Refused(2), Refused(3), Refused(4), Refused(5), Refused(17), Refused(1)]),
    (Function::Feed, "csafe_feed",
        &[Accepted, Nothing, Refused(16), Refused(6), Refused(2), Refused(3), Refused(4), Refused(5), Refused(17)]),
    (Function::Finish, "csafe_finish", &[Nothing, Refused(6)]),
    (Function::TraceWriteStandard, "csafe_trace_write_standard", &[Accepted, Refused(2), Refused(1)]),
    (Function::TraceStandardLength, "csafe_trace_standard_length", &[Accepted, Refused(2)]),
    (Function::TraceRead, "csafe_trace_read",
        &[Accepted, Refused(6), Refused(2), Refused(3), Refused(4), Refused(5), Refused(1)]),
    (Function::TraceFeed, "csafe_trace_feed",
        &[Accepted, Nothing, Refused(16), Refused(6), Refused(2), Refused(3), Refused(4), Refused(5)]),
    (Function::WriteDistanceWorkout, "csafe_write_distance_workout", &[Accepted, Refused(12), Refused(1)]),
    (Function::WriteTimeWorkout, "csafe_write_time_workout", &[Accepted, Refused(12), Refused(1)]),
    (Function::WriteDistanceWorkoutFrame, "csafe_write_distance_workout_frame",
        &[Accepted, Refused(9), Refused(12), Refused(1)]),
    (Function::WriteTimeWorkoutFrame, "csafe_write_time_workout_frame",
        &[Accepted, Refused(9), Refused(12), Refused(1)]),
    (Function::Hold, "csafe_hold", &[Accepted, Refused(18), Refused(9), Refused(14), Refused(10)]),
    (Function::Release, "csafe_release", &[Accepted, Refused(18), Refused(9), Refused(11)]),
    (Function::Stop, "csafe_stop", &[Accepted, Refused(18), Refused(9), Refused(11), Refused(1)]),
    (Function::PacketWrite, "csafe_packet_write", &[Accepted, Refused(2), Refused(22), Refused(1)]),
    (Function::PacketRead, "csafe_packet_read",
        &[Accepted, Refused(6), Refused(2), Refused(4), Refused(22), Refused(5), Refused(1)]),
    (Function::PacketFeed, "csafe_packet_feed",
        &[Accepted, Nothing, Refused(6), Refused(2), Refused(4), Refused(22), Refused(5)]),
    (Function::PacketFinish, "csafe_packet_finish", &[Nothing, Refused(6)]),
    (Function::Listing, "listing", &[Accepted, Refused(6), Refused(2), Refused(3), Refused(4), Refused(5)]),
];

impl Function {
    pub fn name(self) -> &'static str {
        FUNCTIONS[self as usize].1
    }
}
