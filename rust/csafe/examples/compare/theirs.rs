//! The same calls of the independent implementation.

use plain::damage;
use plain::frame::{self, Origin, Read};
use plain::lease;
use plain::line::{self, Line};
use plain::packet;
use plain::packet_line::{self, PacketLine};
use plain::refusal;
use plain::workout::{self, Goal, Workout};

use crate::answer::Answer;

pub fn write_standard(origin: Origin, contents: &[u8], out: &mut [u8]) -> Answer {
    written(frame::write_standard(origin, contents, out))
}

pub fn write_extended(to: u8, from: u8, contents: &[u8], out: &mut [u8]) -> Answer {
    written(frame::write_extended(to, from, contents, out))
}

pub fn standard_length(origin: Origin, contents: &[u8]) -> Answer {
    written(frame::standard_length(origin, contents))
}

pub fn extended_length(to: u8, from: u8, contents: &[u8]) -> Answer {
    written(frame::extended_length(to, from, contents))
}

pub fn read(origin: Origin, wire: &[u8], out: &mut [u8]) -> Answer {
    match frame::read(origin, wire, out) {
        Ok(read) => frame_answer(read),
        Err(number) => Answer::refused(number),
    }
}

/// What is foretold of reading a sound frame with a new byte at an index. A frame that is still accepted has the
/// contents that it had.
pub fn read_changed(
    origin: Origin,
    intact: &[u8],
    (index, new): (usize, u8),
    contents: &[u8],
    out: &mut [u8],
) -> Answer {
    let foretold = damage::read_changed(origin, intact, index, new);
    let read = match foretold.expect("the frame is sound") {
        Ok(read) => read,
        Err(number) => return Answer::refused(number),
    };
    let Some(room) = out.get_mut(..contents.len()) else {
        return Answer::refused(refusal::NO_ROOM);
    };
    room.copy_from_slice(contents);
    frame_answer(read)
}

/// Feeds one byte.
pub fn feed(line: &mut Line, byte: u8) -> Answer {
    line_answer(line.feed(byte))
}

pub fn finish(line: &mut Line) -> Answer {
    line_answer(line.finish())
}

pub fn distance(metres: u32, split: u32) -> Goal {
    Goal::Distance { metres, split }
}

pub fn time(seconds: u32, split: u32) -> Goal {
    Goal::Time { seconds, split }
}

pub fn write_workout(goal: Goal, watts: u16, out: &mut [u8]) -> Answer {
    written(workout::write(Workout { goal, watts }, out))
}

pub fn write_workout_frame(address: u8, goal: Goal, watts: u16, out: &mut [u8]) -> Answer {
    written(workout::write_frame(
        address.into(),
        Workout { goal, watts },
        out,
    ))
}

pub fn hold(table: &mut [u8], address: u32, token: u64) -> Answer {
    written(lease::hold(table, address, token).map(|()| 0))
}

pub fn release(table: &mut [u8], address: u32, token: u64) -> Answer {
    written(lease::release(table, address, token).map(|()| 0))
}

pub fn stop(table: &[u8], address: u32, token: u64, out: &mut [u8]) -> Answer {
    written(lease::stop(table, address, token, out))
}

pub fn packet_write(header: [u8; 3], unit: &[u8], out: &mut [u8]) -> Answer {
    written(packet::write(header, unit, out))
}

pub fn packet_read(wire: &[u8], out: &mut [u8]) -> Answer {
    packet_answer(Some(packet::read(wire, out)))
}

/// Feeds one byte.
pub fn packet_feed(line: &mut PacketLine, byte: u8) -> Answer {
    packet_answer(line.feed(byte))
}

pub fn packet_finish(line: &mut PacketLine) -> Answer {
    packet_answer(line.finish())
}

fn packet_answer(answer: Option<packet_line::Answer>) -> Answer {
    match answer {
        None => Answer::nothing(),
        Some(Ok(packet::Read { header, len })) => Answer::packet(header, len),
        Some(Err(number)) => Answer::refused(number),
    }
}

fn written(result: Result<usize, u8>) -> Answer {
    result.map_or_else(Answer::refused, Answer::done)
}

fn frame_answer(read: Read) -> Answer {
    match read {
        Read::Standard { len } => Answer::standard(len),
        Read::Extended { to, from, len } => Answer::extended(to, from, len),
    }
}

fn line_answer(answer: line::Answer) -> Answer {
    match answer {
        line::Answer::Nothing => Answer::nothing(),
        line::Answer::Frame { position, frame } => frame_answer(frame).at(position),
        line::Answer::Refused { position, code } => Answer::refused(code).at(position),
    }
}
