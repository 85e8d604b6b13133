//! Every call of the package, with its answer as plain data.

use csafe::frame::{self, Kind};
use csafe::line::{self, HELD_LEN};
use csafe::packet::{self, Header, HELD_LEN as PACKET_HELD_LEN};
use csafe::workout::{Goal, Hundredths, Metres, Seconds};
use csafe::{lease, Error, Frame, Located, Packet, Workout};
use plain::frame::Origin;

use crate::answer::Answer;
use crate::by_origin;

pub fn write_standard(origin: Origin, contents: &[u8], out: &mut [u8]) -> Answer {
    written(by_origin::write_standard(origin, contents, out))
}

pub fn write_extended(to: u8, from: u8, contents: &[u8], out: &mut [u8]) -> Answer {
    written(frame::write_extended(to, from, contents, out))
}

pub fn standard_length(origin: Origin, contents: &[u8]) -> Answer {
    written(by_origin::standard_length(origin, contents))
}

pub fn extended_length(to: u8, from: u8, contents: &[u8]) -> Answer {
    written(frame::extended_length(to, from, contents))
}

pub fn read(origin: Origin, wire: &[u8], out: &mut [u8]) -> Answer {
    told(by_origin::read(origin, wire, out))
}

pub fn feed(
    origin: Origin,
    bytes: &mut [u8; HELD_LEN],
    state: &mut u64,
    counts: &mut u64,
    input: &[u8],
) -> (usize, Answer) {
    let fed = by_origin::feed(origin, bytes, state, counts, input);
    let answer = match fed.told {
        None => Answer::nothing(),
        Some(Ok(Located { position, answer })) => told(Ok(answer)).at(position),
        Some(Err(refusal)) => located(refusal),
    };
    (fed.taken, answer)
}

pub fn finish(state: &mut u64, counts: &mut u64) -> Answer {
    line::finish(state, counts).map_or_else(located, |()| Answer::nothing())
}

pub fn distance(metres: u32, split: u32) -> Goal {
    Goal::Distance {
        distance: Metres(metres),
        split: Metres(split),
    }
}

pub fn time(seconds: u32, split: u32) -> Goal {
    Goal::Time {
        time: Seconds(seconds),
        split: Hundredths(split),
    }
}

pub fn write_workout(goal: Goal, watts: u16, out: &mut [u8]) -> Answer {
    written(Workout { goal, watts }.write(out))
}

pub fn write_workout_frame(address: u8, goal: Goal, watts: u16, out: &mut [u8]) -> Answer {
    written(Workout { goal, watts }.write_frame(address, out))
}

pub fn hold(table: &mut [u8], address: u32, token: u64) -> Answer {
    written(lease::hold(table, address, token).map(|()| 0))
}

pub fn release(table: &mut [u8], address: u32, token: u64) -> Answer {
    written(lease::release(table, address, token).map(|()| 0))
}

pub fn stop(table: &[u8], address: u32, token: u64, out: &mut [u8]) -> Answer {
    written(lease::stop(table, address, token, out))
}

pub fn packet_write(header: [u8; 3], unit: &[u8], out: &mut [u8]) -> Answer {
    written(packet::write(Header::new(&header), unit, out))
}

pub fn packet_read(wire: &[u8], out: &mut [u8]) -> Answer {
    told_packet(packet::read(wire, out))
}

pub fn packet_feed(
    bytes: &mut [u8; PACKET_HELD_LEN],
    state: &mut u64,
    input: &[u8],
) -> (usize, Answer) {
    let fed = packet::feed(bytes, state, input);
    (fed.taken, fed.told.map_or(Answer::nothing(), told_packet))
}

pub fn packet_finish(state: &mut u64) -> Answer {
    packet::finish(state).map_or_else(
        |error| Answer::refused(error.number()),
        |()| Answer::nothing(),
    )
}

fn told_packet(result: Result<Packet, Error>) -> Answer {
    match result {
        Ok(Packet { header, unit }) => Answer::packet(header.bytes(), unit.len()),
        Err(error) => Answer::refused(error.number()),
    }
}

fn written(result: Result<usize, Error>) -> Answer {
    match result {
        Ok(len) => Answer::done(len),
        Err(error) => Answer::refused(error.number()),
    }
}

fn located(refusal: Located<Error>) -> Answer {
    Answer::refused(refusal.answer.number()).at(refusal.position)
}

fn told(result: Result<Frame, Error>) -> Answer {
    let frame = match result {
        Ok(frame) => frame,
        Err(error) => return Answer::refused(error.number()),
    };
    let len = frame.contents.len();
    match frame.kind {
        Kind::Standard => Answer::standard(len),
        Kind::Extended { to, from } => Answer::extended(to, from, len),
    }
}
