//! The contents that program a fixed distance or fixed time workout, and the
//! frame that takes them to a machine.

use crate::frame::{self, HOST};
use crate::refusal;

const SET_TIME: u8 = 0x20;
const SET_DISTANCE: u8 = 0x21;
const SPLIT_TIME: u8 = 0x00;
const SPLIT_DISTANCE: u8 = 0x80;
const UNIT_KILOMETRES: u8 = 0x21;
const UNIT_METRES: u8 = 0x24;

const SPLITS_MAX: u32 = 30;
const CONTENTS_LEN: usize = 23;

/// What is rowed. The split of a distance is in metres, that of a time in
/// hundredths of a second.
#[derive(Clone, Copy, Debug, PartialEq, Eq)]
pub enum Goal {
    Distance { metres: u32, split: u32 },
    Time { seconds: u32, split: u32 },
}

#[derive(Clone, Copy, Debug, PartialEq, Eq)]
pub struct Workout {
    pub goal: Goal,
    pub watts: u16,
}

/// Reads a workout from a frame's contents.
///
/// Refusals, in this order: 13, 12.
#[rustfmt::skip]
pub fn read(contents: &[u8]) -> Result<Workout, u8> {
    let &[
        goal, 0x03, a, b, c,
        0x1A, 0x07, 0x05, 0x05, identifier, s0, s1, s2, s3,
        0x34, 0x03, watts_low, watts_high, 0x58,
        0x24, 0x02, 0x00, 0x00,
    ] = contents else {
        return Err(refusal::NOT_WORKOUT);
    };
    let split = u32::from_le_bytes([s0, s1, s2, s3]);
    let distance = u32::from(u16::from_le_bytes([a, b]));
    let goal = match (goal, identifier, c) {
        (SET_DISTANCE, SPLIT_DISTANCE, UNIT_KILOMETRES) => {
            Goal::Distance { metres: 1_000 * distance, split }
        }
        (SET_DISTANCE, SPLIT_DISTANCE, UNIT_METRES) => Goal::Distance { metres: distance, split },
        (SET_TIME, SPLIT_TIME, _) => Goal::Time { seconds: seconds(a, b, c)?, split },
        _ => return Err(refusal::NOT_WORKOUT),
    };
    check(goal)?;
    Ok(Workout { goal, watts: u16::from_le_bytes([watts_low, watts_high]) })
}

/// Writes a workout as a frame's contents and returns their length.
///
/// Refusals, in this order: 12, 1.
#[rustfmt::skip]
pub fn write(workout: Workout, out: &mut [u8]) -> Result<usize, u8> {
    check(workout.goal)?;
    let (goal, [a, b, c], identifier, split) = match workout.goal {
        Goal::Distance { metres, split } => {
            (SET_DISTANCE, distance_bytes(metres), SPLIT_DISTANCE, split)
        }
        Goal::Time { seconds, split } => (SET_TIME, time_bytes(seconds), SPLIT_TIME, split),
    };
    let [s0, s1, s2, s3] = split.to_le_bytes();
    let [watts_low, watts_high] = workout.watts.to_le_bytes();
    let contents = [
        goal, 0x03, a, b, c,
        0x1A, 0x07, 0x05, 0x05, identifier, s0, s1, s2, s3,
        0x34, 0x03, watts_low, watts_high, 0x58,
        0x24, 0x02, 0x00, 0x00,
    ];
    out.get_mut(..contents.len())
        .ok_or(refusal::NO_ROOM)?
        .copy_from_slice(&contents);
    Ok(contents.len())
}

/// Writes an extended frame from the host to this address with the workout as its
/// contents, and returns its length on the wire.
///
/// Refusals, in this order: 9, 12, 1.
pub fn write_frame(address: u32, workout: Workout, out: &mut [u8]) -> Result<usize, u8> {
    let machine = frame::machine(address)?;
    let mut contents = [0; CONTENTS_LEN];
    write(workout, &mut contents)?;
    frame::write_extended(machine, HOST, &contents, out)
}

/// Checks the limits. The number of splits, rounded up, is at most 30 exactly
/// when 30 splits reach the goal.
fn check(goal: Goal) -> Result<(), u8> {
    let kept = match goal {
        Goal::Distance { metres, split } => {
            (100..=50_000).contains(&metres)
                && (100..=metres).contains(&split)
                && metres <= SPLITS_MAX * split
        }
        Goal::Time { seconds, split } => {
            (20..=35_999).contains(&seconds)
                && (2_000..=100 * seconds).contains(&split)
                && 100 * seconds <= SPLITS_MAX * split
        }
    };
    kept.then_some(()).ok_or(refusal::LIMITS)
}

fn seconds(hours: u8, minutes: u8, seconds: u8) -> Result<u32, u8> {
    if minutes > 59 || seconds > 59 {
        return Err(refusal::LIMITS);
    }
    Ok(u32::from(hours) * 3_600 + u32::from(minutes) * 60 + u32::from(seconds))
}

/// Low byte, high byte and unit of a distance within the limits.
fn distance_bytes(metres: u32) -> [u8; 3] {
    let (number, unit) = if metres.is_multiple_of(1_000) {
        (metres / 1_000, UNIT_KILOMETRES)
    } else {
        (metres, UNIT_METRES)
    };
    let [low, high, ..] = number.to_le_bytes();
    [low, high, unit]
}

/// Hours, minutes and seconds of a time within the limits.
fn time_bytes(seconds: u32) -> [u8; 3] {
    [seconds / 3_600, seconds / 60 % 60, seconds % 60].map(|part| part as u8)
}
