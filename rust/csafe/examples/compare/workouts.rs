//! Workouts at and around their limits, and any others, as contents and in frames.

use csafe::workout::Goal;
use plain::workout::Goal as PlainGoal;

use crate::answer::Function;
use crate::both::make;
use crate::common::Xorshift;
use crate::tally::Tally;
use crate::{ours, theirs, Comparison};

/// Distances about which something changes: limits, whole kilometres, and where a number needs more bytes.
const DISTANCES: [u32; 9] = [
    0,
    100,
    256,
    1_000,
    2_000,
    49_000,
    50_000,
    65_536,
    0x8000_0000,
];

/// Times about which something changes.
const TIMES: [u32; 9] = [0, 20, 60, 256, 600, 3_600, 36_000, 65_536, 42_949_672];

const MOST_SPLITS: u32 = 30;

/// Lengths of outputs about that of a workout's contents, and about those of its frames.
const ROOMS: [usize; 12] = [0, 1, 22, 23, 24, 27, 28, 29, 30, 31, 32, 64];

/// Addresses about those that are taken, and some that are escaped.
const ADDRESSES: [u8; 8] = [0x00, 0x01, 0x05, 0xF0, 0xF3, 0xFC, 0xFD, 0xFF];

pub struct Workouts;

impl Comparison for Workouts {
    fn kind(&self) -> &'static str {
        "workouts"
    }

    fn step(&mut self, random: &mut Xorshift, tally: &mut Tally) -> Result<(), String> {
        let metres = any_goal(random, &DISTANCES, 50_100);
        let split = any_split(random, metres, 100);
        let distance = Written {
            contents: Function::WriteDistanceWorkout,
            frame: Function::WriteDistanceWorkoutFrame,
            ours: ours::distance(metres, split),
            theirs: theirs::distance(metres, split),
        };
        distance.write(random, tally)?;

        let seconds = any_goal(random, &TIMES, 36_100);
        let split = any_split(random, seconds.wrapping_mul(100), 2_000);
        let time = Written {
            contents: Function::WriteTimeWorkout,
            frame: Function::WriteTimeWorkoutFrame,
            ours: ours::time(seconds, split),
            theirs: theirs::time(seconds, split),
        };
        time.write(random, tally)
    }
}

/// A goal on both sides, and the functions that write it.
struct Written {
    contents: Function,
    frame: Function,
    ours: Goal,
    theirs: PlainGoal,
}

impl Written {
    /// Writes it as contents and in a frame, with any power.
    fn write(&self, random: &mut Xorshift, tally: &mut Tally) -> Result<(), String> {
        let watts = random.number() as u16;
        let arguments = || format!("{:X?}\nwatts {watts:#X}\n", self.theirs);
        let made = make(
            any_room(random),
            |out| ours::write_workout(self.ours, watts, out),
            |out| theirs::write_workout(self.theirs, watts, out),
        );
        tally.add(self.contents, made.check(self.contents, arguments)?);

        let address = any_address(random);
        let made = make(
            any_room(random),
            |out| ours::write_workout_frame(address, self.ours, watts, out),
            |out| theirs::write_workout_frame(address, self.theirs, watts, out),
        );
        let arguments = || format!("address {address:#X}\n{}", arguments());
        tally.add(self.frame, made.check(self.frame, arguments)?);
        Ok(())
    }
}

fn any_address(random: &mut Xorshift) -> u8 {
    match random.below(2) {
        0 => ADDRESSES[random.below(ADDRESSES.len())],
        _ => random.below(256) as u8,
    }
}

/// An edge or a number beside it, any number up to a bit above the limit, a whole thousand, or any number at all.
fn any_goal(random: &mut Xorshift, edges: &[u32], above: usize) -> u32 {
    match random.below(8) {
        0 | 1 => beside(edges[random.below(edges.len())], random),
        2 => random.number() as u32,
        3 => 1_000 * random.below(52) as u32,
        _ => random.below(above) as u32,
    }
}

/// A split about the least, the whole goal or a thirtieth of it, one in between, or any number at all. The goal is in
/// the split's unit.
fn any_split(random: &mut Xorshift, goal: u32, least: u32) -> u32 {
    match random.below(8) {
        0 => beside(least, random),
        1 => beside(goal, random),
        2 | 3 => beside(goal.div_ceil(MOST_SPLITS), random),
        4 => random.number() as u32,
        _ => random.below(goal.max(1) as usize) as u32,
    }
}

/// The number, the one before it or the one after it.
fn beside(number: u32, random: &mut Xorshift) -> u32 {
    number.wrapping_add(random.below(3) as u32).wrapping_sub(1)
}

fn any_room(random: &mut Xorshift) -> usize {
    ROOMS[random.below(ROOMS.len())]
}
