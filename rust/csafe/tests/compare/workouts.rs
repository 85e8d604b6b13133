//! Workouts written on both sides, as contents and in a frame, and read back: contents by the independent side, frames
//! by our live calls.

use csafe::frame::{self, Frame, Kind};
use csafe::workout::{Goal, Hundredths, Metres, Seconds, Workout, FRAME_LIMIT, LEN};
use csafe::{Error, LineReader, Located};
use plain::workout as plain_rust;

use crate::common::Xorshift;
use crate::output::{same, told, Output};
use crate::tally::Tally;

const WATTS: [u16; 9] = [0, 1, 0xFF, 0x100, 0x101, 0x7FFF, 0x8000, 0xFFFE, 0xFFFF];

/// Lengths of outputs about that of a workout's contents.
const ROOMS: [usize; 6] = [0, 1, 22, 23, 24, 64];

const MOST_SPLITS: u32 = 30;

fn distance(metres: u32, split: u32, watts: u16) -> Workout {
    let goal = Goal::Distance {
        distance: Metres(metres),
        split: Metres(split),
    };
    Workout { goal, watts }
}

fn time(seconds: u32, split: u32, watts: u16) -> Workout {
    let goal = Goal::Time {
        time: Seconds(seconds),
        split: Hundredths(split),
    };
    Workout { goal, watts }
}

/// The same workout on the independent side.
fn theirs(workout: Workout) -> plain_rust::Workout {
    let goal = match workout.goal {
        Goal::Distance { distance, split } => plain_rust::Goal::Distance {
            metres: distance.0,
            split: split.0,
        },
        Goal::Time { time, split } => plain_rust::Goal::Time {
            seconds: time.0,
            split: split.0,
        },
    };
    plain_rust::Workout {
        goal,
        watts: workout.watts,
    }
}

fn write_on_both(workout: Workout, room: usize) -> Result<usize, u8> {
    let (mut our_output, mut their_output) = (Output::new(room), Output::new(room));
    let input = || format!("writing {workout:?} with room {room}");
    let ours = workout.write(our_output.lent()).map_err(Error::number);
    let their_answer = plain_rust::write(theirs(workout), their_output.lent());
    same(
        (&ours, &our_output),
        (&their_answer, &their_output),
        |len| *len,
        &input,
    );
    if let Ok(len) = ours {
        let written = our_output.result(len);
        assert!(
            plain_rust::read(written) == Ok(theirs(workout)),
            "it reads back otherwise: {}",
            told(&input)
        );
        assert!(
            workout
                .to_contents()
                .is_ok_and(|contents| contents == written),
            "the contents differ from those written: {}",
            told(&input)
        );
    }
    ours
}

/// A number, the one below it and the one above it, where they exist.
fn about(numbers: &[u32]) -> Vec<u32> {
    let mut all = Vec::new();
    for number in numbers {
        all.extend(number.checked_sub(1));
        all.push(*number);
        all.extend(number.checked_add(1));
    }
    all
}

/// Splits about the least one, the goal, and the one that gives thirty splits, for a goal in the split's unit.
fn split_edges(goal: u32, least: u32) -> Vec<u32> {
    about(&[
        0,
        least,
        goal,
        goal / MOST_SPLITS,
        goal / 2,
        0xFFFF,
        0x1_0000,
        0x8000_0000,
        u32::MAX,
    ])
}

#[test]
fn distances_at_every_edge_are_written_alike() {
    let goals = about(&[
        0,
        100,
        255,
        256,
        1_000,
        2_000,
        3_000,
        49_000,
        50_000,
        65_535,
        65_536,
        0x8000_0000,
        u32::MAX,
    ]);
    for metres in goals {
        for split in split_edges(metres, 100) {
            for watts in WATTS {
                for room in ROOMS {
                    let _ = write_on_both(distance(metres, split, watts), room);
                }
            }
        }
    }
}

#[test]
fn times_at_every_edge_are_written_alike() {
    let goals = about(&[
        0,
        20,
        59,
        60,
        255,
        256,
        600,
        3_600,
        7_200,
        35_999,
        36_000,
        65_536,
        42_949_672,
        u32::MAX,
    ]);
    for seconds in goals {
        for split in split_edges(seconds.wrapping_mul(100), 2_000) {
            for watts in WATTS {
                for room in ROOMS {
                    let _ = write_on_both(time(seconds, split, watts), room);
                }
            }
        }
    }
}

#[test]
fn every_distance_is_written_alike_at_its_edges() {
    for metres in 90..=50_010 {
        for split in about(&[100, metres, metres.div_ceil(MOST_SPLITS)]) {
            let _ = write_on_both(distance(metres, split, 200), LEN);
        }
    }
}

#[test]
fn every_time_is_written_alike_at_its_edges() {
    for seconds in 10..=36_010 {
        let goal = 100 * seconds;
        for split in about(&[2_000, goal, goal.div_ceil(MOST_SPLITS)]) {
            let _ = write_on_both(time(seconds, split, 200), LEN);
        }
    }
}

#[test]
fn random_workouts_are_written_alike() {
    let mut random = Xorshift::new();
    let mut written = 0;
    for _ in 0..200_000 {
        let watts = random.below(0x1_0000) as u16;
        let room = ROOMS[random.below(ROOMS.len())];
        let wide = random.below(8) == 0;
        let goal = if wide {
            random.number() as u32
        } else {
            random.below(60_000) as u32
        };
        let split = if wide {
            random.number() as u32
        } else {
            random.below(60_000) as u32
        };
        let distance = write_on_both(distance(goal, split, watts), room);
        let time = write_on_both(time(goal, split.wrapping_mul(60), watts), room);
        written += usize::from(distance.is_ok()) + usize::from(time.is_ok());
    }
    assert!(written > 10_000, "only {written} workouts were written");
}

#[test]
fn the_papers_thirty_splits() {
    assert_eq!(write_on_both(distance(50_000, 1_667, 200), 23), Ok(23));
    assert_eq!(write_on_both(distance(50_000, 1_666, 200), 23), Err(12));
}

/// Lengths of outputs up to one that has room for every frame with a workout.
const FRAME_ROOMS: std::ops::RangeInclusive<usize> = 0..=60;

/// A workout whose frame to the address F0 has an escape in each place that can have one. No workout's is longer.
const LONGEST: (u32, u32, u16) = (12_528, 4_336, 0xF0F0);
const LONGEST_LEN: usize = 34;

/// Within the limits, with bytes among them that are escaped.
fn within() -> [Workout; 6] {
    let (metres, split, watts) = LONGEST;
    [
        distance(2_000, 500, 200),
        distance(50_000, 1_667, 0xF2F3),
        distance(2_001, 0xF1, 0xF0F1),
        distance(metres, split, watts),
        time(1_200, 24_000, 100),
        time(35_999, 119_997, 0xF3F0),
    ]
}

/// Outside of each limit by itself: the least and the greatest goal, the least and the greatest split, and thirty
/// splits. A goal under the least has no split within the limits, so it stands with one below them and one above.
fn outside() -> [Workout; 13] {
    [
        distance(99, 99, 200),
        distance(99, 100, 200),
        distance(50_001, 1_667, 200),
        distance(u32::MAX, u32::MAX, 0xFFFF),
        distance(2_000, 99, 200),
        distance(2_000, 2_001, 200),
        distance(50_000, 1_666, 200),
        time(19, 1_900, 100),
        time(19, 2_000, 100),
        time(36_000, 120_000, 100),
        time(500, 1_999, 100),
        time(1_200, 120_001, 100),
        time(1_200, 3_999, 100),
    ]
}

/// Writes a workout in a frame on both sides and answers what both said.
fn framed_on_both(address: u8, workout: Workout, room: usize) -> Result<usize, u8> {
    let (mut our_output, mut their_output) = (Output::new(room), Output::new(room));
    let ours = workout.write_frame(address, our_output.lent());
    let ours = ours.map_err(Error::number);
    let their_answer =
        plain_rust::write_frame(address.into(), theirs(workout), their_output.lent());
    same(
        (&ours, &our_output),
        (&their_answer, &their_output),
        |len| *len,
        &|| format!("framing {workout:?} to {address:02X} with room {room}"),
    );
    if let Ok(len) = ours {
        check_read_live(address, workout, our_output.result(len));
    }
    ours
}

/// The frame is read on a live line, from a slice and by a reader, as an extended one from the host with the workout's
/// contents.
fn check_read_live(address: u8, workout: Workout, wire: &[u8]) {
    let contents = &workout.to_contents().expect("it was written");
    let kind = Kind::Extended {
        to: address,
        from: 0x00,
    };
    let expected = Frame { kind, contents };
    let mut out = [0; LEN];
    assert_eq!(frame::read(wire, &mut out), Ok(expected));
    let mut reader = LineReader::new();
    let fed = reader.feed(wire);
    let told = Located {
        position: 0,
        answer: expected,
    };
    assert_eq!((fed.taken, fed.told), (wire.len(), Some(Ok(told))));
}

#[test]
fn workouts_are_framed_alike_for_every_address_and_room() {
    let mut tally = Tally::default();
    for address in 0..=u8::MAX {
        for workout in within().into_iter().chain(outside()) {
            for room in FRAME_ROOMS {
                tally.add(&framed_on_both(address, workout, room));
            }
        }
    }
    tally.has_each(&[0, 1, 9, 12], 1_000);
}

#[test]
fn workouts_outside_of_each_limit_are_refused() {
    for workout in within() {
        assert_eq!(write_on_both(workout, LEN), Ok(LEN), "{workout:?}");
        let framed = framed_on_both(0x05, workout, FRAME_LIMIT);
        assert!(framed.is_ok(), "{workout:?}: {framed:?}");
    }
    for workout in outside() {
        assert_eq!(write_on_both(workout, LEN), Err(12), "{workout:?}");
        let framed = framed_on_both(0x05, workout, FRAME_LIMIT);
        assert_eq!(framed, Err(12), "{workout:?}");
    }
}

/// The address is looked at first, then the limits, then the room.
#[test]
fn workouts_in_frames_are_refused_in_order() {
    let (kept, beyond) = (distance(2_000, 500, 200), distance(99, 99, 200));
    for address in [0x00, 0xFD, 0xFE, 0xFF] {
        assert_eq!(framed_on_both(address, beyond, 0), Err(9));
        assert_eq!(framed_on_both(address, kept, 0), Err(9));
        assert_eq!(framed_on_both(address, kept, 60), Err(9));
    }
    for address in [0x01, 0xF1, 0xFC] {
        assert_eq!(framed_on_both(address, beyond, 0), Err(12));
        assert_eq!(framed_on_both(address, kept, 0), Err(1));
    }
    assert_eq!(framed_on_both(0x05, kept, 27), Err(1));
    assert_eq!(framed_on_both(0x05, kept, 28), Ok(28));
}

#[test]
fn random_workouts_are_framed_alike() {
    let mut random = Xorshift::new();
    let mut tally = Tally::default();
    for _ in 0..200_000 {
        let (address, watts) = (random.below(256) as u8, random.number() as u16);
        let (goal, split) = (random.below(60_000) as u32, random.below(60_000) as u32);
        let room = random.below(*FRAME_ROOMS.end() + 1);
        for workout in [distance(goal, split, watts), time(goal, 60 * split, watts)] {
            tally.add(&framed_on_both(address, workout, room));
        }
    }
    tally.has_each(&[0, 1, 9, 12], 1_000);
}

/// A number below the limit, in half of all cases with F0 to F3 as its lowest byte.
fn often_escaped(random: &mut Xorshift, limit: usize) -> u32 {
    let number = random.below(limit) as u32;
    match random.below(2) {
        0 => number,
        _ => number & !0xFF | (0xF0 + random.below(4) as u32),
    }
}

/// Writes a workout in a frame on both sides, with an output of the limit's length, and answers what both said.
fn framed_in_limit(address: u8, workout: Workout) -> Result<usize, u8> {
    let framed = framed_on_both(address, workout, FRAME_LIMIT);
    assert_ne!(framed, Err(1), "{workout:?} to {address:02X}");
    framed
}

#[test]
fn an_output_of_the_limit_has_room_for_the_longest_frame() {
    let (metres, split, watts) = LONGEST;
    let framed = framed_in_limit(0xF0, distance(metres, split, watts));
    assert_eq!(framed, Ok(LONGEST_LEN));
}

#[test]
fn an_output_of_the_limit_has_room_for_random_frames() {
    let mut random = Xorshift::new();
    let mut tally = Tally::default();
    let mut longest = 0;
    for _ in 0..200_000 {
        let address = often_escaped(&mut random, 0xFC) as u8;
        let watts = random.bytes(2, 50).try_into().map(u16::from_le_bytes);
        let watts = watts.expect("there are two");
        let goal = often_escaped(&mut random, 60_000);
        let split = often_escaped(&mut random, 60_000);
        let hundredths = often_escaped(&mut random, 3_600_000);
        for workout in [distance(goal, split, watts), time(goal, hundredths, watts)] {
            let framed = framed_in_limit(address, workout);
            longest = longest.max(framed.unwrap_or(0));
            tally.add(&framed);
        }
    }
    tally.has_each(&[0, 9, 12], 100);
    assert_eq!(longest, LONGEST_LEN);
}
