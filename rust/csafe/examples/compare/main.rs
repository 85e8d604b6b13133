//! Compares the proved library with the independent implementation in Rust on as many random inputs as asked for.
//!
//!     cargo run --release --example compare -- [CALLS] [SEED]
//!
//! Every exported function is called with well-formed, damaged and random inputs, those for a live line and those for
//! traces with inputs of the same kinds. Sound frames with one byte changed are read too, and the answer is foretold
//! from the frame before the change. Line readers begin new, or nearly full. Treadmill packets are written, read,
//! damaged and read again, and fed to packet readers. The listing program lists traces of many frames. Answers are
//! compared, with their positions, and so are outputs, tables and readers, whole, with the bytes around them. The first
//! difference ends the program with exit status 1 and the input that shows it. At the end stands a table of what each
//! function answered, so that one sees that each refusal was met.
//!
//! The listing program is made with `rt run` in crates/listing, unless `CSAFE_LISTING` names a ready one.

mod answer;
mod both;
#[path = "../../tests/common/by_origin.rs"]
mod by_origin;
#[path = "../../tests/common/mod.rs"]
mod common;
#[path = "../../tests/common/frame_damage.rs"]
mod frame_damage;
mod frames;
#[path = "../../tests/common/held.rs"]
mod held;
#[path = "../../tests/common/lease_calls.rs"]
mod lease_calls;
mod leases;
#[path = "../../tests/common/output.rs"]
mod lent_output;
mod lines;
#[path = "../../tests/common/listed.rs"]
mod listed;
mod listings;
mod ours;
#[path = "../../tests/common/packet_damage.rs"]
mod packet_damage;
#[path = "../../tests/common/packet_held.rs"]
mod packet_held;
mod packet_lines;
mod packets;
#[path = "../../tests/common/program.rs"]
mod program;
mod progress;
mod tally;
mod theirs;
#[path = "../../tests/common/traces.rs"]
mod traces;
mod workouts;

use std::env;
use std::process::ExitCode;

use common::{Xorshift, SEED};
use plain::frame::Origin;

use frames::Frames;
use leases::Leases;
use lines::Lines;
use listings::Listings;
use packet_lines::PacketLines;
use packets::Packets;
use progress::Progress;
use tally::{grouped, Tally};
use workouts::Workouts;

const USAGE: &str = "usage: compare [CALLS] [SEED]
CALLS is how many calls are made at least, 1,000,000 if it is left out.
SEED is a number other than 0, decimal or hexadecimal with 0x before it.";

/// Where nothing else is asked for.
const CALLS: u64 = 1_000_000;

/// From this many calls on, each function has to have given every answer that it can give.
const ENOUGH: u64 = 1_000_000;

/// One kind of inputs.
trait Comparison {
    fn kind(&self) -> &'static str;

    /// Makes some calls on both sides and counts them. A difference is told with the input that shows it.
    fn step(&mut self, random: &mut Xorshift, tally: &mut Tally) -> Result<(), String>;
}

fn main() -> ExitCode {
    let arguments: Vec<String> = env::args().skip(1).collect();
    let (calls, seed) = match asked(&arguments) {
        Ok(asked) => asked,
        Err(problem) => {
            eprintln!("compare: {problem}\n{USAGE}");
            return ExitCode::from(2);
        }
    };
    match run(calls, seed) {
        Ok(()) => ExitCode::SUCCESS,
        Err(problem) => {
            eprintln!("{problem}");
            ExitCode::FAILURE
        }
    }
}

/// The number of calls and the seed.
fn asked(arguments: &[String]) -> Result<(u64, u64), String> {
    if arguments.len() > 2 {
        return Err(format!("{} arguments are too many", arguments.len()));
    }
    let calls = arguments.first().map_or(Ok(CALLS), |text| number(text))?;
    let seed = arguments.get(1).map_or(Ok(SEED), |text| number(text))?;
    if calls == 0 || seed == 0 {
        return Err("0 is no number of calls and no seed".to_string());
    }
    Ok((calls, seed))
}

/// A decimal or hexadecimal number, whose digits may be grouped with `_` or a comma.
fn number(text: &str) -> Result<u64, String> {
    let digits = text.replace(['_', ','], "");
    let number = match digits.strip_prefix("0x") {
        Some(digits) => u64::from_str_radix(digits, 16),
        None => digits.parse(),
    };
    number.map_err(|error| format!("`{text}` is not a number that can be taken: {error}"))
}

fn run(calls: u64, seed: u64) -> Result<(), String> {
    let mut comparisons = comparisons(calls);
    let mut tally = Tally::new();
    let mut progress = Progress::new(calls);
    let compared = compare(calls, seed, &mut comparisons, &mut tally, &mut progress);
    let seconds = progress.end().as_secs_f64();
    let made = grouped(tally.calls());
    compared.map_err(|difference| {
        format!("after {made} calls of seed {seed:#X} the two sides differ in {difference}")
    })?;
    println!("{made} calls of seed {seed:#X} in {seconds:.1} s, and no difference\n");
    tally.print();
    let mut problems = tally.gaps(tally.calls() >= ENOUGH);
    problems.extend(tally.strangers());
    match problems.is_empty() {
        true => Ok(()),
        false => Err(problems.join("\n")),
    }
}

/// Each kind with the calls that are made in turn.
type Shares = [(u64, Box<dyn Comparison>); 9];

fn comparisons(calls: u64) -> Shares {
    let share = (calls / 100).clamp(100, 20_000);
    [
        (share, Box::new(Frames::new(Origin::Live))),
        (share, Box::new(Frames::new(Origin::Trace))),
        (share, Box::new(Lines::new(Origin::Live))),
        (share, Box::new(Lines::new(Origin::Trace))),
        (share, Box::new(Workouts)),
        (share, Box::new(Leases::new())),
        (share, Box::new(Packets::default())),
        (share, Box::new(PacketLines::new())),
        (1, Box::new(Listings::new())),
    ]
}

/// Makes at least so many calls, or ends with the first difference.
fn compare(
    calls: u64,
    seed: u64,
    comparisons: &mut Shares,
    tally: &mut Tally,
    progress: &mut Progress,
) -> Result<(), String> {
    let mut random = Xorshift::seeded(seed);
    while tally.calls() < calls {
        take_turns(comparisons, &mut random, tally, progress)?;
    }
    Ok(())
}

fn take_turns(
    comparisons: &mut Shares,
    random: &mut Xorshift,
    tally: &mut Tally,
    progress: &mut Progress,
) -> Result<(), String> {
    for (share, comparison) in comparisons {
        let until = tally.calls() + *share;
        take_turn(comparison.as_mut(), until, random, tally)?;
        progress.tell(tally.calls(), comparison.kind());
    }
    Ok(())
}

fn take_turn(
    comparison: &mut dyn Comparison,
    until: u64,
    random: &mut Xorshift,
    tally: &mut Tally,
) -> Result<(), String> {
    while tally.calls() < until {
        comparison.step(random, tally)?;
    }
    Ok(())
}

#[cfg(test)]
mod tests {
    use super::*;

    fn asked_in(arguments: &[&str]) -> Result<(u64, u64), String> {
        let arguments: Vec<String> = arguments.iter().map(|text| text.to_string()).collect();
        asked(&arguments)
    }

    #[test]
    fn numbers_are_taken() {
        assert_eq!(asked_in(&[]), Ok((CALLS, SEED)));
        assert_eq!(asked_in(&["5"]), Ok((5, SEED)));
        assert_eq!(asked_in(&["100,000,000", "0x7F"]), Ok((100_000_000, 0x7F)));
    }

    #[test]
    fn anything_else_is_refused() {
        for arguments in [
            &["many"][..],
            &["-1"],
            &["0"],
            &["1", "0"],
            &["1", "2", "3"],
        ] {
            assert!(asked_in(arguments).is_err(), "{arguments:?}");
        }
    }
}
