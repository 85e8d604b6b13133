//! Every length of contents, each measured by itself.

use crate::inputs::{self, Frames, Kind, CONTENTS_LIMIT};
use crate::sides::Plain;
use crate::table::Table;
use crate::timing::{self, Times};
use crate::work::{Feeding, Measuring, Reading, Writing};
use crate::Choice;

/// Slices of each side for a length in a round, and rounds over all lengths. What disturbs a length for as long as it
/// is measured does so in one round only.
const SLICES: usize = 13;
const ROUNDS: usize = 3;

const COLUMNS: [&str; 6] = [
    "every length of contents",
    "geometric mean",
    "worst",
    "at length",
    "below 1.0",
    "lengths",
];

#[derive(Clone, Copy)]
enum Does {
    Read,
    Write,
    Measure,
    Line,
}

struct Sweep {
    name: &'static str,
    does: Does,
    kind: Kind,
    /// Bytes that are F0 to F3, in a hundred.
    percent: usize,
}

const fn sweep(name: &'static str, does: Does, kind: Kind, percent: usize) -> Sweep {
    Sweep {
        name,
        does,
        kind,
        percent,
    }
}

#[rustfmt::skip]
const SWEEPS: [Sweep; 15] = [
    sweep("read, no escapes", Does::Read, Kind::Extended, 0),
    sweep("read, a fifth F0 to F3", Does::Read, Kind::Extended, 20),
    sweep("read, half F0 to F3", Does::Read, Kind::Extended, 50),
    sweep("trace read, standard, no escapes", Does::Read, Kind::Standard, 0),
    sweep("write, no escapes", Does::Write, Kind::Extended, 0),
    sweep("write, a fifth F0 to F3", Does::Write, Kind::Extended, 20),
    sweep("write, half F0 to F3", Does::Write, Kind::Extended, 50),
    sweep("trace write, standard, no escapes", Does::Write, Kind::Standard, 0),
    sweep("wire length, no escapes", Does::Measure, Kind::Extended, 0),
    sweep("wire length, a fifth F0 to F3", Does::Measure, Kind::Extended, 20),
    sweep("wire length, half F0 to F3", Does::Measure, Kind::Extended, 50),
    sweep("trace wire length, standard, no escapes", Does::Measure, Kind::Standard, 0),
    sweep("line, no escapes", Does::Line, Kind::Extended, 0),
    sweep("line, a fifth F0 to F3", Does::Line, Kind::Extended, 20),
    sweep("line, half F0 to F3", Does::Line, Kind::Extended, 50),
];

/// A sweep's name, and the ratio of each length that it has, from 0 on.
pub struct Swept {
    name: &'static str,
    ratios: Vec<f64>,
}

pub fn print(choice: &Choice) -> Vec<Swept> {
    let mut table = Table::new(&COLUMNS);
    let chosen = SWEEPS.iter().filter(|sweep| choice.has(sweep.name));
    let measured = chosen.map(|sweep| {
        let swept = Swept::new(sweep);
        table.row(&swept.row());
        swept
    });
    measured.collect()
}

impl Swept {
    fn new(sweep: &Sweep) -> Swept {
        let frames_of = |len| Frames::of_length(sweep.kind, len, sweep.percent);
        let inputs: Vec<Frames> = (0..=CONTENTS_LIMIT).map_while(frames_of).collect();
        let mut all = vec![Times::NONE; inputs.len()];
        for _ in 0..ROUNDS {
            let round = inputs.iter().map(|frames| times(sweep, frames));
            all = all.iter().zip(round).map(|(a, b)| a.least(b)).collect();
        }
        Swept {
            name: sweep.name,
            ratios: all.iter().map(Times::ratio).collect(),
        }
    }

    fn row(&self) -> [String; COLUMNS.len()] {
        let count = self.ratios.len();
        let sum: f64 = self.ratios.iter().map(|ratio| ratio.ln()).sum();
        let below = self.ratios.iter().filter(|ratio| **ratio < 1.0).count();
        let lengths = self.ratios.iter().enumerate();
        let worst = lengths.min_by(|a, b| a.1.total_cmp(b.1));
        let (len, worst) = worst.expect("every sweep has length 0");
        [
            self.name.to_string(),
            format!("{:.2}", (sum / count as f64).exp()),
            format!("{worst:.2}"),
            len.to_string(),
            below.to_string(),
            count.to_string(),
        ]
    }
}

fn times(sweep: &Sweep, frames: &Frames) -> Times {
    let (wires, contents) = (&frames.wires, &frames.contents);
    let (kind, origin) = (sweep.kind, sweep.kind.origin());
    match sweep.does {
        Does::Read => timing::compare::<Plain>(&mut Reading(origin, wires), SLICES),
        Does::Write => timing::compare::<Plain>(&mut Writing(kind, contents), SLICES),
        Does::Measure => timing::compare::<Plain>(&mut Measuring(kind, contents), SLICES),
        Does::Line => {
            let line = inputs::line_of(wires);
            timing::compare::<Plain>(&mut Feeding(origin, &line), SLICES)
        }
    }
}

/// The ratios of every sixth length.
pub fn print_lengths(swept: &[Swept]) {
    let mut columns = vec!["length"];
    columns.extend(swept.iter().map(|swept| swept.name));
    let mut table = Table::new(&columns);
    for len in (0..=CONTENTS_LIMIT).step_by(6) {
        let mut row = vec![len.to_string()];
        row.extend(swept.iter().map(|swept| cell(swept, len)));
        table.row(&row);
    }
}

fn cell(swept: &Swept, len: usize) -> String {
    match swept.ratios.get(len) {
        Some(ratio) => format!("{ratio:.2}"),
        None => String::new(),
    }
}
