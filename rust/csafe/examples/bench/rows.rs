//! The rows of single inputs: frames of any length, leases, and packets.

use plain::frame::Origin;

use crate::inputs::{self, Frames, Kind, CONTENTS_LIMIT};
use crate::packets::{PacketReading, PacketWriting, Packets, UNIT_LENGTHS};
use crate::sides::{Ours, Plain};
use crate::table::Table;
use crate::timing;
use crate::work::{self, Holding, Measuring, Reading, Stopping, Work, FREE};
use crate::Choice;

/// Slices of each side for a row.
pub const SLICES: usize = 301;

/// What a row counts in a second, in millions.
enum Done {
    Bytes(usize),
    Calls(usize),
}

/// The rows that are chosen, and the table that they go into.
struct Rows<'a> {
    choice: &'a Choice,
    table: Table,
}

pub fn print(choice: &Choice) {
    let table = Table::new(&["what", "ours", "plain Rust", "unit", "ratio"]);
    let mut rows = Rows { choice, table };
    rows.frames();
    rows.leases();
    rows.packets();
}

impl Rows<'_> {
    fn row(&mut self, what: &str, done: Done, work: &mut (impl Work<Ours> + Work<Plain>)) {
        if !self.choice.has(what) {
            return;
        }
        let times = timing::compare::<Plain>(work, SLICES);
        let (amount, unit) = match done {
            Done::Bytes(len) => (len, "MB/s"),
            Done::Calls(count) => (count, "M calls/s"),
        };
        let rate = |time: f64| amount as f64 / time / 1e6;
        self.table.row(&[
            what.to_string(),
            format!("{:.1}", rate(times.ours)),
            format!("{:.1}", rate(times.plain)),
            unit.to_string(),
            format!("{:.2}", times.ratio()),
        ]);
    }

    fn frames(&mut self) {
        let frames = Frames::of_lengths(0..=CONTENTS_LIMIT);
        let damaged = inputs::damaged(&frames.wires);
        let done = || Done::Bytes(frames.wire_len());
        self.row(
            "read, any length and bytes",
            done(),
            &mut Reading(Origin::Live, &frames.wires),
        );
        self.row(
            "read, any length and bytes, damaged",
            done(),
            &mut Reading(Origin::Live, &damaged),
        );
        let writing = &mut work::Writing(Kind::Extended, &frames.contents);
        self.row("write, any length and bytes", done(), writing);
        let measuring = &mut Measuring(Kind::Extended, &frames.contents);
        self.row("wire length, any length and bytes", done(), measuring);
    }

    fn leases(&mut self) {
        let leases = inputs::leases();
        let wrong: Vec<(u32, u64)> = leases.iter().map(|(at, token)| (*at, token ^ 2)).collect();
        let beyond = inputs::out_of_range(&leases);
        let held = work::held::<Plain>(&leases);
        let calls = leases.len();
        self.row(
            "lease, hold and release",
            Done::Calls(2 * calls),
            &mut Holding(FREE, &leases),
        );
        for (what, calls) in [
            ("lease, stop by the holder", &leases),
            ("lease, stop refused, wrong token", &wrong),
            ("lease, stop refused, address out of range", &beyond),
        ] {
            self.row(what, Done::Calls(calls.len()), &mut Stopping(held, calls));
        }
    }

    fn packets(&mut self) {
        for len in UNIT_LENGTHS {
            let packets = Packets::of_length(len);
            let what = format!("packet read, {len} bytes of data");
            let reading = &mut PacketReading(&packets.wires);
            self.row(&what, Done::Bytes(packets.wire_len()), reading);
        }
        let any = Packets::of_lengths(&UNIT_LENGTHS);
        let damaged = inputs::damaged(&any.wires);
        let reading = &mut PacketReading(&damaged);
        let what = "packet read, damaged";
        self.row(what, Done::Bytes(any.wire_len()), reading);
        for len in UNIT_LENGTHS {
            let packets = Packets::of_length(len);
            let what = format!("packet write, {len} bytes of data");
            let writing = &mut PacketWriting(&packets.plain);
            self.row(&what, Done::Bytes(packets.wire_len()), writing);
        }
    }
}
