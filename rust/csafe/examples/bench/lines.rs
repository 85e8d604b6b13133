//! The rows of lines. Plain Rust is measured by the chunk, as ours is, and byte by byte. The traffic of frames has both
//! kinds and is read as a trace; the others are live lines, and lines of treadmill packets.

use plain::frame::Origin;

use crate::inputs::{self, Frames, CONTENTS_LIMIT};
use crate::packets::{self, PacketFeeding};
use crate::rows::SLICES;
use crate::sides::{Ours, Plain, PlainByByte};
use crate::table::Table;
use crate::timing;
use crate::work::{Feeding, Work};
use crate::Choice;

/// Each ratio is of the times of ours and of plain Rust that were taken in turn.
const COLUMNS: [&str; 7] = [
    "what",
    "ours",
    "plain Rust",
    "plain Rust by byte",
    "unit",
    "ratio",
    "ratio by byte",
];

pub fn print(choice: &Choice) {
    let mut table = Table::new(&COLUMNS);
    for (what, origin, line) in lines() {
        if choice.has(what) {
            table.row(&row(what, line.len(), &mut Feeding(origin, &line)));
        }
    }
    for (what, line) in packets::lines() {
        if choice.has(&what) {
            table.row(&row(&what, line.len(), &mut PacketFeeding(&line)));
        }
    }
}

fn lines() -> [(&'static str, Origin, Vec<u8>); 7] {
    let any = Frames::of_lengths(0..=CONTENTS_LIMIT).wires;
    let long = Frames::of_lengths(90..=110).wires;
    let damaged = inputs::damaged(&any);
    let live = |what, line| (what, Origin::Live, line);
    [
        ("trace line, traffic", Origin::Trace, inputs::traffic()),
        live("line, long frames", inputs::line_of(&long)),
        live("line, frames one after another", inputs::line_of(&any)),
        live(
            "line, frames with stray bytes between them",
            inputs::line_with_strays(&any),
        ),
        live(
            "line, damaged frames one after another",
            inputs::line_of(&damaged),
        ),
        live("line, any bytes", inputs::any_bytes()),
        live("line, stray bytes alone", inputs::stray_bytes()),
    ]
}

/// The times for a line of so many bytes.
fn row(
    what: &str,
    len: usize,
    work: &mut (impl Work<Ours> + Work<Plain> + Work<PlainByByte>),
) -> [String; COLUMNS.len()] {
    let by_chunk = timing::compare::<Plain>(work, SLICES);
    let by_byte = timing::compare::<PlainByByte>(work, SLICES);
    let rate = |time: f64| format!("{:.1}", len as f64 / time / 1e6);
    [
        what.to_string(),
        rate(by_chunk.ours),
        rate(by_chunk.plain),
        rate(by_byte.plain),
        "MB/s".to_string(),
        format!("{:.2}", by_chunk.ratio()),
        format!("{:.2}", by_byte.ratio()),
    ]
}
