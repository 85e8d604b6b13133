//! The speed of the proved library beside that of the independent implementation in Rust.
//!
//!     cargo run --release --example bench [--lengths] [WORD]..
//!     cargo run --profile lto --example bench
//!
//! With words, only the rows whose names have all of them are measured: `bench read`, `bench line half`, `bench
//! lease`, `bench packet`. With `--lengths` the ratios of the sweeps are also printed by length.
//!
//! Before a row is measured, both sides have to answer each call on its input alike and write the same bytes. They
//! are timed in one process, in short slices that take turns. The ratio is plain Rust's time to ours, so above 1 ours
//! is faster. Buffers are not cleared between calls. Bytes are those on the wire. Lines are fed in chunks of 65,536
//! bytes, and to plain Rust a second time byte by byte.
//!
//! Rows whose names begin with `trace` have standard frames and are measured on the calls for traces, on both sides.
//! Those whose names begin with `packet` have treadmill packets and are measured on the calls for packets. All others
//! are measured on the calls for a live line.

#[path = "../../tests/common/mod.rs"]
mod common;
mod header;
mod inputs;
mod lines;
mod packet_sides;
mod packets;
mod rows;
mod sides;
mod sweep;
mod table;
mod timing;
mod work;

/// What the arguments ask for.
pub struct Choice {
    words: Vec<String>,
    lengths: bool,
}

impl Choice {
    fn from_arguments() -> Choice {
        let (options, words): (Vec<String>, Vec<String>) = std::env::args()
            .skip(1)
            .partition(|argument| argument.starts_with("--"));
        if options.iter().any(|option| option != "--lengths") {
            eprintln!("usage: bench [--lengths] [WORD]..");
            std::process::exit(2);
        }
        Choice {
            words,
            lengths: !options.is_empty(),
        }
    }

    /// Whether a row is to be measured.
    pub fn has(&self, name: &str) -> bool {
        self.words.iter().all(|word| name.contains(word.as_str()))
    }
}

fn main() {
    let choice = Choice::from_arguments();
    header::print();
    println!(
        "- rows that begin with `trace`: calls for traces on both sides, with standard frames"
    );
    println!("- rows that begin with `packet`: calls for treadmill packets on both sides");
    println!("- all other rows: calls for a live line on both sides");
    rows::print(&choice);
    lines::print(&choice);
    let swept = sweep::print(&choice);
    if choice.lengths {
        sweep::print_lengths(&swept);
    }
}
