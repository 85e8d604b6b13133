//! Traces of many frames, listed by the proved program and by the independent implementation.

use std::io::Cursor;
use std::path::{Path, PathBuf};

use plain::listing;

use crate::answer::{Function, Outcome};
use crate::both::literal;
use crate::common::Xorshift;
use crate::listed::listed;
use crate::tally::Tally;
use crate::traces::Traffic;
use crate::{program, Comparison};

/// The longest trace.
const LONGEST: usize = 1 << 20;

/// A trace arrives in about this many pieces at most. One that shows a difference is cut into as many to shorten it.
const PIECES: usize = 256;

pub struct Listings {
    program: PathBuf,
    traffic: Traffic,
    trace: Vec<u8>,
}

impl Listings {
    pub fn new() -> Listings {
        Listings {
            program: program::listing(),
            traffic: Traffic::default(),
            trace: Vec::new(),
        }
    }
}

impl Comparison for Listings {
    fn kind(&self) -> &'static str {
        "listings"
    }

    fn step(&mut self, random: &mut Xorshift, tally: &mut Tally) -> Result<(), String> {
        let len = random.below(LONGEST);
        self.traffic.put_trace(random, len, &mut self.trace);
        self.trace.truncate(len);
        let most = 1 + len / (1 + random.below(PIECES));
        let ours = ours(&self.program, &self.trace, |left| {
            1 + random.below(left.min(most))
        });
        let theirs = theirs(&self.trace);
        if ours != theirs {
            return Err(difference(&self.program, &self.trace, most));
        }
        tally.add_call(Function::Listing);
        count_lines(&theirs, tally);
        Ok(())
    }
}

/// What our program prints, or why it prints nothing.
fn ours(program: &Path, trace: &[u8], piece: impl FnMut(usize) -> usize) -> String {
    match listed(program, trace, piece) {
        Ok(printed) if printed.status.success() && printed.stderr.is_empty() => {
            String::from_utf8_lossy(&printed.stdout).into_owned()
        }
        Ok(printed) => format!(
            "{}: {}",
            printed.status,
            String::from_utf8_lossy(&printed.stderr)
        ),
        Err(error) => format!("{} could not be run: {error}", program.display()),
    }
}

fn theirs(trace: &[u8]) -> String {
    let mut text = Vec::new();
    match listing::list(&mut Cursor::new(trace), &mut text) {
        Ok(()) => String::from_utf8_lossy(&text).into_owned(),
        Err(error) => error.to_string(),
    }
}

fn count_lines(text: &str, tally: &mut Tally) {
    for line in text.lines().filter(|line| line.starts_with("n=")) {
        let outcome = match line.split_once(" code=") {
            None => Outcome::Accepted,
            Some((_, code)) => Outcome::Refused(code.parse().unwrap_or(u8::MAX)),
        };
        tally.add_answer(Function::Listing, outcome);
    }
}

/// Tells a difference by a trace that is cut as short as cutting pieces out makes it. That one is listed in one piece,
/// and the first one in pieces of up to `most` bytes.
fn difference(program: &Path, trace: &[u8], most: usize) -> String {
    let mut trace = trace.to_vec();
    let mut len = trace.len().div_ceil(2);
    while len > 0 && trace.len() / len <= PIECES {
        trace = without_pieces(program, trace, len);
        len /= 2;
    }
    let (ours, theirs) = (ours(program, &trace, |left| left), theirs(&trace));
    let mut lines = ours.lines().zip(theirs.lines());
    let line = lines.find(|(ours, theirs)| ours != theirs);
    format!(
        "listing, in pieces of up to {most} bytes\ntrace {}\nthe first lines that differ, ours and plain: {line:?}\nlengths of the texts: {} and {}",
        literal(&trace),
        ours.len(),
        theirs.len()
    )
}

/// The trace without those pieces of this length that are not needed for a difference.
fn without_pieces(program: &Path, mut trace: Vec<u8>, len: usize) -> Vec<u8> {
    let mut at = 0;
    while at < trace.len() {
        let end = (at + len).min(trace.len());
        let shorter = [&trace[..at], &trace[end..]].concat();
        if ours(program, &shorter, |left| left) == theirs(&shorter) {
            at = end;
        } else {
            trace = shorter;
        }
    }
    trace
}
