//! The speed of the proved listing program beside that of the independent one in Rust.
//!
//!     cargo run --release --example bench_listing [WORD]..
//!
//! With words, only the kinds of trace whose names have all of them are listed.
//!
//! Makes a trace of each kind from a seed and lists it with both programs in turn, each in a process of its own. What
//! they print is compared byte for byte once; in the timed rounds it goes to a file, and then to nowhere. The times are
//! those of whole processes by the clock, and of each program the fastest round counts, because whatever disturbs a
//! round makes it slower.

#[path = "../tests/common/mod.rs"]
mod common;
#[path = "bench/header.rs"]
mod header;
#[path = "../tests/common/program.rs"]
mod program;
#[path = "bench/table.rs"]
mod table;

use std::env;
use std::error::Error;
use std::fs::{self, File};
use std::io::{self, Read};
use std::os::fd::AsFd;
use std::path::{Path, PathBuf};
use std::process::{Command, Stdio};
use std::time::Instant;

use common::Xorshift;
use plain::frame::{self, Origin};
use plain::listing;
use table::Table;

const TRACE_LEN: usize = 128 << 20;
const ROUNDS: usize = 11;

/// The argument with which this program is the independent listing.
const LIST: &str = "list";

fn main() -> Result<(), Box<dyn Error>> {
    let words: Vec<String> = env::args().skip(1).collect();
    if words == [LIST] {
        // As the program of the independent package does, without a buffer of the standard library's in between.
        let mut input = File::from(io::stdin().as_fd().try_clone_to_owned()?);
        listing::list(&mut input, &mut io::stdout().lock())?;
        return Ok(());
    }
    let directory = env::temp_dir().join(format!("listing-{}", std::process::id()));
    fs::create_dir(&directory)?;
    let done = compare(&words, &directory);
    fs::remove_dir_all(&directory)?;
    done
}

/// A program that lists its standard input, with its argument if it takes one.
struct Program {
    path: PathBuf,
    argument: Option<&'static str>,
}

fn compare(words: &[String], directory: &Path) -> Result<(), Box<dyn Error>> {
    let ours = Program {
        path: program::listing(),
        argument: None,
    };
    let plain = Program {
        path: env::current_exe()?,
        argument: Some(LIST),
    };
    header::print();
    println!("- a trace: {} MB", TRACE_LEN >> 20);
    let mut table = Table::new(&["trace", "ours", "plain Rust", "unit", "ratio"]);
    for (what, make) in KINDS {
        if words.iter().all(|word| what.contains(word.as_str())) {
            fs::write(directory.join(TRACE), make(&mut Xorshift::new()))?;
            check(what, &ours, &plain, directory)?;
            for (to, text) in [("to a file", Some(TEXTS[0])), ("to nowhere", None)] {
                let times = fastest(&ours, &plain, directory, text)?;
                table.row(&row(format!("{what}, {to}"), times));
            }
        }
    }
    Ok(())
}

/// The files in the directory of a run: the trace, and what the two programs print.
const TRACE: &str = "trace";
const TEXTS: [&str; 2] = ["ours", "plain"];

/// Both programs print the same bytes.
fn check(
    what: &str,
    ours: &Program,
    plain: &Program,
    directory: &Path,
) -> Result<(), Box<dyn Error>> {
    run(ours, directory, Some(TEXTS[0]))?;
    run(plain, directory, Some(TEXTS[1]))?;
    if !same(&directory.join(TEXTS[0]), &directory.join(TEXTS[1]))? {
        return Err(format!("{what}: the two listings differ").into());
    }
    Ok(())
}

/// Seconds of the fastest round of ours and of plain Rust's.
fn fastest(
    ours: &Program,
    plain: &Program,
    directory: &Path,
    text: Option<&str>,
) -> io::Result<[f64; 2]> {
    let mut times = [f64::INFINITY; 2];
    for _ in 0..ROUNDS {
        for (time, program) in times.iter_mut().zip([ours, plain]) {
            *time = time.min(run(program, directory, text)?);
        }
    }
    Ok(times)
}

fn row(what: String, [ours, plain]: [f64; 2]) -> [String; 5] {
    let rate = |time: f64| format!("{:.0}", TRACE_LEN as f64 / 1e6 / time);
    let ratio = format!("{:.2}", plain / ours);
    [what, rate(ours), rate(plain), "MB/s".to_string(), ratio]
}

type Make = fn(&mut Xorshift) -> Vec<u8>;

const KINDS: [(&str, Make); 4] = [
    ("frames", |random| frames(random, 0)),
    ("frames with many stray bytes between", |random| {
        frames(random, 200)
    }),
    ("any bytes", |random| random.bytes(TRACE_LEN, 0)),
    ("no flag", |random| strays(random, TRACE_LEN)),
];

/// Bytes that are no flags.
fn strays(random: &mut Xorshift, len: usize) -> Vec<u8> {
    let mut byte = || match random.below(253) as u8 {
        low @ 0..0xF0 => low,
        high => high + 3,
    };
    (0..len).map(|_| byte()).collect()
}

/// Frames, each after up to so many stray bytes.
fn frames(random: &mut Xorshift, stray_limit: usize) -> Vec<u8> {
    let mut trace = Vec::with_capacity(TRACE_LEN + 512);
    while trace.len() < TRACE_LEN {
        let len = random.below(stray_limit + 1);
        trace.extend(strays(random, len));
        extend_by_frame(&mut trace, random);
    }
    trace.truncate(TRACE_LEN);
    trace
}

/// A frame of up to 60 bytes of contents, which is a stop, damaged or after any bytes now and then.
fn extend_by_frame(trace: &mut Vec<u8>, random: &mut Xorshift) {
    let mut wire = [0; 128];
    let len = random.below(60);
    let contents = match random.below(10) {
        0 => vec![0x76, 0x04, 0x13, 0x02, 0x01, 0x02],
        1..=4 => random.bytes(len, 0),
        _ => random
            .bytes(len, 0)
            .iter()
            .map(|byte| byte % 0xF0)
            .collect(),
    };
    let written = match random.below(2) {
        0 => frame::write_standard(Origin::Trace, &contents, &mut wire),
        _ => frame::write_extended(random.below(256) as u8, 0x00, &contents, &mut wire),
    };
    let written = written.expect("the frame is short enough");
    match random.below(20) {
        0 => trace.extend(&wire[..random.below(written)]),
        1 => {
            wire[random.below(written)] = random.below(256) as u8;
            trace.extend(&wire[..written]);
        }
        2 => {
            let len = random.below(30);
            trace.extend(random.bytes(len, 0));
            trace.extend(&wire[..written]);
        }
        _ => trace.extend(&wire[..written]),
    }
}

/// Seconds that a program takes to list the trace into a file, or to nowhere.
fn run(program: &Program, directory: &Path, text: Option<&str>) -> io::Result<f64> {
    let output = match text {
        Some(name) => Stdio::from(File::create(directory.join(name))?),
        None => Stdio::null(),
    };
    let input = File::open(directory.join(TRACE))?;
    let start = Instant::now();
    let status = Command::new(&program.path)
        .args(program.argument)
        .stdin(input)
        .stdout(output)
        .status()?;
    let seconds = start.elapsed().as_secs_f64();
    match status.success() {
        true => Ok(seconds),
        false => Err(io::Error::other(format!(
            "{} failed",
            program.path.display()
        ))),
    }
}

fn same(ours: &Path, plain: &Path) -> io::Result<bool> {
    let (mut ours, mut plain) = (File::open(ours)?, File::open(plain)?);
    if ours.metadata()?.len() != plain.metadata()?.len() {
        return Ok(false);
    }
    let (mut a, mut b) = (vec![0; 1 << 20], vec![0; 1 << 20]);
    loop {
        let len = ours.read(&mut a)?;
        if len == 0 {
            return Ok(true);
        }
        plain.read_exact(&mut b[..len])?;
        if a[..len] != b[..len] {
            return Ok(false);
        }
    }
}
