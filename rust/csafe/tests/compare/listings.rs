//! The listing program against the independent listing, on whole traces.

mod arguments;

use std::ffi::OsStr;
use std::fs::{self, File};
use std::io::{self, Cursor, Read};
use std::path::{Path, PathBuf};
use std::process::{Command, Output, Stdio};
use std::sync::OnceLock;

use plain::listing;

use crate::common::{Xorshift, SEED};
use crate::held::LINE_LIMIT;
use crate::listed::listed;
use crate::program;
use crate::traces::Traffic;

fn program() -> &'static Path {
    static PROGRAM: OnceLock<PathBuf> = OnceLock::new();
    PROGRAM.get_or_init(program::listing)
}

/// What our program prints of a trace that arrives in pieces whose lengths `piece` chooses.
fn ours(trace: &[u8], piece: impl FnMut(usize) -> usize) -> Output {
    listed(program(), trace, piece).expect("the program runs")
}

/// What our program prints with these arguments.
fn with_arguments(arguments: &[impl AsRef<OsStr>], input: impl Into<Stdio>) -> Output {
    Command::new(program())
        .args(arguments)
        .stdin(input)
        .output()
        .expect("the program runs")
}

fn sample(name: &str) -> PathBuf {
    Path::new(env!("CARGO_MANIFEST_DIR"))
        .join("../../samples")
        .join(name)
}

fn theirs(trace: &[u8]) -> Vec<u8> {
    let mut text = Vec::new();
    listing::list(&mut Cursor::new(trace), &mut text).expect("nothing fails in memory");
    text
}

fn check(what: &str, trace: &[u8], piece: impl FnMut(usize) -> usize) {
    check_printed(what, trace, &ours(trace, piece));
}

fn check_printed(what: &str, trace: &[u8], printed: &Output) {
    assert!(printed.status.success(), "{what}");
    assert!(printed.stderr.is_empty(), "{what}");
    let expected = theirs(trace);
    let line = printed
        .stdout
        .split(|byte| *byte == b'\n')
        .zip(expected.split(|byte| *byte == b'\n'))
        .position(|(ours, theirs)| ours != theirs);
    assert_eq!(line, None, "{what}: the first line that differs");
    assert_eq!(printed.stdout.len(), expected.len(), "{what}");
}

/// Nothing is listed, not even totals, and standard error has the reason. The exit status is 0 all the same.
fn check_told(what: &str, printed: &Output, told: &str) {
    assert!(printed.stdout.is_empty(), "{what}");
    assert_eq!(String::from_utf8_lossy(&printed.stderr), told, "{what}");
    assert!(printed.status.success(), "{what}");
}

#[test]
fn many_short_traces_are_listed_alike() {
    let mut random = Xorshift::new();
    let mut traffic = Traffic::default();
    let mut bytes = Vec::new();
    for number in 0..400 {
        let len = random.below(400);
        traffic.put_trace(&mut random, len, &mut bytes);
        bytes.truncate(len);
        let what = format!("trace {number} of seed {SEED:#X}");
        check(&what, &bytes, |left| 1 + random.below(left));
    }
}

#[test]
fn long_traces_are_listed_alike_in_any_pieces() {
    let mut random = Xorshift::new();
    let mut bytes = Vec::new();
    Traffic::default().put_trace(&mut random, 4_000_000, &mut bytes);
    let stops = theirs(&bytes)
        .windows(8)
        .filter(|text| text == b"stop=yes")
        .count();
    assert!(stops > 1_000, "the trace has {stops} stops");
    for most in [1 << 10, 1 << 16, 1 << 22] {
        let what = format!("pieces of up to {most} bytes, seed {SEED:#X}");
        check(&what, &bytes, |left| 1 + random.below(most.min(left)));
    }
}

#[test]
fn the_samples_are_listed_alike() {
    let mut count = 0;
    for entry in fs::read_dir(sample("")).expect("the samples are there") {
        let path = entry.expect("a sample").path();
        if path.extension().is_some_and(|extension| extension == "bin") {
            let bytes = fs::read(&path).expect("a sample");
            let what = path.display().to_string();
            check(&what, &bytes, |left| left);
            check_printed(&what, &bytes, &with_arguments(&[&path], Stdio::null()));
            count += 1;
        }
    }
    assert!(count >= 5, "{count} samples");
}

#[test]
fn an_empty_trace_has_its_totals() {
    let printed = ours(&[], |left| left);
    assert_eq!(printed.stdout, b"frames=0 refused=0 loose=0\n");
}

#[test]
fn a_read_that_fails_is_told_without_totals() {
    let directory = env!("CARGO_MANIFEST_DIR");
    let opened = File::open(directory).expect("a directory");
    let none: [&str; 0] = [];
    let printed = with_arguments(&none, opened);
    check_told("input", &printed, "standard input: Is a directory\n");
    let printed = with_arguments(&[directory], Stdio::null());
    let told = format!("{directory}: Is a directory\n");
    check_told("a directory by name", &printed, &told);
}

#[test]
fn a_write_that_fails_is_told() {
    let full = File::create("/dev/full").expect("a full device");
    let printed = Command::new(program())
        .arg(sample("incident.bin"))
        .stdout(full)
        .output()
        .expect("the program runs");
    let told = "standard output: No space left on device\n";
    check_told("a full device", &printed, told);
}

/// The last byte that is read ends a frame, and the frame after it is not read.
#[test]
#[cfg_attr(debug_assertions, ignore = "it lists 4,294,967,295 bytes")]
fn the_longest_trace_is_listed_alike() {
    let frames = [0xF1, 0x00, 0xF2, 0xF1, 0x00, 0xF2];
    let stray = u64::from(LINE_LIMIT) - 3;
    let trace = || io::repeat(0x55).take(stray).chain(&frames[..]);
    let mut expected = Vec::new();
    listing::list(&mut trace(), &mut expected).expect("nothing fails in memory");

    let mut child = Command::new(program())
        .stdin(Stdio::piped())
        .stdout(Stdio::piped())
        .spawn()
        .expect("the program runs");
    let mut input = child.stdin.take().expect("the input is a pipe");
    io::copy(&mut trace(), &mut input).expect("all is written");
    drop(input);
    let printed = child.wait_with_output().expect("the program ends");
    assert_eq!(
        String::from_utf8_lossy(&printed.stdout),
        String::from_utf8_lossy(&expected)
    );
}
