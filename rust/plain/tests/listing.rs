//! The trace that `crates/listing` runs on too: the stored trace is the one that is made here, and the stored text is
//! what the program here prints. To store both:
//!
//!     cargo test -p plain --test listing -- --ignored
//!     cargo run -p plain --bin list < ../crates/listing/stdin > ../crates/listing/stdout

use std::fs;
use std::path::PathBuf;
use std::process::{Command, Stdio};

use plain::frame::{self, Origin};
use plain::listing;

/// How many bytes the proved program reads, and writes, at once.
const BUFFER: usize = 65_536;
/// Longer than any frame.
const WIRE_ROOM: usize = 128;
/// The requirements' example of a listing: a truncated frame, and a stop of machine 05.
const EXAMPLE: [u8; 15] = [
    0x55, 0xF1, 0x76, 0x04, 0xF0, 0x05, 0x00, 0x76, 0x04, 0x13, 0x02, 0x01, 0x02, 0x60, 0xF2,
];
/// So many bytes of the example stand before the border: its frame's start flag and addresses.
const BEFORE_BORDER: usize = 7;
const TERMINATE: [u8; 6] = [0x76, 0x04, 0x13, 0x02, 0x01, 0x02];
const STRAY: u8 = 0x55;

fn stored(name: &str) -> PathBuf {
    PathBuf::from(env!("CARGO_MANIFEST_DIR"))
        .join("../../crates/listing")
        .join(name)
}

fn standard(contents: &[u8]) -> Vec<u8> {
    let mut wire = [0; WIRE_ROOM];
    let len = frame::write_standard(Origin::Trace, contents, &mut wire).unwrap();
    wire[..len].to_vec()
}

fn extended(to: u8, from: u8, contents: &[u8]) -> Vec<u8> {
    let mut wire = [0; WIRE_ROOM];
    let len = frame::write_extended(to, from, contents, &mut wire).unwrap();
    wire[..len].to_vec()
}

/// The n-th piece: sound frames of both kinds with any bytes, stops, each refusal, stray bytes.
fn piece(n: usize) -> Vec<u8> {
    let byte = |i: usize| (n * 31 + i * 13) as u8;
    let contents: Vec<u8> = (0..n * 7 % 71).map(byte).collect();
    match n % 16 {
        1 => extended(byte(1), byte(2), &TERMINATE),
        3 => vec![0xF1, 0xF2],
        5 => vec![0xF1, 0xF3, 0x04, 0xF2],
        7 => vec![0xF1, 0x24, 0x02, 0x03, 0x00, 0x24, 0xF2],
        9 => vec![0xF1, 0x24, 0x02],
        11 => vec![STRAY, 0xF2],
        13 if n % 256 == 13 => [&[0xF0][..], &[STRAY; 119], &[0xF2]].concat(),
        n if n % 2 == 0 => extended(byte(1), byte(2), &contents),
        _ => standard(&contents),
    }
}

/// The example, pieces up to the example across the border, pieces, and a frame that is open at the end.
fn trace() -> Vec<u8> {
    let mut trace = EXAMPLE.to_vec();
    let across = BUFFER - BEFORE_BORDER;
    for next in (0..).map(piece) {
        if trace.len() + next.len() > across {
            break;
        }
        trace.extend(next);
    }
    trace.resize(across, STRAY);
    trace.extend(EXAMPLE);
    trace.extend((0..64).flat_map(piece));
    trace.extend([0xF0, 0x05, 0x00]);
    trace
}

fn text(trace: &[u8]) -> Vec<u8> {
    let mut text = Vec::new();
    listing::list(&mut &trace[..], &mut text).unwrap();
    text
}

#[test]
fn the_stored_trace_is_this_one() {
    assert!(fs::read(stored("stdin")).unwrap() == trace());
}

#[test]
fn the_stored_text_is_what_the_program_prints() {
    let output = Command::new(env!("CARGO_BIN_EXE_list"))
        .stdin(fs::File::open(stored("stdin")).unwrap())
        .stderr(Stdio::inherit())
        .output()
        .unwrap();
    assert!(output.status.success());
    assert!(fs::read(stored("stdout")).unwrap() == output.stdout);
}

#[test]
fn the_trace_goes_past_both_buffers() {
    let trace = trace();
    let across = BUFFER - BEFORE_BORDER;
    assert_eq!(trace[..EXAMPLE.len()], EXAMPLE);
    assert_eq!(trace[across..across + EXAMPLE.len()], EXAMPLE);
    assert!(text(&trace[..BUFFER]).len() > BUFFER + 1_000);
}

#[test]
fn the_text_has_every_kind_of_line() {
    let text = String::from_utf8(text(&trace())).unwrap();
    for part in [
        "n=1 at=1 kind=refused code=6\nn=2 at=4 kind=ext to=05 from=00 len=6 stop=yes\n",
        " kind=std len=0 stop=no\n",
        " code=2\n",
        " code=3\n",
        " code=4\n",
        " code=5\n",
        " code=6\nframes=",
    ] {
        assert!(text.contains(part), "{part}");
    }
}

#[test]
#[ignore = "it stores the trace"]
fn store_the_trace() {
    fs::write(stored("stdin"), trace()).unwrap();
}
