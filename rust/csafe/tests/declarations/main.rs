//! The declarations of the exported functions, in `src/ffi.rs` and in `csafe.h`, against the Rattle source of the three
//! static libraries: name by name, parameter by parameter, type by type, in order and both ways.
//!
//! The readers of the files know what stands there and nothing else. Anything else fails the tests.

mod changes;
mod extern_block;
mod header;
mod rattle;
mod signature;
mod tokens;

use std::fs;
use std::path::{Path, PathBuf};

use csafe::{frame, lease, line, packet, workout, Error};

use header::Header;
use signature::{compare, without_array_lengths};

/// The refusals that the exported functions give.
const GIVEN: [u8; 15] = [1, 2, 3, 4, 5, 6, 9, 10, 11, 12, 14, 16, 17, 18, 22];

/// The crates whose functions are exported: those of the live line first, then those of stored traces, then those of
/// treadmill packets.
const CRATES: [&str; 3] = ["exports_c", "trace_exports", "coscom_exports"];

/// The library that the first of them exports, which itself exports nothing.
const LIBRARY: &str = "exports";

/// The files. The sources of the crates stand one after the other.
struct Texts {
    source: String,
    ffi: String,
    header: String,
}

impl Texts {
    fn read() -> Texts {
        Texts {
            source: CRATES
                .map(|name| text(&source_of(name).join("lib.rt")))
                .concat(),
            ffi: text(&package().join("src/ffi.rs")),
            header: text(&package().join("csafe.h")),
        }
    }

    /// Answers the first difference. The block in Rust has a plain pointer where the others have an array.
    fn check(&self) -> Result<(), String> {
        let source = rattle::exported(&self.source)?;
        let declared = extern_block::declared(&self.ffi)?;
        let header = Header::read(&self.header)?.functions;
        compare(&without_array_lengths(&source), &declared)
            .map_err(|difference| format!("src/ffi.rs and the source: {difference}"))?;
        compare(&source, &header)
            .map_err(|difference| format!("csafe.h and the source: {difference}"))?;
        compare(&without_array_lengths(&header), &declared)
            .map_err(|difference| format!("src/ffi.rs and csafe.h: {difference}"))
    }
}

fn package() -> &'static Path {
    Path::new(env!("CARGO_MANIFEST_DIR"))
}

fn source_of(name: &str) -> PathBuf {
    package().join("../../crates").join(name).join("src")
}

fn text(path: &Path) -> String {
    fs::read_to_string(path).unwrap_or_else(|error| panic!("{}: {error}", path.display()))
}

#[test]
fn the_declarations_are_those_of_the_source() {
    let texts = Texts::read();
    assert_eq!(texts.check(), Ok(()));
    let functions = rattle::exported(&texts.source).expect("it was read before");
    assert!(functions.len() >= 22, "{} functions", functions.len());
}

#[test]
fn no_other_file_of_the_source_exports() {
    for name in CRATES.into_iter().chain([LIBRARY]) {
        for entry in fs::read_dir(source_of(name)).expect("the source is there") {
            let path = entry.expect("a file of the source").path();
            if name != LIBRARY && path.file_name().is_some_and(|file| file == "lib.rt") {
                continue;
            }
            let exported = rattle::exported(&text(&path));
            assert_eq!(exported, Ok(Vec::new()), "{}", path.display());
        }
    }
}

#[test]
fn the_headers_lengths_are_those_of_the_package() {
    let header = Header::read(&Texts::read().header).expect("the header is read");
    let lengths: Vec<(&str, usize)> = header
        .defines
        .iter()
        .map(|(name, number)| (name.as_str(), *number))
        .collect();
    let expected = [
        ("CSAFE_WIRE_LIMIT", frame::WIRE_LIMIT),
        ("CSAFE_CONTENTS_LIMIT", frame::CONTENTS_LIMIT),
        ("CSAFE_LINE_LEN", line::HELD_LEN),
        ("CSAFE_CHUNK_LIMIT", line::CHUNK_LIMIT),
        ("CSAFE_LINE_LIMIT", line::LIMIT as usize),
        ("CSAFE_WORKOUT_LEN", workout::LEN),
        ("CSAFE_WORKOUT_FRAME_LIMIT", workout::FRAME_LIMIT),
        ("CSAFE_STOP_LIMIT", lease::STOP_LIMIT),
        ("CSAFE_TABLE_LEN", lease::TABLE_LEN),
        ("CSAFE_PACKET_LIMIT", packet::WIRE_LIMIT),
        ("CSAFE_UNIT_LIMIT", packet::UNIT_LIMIT),
        ("CSAFE_PACKET_OVERHEAD", packet::OVERHEAD),
        ("CSAFE_PACKET_LINE_LEN", packet::HELD_LEN),
    ];
    assert_eq!(lengths, expected);
}

#[test]
fn the_headers_numbers_are_those_of_the_package() {
    let header = Header::read(&Texts::read().header).expect("the header is read");
    let mut expected = vec![("CSAFE_OK".to_string(), 0)];
    expected.extend(GIVEN.map(|number| (refusal_name(number), usize::from(number))));
    for (kind, number) in [("STANDARD", 0), ("EXTENDED", 1), ("NOTHING", 2)] {
        expected.push((format!("CSAFE_{kind}"), number));
    }
    assert_eq!(header.enumerators, expected);
}

/// The name in C of a refusal, as `CSAFE_NO_ROOM` of `NoRoom`.
fn refusal_name(number: u8) -> String {
    let error = Error::from_number(number).expect("a number of the table");
    let mut name = String::from("CSAFE");
    for letter in format!("{error:?}").chars() {
        if letter.is_uppercase() {
            name.push('_');
        }
        name.extend(letter.to_uppercase());
    }
    name
}
