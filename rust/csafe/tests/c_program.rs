//! The C header, as programs in C and C++ see it: `portal.c` is compiled against `csafe.h` and the archives, and run.

use std::collections::BTreeSet;
use std::fs;
use std::path::{Path, PathBuf};
use std::process::Command;

const HEADER: &str = include_str!("../csafe.h");
const PROGRAM: &str = include_str!("portal.c");

const LIVE_ARCHIVE: &str = "libexports.a";
const TRACE_ARCHIVE: &str = "libtrace_exports.a";
const PACKET_ARCHIVE: &str = "libcoscom_exports.a";
const ARCHIVES: [&str; 3] = [LIVE_ARCHIVE, TRACE_ARCHIVE, PACKET_ARCHIVE];

const EXPECTED: &str = "\
write_standard: 17 unnamed to=00 from=00 len=0
write_standard: 17 unnamed to=00 from=00 len=0
write_extended: 0 ok to=00 from=00 len=10 F0 F3 01 05 24 02 03 00 25 F2
write_extended: 2 too long to=00 from=00 len=0
write_extended: 1 no room to=00 from=00 len=0
extended_length: 0 ok to=00 from=00 len=10
write_extended: 0 ok to=00 from=00 len=10 F0 05 F3 01 24 02 F3 02 D4 F2
extended_length: 2 too long to=00 from=00 len=0
standard_length: 17 unnamed to=00 from=00 len=0
standard_length: 17 unnamed to=00 from=00 len=0
read: 0 ok extended to=F1 from=05 len=1 41
read: 6 truncated to=00 from=00 len=0
read: 2 too long to=00 from=00 len=0
read: 3 bad escape to=00 from=00 len=0
read: 4 too short to=00 from=00 len=0
read: 5 bad checksum to=00 from=00 len=0
read: 17 unnamed to=00 from=00 len=0
read: 17 unnamed to=00 from=00 len=0
read: 1 no room to=00 from=00 len=0
feed: 6 truncated to=00 from=00 len=0
at 1, taken 5, state 2, count 5, open at 4
feed: 0 ok extended to=F1 from=05 len=1 41
at 4, taken 6, state 0, count 11
feed: 0 ok nothing to=00 from=00 len=0
at 0, taken 2, state 5, count 13, open at 11
feed: 3 bad escape to=00 from=00 len=0
at 11, taken 2, state 0, count 15
feed: 4 too short to=00 from=00 len=0
at 15, taken 2, state 0, count 17
feed: 5 bad checksum to=00 from=00 len=0
at 17, taken 4, state 0, count 21
feed: 17 unnamed to=00 from=00 len=0
at 21, taken 4, state 0, count 25
feed: 0 ok nothing to=00 from=00 len=0
at 0, taken 1, state 1, count 26, open at 25
feed: 2 too long to=00 from=00 len=0
at 25, taken 120, state 0, count 146
feed: 0 ok nothing to=00 from=00 len=0
at 0, taken 3, state 5, count 149, open at 147
finish: 6 truncated to=00 from=00 len=0
at 147, taken 0, state 0, count 0
finish: 0 ok nothing to=00 from=00 len=0
at 0, taken 0, state 0, count 0
feed: 17 unnamed to=00 from=00 len=0
at 0, taken 4, state 0, count 4
feed: 0 ok nothing to=00 from=00 len=0
at 0, taken 65536, state 18, count 65536, open at 65531
feed: 0 ok extended to=00 from=05 len=1 41
at 65531, taken 1, state 0, count 65537
feed: 0 ok nothing to=00 from=00 len=0
at 0, taken 1, state 0, count 65538
feed: 0 ok extended to=00 from=05 len=1 41
at 4294967288, taken 6, state 0, count 4294967294
feed: 0 ok nothing to=00 from=00 len=0
at 0, taken 1, state 2, count 4294967295, open at 4294967294
feed: 16 full to=00 from=00 len=0
at 0, taken 0, state 2, count 4294967295, open at 4294967294
feed: 0 ok nothing to=00 from=00 len=0
at 0, taken 0, state 2, count 4294967295, open at 4294967294
finish: 6 truncated to=00 from=00 len=0
at 4294967294, taken 0, state 0, count 0
feed: 0 ok extended to=00 from=05 len=1 41
at 0, taken 6, state 0, count 6
trace_standard_length: 0 ok to=00 from=00 len=7
trace_standard_length: 2 too long to=00 from=00 len=0
trace_write_standard: 0 ok to=00 from=00 len=7 F1 24 02 F3 02 D4 F2
trace_write_standard: 2 too long to=00 from=00 len=0
trace_write_standard: 1 no room to=00 from=00 len=0
trace_read: 0 ok extended to=F1 from=05 len=1 41
trace_read: 6 truncated to=00 from=00 len=0
trace_read: 2 too long to=00 from=00 len=0
trace_read: 3 bad escape to=00 from=00 len=0
trace_read: 4 too short to=00 from=00 len=0
trace_read: 5 bad checksum to=00 from=00 len=0
trace_read: 0 ok to=00 from=00 len=4 24 02 03 00
trace_read: 1 no room to=00 from=00 len=0
trace_read: 1 no room to=00 from=00 len=0
trace_feed: 6 truncated to=00 from=00 len=0
at 1, taken 5, state 2, count 5, open at 4
trace_feed: 0 ok extended to=F1 from=05 len=1 41
at 4, taken 6, state 0, count 11
trace_feed: 0 ok nothing to=00 from=00 len=0
at 0, taken 2, state 5, count 13, open at 11
trace_feed: 3 bad escape to=00 from=00 len=0
at 11, taken 2, state 0, count 15
trace_feed: 4 too short to=00 from=00 len=0
at 15, taken 2, state 0, count 17
trace_feed: 5 bad checksum to=00 from=00 len=0
at 17, taken 4, state 0, count 21
trace_feed: 0 ok to=00 from=00 len=1 41
at 21, taken 4, state 0, count 25
trace_feed: 0 ok nothing to=00 from=00 len=0
at 0, taken 1, state 1, count 26, open at 25
trace_feed: 2 too long to=00 from=00 len=0
at 25, taken 120, state 0, count 146
trace_feed: 0 ok nothing to=00 from=00 len=0
at 0, taken 3, state 5, count 149, open at 147
finish: 6 truncated to=00 from=00 len=0
at 147, taken 0, state 0, count 0
finish: 0 ok nothing to=00 from=00 len=0
at 0, taken 0, state 0, count 0
trace_feed: 0 ok to=00 from=00 len=1 41
at 0, taken 4, state 0, count 4
trace_feed: 0 ok nothing to=00 from=00 len=0
at 0, taken 65536, state 18, count 65536, open at 65531
trace_feed: 0 ok extended to=00 from=05 len=1 41
at 65531, taken 1, state 0, count 65537
trace_feed: 0 ok nothing to=00 from=00 len=0
at 0, taken 1, state 0, count 65538
trace_feed: 0 ok extended to=00 from=05 len=1 41
at 4294967288, taken 6, state 0, count 4294967294
trace_feed: 0 ok nothing to=00 from=00 len=0
at 0, taken 1, state 2, count 4294967295, open at 4294967294
trace_feed: 16 full to=00 from=00 len=0
at 0, taken 0, state 2, count 4294967295, open at 4294967294
trace_feed: 0 ok nothing to=00 from=00 len=0
at 0, taken 0, state 2, count 4294967295, open at 4294967294
finish: 6 truncated to=00 from=00 len=0
at 4294967294, taken 0, state 0, count 0
trace_feed: 0 ok extended to=00 from=05 len=1 41
at 0, taken 6, state 0, count 6
write_distance_workout: 0 ok to=00 from=00 len=23 21 03 D1 07 24 1A 07 05 05 80 F4 01 00 00 34 03 C8 00 58 24 02 00 00
write_distance_workout: 12 out of limits to=00 from=00 len=0
write_distance_workout: 1 no room to=00 from=00 len=0
write_time_workout: 0 ok to=00 from=00 len=23 20 03 00 14 00 1A 07 05 05 00 C0 5D 00 00 34 03 64 00 58 24 02 00 00
write_time_workout: 12 out of limits to=00 from=00 len=0
write_time_workout: 1 no room to=00 from=00 len=0
write_distance_workout_frame: 0 ok to=00 from=00 len=29 F0 F3 01 00 21 03 D1 07 24 1A 07 05 05 80 F4 01 00 00 34 03 C8 00 58 24 02 00 00 39 F2
write_distance_workout_frame: 0 ok to=00 from=00 len=34 F0 F3 00 00 21 03 F3 00 30 24 1A 07 05 05 80 F3 00 10 00 00 34 03 F3 00 F3 00 58 24 02 00 00 F3 02 F2
write_distance_workout_frame: 9 bad address to=00 from=00 len=0
write_distance_workout_frame: 12 out of limits to=00 from=00 len=0
write_distance_workout_frame: 1 no room to=00 from=00 len=0
write_time_workout_frame: 0 ok to=00 from=00 len=28 F0 05 00 20 03 00 14 00 1A 07 05 05 00 C0 5D 00 00 34 03 64 00 58 24 02 00 00 9A F2
write_time_workout_frame: 9 bad address to=00 from=00 len=0
write_time_workout_frame: 12 out of limits to=00 from=00 len=0
write_time_workout_frame: 1 no room to=00 from=00 len=0
hold: 0 ok to=00 from=00 len=0
hold: 18 bad table to=00 from=00 len=0
hold: 9 bad address to=00 from=00 len=0
hold: 14 zero token to=00 from=00 len=0
hold: 10 already held to=00 from=00 len=0
stop: 0 ok to=00 from=00 len=12 F0 F3 01 00 76 04 13 02 01 02 60 F2
stop: 18 bad table to=00 from=00 len=0
stop: 9 bad address to=00 from=00 len=0
stop: 11 not holder to=00 from=00 len=0
stop: 1 no room to=00 from=00 len=0
release: 18 bad table to=00 from=00 len=0
release: 9 bad address to=00 from=00 len=0
release: 11 not holder to=00 from=00 len=0
release: 0 ok to=00 from=00 len=0
packet_write: 0 ok letter=00 tens=00 ones=00 len=11 01 53 30 31 31 2E 35 30 37 36 17
packet_write: 2 too long letter=00 tens=00 ones=00 len=0
packet_write: 22 bad character letter=00 tens=00 ones=00 len=0
packet_write: 22 bad character letter=00 tens=00 ones=00 len=0
packet_write: 1 no room letter=00 tens=00 ones=00 len=0
packet_read: 0 ok letter=53 tens=30 ones=31 len=4 31 2E 35 30
packet_read: 6 truncated letter=00 tens=00 ones=00 len=0
packet_read: 2 too long letter=00 tens=00 ones=00 len=0
packet_read: 4 too short letter=00 tens=00 ones=00 len=0
packet_read: 22 bad character letter=00 tens=00 ones=00 len=0
packet_read: 5 bad checksum letter=00 tens=00 ones=00 len=0
packet_read: 1 no room letter=00 tens=00 ones=00 len=0
packet_feed: 6 truncated letter=00 tens=00 ones=00 len=0
taken 4, state 1
packet_feed: 0 ok letter=00 tens=00 ones=00 len=0
taken 5, state 21
packet_feed: 0 ok letter=53 tens=30 ones=31 len=4 31 2E 35 30
taken 5, state 0
packet_feed: 4 too short letter=00 tens=00 ones=00 len=0
taken 4, state 0
packet_feed: 22 bad character letter=00 tens=00 ones=00 len=0
taken 7, state 0
packet_feed: 5 bad checksum letter=00 tens=00 ones=00 len=0
taken 7, state 0
packet_feed: 0 ok letter=00 tens=00 ones=00 len=0
taken 1, state 1
packet_feed: 2 too long letter=00 tens=00 ones=00 len=0
taken 256, state 0
packet_feed: 0 ok letter=00 tens=00 ones=00 len=0
taken 0, state 0
packet_feed: 0 ok letter=00 tens=00 ones=00 len=0
taken 3, state 5
packet_finish: 6 truncated letter=00 tens=00 ones=00 len=0
state 0
packet_finish: 0 ok letter=00 tens=00 ones=00 len=0
state 0
packet_feed: 0 ok letter=00 tens=00 ones=00 len=0
taken 65536, state 21
packet_feed: 0 ok letter=53 tens=30 ones=31 len=0
taken 1, state 0
packet_feed: 0 ok letter=00 tens=00 ones=00 len=0
taken 1, state 0
";

/// The names of the functions that a source declares or calls, each without the prefix of all of them.
fn functions(source: &str) -> BTreeSet<&str> {
    let is_name = |character: char| character.is_ascii_lowercase() || character == '_';
    let names = source.split("csafe_").skip(1).filter_map(|rest| {
        let (name, _) = rest.split_once('(')?;
        name.chars().all(is_name).then_some(name)
    });
    names.collect()
}

#[test]
fn the_program_calls_every_function_of_the_header() {
    let declared = functions(HEADER);
    // Twenty-two of the archives, and eight that take an answer apart.
    assert_eq!(declared.len(), 30);
    assert_eq!(functions(PROGRAM), declared);
}

#[test]
fn a_c_program_gets_the_expected_answers() {
    check(&compiled("cc", "-std=c99", "c"));
}

#[test]
fn a_cpp_program_gets_the_expected_answers() {
    check(&compiled("c++", "-std=c++11", "c++"));
}

/// No name with `csafe_trace_` or `csafe_packet_`, as all functions for traces and for packets have, stands in another
/// archive than theirs.
#[test]
fn the_functions_for_traces_and_for_packets_stand_in_archives_of_their_own() {
    for archive in ARCHIVES {
        let bytes = fs::read(archive_in(archive)).expect("the archive is read");
        let has = |name: &str| {
            let mut windows = bytes.windows(name.len());
            windows.any(|window| window == name.as_bytes())
        };
        assert_eq!(has("csafe_trace_"), archive == TRACE_ARCHIVE, "{archive}");
        assert_eq!(has("csafe_packet_"), archive == PACKET_ARCHIVE, "{archive}");
    }
}

fn archive_in(archive: &str) -> PathBuf {
    Path::new(env!("CSAFE_ARCHIVES")).join(archive)
}

fn check(program: &Path) {
    let run = Command::new(program)
        .output()
        .unwrap_or_else(|error| panic!("{} did not start: {error}", program.display()));
    assert!(run.status.success(), "it ended with {}", run.status);
    assert_eq!(String::from_utf8_lossy(&run.stdout), EXPECTED);
}

/// `portal.c`, compiled in one of the languages that it is written in.
fn compiled(compiler: &str, standard: &str, language: &str) -> PathBuf {
    let package = Path::new(env!("CARGO_MANIFEST_DIR"));
    let program = Path::new(env!("CARGO_TARGET_TMPDIR")).join(format!("portal-{language}"));
    let run = Command::new(compiler)
        .args([standard, "-O2", "-Wall", "-Wextra", "-Wpedantic", "-Werror"])
        .arg("-I")
        .arg(package)
        .args(["-x", language])
        .arg(package.join("tests").join("portal.c"))
        .args(["-x", "none"])
        .args(ARCHIVES.map(archive_in))
        .arg("-o")
        .arg(&program)
        .output()
        .unwrap_or_else(|error| {
            panic!(
                "the compiler `{compiler}` could not be run ({error}); install it to run this test"
            )
        });
    assert!(
        run.status.success(),
        "`{compiler}` refused portal.c:\n{}",
        String::from_utf8_lossy(&run.stderr)
    );
    program
}
