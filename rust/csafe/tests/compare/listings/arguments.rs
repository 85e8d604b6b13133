//! The listing program's arguments: a file, a dash, and those that get the usage or another message.

use std::ffi::{CStr, OsStr};
use std::fs::{self, File, OpenOptions};
use std::io::{BufRead, BufReader, Write};
use std::os::fd::AsRawFd;
use std::os::unix::ffi::{OsStrExt, OsStringExt};
use std::os::unix::fs::OpenOptionsExt;
use std::path::{Path, PathBuf};
use std::process::{Command, Stdio};
use std::sync::mpsc;
use std::thread;
use std::time::Duration;

use super::{check_printed, check_told, program, sample, theirs, with_arguments};
use crate::common::{Xorshift, SEED};
use crate::traces::Traffic;

const USAGE: &str = "usage: listing [FILE]  (without FILE, or with -, standard input is read)\n";

/// The longest path that the system takes.
const LONGEST_PATH: usize = 4095;

/// What a terminal takes as the end of the input.
const END_OF_INPUT: [u8; 1] = [0x04];

/// How long a line that has to come is waited for.
const PATIENCE: Duration = Duration::from_secs(30);

/// A file with a trace, by a name that only one test uses.
fn file(name: &str, trace: &[u8]) -> PathBuf {
    let path = Path::new(env!("CARGO_TARGET_TMPDIR")).join(name);
    fs::write(&path, trace).expect("the file is written");
    path
}

#[test]
fn a_long_file_is_listed_alike() {
    let mut bytes = Vec::new();
    Traffic::default().put_trace(&mut Xorshift::new(), 8_000_000, &mut bytes);
    let path = file("long.bin", &bytes);
    let printed = with_arguments(&[path], Stdio::null());
    check_printed(&format!("a file, seed {SEED:#X}"), &bytes, &printed);
}

#[test]
fn an_empty_file_has_its_totals_whatever_standard_input_has() {
    let path = file("empty.bin", &[]);
    let input = File::open(sample("incident.bin")).expect("a sample");
    check_printed("an empty file", &[], &with_arguments(&[path], input));
}

#[test]
fn a_dash_is_standard_input() {
    let path = sample("incident.bin");
    let bytes = fs::read(&path).expect("a sample");
    let input = File::open(&path).expect("a sample");
    check_printed("a dash", &bytes, &with_arguments(&["-"], input));
}

#[test]
fn a_name_may_be_any_text_and_begin_with_a_dash_after_a_folder() {
    let path = sample("incident.bin");
    let bytes = fs::read(&path).expect("a sample");
    let folder = Path::new(env!("CARGO_TARGET_TMPDIR"));
    for name in ["./-h", "./-", "a b\n\u{FF}\u{80}"] {
        fs::write(folder.join(name), &bytes).expect("the file is written");
        let printed = Command::new(program())
            .arg(name)
            .current_dir(folder)
            .stdin(Stdio::null())
            .output()
            .expect("the program runs");
        check_printed(&format!("{name:?}"), &bytes, &printed);
    }
}

/// Rattle's library opens files by names that are text.
#[test]
fn a_name_that_is_not_utf8_is_told() {
    let name = OsStr::from_bytes(b"a b\n\xFF\x80");
    let path = Path::new(env!("CARGO_TARGET_TMPDIR")).join(name);
    fs::write(&path, []).expect("the file is written");
    let told = format!("{}: the name is not UTF-8\n", path.display());
    check_told("not UTF-8", &with_arguments(&[path], Stdio::null()), &told);
}

#[test]
fn a_missing_file_is_told_by_its_name() {
    let path = Path::new(env!("CARGO_TARGET_TMPDIR")).join("missing.bin");
    let input = File::open(sample("incident.bin")).expect("a sample");
    let told = format!("{}: No such file or directory\n", path.display());
    check_told("missing", &with_arguments(&[path], input), &told);
}

#[test]
fn other_arguments_get_the_usage() {
    let path = sample("incident.bin");
    let name = path.to_str().expect("a name in UTF-8");
    let others: [&[&str]; 12] = [
        &["--help"],
        &["-h"],
        &["-x"],
        &["--"],
        &["--", name],
        &[""],
        &[name, name],
        &[name, ""],
        &["-", name],
        &["-", "-"],
        &["-h", "-h"],
        &[name, name, name],
    ];
    for arguments in others {
        let input = File::open(&path).expect("a sample");
        let printed = with_arguments(arguments, input);
        check_told(&format!("{arguments:?}"), &printed, USAGE);
    }
}

/// The longest path names a file, and so do the first bytes of those that are longer.
#[test]
fn a_name_that_is_too_long_is_not_opened_cut() {
    let bytes = fs::read(sample("incident.bin")).expect("a sample");
    let path = file("long-name.bin", &bytes).into_os_string().into_vec();
    let slashes = vec![b'/'; LONGEST_PATH - path.len()];
    let longest = [slashes, path].concat();
    let printed = with_arguments(&[OsStr::from_bytes(&longest)], Stdio::null());
    check_printed("the longest path", &bytes, &printed);
    for more in [1, 2, 3, 60_000] {
        let name = [longest.as_slice(), &vec![b'x'; more]].concat();
        let printed = with_arguments(&[OsStr::from_bytes(&name)], Stdio::null());
        let what = match more {
            1 => String::from_utf8_lossy(&name).into_owned(),
            _ => "the file's name".to_owned(),
        };
        let told = format!("{what}: File name too long\n");
        check_told(&format!("{more} bytes more"), &printed, &told);
        let two = [OsStr::from_bytes(&name), OsStr::new("x")];
        check_told("two", &with_arguments(&two, Stdio::null()), USAGE);
    }
}

/// Both ends of a new terminal: one to type at, and one that a program reads.
fn terminal() -> (File, File) {
    const O_NOCTTY: i32 = 0o400;
    extern "C" {
        fn unlockpt(fd: i32) -> i32;
        fn ptsname_r(fd: i32, name: *mut u8, len: usize) -> i32;
    }
    let mut options = OpenOptions::new();
    options.read(true).write(true).custom_flags(O_NOCTTY);
    let keyboard = options.open("/dev/ptmx").expect("a terminal");
    let mut name = [0; 64];
    // SAFETY: the descriptor is open, and the name is lent with its length.
    let answers = unsafe {
        [
            unlockpt(keyboard.as_raw_fd()),
            ptsname_r(keyboard.as_raw_fd(), name.as_mut_ptr(), name.len()),
        ]
    };
    assert_eq!(answers, [0, 0], "the terminal's other end has a name");
    let name = CStr::from_bytes_until_nul(&name).expect("the name ends");
    let input = options
        .open(OsStr::from_bytes(name.to_bytes()))
        .expect("the terminal's other end");
    (keyboard, input)
}

#[test]
fn at_a_terminal_it_says_that_it_waits() {
    for arguments in [[].as_slice(), &["-"]] {
        let (mut keyboard, input) = terminal();
        let mut child = Command::new(program())
            .args(arguments)
            .stdin(input)
            .stdout(Stdio::piped())
            .stderr(Stdio::piped())
            .spawn()
            .expect("the program starts");
        let errors = BufReader::new(child.stderr.take().expect("the errors are a pipe"));
        let (sender, told) = mpsc::channel();
        thread::spawn(move || errors.lines().try_for_each(|line| sender.send(line)));
        let waits = told.recv_timeout(PATIENCE);
        keyboard.write_all(b"typed\n").expect("it is typed");
        keyboard.write_all(&END_OF_INPUT).expect("it is typed");
        let printed = child.wait_with_output().expect("the program ends");
        let waits = waits
            .expect("it says so before it gets a trace")
            .expect("the errors are read");
        assert_eq!(waits, "listing: waiting for a trace from standard input");
        assert_eq!(printed.stdout, theirs(b"typed\n"));
        assert_eq!(told.iter().count(), 0, "it says no more");
    }
}
