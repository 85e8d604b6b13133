//! Makes the three proved static libraries with `rt lib` and links them.
//!
//! Where `CSAFE_STATICLIB` names a directory with a ready `libexports.a`, `libtrace_exports.a` and
//! `libcoscom_exports.a`, those are linked and `rt` is not run.

use std::env;
use std::fs;
use std::io::{ErrorKind, Write};
use std::path::{Path, PathBuf};
use std::process::{exit, Command, Stdio};

/// The archives that are linked: that of the live line, that of stored traces, and that of treadmill packets.
const ARCHIVES: [&str; 3] = ["exports", "trace_exports", "coscom_exports"];
const READY_ARCHIVES: &str = "CSAFE_STATICLIB";

/// The target that the kit compiles for: processor, system and the bits of a pointer.
const ARCHIVE_TARGET: [&str; 3] = ["x86_64", "linux", "64"];

fn main() {
    println!("cargo:rerun-if-changed=build.rs");
    println!("cargo:rerun-if-env-changed={READY_ARCHIVES}");
    check_target();
    let made = match env::var_os(READY_ARCHIVES) {
        Some(directory) => ready_archives(Path::new(&directory)),
        None => proved_archives(&package_directory().join("../..")),
    };
    link(&made);
}

/// The crate that an archive is made of. `exports` is a library for other crates, so a crate of its own exports it.
fn crate_of(name: &str) -> &str {
    match name {
        "exports" => "exports_c",
        _ => name,
    }
}

fn archive_of(name: &str) -> String {
    format!("lib{name}.a")
}

fn package_directory() -> PathBuf {
    PathBuf::from(variable("CARGO_MANIFEST_DIR"))
}

fn variable(name: &str) -> String {
    match env::var(name) {
        Ok(value) => value,
        Err(_) => stop(&format!(
            "{name} is not set; build this package with cargo."
        )),
    }
}

/// The linker's messages about an archive of another target don't tell what is wrong.
fn check_target() {
    let target =
        ["ARCH", "OS", "POINTER_WIDTH"].map(|part| variable(&format!("CARGO_CFG_TARGET_{part}")));
    if target != ARCHIVE_TARGET {
        let described =
            |[arch, os, width]: [&str; 3]| format!("{arch} {os} with {width}-bit pointers");
        stop(&format!(
            "the static libraries are for {}, and this build is for {}.",
            described(ARCHIVE_TARGET),
            described(target.each_ref().map(String::as_str))
        ));
    }
}

/// The archives that the caller has made.
///
/// Cargo runs this program in the package's directory and does not tell where it was called itself: `PWD` is that of
/// the last shell, which `make -C` and `env -C` leave as it was. So a relative path has no sure meaning here.
fn ready_archives(directory: &Path) -> PathBuf {
    if !directory.is_absolute() {
        stop(&format!(
            "{READY_ARCHIVES} is the relative path `{0}`, and an absolute one is needed. In a shell, {READY_ARCHIVES}=\"$PWD/{0}\" starts from the current directory.",
            directory.display()
        ));
    }
    for archive in ARCHIVES.map(|name| directory.join(archive_of(name))) {
        println!("cargo:rerun-if-changed={}", archive.display());
        if !archive.is_file() {
            stop(&format!(
                "{READY_ARCHIVES} is set, but there is no {}. Put the archive there, or unset {READY_ARCHIVES} to have it made.",
                archive.display()
            ));
        }
    }
    directory.to_path_buf()
}

/// The archives that `rt` proves and compiles, each in the folder of its crate.
fn proved_archives(root: &Path) -> PathBuf {
    watch(&root.join("crates"));
    println!("cargo:rerun-if-changed=../../crates.txt");
    let directory = PathBuf::from(variable("OUT_DIR"));
    for name in ARCHIVES {
        let folder = root.join("crates").join(crate_of(name));
        prove(&folder);
        let archive = folder.join("out").join(archive_of(crate_of(name)));
        copy(&archive, &directory.join(archive_of(name)));
    }
    directory
}

/// Has cargo look at the sources of each crate, and not at what `rt` keeps beside them in `out`.
fn watch(crates: &Path) {
    let folders = fs::read_dir(crates).into_iter().flatten().flatten();
    for part in
        folders.flat_map(|folder| ["src", "specs", "proofs"].map(|part| folder.path().join(part)))
    {
        if part.is_dir() {
            println!("cargo:rerun-if-changed={}", part.display());
        }
    }
}

fn prove(folder: &Path) {
    let command = format!("rt lib` in `{}", folder.display());
    let run = Command::new("rt")
        .arg("lib")
        .current_dir(folder)
        .stdout(Stdio::piped())
        .stderr(Stdio::piped())
        .spawn()
        .and_then(|proving| {
            tell(&format!("`{command}` proves and compiles a static library. This takes about 20 seconds, and some minutes where nothing is proved yet."));
            proving.wait_with_output()
        });
    let output = match run {
        Ok(output) => output,
        Err(error) if error.kind() == ErrorKind::NotFound => stop(&format!(
            "the program `rt` is not on the path. Install the Rattle toolchain, or set {READY_ARCHIVES} to a directory that has {}.",
            ARCHIVES.map(archive_of).join(", ")
        )),
        Err(error) => stop(&format!("`{command}` could not be started: {error}.")),
    };
    if !output.status.success() {
        stop(&format!(
            "`{command}` failed ({}). Mend what it reports. It said:\n{}{}",
            output.status,
            String::from_utf8_lossy(&output.stdout),
            String::from_utf8_lossy(&output.stderr)
        ));
    }
}

/// Tells the user at once what takes long. Cargo shows standard error after a failure or with `-vv` only, and it
/// shows a `cargo:warning` after the work and again with each later build. So the terminal gets the line itself.
fn tell(message: &str) {
    eprintln!("csafe: {message}");
    if let Ok(mut terminal) = fs::OpenOptions::new().write(true).open("/dev/tty") {
        // The first characters clear the line on which Cargo shows its progress.
        let _ = writeln!(terminal, "\r\x1b[Kcsafe: {message}");
    }
}

/// Copies an archive to where it is linked.
fn copy(archive: &Path, to: &Path) {
    if let Err(error) = fs::copy(archive, to) {
        stop(&format!(
            "{} could not be copied: {error}.",
            archive.display()
        ));
    }
}

/// Links copies of the archives, which outlast what the caller or `rt` does with its own.
fn link(made: &Path) {
    let directory = PathBuf::from(variable("OUT_DIR"));
    for name in ARCHIVES {
        if made != directory {
            copy(
                &made.join(archive_of(name)),
                &directory.join(archive_of(name)),
            );
        }
        println!("cargo:rustc-link-lib=static={name}");
    }
    println!("cargo:rustc-link-search=native={}", directory.display());
    // The test of the C header links the same archives.
    println!("cargo:rustc-env=CSAFE_ARCHIVES={}", directory.display());
}

fn stop(message: &str) -> ! {
    eprintln!("csafe: {message}");
    exit(1)
}
