//! The proved listing program.

use std::io::ErrorKind;
use std::path::{Path, PathBuf};
use std::process::{Command, Stdio};

/// Where a ready program stands, for machines without the toolchain.
const READY_PROGRAM: &str = "CSAFE_LISTING";

/// The program that `rt` proves and compiles in its crate's folder. What has not changed is not proved again.
pub fn listing() -> PathBuf {
    if let Some(ready) = std::env::var_os(READY_PROGRAM) {
        return PathBuf::from(ready);
    }
    let folder = Path::new(env!("CARGO_MANIFEST_DIR")).join("../../crates/listing");
    // It also runs the program, here on a trace of no bytes.
    let run = Command::new("rt")
        .arg("run")
        .current_dir(&folder)
        .stdin(Stdio::null())
        .output();
    let output = match run {
        Ok(output) => output,
        Err(error) if error.kind() == ErrorKind::NotFound => {
            panic!("`rt` is not on the path; install the Rattle toolchain, or set {READY_PROGRAM} to the program")
        }
        Err(error) => panic!("`rt run` in crates/listing could not be started: {error}"),
    };
    assert!(
        output.status.success(),
        "`rt run` in crates/listing failed: {}{}",
        String::from_utf8_lossy(&output.stdout),
        String::from_utf8_lossy(&output.stderr)
    );
    folder.join("out/listing")
}
