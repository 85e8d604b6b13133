//! What the figures were measured on.

use std::env;
use std::fs;
use std::process::Command;

use crate::common::SEED;

pub fn print() {
    let unknown = || String::from("unknown");
    println!("- processor: {}", processor().unwrap_or_else(unknown));
    println!("- kit: {}", said("rt", "version").unwrap_or_else(unknown));
    println!(
        "- compiler: {}",
        said("rustc", "--version").unwrap_or_else(unknown)
    );
    println!("- profile: {}", profile().unwrap_or_else(unknown));
    println!("- seed: {SEED:#018X}");
}

fn processor() -> Option<String> {
    let text = fs::read_to_string("/proc/cpuinfo").ok()?;
    let line = text.lines().find(|line| line.starts_with("model name"))?;
    Some(line.split_once(':')?.1.trim().to_string())
}

/// The first line that a program prints.
fn said(program: &str, argument: &str) -> Option<String> {
    let output = Command::new(program).arg(argument).output().ok()?;
    let text = String::from_utf8(output.stdout).ok()?;
    text.lines().next().map(String::from)
}

/// Cargo puts an example into a directory that is named for the profile.
fn profile() -> Option<String> {
    let path = env::current_exe().ok()?;
    let name = path.parent()?.parent()?.file_name()?.to_str()?;
    Some(match name {
        "lto" => String::from("lto (link-time optimisation of the Rust code)"),
        _ => format!("{name} (no link-time optimisation)"),
    })
}
