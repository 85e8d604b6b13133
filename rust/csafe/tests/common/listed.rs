//! What the listing program prints.

use std::io::{self, Write};
use std::path::Path;
use std::process::{Command, Output, Stdio};
use std::thread;

/// What the program prints of a trace that arrives in pieces, whose lengths `piece` chooses from what is left.
pub fn listed(
    program: &Path,
    trace: &[u8],
    mut piece: impl FnMut(usize) -> usize,
) -> io::Result<Output> {
    let mut child = Command::new(program)
        .stdin(Stdio::piped())
        .stdout(Stdio::piped())
        .stderr(Stdio::piped())
        .spawn()?;
    let input = child.stdin.take();
    thread::scope(|scope| {
        let printed = scope.spawn(|| child.wait_with_output());
        if let Some(mut input) = input {
            let mut rest = trace;
            while !rest.is_empty() {
                let (now, later) = rest.split_at(piece(rest.len()));
                // A program that ends early has not printed the whole text, which tells enough.
                rest = input.write_all(now).map_or(&[], |()| later);
            }
        }
        printed.join().expect("the thread only waits")
    })
}
