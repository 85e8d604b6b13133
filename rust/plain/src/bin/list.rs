//! Lists the trace on standard input to standard output.

use std::fs::File;
use std::io;
use std::os::fd::AsFd;
use std::process::ExitCode;

use plain::listing;

fn main() -> ExitCode {
    match run() {
        Ok(()) => ExitCode::SUCCESS,
        Err(error) => {
            eprintln!("{error}");
            ExitCode::FAILURE
        }
    }
}

/// Standard input is read without the library's buffer, which could take bytes
/// beyond the limit of the listing.
fn run() -> io::Result<()> {
    let mut input = File::from(io::stdin().as_fd().try_clone_to_owned()?);
    listing::list(&mut input, &mut io::stdout().lock())
}
