//! Lists the packets of a treadmill's line that was recorded.
//!
//!     cargo run --release --example packets -- ../samples/treadmill.bin
//!
//! Without an argument it lists standard input. It prints a line for each packet and each refusal, in the order of the
//! line, and the totals last. A data unit stands in quotes, and a byte of it that is not printed as an escape.

use std::env;
use std::ffi::OsStr;
use std::fs::File;
use std::io::{self, BufWriter, ErrorKind, Read, Write};
use std::process::ExitCode;

use csafe::line::CHUNK_LIMIT;
use csafe::packet::OwnedPacket;
use csafe::{Error, PacketReader};

fn main() -> ExitCode {
    let path = env::args_os().nth(1);
    let out = BufWriter::new(io::stdout().lock());
    let (name, listed) = match &path {
        Some(path) => (
            path.as_os_str(),
            File::open(path).and_then(|file| list(file, out)),
        ),
        None => (OsStr::new("standard input"), list(io::stdin().lock(), out)),
    };
    match listed {
        Ok(()) => ExitCode::SUCCESS,
        Err(error) => {
            eprintln!("packets: {}: {error}", name.display());
            ExitCode::FAILURE
        }
    }
}

/// Writes the listing of a line that is read to its end.
fn list(mut input: impl Read, out: impl Write) -> io::Result<()> {
    let mut reader = PacketReader::new();
    let mut listing = Listing::new(out);
    let mut buffer = vec![0; CHUNK_LIMIT];
    loop {
        match input.read(&mut buffer) {
            Ok(0) => break,
            Ok(len) => {
                for answer in reader.answers(&buffer[..len]) {
                    listing.put(answer)?;
                }
            }
            Err(error) if error.kind() == ErrorKind::Interrupted => {}
            Err(error) => return Err(error),
        }
    }
    // A packet that the end of the line has cut short is told by the finish.
    if let Err(refusal) = reader.finish() {
        listing.put(Err(refusal))?;
    }
    listing.end()
}

/// The lines that are written, and how many of each kind.
struct Listing<W> {
    out: W,
    packets: u64,
    refused: u64,
}

impl<W: Write> Listing<W> {
    fn new(out: W) -> Listing<W> {
        Listing {
            out,
            packets: 0,
            refused: 0,
        }
    }

    fn put(&mut self, answer: Result<OwnedPacket, Error>) -> io::Result<()> {
        let number = self.packets + self.refused + 1;
        match answer {
            Ok(packet) => {
                self.packets += 1;
                let (header, unit) = (packet.header(), packet.unit());
                let len = unit.len();
                let unit = unit.escape_ascii();
                writeln!(
                    self.out,
                    "n={number} kind=packet header={header} len={len} unit=\"{unit}\""
                )
            }
            Err(refusal) => {
                self.refused += 1;
                writeln!(
                    self.out,
                    "n={number} kind=refused code={}",
                    refusal.number()
                )
            }
        }
    }

    fn end(mut self) -> io::Result<()> {
        writeln!(
            self.out,
            "packets={} refused={}",
            self.packets, self.refused
        )?;
        self.out.flush()
    }
}

#[cfg(test)]
mod tests {
    use super::*;

    const SAMPLE: &[u8] = include_bytes!("../../../samples/treadmill.bin");
    const PAGE: &str = include_str!("../../../samples/README.md");

    /// Hands over a few bytes at a time, and is interrupted before each.
    struct Pieces<'a> {
        rest: &'a [u8],
        is_interrupted: bool,
    }

    impl Read for Pieces<'_> {
        fn read(&mut self, buffer: &mut [u8]) -> io::Result<usize> {
            self.is_interrupted = !self.is_interrupted;
            if self.is_interrupted {
                return Err(ErrorKind::Interrupted.into());
            }
            let len = self.rest.len().min(3);
            buffer[..len].copy_from_slice(&self.rest[..len]);
            self.rest = &self.rest[len..];
            Ok(len)
        }
    }

    fn listed(input: impl Read) -> String {
        let mut out = Vec::new();
        list(input, &mut out).unwrap();
        String::from_utf8(out).unwrap()
    }

    #[test]
    fn the_sample_is_listed_as_its_page_says() {
        let (_, block) = PAGE.split_once("```text\n").unwrap();
        let (expected, _) = block.split_once("```").unwrap();
        assert_eq!(listed(SAMPLE), expected);
        let pieces = Pieces {
            rest: SAMPLE,
            is_interrupted: false,
        };
        assert_eq!(listed(pieces), expected);
    }

    #[test]
    fn a_packet_that_the_end_cuts_short_is_refused() {
        let line = b"\x06\x01S0281\x17\x01S0";
        let expected = "n=1 kind=packet header=S02 len=0 unit=\"\"\nn=2 kind=refused code=6\npackets=1 refused=1\n";
        assert_eq!(listed(&line[..]), expected);
        assert_eq!(listed(&[][..]), "packets=0 refused=0\n");
    }
}
