//! The listing of a recorded trace: a line for each answer, then the totals.

use std::io::{self, Read, Write};

use crate::command;
use crate::frame::{self, Origin, STOP};
use crate::line::{first_flag, Answer, Line, COUNT_MAX};

/// Input is read, and text written, in pieces of about this size.
const CHUNK: usize = 1 << 16;
/// More than the longest line of text.
const TEXT_LINE_MAX: usize = 128;

/// Lists the trace read from `input` as text on `output`, of a longer one the first
/// bytes that the line reader takes. When reading fails, the lines told until then
/// are written, without totals.
pub fn list(input: &mut impl Read, output: &mut impl Write) -> io::Result<()> {
    let mut input = input.take(COUNT_MAX.into());
    let mut listing = Listing::new(output);
    let mut chunk = vec![0; CHUNK];
    loop {
        match input.read(&mut chunk) {
            Ok(0) => break,
            Ok(len) => listing.take(&chunk[..len])?,
            Err(error) if error.kind() == io::ErrorKind::Interrupted => {}
            Err(error) => {
                listing.write_out()?;
                return Err(error);
            }
        }
    }
    listing.finish()
}

struct Listing<'a, W: Write> {
    output: &'a mut W,
    /// Lines not yet written; never grows beyond its first allocation.
    text: Vec<u8>,
    line: Line,
    frames: u64,
    refused: u64,
    stray: u64,
}

impl<'a, W: Write> Listing<'a, W> {
    fn new(output: &'a mut W) -> Self {
        Listing {
            output,
            text: Vec::with_capacity(CHUNK + TEXT_LINE_MAX),
            line: Line::new(Origin::Trace),
            frames: 0,
            refused: 0,
            stray: 0,
        }
    }

    fn take(&mut self, mut bytes: &[u8]) -> io::Result<()> {
        while let Some(at) = first_flag(bytes) {
            self.take_plain(&bytes[..at]);
            let flag = bytes[at];
            if flag == STOP && !self.line.is_open() {
                self.stray += 1;
            }
            let answer = self.line.feed(flag);
            self.tell(answer)?;
            bytes = &bytes[at + 1..];
        }
        self.take_plain(bytes);
        Ok(())
    }

    /// Takes bytes without a flag among them.
    fn take_plain(&mut self, bytes: &[u8]) {
        if !self.line.is_open() {
            self.stray += bytes.len() as u64;
        }
        self.line.extend(bytes);
    }

    fn finish(mut self) -> io::Result<()> {
        let answer = self.line.finish();
        self.tell(answer)?;
        self.put(b"frames=");
        self.put_decimal(self.frames);
        self.put(b" refused=");
        self.put_decimal(self.refused);
        self.put(b" loose=");
        self.put_decimal(self.stray);
        self.put(b"\n");
        self.write_out()?;
        self.output.flush()
    }

    fn tell(&mut self, answer: Answer) -> io::Result<()> {
        match answer {
            Answer::Nothing => return Ok(()),
            Answer::Frame { position, frame } => self.tell_frame(position, frame),
            Answer::Refused { position, code } => self.tell_refusal(position, code),
        }
        if self.text.len() < CHUNK {
            return Ok(());
        }
        self.write_out()
    }

    fn tell_refusal(&mut self, position: u32, code: u8) {
        self.refused += 1;
        self.put_number_at(position);
        self.put(b" kind=refused code=");
        self.put_decimal(code.into());
        self.put(b"\n");
    }

    fn tell_frame(&mut self, position: u32, frame: frame::Read) {
        self.frames += 1;
        self.put_number_at(position);
        let len = match frame {
            frame::Read::Standard { len } => {
                self.put(b" kind=std");
                len
            }
            frame::Read::Extended { to, from, len } => {
                self.put(b" kind=ext to=");
                self.put(&hexadecimal(to));
                self.put(b" from=");
                self.put(&hexadecimal(from));
                len
            }
        };
        self.put(b" len=");
        self.put_decimal(len as u64);
        self.put(if command::terminates(self.line.contents()) {
            b" stop=yes\n"
        } else {
            b" stop=no\n"
        });
    }

    /// Puts the number of the answer that was counted last, and its position.
    fn put_number_at(&mut self, position: u32) {
        self.put(b"n=");
        self.put_decimal(self.frames + self.refused);
        self.put(b" at=");
        self.put_decimal(position.into());
    }

    fn put_decimal(&mut self, mut number: u64) {
        let mut digits = [b'0'; 20];
        let mut first = digits.len() - 1;
        digits[first] += (number % 10) as u8;
        while number >= 10 {
            number /= 10;
            first -= 1;
            digits[first] += (number % 10) as u8;
        }
        self.put(&digits[first..]);
    }

    fn put(&mut self, text: &[u8]) {
        self.text.extend_from_slice(text);
    }

    fn write_out(&mut self) -> io::Result<()> {
        self.output.write_all(&self.text)?;
        self.text.clear();
        Ok(())
    }
}

/// Two upper-case hexadecimal digits.
fn hexadecimal(byte: u8) -> [u8; 2] {
    const DIGITS: &[u8; 16] = b"0123456789ABCDEF";
    [byte >> 4, byte & 0x0F].map(|digit| DIGITS[usize::from(digit)])
}
