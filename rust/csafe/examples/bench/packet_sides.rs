//! The two sides' calls for treadmill packets, and their packet readers.
//!
//! Each answer becomes one number before the caller sees it, on both sides by the same functions, as those of frames
//! do.

use csafe::packet::{self, Header};
use csafe::{Error, Packet, PacketReader};
use plain::packet as plain_packet;
use plain::packet_line::{Answer, PacketLine as PlainPacketLine};

use crate::sides::{Ours, Plain, PlainByByte};

/// A side as far as it writes and reads packets. Equal answers of the two sides are equal numbers.
pub trait PacketSide {
    fn read(wire: &[u8], out: &mut [u8]) -> u64;
    fn write(header: [u8; 3], unit: &[u8], out: &mut [u8]) -> u64;
}

/// A side as far as it has a packet reader.
pub trait PacketLineSide {
    type Line: PacketLine;
}

/// A packet reader. Equal answers are equal numbers.
pub trait PacketLine {
    fn new() -> Self;
    /// Feeds bytes up to the first that is answered, shows the answer with the data unit, which is empty for a refusal,
    /// and tells how many bytes were taken.
    fn feed(&mut self, chunk: &[u8], see: impl FnMut(u64, &[u8])) -> usize;
}

impl PacketSide for Ours {
    #[inline(always)]
    fn read(wire: &[u8], out: &mut [u8]) -> u64 {
        our_read(packet::read(wire, out))
    }

    #[inline(always)]
    fn write(header: [u8; 3], unit: &[u8], out: &mut [u8]) -> u64 {
        match packet::write(Header::new(&header), unit, out) {
            Ok(len) => written(len),
            Err(error) => refused(error.number()),
        }
    }
}

impl PacketLineSide for Ours {
    type Line = PacketReader;
}

impl PacketLine for PacketReader {
    fn new() -> PacketReader {
        PacketReader::new()
    }

    #[inline(always)]
    fn feed(&mut self, chunk: &[u8], mut see: impl FnMut(u64, &[u8])) -> usize {
        let fed = PacketReader::feed(self, chunk);
        match fed.told {
            Some(Ok(packet)) => see(our_read(Ok(packet)), packet.unit),
            Some(Err(error)) => see(our_read(Err(error)), &[]),
            None => {}
        }
        fed.taken
    }
}

#[inline(always)]
fn our_read(answer: Result<Packet<'_>, Error>) -> u64 {
    match answer {
        Ok(Packet { header, unit }) => told(header.bytes(), unit.len()),
        Err(error) => refused(error.number()),
    }
}

impl PacketSide for Plain {
    #[inline(always)]
    fn read(wire: &[u8], out: &mut [u8]) -> u64 {
        plain_read(plain_packet::read(wire, out))
    }

    #[inline(always)]
    fn write(header: [u8; 3], unit: &[u8], out: &mut [u8]) -> u64 {
        match plain_packet::write(header, unit, out) {
            Ok(len) => written(len),
            Err(number) => refused(number),
        }
    }
}

impl PacketLineSide for Plain {
    type Line = PlainPacketLine;
}

impl PacketLine for PlainPacketLine {
    fn new() -> PlainPacketLine {
        PlainPacketLine::new()
    }

    #[inline(always)]
    fn feed(&mut self, chunk: &[u8], see: impl FnMut(u64, &[u8])) -> usize {
        let (taken, answer) = self.feed_chunk(chunk);
        show(self, answer, see);
        taken
    }
}

impl PacketLineSide for PlainByByte {
    type Line = PacketsByByte;
}

/// The independent packet reader, fed byte by byte.
pub struct PacketsByByte(PlainPacketLine);

impl PacketLine for PacketsByByte {
    fn new() -> PacketsByByte {
        PacketsByByte(PlainPacketLine::new())
    }

    #[inline(always)]
    fn feed(&mut self, chunk: &[u8], see: impl FnMut(u64, &[u8])) -> usize {
        for (at, byte) in chunk.iter().enumerate() {
            let answer = self.0.feed(*byte);
            if answer.is_some() {
                show(&self.0, answer, see);
                return at + 1;
            }
        }
        chunk.len()
    }
}

/// Shows what the independent reader told, if anything.
#[inline(always)]
fn show(line: &PlainPacketLine, answer: Option<Answer>, mut see: impl FnMut(u64, &[u8])) {
    match answer {
        Some(Ok(read)) => see(plain_read(Ok(read)), line.unit()),
        Some(Err(number)) => see(plain_read(Err(number)), &[]),
        None => {}
    }
}

#[inline(always)]
fn plain_read(answer: Answer) -> u64 {
    match answer {
        Ok(plain_packet::Read { header, len }) => told(header, len),
        Err(number) => refused(number),
    }
}

/// From the lowest bit on a number has the length in 16 bits, the refusal in 8, and the header in 24.
#[inline(always)]
fn written(len: usize) -> u64 {
    len as u64
}

#[inline(always)]
fn refused(number: u8) -> u64 {
    u64::from(number) << 16
}

#[inline(always)]
fn told([letter, tens, ones]: [u8; 3], len: usize) -> u64 {
    u64::from(letter) << 24 | u64::from(tens) << 32 | u64::from(ones) << 40 | len as u64
}
