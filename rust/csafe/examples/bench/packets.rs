//! Treadmill packets as inputs, and what both sides do with them.

use std::hint::black_box;

use csafe::packet::WIRE_LIMIT;

use crate::common::Xorshift;
use crate::inputs::{self, FRAMES_LIMIT, INPUT_LEN, LINE_LEN};
use crate::packet_sides::{PacketLine, PacketLineSide, PacketSide};
use crate::sides::{Ours, CHUNK_LIMIT};
use crate::work::{Aligned, Work};

/// The lengths of data units. The example packets of document 003 have at most 21 bytes of data, and 249 is the most
/// that a packet has.
pub const UNIT_LENGTHS: [usize; 5] = [0, 4, 20, 100, 249];

/// Of the traffic on a line: lengths of data units in document 003's examples, and one packet in how many is damaged.
const TRAFFIC_LENGTHS: [usize; 6] = [0, 1, 2, 3, 4, 21];
const TRAFFIC_DAMAGE: usize = 20;

/// What a machine answers to a packet that it takes.
const ACKNOWLEDGED: u8 = 0x06;

/// Letters of the headers in document 003's example packets.
const LETTERS: [u8; 5] = *b"SPUEX";

/// Headers with data units, and the packet of each.
#[derive(Default)]
pub struct Packets {
    pub plain: Vec<([u8; 3], Vec<u8>)>,
    pub wires: Vec<Vec<u8>>,
}

impl Packets {
    /// Packets whose data units have one length.
    pub fn of_length(len: usize) -> Packets {
        Packets::of_lengths(&[len])
    }

    /// Packets whose data units have any of these lengths.
    pub fn of_lengths(lens: &[usize]) -> Packets {
        let mut random = Xorshift::new();
        let mut packets = Packets::default();
        let mut unit_len = 0;
        while unit_len < INPUT_LEN && packets.wires.len() < FRAMES_LIMIT {
            let len = lens[random.below(lens.len())];
            packets.push(&mut random, len);
            unit_len += len;
        }
        packets
    }

    fn push(&mut self, random: &mut Xorshift, len: usize) {
        let (header, unit) = (any_header(random), any_unit(random, len));
        self.wires.push(wire(header, &unit));
        self.plain.push((header, unit));
    }

    /// The bytes on the wire.
    pub fn wire_len(&self) -> usize {
        self.wires.iter().map(Vec::len).sum()
    }
}

fn any_header(random: &mut Xorshift) -> [u8; 3] {
    let letter = LETTERS[random.below(LETTERS.len())];
    [letter, any_digit(random), any_digit(random)]
}

fn any_digit(random: &mut Xorshift) -> u8 {
    b'0' + random.below(10) as u8
}

/// Decimal numbers with 1D between them, as document 003's records have.
fn any_unit(random: &mut Xorshift, len: usize) -> Vec<u8> {
    let character = |_| match random.below(8) {
        0 => b'.',
        1 => 0x1D,
        _ => any_digit(random),
    };
    (0..len).map(character).collect()
}

/// The packet of a header and a data unit, which is sound.
fn wire(header: [u8; 3], unit: &[u8]) -> Vec<u8> {
    let mut out = [0; WIRE_LIMIT];
    let len = Ours::write(header, unit, &mut out);
    out[..len as usize].to_vec()
}

/// Lines with their names: packets of each length one after another, and the traffic of a treadmill.
pub fn lines() -> Vec<(String, Vec<u8>)> {
    let of_length = |len| {
        let name = format!("packet line, {len} bytes of data");
        (name, inputs::line_of(&Packets::of_length(len).wires))
    };
    let mut all = vec![("packet line, traffic".to_string(), traffic())];
    all.extend(UNIT_LENGTHS.map(of_length));
    let damaged = inputs::damaged(&Packets::of_lengths(&UNIT_LENGTHS).wires);
    let name = "packet line, damaged packets one after another".to_string();
    all.push((name, inputs::line_of(&damaged)));
    all
}

/// Packets of such lengths, each acknowledged, and some damaged.
fn traffic() -> Vec<u8> {
    let mut random = Xorshift::new();
    let mut line = Vec::new();
    while line.len() < LINE_LEN {
        let len = TRAFFIC_LENGTHS[random.below(TRAFFIC_LENGTHS.len())];
        let mut wire = wire(any_header(&mut random), &any_unit(&mut random, len));
        if random.below(TRAFFIC_DAMAGE) == 0 {
            inputs::change_a_byte(&mut wire, &mut random);
        }
        line.extend(wire);
        line.push(ACKNOWLEDGED);
    }
    line
}

pub struct PacketReading<'a>(pub &'a [Vec<u8>]);

impl<S: PacketSide> Work<S> for PacketReading<'_> {
    #[inline(always)]
    fn run(&mut self, mut see: impl FnMut(u64, &[u8])) {
        let Aligned(out) = &mut Aligned([0; WIRE_LIMIT]);
        for wire in self.0 {
            let answer = S::read(black_box(wire), black_box(out));
            see(answer, out);
        }
    }
}

pub struct PacketWriting<'a>(pub &'a [([u8; 3], Vec<u8>)]);

impl<S: PacketSide> Work<S> for PacketWriting<'_> {
    #[inline(always)]
    fn run(&mut self, mut see: impl FnMut(u64, &[u8])) {
        let Aligned(out) = &mut Aligned([0; WIRE_LIMIT]);
        for (header, unit) in self.0 {
            let answer = S::write(*black_box(header), black_box(unit), black_box(out));
            see(answer, out);
        }
    }
}

/// A line is fed in chunks of the greatest length that a call takes.
pub struct PacketFeeding<'a>(pub &'a [u8]);

impl<S: PacketLineSide> Work<S> for PacketFeeding<'_> {
    #[inline(always)]
    fn run(&mut self, mut see: impl FnMut(u64, &[u8])) {
        let Aligned(line) = &mut Aligned(S::Line::new());
        for chunk in black_box(self.0).chunks(CHUNK_LIMIT) {
            let mut rest = chunk;
            while !rest.is_empty() {
                let taken = line.feed(rest, &mut see);
                rest = &rest[taken..];
            }
        }
    }
}
