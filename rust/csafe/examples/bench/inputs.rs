//! What the two sides work on, the same in every run.

use std::ops::RangeInclusive;

use plain::frame::Origin;

use crate::common::Xorshift;
use crate::sides::{Ours, Side};

/// Bytes of contents in an input, all its frames together, and the most frames. With fewer the processor learns from
/// pass to pass which byte is escaped: of frames of 60 bytes, a fifth of them F0 to F3, one was read in 60 ns among 512
/// and in 155 ns among 4,096.
pub const INPUT_LEN: usize = 200_000;
pub const FRAMES_LIMIT: usize = 16_384;

/// A length is left out of a sweep where fewer than one in so many frames fits, because those that fit have far
/// fewer escapes than the sweep is about.
const TRIES: usize = 4;

/// The length of a line, and the most stray bytes between two of its frames.
pub const LINE_LEN: usize = 524_288;
const STRAY_LIMIT: usize = 60;

/// Of the traffic on a line: the lengths of its frames on the wire, the most stray bytes between two of them, and one
/// frame in how many is damaged.
const TRAFFIC_WIRES: RangeInclusive<usize> = 10..=60;
const TRAFFIC_STRAYS: usize = 5;
const TRAFFIC_DAMAGE: usize = 20;

/// Contents for which an extended frame has room where nothing is escaped.
pub const CONTENTS_LIMIT: usize = 114;

/// The addresses that can be held.
const MACHINES: RangeInclusive<u32> = 0x01..=0xFC;

#[derive(Clone, Copy, PartialEq)]
pub enum Kind {
    Standard,
    Extended,
}

impl Kind {
    /// Where frames of this kind are measured: a live line has no standard ones.
    pub fn origin(self) -> Origin {
        match self {
            Kind::Standard => Origin::Trace,
            Kind::Extended => Origin::Live,
        }
    }
}

/// The addresses of every extended frame.
pub const TO: u8 = 0x05;
pub const FROM: u8 = 0x00;

/// Contents, and the frame of each.
#[derive(Default)]
pub struct Frames {
    pub contents: Vec<Vec<u8>>,
    pub wires: Vec<Vec<u8>>,
}

impl Frames {
    /// Frames of one length, whose bytes are each F0 to F3 with a chance of `percent` in a hundred. None where too
    /// few fit.
    pub fn of_length(kind: Kind, len: usize, percent: usize) -> Option<Frames> {
        let mut random = Xorshift::new();
        let mut frames = Frames::default();
        let count = (INPUT_LEN / len.max(1)).min(FRAMES_LIMIT);
        for _ in 0..TRIES * count {
            let contents = contents(&mut random, len, percent);
            let Some(wire) = written(kind, &contents) else {
                continue;
            };
            // The checksum is escaped too where it is F0 to F3.
            if percent == 0 && wire.contains(&0xF3) {
                continue;
            }
            frames.contents.push(contents);
            frames.wires.push(wire);
            if frames.wires.len() == count {
                return Some(frames);
            }
        }
        None
    }

    /// Extended frames whose contents are any bytes and have any of these lengths.
    pub fn of_lengths(lens: RangeInclusive<usize>) -> Frames {
        let mut random = Xorshift::new();
        let mut frames = Frames::default();
        while frames.wire_len() < INPUT_LEN {
            let len = lens.start() + random.below(lens.end() - lens.start() + 1);
            let contents = random.bytes(len, 0);
            if let Some(wire) = written(Kind::Extended, &contents) {
                frames.contents.push(contents);
                frames.wires.push(wire);
            }
        }
        frames
    }

    /// The bytes on the wire.
    pub fn wire_len(&self) -> usize {
        self.wires.iter().map(Vec::len).sum()
    }
}

fn contents(random: &mut Xorshift, len: usize, percent: usize) -> Vec<u8> {
    let mut byte = || {
        if random.below(100) < percent {
            return 0xF0 + random.below(4) as u8;
        }
        match random.below(252) as u8 {
            plain @ 0..0xF0 => plain,
            high => high + 4,
        }
    };
    (0..len).map(|_| byte()).collect()
}

/// The frame of some contents, or nothing where it is too long.
fn written(kind: Kind, contents: &[u8]) -> Option<Vec<u8>> {
    let mut out = [0; 128];
    let answer = match kind {
        Kind::Standard => Ours::write_standard(contents, &mut out),
        Kind::Extended => Ours::write_extended(TO, FROM, contents, &mut out),
    };
    let len = usize::try_from(answer).ok()?;
    out.get(..len).map(<[u8]>::to_vec)
}

/// Frames with a byte of each changed.
pub fn damaged(wires: &[Vec<u8>]) -> Vec<Vec<u8>> {
    let mut random = Xorshift::new();
    let mut wires = wires.to_vec();
    for wire in &mut wires {
        change_a_byte(wire, &mut random);
    }
    wires
}

pub fn change_a_byte(wire: &mut [u8], random: &mut Xorshift) {
    let at = random.below(wire.len());
    wire[at] ^= 1 + random.below(255) as u8;
}

/// Frames one after another.
pub fn line_of(wires: &[Vec<u8>]) -> Vec<u8> {
    wires.concat()
}

/// Frames with bytes between them that are no flags.
pub fn line_with_strays(wires: &[Vec<u8>]) -> Vec<u8> {
    let mut random = Xorshift::new();
    let mut line = Vec::new();
    for wire in wires {
        let len = random.below(STRAY_LIMIT + 1);
        line.extend(contents(&mut random, len, 0));
        line.extend(wire);
    }
    line
}

/// Frames of both kinds with any bytes, of which few are escaped, stray bytes before three of four, and some damage.
pub fn traffic() -> Vec<u8> {
    let mut random = Xorshift::new();
    let mut line = Vec::new();
    while line.len() < LINE_LEN {
        if random.below(4) > 0 {
            let len = 1 + random.below(TRAFFIC_STRAYS);
            line.extend(contents(&mut random, len, 0));
        }
        let mut wire = traffic_frame(&mut random);
        if random.below(TRAFFIC_DAMAGE) == 0 {
            change_a_byte(&mut wire, &mut random);
        }
        line.extend(wire);
    }
    line
}

fn traffic_frame(random: &mut Xorshift) -> Vec<u8> {
    loop {
        let kind = [Kind::Standard, Kind::Extended][random.below(2)];
        let len = random.below(*TRAFFIC_WIRES.end());
        let wire = written(kind, &random.bytes(len, 0));
        if let Some(wire) = wire.filter(|wire| TRAFFIC_WIRES.contains(&wire.len())) {
            return wire;
        }
    }
}

pub fn any_bytes() -> Vec<u8> {
    Xorshift::new().bytes(LINE_LEN, 0)
}

/// Bytes that are no flags.
pub fn stray_bytes() -> Vec<u8> {
    contents(&mut Xorshift::new(), LINE_LEN, 0)
}

/// An address and a token for each machine, in random order.
pub fn leases() -> Vec<(u32, u64)> {
    let mut random = Xorshift::new();
    let mut leases: Vec<(u32, u64)> = MACHINES
        .map(|address| (address, random.number() | 1))
        .collect();
    for at in 1..leases.len() {
        leases.swap(at, random.below(at + 1));
    }
    leases
}

/// Addresses that no machine has, with the tokens of the leases.
pub fn out_of_range(leases: &[(u32, u64)]) -> Vec<(u32, u64)> {
    let mut random = Xorshift::new();
    let beyond = |random: &mut Xorshift| match random.below(8) {
        0 => 0x00,
        1 => 0xFD + random.below(3) as u32,
        _ => 0x100 + random.below(0xFFFF_FF00) as u32,
    };
    leases
        .iter()
        .map(|(_, token)| (beyond(&mut random), *token))
        .collect()
}
