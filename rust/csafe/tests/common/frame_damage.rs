//! Frames that are sound, over-long or damaged.

use plain::damage::is_allowed;

use crate::common::Xorshift;

pub const EXTENDED_START: u8 = 0xF0;
pub const STANDARD_START: u8 = 0xF1;
pub const STOP: u8 = 0xF2;
pub const ESCAPE: u8 = 0xF3;

/// A header and contents, as they stand before stuffing.
#[derive(Default)]
pub struct Plain {
    pub addresses: Option<(u8, u8)>,
    pub contents: Vec<u8>,
}

impl Plain {
    /// Takes another header and other contents.
    pub fn renew(&mut self, random: &mut Xorshift) {
        let len = match random.below(4) {
            0 => random.below(4),
            1 => random.below(24),
            2 => 100 + random.below(24),
            _ => random.below(160),
        };
        let share = [0, 0, 20, 50, 100][random.below(5)];
        self.addresses = match random.below(2) {
            0 => None,
            _ => Some((address(random), address(random))),
        };
        self.contents.clear();
        random.push_bytes(&mut self.contents, len, share);
    }

    /// Puts the bytes on the wire in place of what `wire` has, with no limit to their number.
    pub fn put_wire(&self, wire: &mut Vec<u8>) {
        wire.clear();
        match self.addresses {
            None => wire.push(STANDARD_START),
            Some((to, from)) => {
                wire.push(EXTENDED_START);
                push_stuffed(wire, &[to, from]);
            }
        }
        push_stuffed(wire, &self.contents);
        let checksum = self.contents.iter().fold(0, |sum, byte| sum ^ byte);
        push_stuffed(wire, &[checksum]);
        wire.push(STOP);
    }
}

fn push_stuffed(wire: &mut Vec<u8>, bytes: &[u8]) {
    for byte in bytes {
        match byte {
            EXTENDED_START..=ESCAPE => wire.extend([ESCAPE, byte - EXTENDED_START]),
            _ => wire.push(*byte),
        }
    }
}

fn address(random: &mut Xorshift) -> u8 {
    const EDGES: [u8; 10] = [0x00, 0x01, 0xEF, 0xF0, 0xF1, 0xF2, 0xF3, 0xFC, 0xFD, 0xFF];
    match random.below(2) {
        0 => EDGES[random.below(EDGES.len())],
        _ => random.below(256) as u8,
    }
}

/// Damages a frame in one place, or leaves it as it is.
pub fn damage(wire: &mut Vec<u8>, random: &mut Xorshift) {
    if wire.is_empty() {
        return;
    }
    let at = random.below(wire.len());
    match random.below(9) {
        0 => wire[at] ^= 1 << random.below(8),
        1 => {
            wire.remove(at);
        }
        2 => wire.insert(at, random.below(256) as u8),
        3 => wire.insert(at, EXTENDED_START + random.below(4) as u8),
        4 => wire.truncate(at),
        5 => wire.insert(0, wire[0]),
        6 => wire.push(STOP),
        7 => wire[at] = EXTENDED_START + random.below(4) as u8,
        _ => {}
    }
}

/// Changes one byte and the checksum with it, so that the change is not told by the checksum.
pub fn damage_with_checksum(wire: &mut [u8], random: &mut Xorshift) {
    if wire.len() < 4 {
        return;
    }
    let change = 1 << random.below(8);
    let at = 1 + random.below(wire.len() - 3);
    let checksum = wire.len() - 2;
    wire[at] ^= change;
    wire[checksum] ^= change;
}

/// An index of a sound frame and a byte that the one there may be changed to. The index is often in an address or the
/// checksum, of which a long frame has few bytes. `None` where the change that was drawn is not allowed.
pub fn any_allowed_change(wire: &[u8], random: &mut Xorshift) -> Option<(usize, u8)> {
    let between_flags = wire.len() - 2;
    let index = 1 + match random.below(3) {
        0 => random.below(between_flags.min(4)),
        1 => between_flags - 1,
        _ => random.below(between_flags),
    };
    let new = random.below(256) as u8;
    is_allowed(wire, index, new).then_some((index, new))
}
