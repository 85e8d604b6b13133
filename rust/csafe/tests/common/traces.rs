//! Lines and traces: frames with stops among them, damage and stray bytes.

use crate::common::Xorshift;
use crate::frame_damage::{damage, damage_with_checksum, Plain};

/// The bytes that decide what becomes of a line, and some that don't.
pub const ALPHABET: [u8; 7] = [0xF0, 0xF1, 0xF2, 0xF3, 0x00, 0x01, 0x41];

const TERMINATE: [u8; 6] = [0x76, 0x04, 0x13, 0x02, 0x01, 0x02];

/// Makes the traffic of a line in memory that is used again.
#[derive(Default)]
pub struct Traffic {
    plain: Plain,
    wire: Vec<u8>,
}

impl Traffic {
    /// A sound frame, a damaged one, stray bytes, or bytes that are mostly flags.
    pub fn any(&mut self, random: &mut Xorshift) -> &[u8] {
        match random.below(8) {
            0..=2 => self.put_frame(random),
            3..=4 => {
                self.put_frame(random);
                for _ in 0..=random.below(3) {
                    damage(&mut self.wire, random);
                }
            }
            5 => {
                self.put_frame(random);
                damage_with_checksum(&mut self.wire, random);
            }
            6 => {
                self.wire.clear();
                let len = random.below(40);
                random.push_bytes(&mut self.wire, len, 5);
            }
            _ => {
                self.wire.clear();
                let flags = (0..random.below(12)).map(|_| ALPHABET[random.below(ALPHABET.len())]);
                self.wire.extend(flags);
            }
        }
        &self.wire
    }

    fn put_frame(&mut self, random: &mut Xorshift) {
        self.plain.renew(random);
        self.plain.put_wire(&mut self.wire);
    }

    /// A trace of about this length, in place of what `trace` has.
    pub fn put_trace(&mut self, random: &mut Xorshift, len: usize, trace: &mut Vec<u8>) {
        trace.clear();
        while trace.len() < len {
            match random.below(10) {
                0 => trace.extend(self.commands(random)),
                _ => trace.extend(self.any(random)),
            }
        }
    }

    /// A sound frame whose contents are commands about the one that ends a workout, changed in places.
    fn commands(&mut self, random: &mut Xorshift) -> &[u8] {
        self.plain.addresses = Some((0x05, random.below(256) as u8));
        self.plain.contents.clear();
        for _ in 0..=random.below(3) {
            push_command(&mut self.plain.contents, random);
        }
        self.plain.put_wire(&mut self.wire);
        &self.wire
    }
}

fn push_command(contents: &mut Vec<u8>, random: &mut Xorshift) {
    let start = contents.len();
    match random.below(3) {
        0 => contents.push(0x80 + random.below(0x40) as u8),
        1 => {
            contents.push([0x1A, 0x77, 0x7E, 0x7F, 0x13][random.below(5)]);
            contents.extend(&TERMINATE[1..]);
        }
        _ => contents.extend(TERMINATE),
    }
    if random.below(4) == 0 {
        let at = start + random.below(contents.len() - start);
        contents[at] = random.below(8) as u8;
    }
}
