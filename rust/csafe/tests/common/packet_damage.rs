//! Packets that are sound, over-long or damaged, and lines of them.

use crate::common::Xorshift;

pub const START: u8 = 0x01;
pub const STOP: u8 = 0x17;

/// The one control character that a data unit may have.
const SEPARATOR: u8 = 0x1D;

/// The bytes that decide what becomes of a line, and some that don't. `A00` has the checksum 61, so that packets can be
/// made of them.
pub const PACKET_ALPHABET: [u8; 6] = [START, STOP, b'A', b'0', b'6', b'1'];

/// Bytes about the ends of what is allowed in a header, a data unit and a checksum.
const EDGES: [u8; 18] = [
    0x00, START, 0x02, 0x16, STOP, 0x18, 0x1C, SEPARATOR, 0x1E, 0x1F, b' ', b'/', b':', b'@', b'[',
    b'~', 0x7F, 0xFF,
];

/// A header and a data unit, which may be none.
#[derive(Default)]
pub struct PlainPacket {
    pub header: [u8; 3],
    pub unit: Vec<u8>,
}

impl PlainPacket {
    /// Takes another header and another data unit, each with a wrong byte now and then.
    pub fn renew(&mut self, random: &mut Xorshift) {
        self.header = any_header(random);
        if random.below(16) == 0 {
            self.header[random.below(3)] = any_byte(random);
        }
        let len = match random.below(4) {
            0 => random.below(5),
            1 => random.below(24),
            2 => 240 + random.below(24),
            _ => random.below(300),
        };
        self.unit.clear();
        self.unit.extend((0..len).map(|_| any_character(random)));
        if len > 0 && random.below(16) == 0 {
            self.unit[random.below(len)] = any_byte(random);
        }
    }

    /// Puts the bytes on the wire in place of what `wire` has, with no limit to their number.
    pub fn put_wire(&self, wire: &mut Vec<u8>) {
        wire.clear();
        wire.push(START);
        wire.extend(self.header);
        wire.extend(&self.unit);
        wire.extend(checksum(&wire[1..]));
        wire.push(STOP);
    }
}

/// The sum modulo 100, as two digits.
fn checksum(covered: &[u8]) -> [u8; 2] {
    let sum = covered
        .iter()
        .fold(0, |sum, byte| (sum + u32::from(*byte)) % 100);
    [sum / 10, sum % 10].map(|digit| b'0' + digit as u8)
}

fn any_header(random: &mut Xorshift) -> [u8; 3] {
    let letter = b'A' + random.below(26) as u8;
    let digit = |random: &mut Xorshift| b'0' + random.below(10) as u8;
    [letter, digit(random), digit(random)]
}

/// A byte that may stand in a data unit.
pub fn any_character(random: &mut Xorshift) -> u8 {
    match random.below(12) {
        0 => SEPARATOR,
        1 => b' ',
        2 => b'~',
        _ => b' ' + random.below(95) as u8,
    }
}

/// Any byte, often one about the ends of what is allowed.
pub fn any_byte(random: &mut Xorshift) -> u8 {
    match random.below(2) {
        0 => EDGES[random.below(EDGES.len())],
        _ => random.below(256) as u8,
    }
}

/// Damages a packet in one place, or leaves it as it is.
pub fn damage_packet(wire: &mut Vec<u8>, random: &mut Xorshift) {
    if wire.is_empty() {
        return;
    }
    let at = random.below(wire.len());
    match random.below(9) {
        0 => wire[at] ^= 1 << random.below(8),
        1 => {
            wire.remove(at);
        }
        2 => wire.insert(at, any_byte(random)),
        3 => wire[at] = any_byte(random),
        4 => wire.truncate(at),
        5 => wire.insert(0, wire[0]),
        6 => wire.push(STOP),
        7 => wire[at] = [START, STOP][random.below(2)],
        _ => {}
    }
}

/// Puts any byte at a place of header or data unit and puts the checksum right, so that the change is not told by the
/// checksum.
pub fn damage_packet_with_checksum(wire: &mut [u8], random: &mut Xorshift) {
    let len = wire.len();
    if len < 7 {
        return;
    }
    wire[1 + random.below(len - 4)] = any_byte(random);
    let sum = checksum(&wire[1..len - 3]);
    wire[len - 3..len - 1].copy_from_slice(&sum);
}

/// Damages a packet in three of four cases.
pub fn spoil_packet(wire: &mut Vec<u8>, random: &mut Xorshift) {
    match random.below(4) {
        0 => {}
        1 => damage_packet_with_checksum(wire, random),
        _ => {
            for _ in 0..=random.below(3) {
                damage_packet(wire, random);
            }
        }
    }
}

/// Makes the traffic of a treadmill's line in memory that is used again.
#[derive(Default)]
pub struct PacketTraffic {
    plain: PlainPacket,
    wire: Vec<u8>,
}

impl PacketTraffic {
    /// A packet that is sound or over-long, a damaged one, stray bytes, or bytes with many flags.
    pub fn any(&mut self, random: &mut Xorshift) -> &[u8] {
        match random.below(8) {
            0..=2 => self.put_packet(random),
            3..=5 => {
                self.put_packet(random);
                spoil_packet(&mut self.wire, random);
            }
            6 => {
                self.wire.clear();
                let len = random.below(40);
                self.wire.extend((0..len).map(|_| any_byte(random)));
            }
            _ => {
                self.wire.clear();
                let any = |random: &mut Xorshift| random.below(PACKET_ALPHABET.len());
                let flags = (0..random.below(12)).map(|_| PACKET_ALPHABET[any(random)]);
                self.wire.extend(flags);
            }
        }
        &self.wire
    }

    fn put_packet(&mut self, random: &mut Xorshift) {
        self.plain.renew(random);
        self.plain.put_wire(&mut self.wire);
    }
}
