//! What a packet reader has to hold.

use csafe::packet::HELD_LEN;

use crate::packet_damage::{START, STOP};

/// The modes of a packet reader, as its state counts them. 3 is a candidate that is too long, too.
pub const OUTSIDE: u64 = 0;
pub const INSIDE: u64 = 1;
pub const OVERLONG: u64 = 2;

/// How many values the mode's two bits have. The length stands above them.
pub const MODES: u64 = 4;

/// What a reader's bytes and number have to be: each byte of an open candidate where it belongs, a packet's data unit
/// first once it is told, and all others as they were.
#[derive(Clone)]
pub struct PacketHeld {
    bytes: [u8; HELD_LEN],
    len: usize,
    mode: u64,
}

impl PacketHeld {
    /// The reader with these bytes and this state, which may be any. It is 0 for a new one.
    pub fn new(bytes: [u8; HELD_LEN], state: u64) -> PacketHeld {
        PacketHeld {
            bytes,
            len: (state / MODES) as usize,
            mode: (state % MODES).min(OVERLONG),
        }
    }

    pub fn take(&mut self, byte: u8, unit: &[u8]) {
        (self.len, self.mode) = match byte {
            START => (0, INSIDE),
            STOP => {
                self.bytes[..unit.len()].copy_from_slice(unit);
                (0, OUTSIDE)
            }
            _ if self.mode != INSIDE => (self.len, self.mode),
            _ if self.len >= HELD_LEN => (0, OVERLONG),
            _ => {
                self.bytes[self.len] = byte;
                (self.len + 1, INSIDE)
            }
        };
    }

    pub fn finish(&mut self) {
        self.len = 0;
        self.mode = OUTSIDE;
    }

    pub fn bytes(&self) -> &[u8; HELD_LEN] {
        &self.bytes
    }

    pub fn state(&self) -> u64 {
        self.mode + MODES * self.len as u64
    }
}
