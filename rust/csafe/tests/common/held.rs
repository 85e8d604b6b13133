//! What a line reader has to hold, and how much of a chunk it may take.

use csafe::line::HELD_LEN;

use crate::frame_damage::{EXTENDED_START, STANDARD_START, STOP};

/// The most bytes that a call takes, and the most that a reader takes before a finish. The numbers stand here too, so
/// that neither side's own is taken for right.
pub const CHUNK_LIMIT: usize = 65_536;
pub const LINE_LIMIT: u32 = 4_294_967_295;

/// The bytes of a chunk that a call looks at.
pub fn first_of(chunk: &[u8]) -> &[u8] {
    &chunk[..chunk.len().min(CHUNK_LIMIT)]
}

/// The modes of a reader, as its state counts them.
pub const OUTSIDE: u64 = 0;
pub const IN_STANDARD: u64 = 1;
pub const IN_EXTENDED: u64 = 2;
pub const OVERLONG: u64 = 3;

/// How many modes there are. A state has the mode in its lowest two bits and the length above them.
pub const MODES: u64 = 4;

/// The counts of a reader that has taken so many bytes.
pub fn counts_of(count: u32) -> u64 {
    u64::from(count) << 32
}

/// What a reader's bytes and numbers have to be: each byte of an open candidate where it belongs, a frame's contents
/// first once it is told, and all others as they were.
#[derive(Clone)]
pub struct Held {
    bytes: [u8; HELD_LEN],
    len: usize,
    mode: u64,
    position: u32,
    count: u32,
}

impl Held {
    /// The reader with these bytes, this state and these counts, which may be any. The numbers are 0 for a new one.
    pub fn new(bytes: [u8; HELD_LEN], state: u64, counts: u64) -> Held {
        Held {
            bytes,
            len: (state / MODES) as usize,
            mode: state % MODES,
            position: counts as u32,
            count: (counts >> 32) as u32,
        }
    }

    /// Takes a byte. A full reader stays as it is.
    pub fn take(&mut self, byte: u8, contents: &[u8]) {
        if self.is_full() {
            return;
        }
        if byte == EXTENDED_START || byte == STANDARD_START {
            self.position = self.count;
        }
        self.count += 1;
        let start = |mode| (0, mode);
        (self.len, self.mode) = match byte {
            EXTENDED_START => start(IN_EXTENDED),
            STANDARD_START => start(IN_STANDARD),
            STOP => {
                self.bytes[..contents.len()].copy_from_slice(contents);
                (0, OUTSIDE)
            }
            _ if self.mode == OUTSIDE || self.mode == OVERLONG => (self.len, self.mode),
            _ if self.len >= HELD_LEN => (0, OVERLONG),
            _ => {
                self.bytes[self.len] = byte;
                (self.len + 1, self.mode)
            }
        };
    }

    /// Ends the input, which sets both numbers back to 0.
    pub fn finish(&mut self) {
        self.len = 0;
        self.mode = OUTSIDE;
        self.position = 0;
        self.count = 0;
    }

    pub fn is_full(&self) -> bool {
        self.count == LINE_LIMIT
    }

    /// The counts: the position of the last start flag, and how many bytes were taken.
    pub fn counts(&self) -> u64 {
        counts_of(self.count) | u64::from(self.position)
    }

    pub fn bytes(&self) -> &[u8; HELD_LEN] {
        &self.bytes
    }

    pub fn state(&self) -> u64 {
        self.mode + MODES * self.len as u64
    }
}
