//! Outputs filled with a pattern.

/// Bytes around the slice that is lent, which no call may change.
const MARGIN: usize = 16;

/// The longest slice that is lent.
const ROOM: usize = 512;

const LEN: usize = MARGIN + ROOM + MARGIN;

const PATTERN: [u8; LEN] = {
    let mut pattern = [0; LEN];
    let mut at = 0;
    while at < LEN {
        pattern[at] = (at as u8).wrapping_mul(37) ^ 0xA5;
        at += 1;
    }
    pattern
};

/// An output of a given length that stands between two margins.
#[derive(Clone)]
pub struct Output {
    bytes: [u8; LEN],
    room: usize,
}

impl Output {
    /// The room is at most 512.
    pub fn new(room: usize) -> Output {
        assert!(room <= ROOM, "an output of {room} bytes");
        Output {
            bytes: PATTERN,
            room,
        }
    }

    pub fn lent(&mut self) -> &mut [u8] {
        &mut self.bytes[MARGIN..MARGIN + self.room]
    }

    /// The first bytes of the lent slice.
    pub fn result(&self, len: usize) -> &[u8] {
        &self.bytes[MARGIN..MARGIN + len]
    }

    /// Whether all but the first `len` bytes of the lent slice are as they were.
    pub fn kept_past(&self, len: usize) -> bool {
        let end = MARGIN + len;
        self.bytes[..MARGIN] == PATTERN[..MARGIN] && self.bytes[end..] == PATTERN[end..]
    }
}
