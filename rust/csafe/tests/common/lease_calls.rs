//! Calls on a lease table, and the tables that they begin with.

use csafe::lease::TABLE_LEN;

use crate::common::Xorshift;

pub const ADDRESSES: [u32; 18] = [
    0x00,
    0x01,
    0x02,
    0x05,
    0x7F,
    0x80,
    0xEF,
    0xF0,
    0xF2,
    0xF3,
    0xFB,
    0xFC,
    0xFD,
    0xFF,
    0x100,
    0x105,
    0x1FC,
    u32::MAX,
];

const TOKENS: [u64; 8] = [
    0,
    1,
    2,
    0x0100,
    0x0102_0304_0506_0708,
    0x8000_0000_0000_0000,
    0xFF00_0000_0000_0001,
    u64::MAX,
];

/// Lengths of tables that are refused.
const WRONG_LENS: [usize; 6] = [0, 1, 8, 2_047, 2_049, LONGEST];

/// The longest table that is lent.
pub const LONGEST: usize = 4_096;

#[derive(Clone, Copy, Debug, PartialEq, Eq)]
pub enum Action {
    Hold,
    Release,
    Stop { room: usize },
}

#[derive(Clone, Copy, Debug)]
pub struct Call {
    pub action: Action,
    pub address: u32,
    pub token: u64,
    /// The length of a table to lend in place of the true one.
    pub wrong_len: Option<usize>,
}

impl Call {
    /// Few tokens on few addresses, so that the holder's token is often met.
    pub fn any(random: &mut Xorshift) -> Call {
        let action = match random.below(4) {
            0 | 1 => Action::Stop {
                room: random.below(16),
            },
            2 => Action::Hold,
            _ => Action::Release,
        };
        Call {
            action,
            address: match random.below(8) {
                0 => random.below(0x120) as u32,
                _ => ADDRESSES[random.below(ADDRESSES.len())],
            },
            token: match random.below(40) {
                0 => random.number(),
                _ => TOKENS[random.below(TOKENS.len())],
            },
            wrong_len: match random.below(48) {
                0 => Some(random.below(LONGEST + 1)).filter(|len| *len != TABLE_LEN),
                1 => Some(WRONG_LENS[random.below(WRONG_LENS.len())]),
                _ => None,
            },
        }
    }
}

/// A table that is new, or, one time in three, one on which two addresses in three have a token of the calls, which
/// may be 0.
pub fn any_table(random: &mut Xorshift) -> [u8; TABLE_LEN] {
    let mut table = [0; TABLE_LEN];
    if random.below(3) > 0 {
        return table;
    }
    for token in table.chunks_exact_mut(8) {
        if random.below(3) > 0 {
            token.copy_from_slice(&TOKENS[random.below(TOKENS.len())].to_le_bytes());
        }
    }
    table
}
