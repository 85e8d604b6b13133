//! Replies: a status byte, then items of byte, count and data.

use crate::command::{counted_at, Found};
use crate::frame::CONTENTS_MAX;
use crate::refusal;

/// What a status byte says.
#[derive(Clone, Copy, Debug, PartialEq, Eq)]
pub struct Status {
    pub toggle: bool,
    /// How the previous frame was taken.
    pub previous: u8,
    /// The state of the machine.
    pub state: u8,
}

impl Status {
    pub const PREVIOUS_OK: u8 = 0;
    pub const PREVIOUS_REJECT: u8 = 1;
    pub const PREVIOUS_BAD: u8 = 2;
    pub const PREVIOUS_NOT_READY: u8 = 3;

    pub const ERROR: u8 = 0;
    pub const READY: u8 = 1;
    pub const IDLE: u8 = 2;
    pub const HAVE_ID: u8 = 3;
    pub const IN_USE: u8 = 5;
    pub const PAUSE: u8 = 6;
    pub const FINISH: u8 = 7;
    pub const MANUAL: u8 = 8;
    pub const OFFLINE: u8 = 9;

    /// A status of its parts.
    ///
    /// Refusal: 8.
    pub fn of(toggle: bool, previous: u8, state: u8) -> Result<Status, u8> {
        let known = matches!(
            state,
            Status::ERROR..=Status::HAVE_ID | Status::IN_USE..=Status::OFFLINE
        );
        if previous > Status::PREVIOUS_NOT_READY || !known {
            return Err(refusal::STATUS);
        }
        Ok(Status {
            toggle,
            previous,
            state,
        })
    }

    /// The byte that says this.
    pub fn byte(self) -> u8 {
        u8::from(self.toggle) << 7 | self.previous << 4 | self.state
    }
}

/// Reads a status byte.
///
/// Refusal: 8.
pub fn status(byte: u8) -> Result<Status, u8> {
    if byte & 0x40 != 0 {
        return Err(refusal::STATUS);
    }
    Status::of(byte & 0x80 != 0, byte >> 4 & 0x03, byte & 0x0F)
}

/// The status and the number of items of a reply.
///
/// Refusals, in this order: 4, 8, 7.
pub fn read(contents: &[u8]) -> Result<(Status, usize), u8> {
    let mut items = 0;
    let status = walk(contents, |_| items += 1)?;
    Ok((status, items))
}

/// The n-th item of a reply.
///
/// Refusals, in this order: 4, 8, 7, 15.
pub fn nth_item(contents: &[u8], n: usize) -> Result<Found, u8> {
    let mut index = 0;
    let mut nth = Err(refusal::NONE);
    walk(contents, |item| {
        if index == n {
            nth = Ok(item);
        }
        index += 1;
    })?;
    nth
}

/// Writes a reply of a status byte alone and returns its length.
///
/// Refusals, in this order: 8, 1.
pub fn write_status(byte: u8, out: &mut [u8]) -> Result<usize, u8> {
    status(byte)?;
    *out.first_mut().ok_or(refusal::NO_ROOM)? = byte;
    Ok(1)
}

/// Writes the reply `prior` with one more item at its end and returns its length.
///
/// Refusals, in this order: 4, 8, 7, 2, 1.
pub fn write_item(prior: &[u8], byte: u8, data: &[u8], out: &mut [u8]) -> Result<usize, u8> {
    read(prior)?;
    let count = u8::try_from(data.len()).map_err(|_| refusal::COUNT)?;
    let len = prior.len() + 2 + data.len();
    if len > CONTENTS_MAX {
        return Err(refusal::LONG);
    }
    let out = out.get_mut(..len).ok_or(refusal::NO_ROOM)?;
    let (head, item) = out.split_at_mut(prior.len());
    head.copy_from_slice(prior);
    item[0] = byte;
    item[1] = count;
    item[2..].copy_from_slice(data);
    Ok(len)
}

/// Checks the whole reply and shows each item on the way.
fn walk(contents: &[u8], mut show: impl FnMut(Found)) -> Result<Status, u8> {
    let status = status(*contents.first().ok_or(refusal::SHORT)?)?;
    let mut at = 1;
    while at < contents.len() {
        let item = counted_at(contents, at)?;
        show(item);
        at = item.end();
    }
    Ok(status)
}
