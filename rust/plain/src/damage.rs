//! What reading tells of a sound frame in which one byte between the flags was changed.
//!
//! The checksum is the exclusive or of the contents, so a change of one byte, in the
//! contents or of the checksum, is always found. It does not cover the addresses.
//! Changes of F3, of the byte right after it, and changes to F0 to F3 are not allowed
//! here: they make, undo or change an escape, or add a flag.

use crate::frame::{self, Origin, Read, CONTENTS_MAX, ESCAPE, START_EXTENDED};
use crate::refusal;

/// The parts of a frame between its flags.
#[derive(Clone, Copy, Debug, PartialEq, Eq)]
pub enum Part {
    Destination,
    Source,
    Contents,
    Checksum,
}

/// The part of a sound frame in which the byte at an index of its wire bytes lies,
/// or `None` for an index that is not between the flags. Both bytes of an escape lie
/// in the part of the byte that they stand for.
pub fn part_at(wire: &[u8], index: usize) -> Option<Part> {
    let [start, body @ .., _] = wire else {
        return None;
    };
    let before = body.get(..index.checked_sub(1)?)?;
    if before.len() == body.len() {
        return None;
    }
    let nth = unstuffed_len(before);
    if nth + 1 == unstuffed_len(body) {
        return Some(Part::Checksum);
    }
    Some(match (*start, nth) {
        (START_EXTENDED, 0) => Part::Destination,
        (START_EXTENDED, 1) => Part::Source,
        _ => Part::Contents,
    })
}

/// Whether the byte at an index of a sound frame is one that may be changed, and
/// `new` one that it may be changed to: it stands between the flags, is not F3 and not
/// right after F3, and `new` is another byte and none of F0 to F3.
pub fn is_allowed(wire: &[u8], index: usize, new: u8) -> bool {
    let [_, body @ .., _] = wire else {
        return false;
    };
    let old = index.checked_sub(1).and_then(|at| body.get(at));
    old.is_some_and(|old| {
        *old != ESCAPE && wire[index - 1] != ESCAPE && new != *old && !frame::is_special(new)
    })
}

/// What reading a sound frame answers, given room, after the byte at an index was
/// changed to `new`, if the change [is allowed](is_allowed): a frame whose contents are
/// as they were, or 5. Only the frame as it was before the change is read.
///
/// `None` where the frame is not sound, or the index is not between its flags.
pub fn read_changed(
    origin: Origin,
    wire: &[u8],
    index: usize,
    new: u8,
) -> Option<Result<Read, u8>> {
    let part = part_at(wire, index)?;
    match (part, frame::read(origin, wire, &mut [0; CONTENTS_MAX])) {
        (Part::Destination, Ok(Read::Extended { from, len, .. })) => {
            let to = new;
            Some(Ok(Read::Extended { to, from, len }))
        }
        (Part::Source, Ok(Read::Extended { to, len, .. })) => {
            let from = new;
            Some(Ok(Read::Extended { to, from, len }))
        }
        // A sound standard frame of a live line is refused too, and 5 comes before 17.
        (Part::Contents | Part::Checksum, Ok(_) | Err(refusal::UNNAMED)) => Some(Err(refusal::SUM)),
        _ => None,
    }
}

/// How many bytes stuffed ones stand for. F3 stands only at the beginning of an
/// escape, so it is enough to leave it out; of an escape that is cut in two the second
/// byte counts.
fn unstuffed_len(stuffed: &[u8]) -> usize {
    stuffed.iter().filter(|&&byte| byte != ESCAPE).count()
}
