//! How lines are cut into chunks.

use crate::common::Xorshift;

/// The length of a chunk, often 1 and often all.
pub fn any_chunk(random: &mut Xorshift, left: usize) -> usize {
    match random.below(4) {
        0 => 1,
        1 => random.below(8).min(left),
        2 => random.below(left + 1),
        _ => left,
    }
}

/// How many bytes of a part may stand before the end of what a call takes: any number, of a long part those about its
/// two ends.
pub fn places(part: &[u8]) -> impl Iterator<Item = usize> {
    let len = part.len();
    (0..=len).filter(move |before| *before < 10 || len - before < 5)
}

/// A stream in pieces, and whether a finish follows each. A piece ends after each byte whose bit is set in either
/// number.
pub fn pieces(stream: &[u8], cuts: u64, finishes: u64) -> Vec<(&[u8], bool)> {
    let is_set = |bits: u64, at: usize| bits >> at & 1 == 1;
    let mut all = Vec::new();
    let mut start = 0;
    for at in 0..stream.len() {
        if is_set(cuts | finishes, at) || at + 1 == stream.len() {
            all.push((&stream[start..=at], is_set(finishes, at)));
            start = at + 1;
        }
    }
    all
}
