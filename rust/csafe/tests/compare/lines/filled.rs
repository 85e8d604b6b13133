//! A reader that really takes all the bytes that it may.

use std::time::Instant;

use csafe::LineReader;
use plain::frame::Origin;
use plain::line::{Answer, Line};

use super::pair::Done;
use super::{our_reader, FRAME};
use crate::held::{CHUNK_LIMIT, LINE_LIMIT};
use crate::ORIGINS;

/// Where frames begin among zeros: at the beginning, across the ends of chunks, about half of the way, and so that the
/// last byte that is taken ends one.
const PLACES: [u32; 8] = [
    0,
    65_533,
    16_777_215,
    2_147_483_640,
    2_147_483_647,
    4_000_000_000,
    4_294_901_758,
    LINE_LIMIT - FRAME.len() as u32,
];

/// Puts the next bytes of the line in a chunk, which is as long as a call takes or goes up to the limit.
fn fill(chunk: &mut Vec<u8>, start: usize) {
    chunk.clear();
    chunk.resize(CHUNK_LIMIT.min(LINE_LIMIT as usize - start), 0x00);
    for place in PLACES {
        for (at, byte) in (place as usize..).zip(FRAME) {
            if let Some(there) = at.checked_sub(start).and_then(|at| chunk.get_mut(at)) {
                *there = byte;
            }
        }
    }
}

/// Feeds a chunk to both readers by as many calls as it needs, and puts what they tell with the positions.
fn feed(ours: &mut LineReader, theirs: &mut Line, chunk: &[u8], told: &mut Vec<Answer>) {
    let mut rest = chunk;
    while !rest.is_empty() {
        let fed = ours.feed(rest);
        let done = Done::by_ours(fed.taken, fed.told);
        let (taken, answer) = theirs.feed_chunk(rest);
        assert_eq!(done, Done::by_theirs(taken, answer, theirs));
        assert!(taken > 0, "the reader is full too early");
        told.extend(Some(answer).filter(|answer| *answer != Answer::Nothing));
        rest = &rest[taken..];
    }
}

fn position_of(answer: &Answer) -> Option<u32> {
    match answer {
        Answer::Frame { position, .. } => Some(*position),
        _ => None,
    }
}

/// Both readers refuse this byte as one too many.
fn check_full(ours: &mut LineReader, theirs: &mut Line, byte: u8) {
    let fed = ours.feed(&[byte]);
    let done = Done::by_ours(fed.taken, fed.told);
    let (taken, answer) = theirs.feed_chunk(&[byte]);
    assert_eq!(done, Done::by_theirs(taken, answer, theirs));
    let (position, code) = (0, 16);
    assert_eq!((taken, answer), (0, Answer::Refused { position, code }));
}

fn fill_both(origin: Origin) {
    let (mut ours, mut theirs) = (our_reader(origin), Line::new(origin));
    let (mut chunk, mut told) = (Vec::new(), Vec::new());
    for start in (0..LINE_LIMIT as usize).step_by(CHUNK_LIMIT) {
        fill(&mut chunk, start);
        feed(&mut ours, &mut theirs, &chunk, &mut told);
    }
    let positions: Vec<u32> = told.iter().filter_map(position_of).collect();
    assert_eq!((positions, told.len()), (PLACES.to_vec(), PLACES.len()));
    for byte in 0..=u8::MAX {
        check_full(&mut ours, &mut theirs, byte);
    }
    assert_eq!((ours.finish(), theirs.finish()), (Ok(()), Answer::Nothing));
    told.clear();
    feed(&mut ours, &mut theirs, &FRAME, &mut told);
    assert_eq!(position_of(&told[0]), Some(0));
}

#[test]
#[cfg_attr(
    debug_assertions,
    ignore = "it feeds 4,294,967,295 bytes at each origin"
)]
fn readers_take_all_that_they_may_and_then_refuse() {
    for origin in ORIGINS {
        let start = Instant::now();
        fill_both(origin);
        let seconds = start.elapsed().as_secs_f64();
        println!("{origin:?}: {LINE_LIMIT} bytes were taken by both sides in {seconds:.1} s");
    }
}
