//! Readers about the most bytes that they take before a finish, on lent numbers that say how many they have taken.

use csafe::line;
use plain::frame::Read;
use plain::line::{self as plain_rust, Answer};

use super::pair::Pair;
use super::{refused_at, Done, FRAME, FULL};
use crate::common::Xorshift;
use crate::cuts::any_chunk;
use crate::frame_damage::{EXTENDED_START, STANDARD_START, STOP};
use crate::held::{CHUNK_LIMIT, LINE_LIMIT as LIMIT};
use crate::output::hex;
use crate::traces::Traffic;
use crate::ORIGINS;

const fn frame_at(position: u32) -> Answer {
    let (to, from, len) = (0x05, 0x00, 1);
    let frame = Read::Extended { to, from, len };
    Answer::Frame { position, frame }
}

/// Lines with each kind of answer, and with a candidate that is open at each of their places.
#[rustfmt::skip]
const LINES: [&[u8]; 5] = [
    &[0x55, 0xF0, 0x76, 0x04, 0xF0, 0x05, 0x00, 0x41, 0x41, 0xF2, 0xF0, 0xF3],
    &[0xF1, 0xF3, 0x01, 0xF3, 0x01, 0xF2, 0xF1, 0xF2, 0xF0, 0x05, 0x00, 0xF2],
    &[0xF1, 0x41, 0x42, 0xF2, 0xF2, 0x41, 0xF1, 0xF3, 0xF2, 0xF1, 0x00, 0xF2],
    &[0xF0, 0xF1, 0xF0, 0xF1, 0x00, 0xF2, 0xF2, 0xF1, 0xF3, 0x04, 0xF2, 0x55],
    &[0x55; 12],
];

/// Feeds a line in chunks whose lengths `chunk` chooses, up to its end or to a call that is refused as full. Answers
/// what was not taken.
fn feed_until_full<'a>(
    pair: &mut Pair,
    line: &'a [u8],
    mut chunk: impl FnMut(usize) -> usize,
) -> &'a [u8] {
    let mut rest = line;
    while !rest.is_empty() {
        let len = chunk(rest.len());
        let done = feed(pair, &rest[..len]);
        rest = &rest[done.taken..];
        if done.answer == FULL {
            break;
        }
    }
    rest
}

fn feed(pair: &mut Pair, chunk: &[u8]) -> Done {
    let origin = pair.origin;
    pair.feed(chunk, &|| format!("{origin:?}, {}", hex(chunk)))
}

fn finish(pair: &mut Pair) -> Answer {
    let origin = pair.origin;
    pair.finish(&|| format!("{origin:?}, finishing"))
}

#[test]
fn both_sides_name_the_same_limit() {
    assert_eq!([line::LIMIT, plain_rust::COUNT_MAX], [LIMIT; 2]);
}

/// The limit is at each place of the line, which is fed in chunks of each length. After a finish the rest is fed.
#[test]
fn lines_across_the_limit_are_read_alike() {
    for origin in ORIGINS {
        for line in LINES {
            for left in 0..=line.len() {
                for len in 1..=line.len() {
                    let mut pair = Pair::with_count(origin, LIMIT - left as u32);
                    let rest = feed_until_full(&mut pair, line, |left| len.min(left));
                    assert_eq!(rest, &line[left..]);
                    finish(&mut pair);
                    let rest = feed_until_full(&mut pair, rest, |left| len.min(left));
                    assert!(rest.is_empty(), "{} is left", hex(rest));
                    finish(&mut pair);
                }
            }
        }
    }
}

#[test]
fn random_and_damaged_lines_near_the_limit_are_read_alike() {
    for origin in ORIGINS {
        let mut random = Xorshift::new();
        let mut traffic = Traffic::default();
        let (mut full, mut truncated) = (0, 0);
        for _ in 0..20_000 {
            let mut pair = Pair::with_count(origin, LIMIT - random.below(400) as u32);
            for _ in 0..=random.below(6) {
                let line = traffic.any(&mut random).to_vec();
                let rest = feed_until_full(&mut pair, &line, |left| any_chunk(&mut random, left));
                let is_full = !rest.is_empty();
                full += usize::from(is_full);
                if random.below(4) == 0 {
                    let is_open = finish(&mut pair) != Answer::Nothing;
                    truncated += usize::from(is_full && is_open);
                }
            }
        }
        assert!(full > 5_000, "{full} lines were too long");
        assert!(
            truncated > 500,
            "{truncated} full readers were finished in a candidate"
        );
    }
}

/// The last byte ends a frame. Every byte after it is refused, alone and before others, and an empty chunk is not.
#[test]
fn a_full_reader_refuses_every_byte_until_it_is_finished() {
    for origin in ORIGINS {
        let mut pair = Pair::with_count(origin, LIMIT - 6);
        let done = feed(&mut pair, &[&FRAME[..], &FRAME].concat());
        assert_eq!((done.taken, done.answer), (6, frame_at(LIMIT - 6)));
        for byte in 0..=u8::MAX {
            for chunk in [&[byte][..], &[byte, STOP]] {
                let done = feed(&mut pair, chunk);
                assert_eq!((done.taken, done.answer), (0, FULL));
            }
            assert_eq!(feed(&mut pair, &[]).answer, Answer::Nothing);
        }
        assert_eq!(finish(&mut pair), Answer::Nothing);
        assert_eq!(feed(&mut pair, &FRAME).answer, frame_at(0));
    }
}

/// The largest position is that of a start flag that is the last byte taken.
#[test]
fn a_start_flag_does_not_truncate_what_a_full_reader_holds() {
    for origin in ORIGINS {
        for flag in [EXTENDED_START, STANDARD_START] {
            let mut pair = Pair::with_count(origin, LIMIT - 1);
            assert_eq!(feed(&mut pair, &[flag, flag]).taken, 1);
            assert_eq!(feed(&mut pair, &[flag]).answer, FULL);
            assert_eq!(finish(&mut pair), refused_at(4_294_967_294, 6));
            assert_eq!(feed(&mut pair, &[flag, flag]).answer, refused_at(0, 6));
        }
    }
}

/// What a call takes and what a reader takes end a long chunk at nearly the same place.
#[test]
fn long_chunks_about_the_limit_are_read_alike() {
    for origin in ORIGINS {
        for left in CHUNK_LIMIT - 3..=CHUNK_LIMIT + 3 {
            for frame_start in [0, CHUNK_LIMIT - 9, CHUNK_LIMIT - 6, CHUNK_LIMIT - 4] {
                let mut pair = Pair::with_count(origin, LIMIT - left as u32);
                let mut line = vec![0x55; CHUNK_LIMIT + 10];
                line[frame_start..frame_start + 6].copy_from_slice(&FRAME);
                let rest = feed_until_full(&mut pair, &line, |left| left);
                assert_eq!(rest.len(), line.len() - left);
                finish(&mut pair);
            }
        }
    }
}

/// Frames about each power of two have their positions.
#[test]
fn positions_go_on_past_every_power_of_two() {
    for bits in 8..32 {
        let count = (1u32 << bits) - 3;
        for origin in ORIGINS {
            let mut pair = Pair::with_count(origin, count);
            for frames in 0..3 {
                let answer = feed(&mut pair, &FRAME).answer;
                assert_eq!(answer, frame_at(count + 6 * frames));
            }
        }
    }
}
