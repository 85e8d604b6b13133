//! Chunks about the most bytes that a call takes, and every cutting of short streams.

use csafe::line::{self, HELD_LEN};
use plain::frame::{Origin, Read};
use plain::line::{self as plain_rust, Answer, Line};

use super::{borrowed, our_reader, readers, Done, Readers};
use crate::common::Xorshift;
use crate::cuts::{pieces, places};
use crate::frame_damage::{ESCAPE, EXTENDED_START, STANDARD_START, STOP};
use crate::held::CHUNK_LIMIT as LIMIT;
use crate::output::hex;
use crate::traces::{Traffic, ALPHABET};
use crate::ORIGINS;

/// Lengths of chunks.
const LENGTHS: [usize; 6] = [0, 1, 65_535, 65_536, 65_537, 131_073];

/// A byte that is no flag and begins no escape.
const STRAY: u8 = 0x41;

/// Frames whose contents are 41.
const FRAME: [u8; 6] = [EXTENDED_START, 0x05, 0x00, 0x41, 0x41, STOP];
const STANDARD_FRAME: [u8; 4] = [STANDARD_START, 0x41, 0x41, STOP];

/// Parts of a line with an answer or two: frames with escapes, each refusal of a short candidate, and single flags.
#[rustfmt::skip]
const PARTS: [&[u8]; 12] = [
    &FRAME,
    &STANDARD_FRAME,
    &[STANDARD_START, 0x41, ESCAPE, 0x02, 0xB3, STOP],
    &[EXTENDED_START, ESCAPE, 0x01, 0x05, ESCAPE, 0x03, ESCAPE, 0x03, STOP],
    &[STANDARD_START, ESCAPE, 0x04, STOP],
    &[STANDARD_START, 0x41, ESCAPE, STOP],
    &[EXTENDED_START, 0x05, 0x00, STOP],
    &[STANDARD_START, 0x41, 0x42, STOP],
    &[STANDARD_START, 0x41, EXTENDED_START, 0x05, 0x00, 0x00, STOP],
    &[EXTENDED_START],
    &[STANDARD_START],
    &[STOP],
];

/// The length of a stream of which every cutting is tried.
const STREAM_LEN: usize = 12;

/// Such streams with several answers each, and how many random ones are tried beside them.
#[rustfmt::skip]
const STREAMS: [[u8; STREAM_LEN]; 4] = [
    [0x55, 0xF1, 0x76, 0x04, 0xF0, 0x05, 0x00, 0x41, 0x41, 0xF2, 0xF1, 0xF3],
    [0xF1, 0xF3, 0x01, 0xF3, 0x01, 0xF2, 0xF1, 0xF2, 0xF0, 0x05, 0x00, 0xF2],
    [0xF1, 0x41, 0x42, 0xF2, 0xF2, 0x41, 0xF1, 0xF3, 0xF2, 0xF1, 0x00, 0xF2],
    [0xF0, 0xF1, 0xF0, 0xF1, 0x00, 0xF2, 0xF2, 0xF1, 0xF3, 0x04, 0xF2, 0x55],
];
const RANDOM_STREAMS: usize = 60;

/// A start flag and so many bytes of a candidate.
fn candidate(start: u8, len: usize) -> Vec<u8> {
    let mut bytes = vec![0x00; 1 + len];
    bytes[0] = start;
    bytes
}

/// Beginnings of a line, which leave a reader in each of its modes: outside, in a candidate of either kind that has no
/// byte, some, an escape's first or as many as it may have, and in one that is too long.
fn beginnings() -> Vec<Vec<u8>> {
    let mut all = vec![vec![], FRAME.to_vec(), STANDARD_FRAME.to_vec()];
    for start in [EXTENDED_START, STANDARD_START] {
        all.push(vec![start, 0x00, ESCAPE]);
        for len in [0, 5, HELD_LEN, HELD_LEN + 1] {
            all.push(candidate(start, len));
        }
    }
    all
}

/// The short parts, and of either kind the longest candidate and one that is too long, each closed and cut short.
fn parts() -> Vec<Vec<u8>> {
    let mut all: Vec<Vec<u8>> = PARTS.iter().map(|part| part.to_vec()).collect();
    for start in [EXTENDED_START, STANDARD_START] {
        for len in [HELD_LEN, HELD_LEN + 1] {
            for end in [STOP, EXTENDED_START] {
                let mut part = candidate(start, len);
                part.push(end);
                all.push(part);
            }
        }
    }
    all
}

/// Readers of each origin that were fed a beginning.
fn readers_after(beginning: &[u8]) -> [Readers; 2] {
    let mut all = readers();
    for readers in &mut all {
        readers.feed(beginning, |left| left);
    }
    all
}

fn nothing(taken: usize) -> Done {
    Done {
        taken,
        answer: Answer::Nothing,
        contents: Vec::new(),
    }
}

/// What ends at the last byte taken: nothing, or one of the two frames.
#[derive(Clone, Copy)]
enum Ends {
    Nothing,
    Frame,
    StandardFrame,
}

impl Ends {
    /// What a call does that takes so many bytes, where the frame begins at a position. A standard frame is refused on
    /// a live line.
    fn done(self, origin: Origin, taken: usize, position: usize) -> Done {
        let (to, from, len) = (0x05, 0x00, 1);
        let position = position as u32;
        let frame_at = |frame| Answer::Frame { position, frame };
        let answer = match (self, origin) {
            (Ends::Nothing, _) => return nothing(taken),
            (Ends::Frame, _) => frame_at(Read::Extended { to, from, len }),
            (Ends::StandardFrame, Origin::Trace) => frame_at(Read::Standard { len }),
            (Ends::StandardFrame, Origin::Live) => Answer::Refused { position, code: 17 },
        };
        let contents = match answer {
            Answer::Frame { .. } => vec![0x41],
            _ => Vec::new(),
        };
        Done {
            taken,
            answer,
            contents,
        }
    }
}

#[test]
fn both_sides_name_the_same_limit() {
    assert_eq!([line::CHUNK_LIMIT, plain_rust::CHUNK_MAX], [LIMIT; 2]);
}

#[test]
fn bytes_without_an_answer_are_all_taken_up_to_the_limit() {
    for beginning in beginnings() {
        for len in LENGTHS {
            let input = || format!("{len} bytes 41 after {}", hex(&beginning));
            let chunk = vec![STRAY; len];
            for mut readers in readers_after(&beginning) {
                let done = readers.feed_chunk(&chunk, &input);
                assert_eq!(done, nothing(len.min(LIMIT)), "{}", input());
                readers.feed(&chunk[done.taken..], |left| left);
                readers.feed(&FRAME, |left| left);
                readers.finish(&input);
            }
        }
    }
}

/// The place of a stop flag, how many bytes the first and the second call take, and which of the calls tells the frame.
const STOPS: [(usize, [usize; 2], Option<usize>); 6] = [
    (LIMIT - 2, [LIMIT - 1, LIMIT], Some(0)),
    (LIMIT - 1, [LIMIT, LIMIT], Some(0)),
    (LIMIT, [LIMIT, 1], Some(1)),
    (LIMIT + 1, [LIMIT, 2], Some(1)),
    (2 * LIMIT - 1, [LIMIT, LIMIT], Some(1)),
    (2 * LIMIT, [LIMIT, LIMIT], None),
];

#[test]
fn the_last_byte_within_the_limit_is_answered_and_the_next_is_not_taken() {
    let frames = [
        (&FRAME[..], Ends::Frame),
        (&STANDARD_FRAME, Ends::StandardFrame),
    ];
    for (frame, ends) in frames {
        for (stop, taken, telling) in STOPS {
            let mut chunk = vec![STRAY; 2 * LIMIT + 1];
            let start = stop + 1 - frame.len();
            chunk[start..=stop].copy_from_slice(frame);
            for mut readers in readers() {
                let origin = readers.origin();
                let input = || format!("{origin:?}, {} that ends at {stop}", hex(frame));
                let mut rest = &chunk[..];
                for (call, taken) in taken.into_iter().enumerate() {
                    let ends = if telling == Some(call) {
                        ends
                    } else {
                        Ends::Nothing
                    };
                    let done = readers.feed_chunk(rest, &input);
                    assert_eq!(done, ends.done(origin, taken, start), "{}", input());
                    rest = &rest[taken..];
                }
            }
        }
    }
}

#[test]
fn parts_of_a_line_about_the_limit_are_read_alike() {
    let mut all = readers();
    for beginning in beginnings() {
        for part in parts() {
            for before in places(&part) {
                for end in [LIMIT, 2 * LIMIT] {
                    let mut line = vec![STRAY; end - before];
                    line.extend(&part);
                    line.extend(FRAME);
                    for readers in &mut all {
                        readers.feed(&beginning, |left| left);
                        readers.feed(&line, |left| left);
                        readers.finish(&|| format!("finishing after the line {}", hex(&line)));
                    }
                }
            }
        }
    }
    for readers in all {
        readers.has_each(&[0, 2, 3, 4, 5, 6], 100);
    }
}

/// All answers of our iterator and our finish.
fn iterated(origin: Origin, pieces: &[(&[u8], bool)]) -> Vec<Done> {
    let mut reader = our_reader(origin);
    let mut all = Vec::new();
    for (piece, finished) in pieces {
        let told = reader.answers(piece);
        all.extend(told.map(|told| Done::by_ours(0, Some(borrowed(&told)))));
        if *finished {
            all.push(Done::by_ours(0, reader.finish().err().map(Err)));
        }
    }
    all
}

/// The same of the independent reader, byte by byte.
fn singly(origin: Origin, pieces: &[(&[u8], bool)]) -> Vec<Done> {
    let mut line = Line::new(origin);
    let mut all = Vec::new();
    for (piece, finished) in pieces {
        for byte in *piece {
            let answer = line.feed(*byte);
            if answer != Answer::Nothing {
                all.push(Done::by_theirs(0, answer, &line));
            }
        }
        if *finished {
            let answer = line.finish();
            all.push(Done::by_theirs(0, answer, &line));
        }
    }
    all
}

fn streams(random: &mut Xorshift) -> Vec<[u8; STREAM_LEN]> {
    let mut any = |_| ALPHABET[random.below(ALPHABET.len())];
    let mut all = STREAMS.to_vec();
    for _ in 0..RANDOM_STREAMS {
        all.push(std::array::from_fn(&mut any));
    }
    all
}

#[test]
fn every_cutting_of_a_short_stream_is_read_as_its_single_bytes() {
    let mut random = Xorshift::new();
    for stream in streams(&mut random) {
        for cuts in 0..1 << (STREAM_LEN - 1) {
            // One bit in eight is set.
            let finishes = random.number() & random.number() & random.number();
            let pieces = pieces(&stream, cuts, finishes);
            for origin in ORIGINS {
                check_pieces(origin, &pieces);
            }
        }
    }
}

fn check_pieces(origin: Origin, pieces: &[(&[u8], bool)]) {
    let input = || format!("{origin:?}, pieces and finishes {pieces:02X?}");
    let (ours, expected) = (iterated(origin, pieces), singly(origin, pieces));
    assert_eq!(ours, expected, "{}", input());
    let mut readers = Readers::new(origin);
    for (piece, finished) in pieces {
        readers.feed(piece, |left| left);
        if *finished {
            readers.finish(&input);
        }
    }
}

#[test]
fn the_iterator_goes_through_chunks_of_any_length() {
    let mut random = Xorshift::new();
    let mut traffic = Traffic::default();
    let mut line = Vec::new();
    for stray in [1, LIMIT, 2 * LIMIT, 3 * LIMIT + 7] {
        let start = line.len();
        while line.len() - start < 30_000 {
            line.extend(traffic.any(&mut random));
        }
        line.resize(line.len() + stray, STRAY);
    }
    line.extend(FRAME);
    for origin in ORIGINS {
        let expected = singly(origin, &[(&line, true)]);
        for len in [1, 65_535, 65_536, 65_537, 131_073, line.len()] {
            let chunks = line.chunks(len).map(|piece| (piece, false));
            let pieces: Vec<(&[u8], bool)> = chunks.chain([(&[][..], true)]).collect();
            let iterated = iterated(origin, &pieces);
            assert!(iterated == expected, "{origin:?}, chunks of {len} bytes");
        }
    }
}

#[test]
fn an_iterator_has_fed_all_but_its_rest() {
    let mut chunk = vec![STRAY; 2 * LIMIT + 1];
    chunk[LIMIT - 3..=LIMIT].copy_from_slice(&STANDARD_FRAME);
    for origin in ORIGINS {
        let mut reader = our_reader(origin);
        let mut answers = reader.answers(&chunk);
        assert_eq!(
            (answers.rest(), answers.size_hint().1),
            (&chunk[..], Some(chunk.len()))
        );
        let told = answers.next().expect("the chunk has a frame");
        let done = Done::by_ours(0, Some(borrowed(&told)));
        assert_eq!(done, Ends::StandardFrame.done(origin, 0, LIMIT - 3));
        let rest = answers.rest();
        assert_eq!(rest, &chunk[LIMIT + 1..]);
        assert_eq!(reader.finish(), Ok(()));
        let mut answers = reader.answers(rest);
        for _ in 0..2 {
            assert_eq!(answers.next(), None);
            assert_eq!((answers.rest(), answers.size_hint().1), (&[][..], Some(0)));
        }
    }
}
