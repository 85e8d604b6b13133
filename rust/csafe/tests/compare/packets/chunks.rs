//! Chunks about the most bytes that a call takes, and every cutting of short streams.

use csafe::packet::HELD_LEN;
use csafe::{Error, PacketReader};
use plain::packet::Read;
use plain::packet_line::PacketLine;

use super::pair::{Done, Readers};
use crate::common::Xorshift;
use crate::cuts::{pieces, places};
use crate::held::CHUNK_LIMIT as LIMIT;
use crate::output::hex;
use crate::packet_damage::{PacketTraffic, PACKET_ALPHABET, START, STOP};

/// Lengths of chunks.
const LENGTHS: [usize; 6] = [0, 1, 65_535, 65_536, 65_537, 131_073];

/// A byte that is no flag.
const STRAY: u8 = b'0';

/// A packet without data.
const PACKET: &[u8] = b"\x01S0281\x17";

/// Parts of a line with an answer or two: packets, each refusal of a short candidate, and single flags.
const PARTS: [&[u8]; 9] = [
    PACKET,
    b"\x01S011.5076\x17",
    b"\x01S028\x17",
    b"\x01S028A\x17",
    b"\x01S0282\x17",
    b"\x01S0\x01S0281\x17",
    b"\x01\x17",
    &[START],
    &[STOP],
];

/// The length of a stream of which every cutting is tried.
const STREAM_LEN: usize = 12;

/// Such streams with several answers each, and how many random ones are tried beside them.
const STREAMS: [[u8; STREAM_LEN]; 3] = [
    *b"\x06\x01S0\x01S0281\x17\x01",
    *b"\x01A0061\x17\x01\x01A\x17\x17",
    *b"\x01A006A\x17\x17A\x01\x01\x17",
];
const RANDOM_STREAMS: usize = 30;

/// Beginnings of a line, which leave a reader outside of a candidate, in one that has no byte, some or as many as it
/// may have, and in one that is too long.
fn beginnings() -> Vec<Vec<u8>> {
    let mut all = vec![vec![], PACKET.to_vec()];
    all.extend([0, 5, HELD_LEN, HELD_LEN + 1].map(|len| candidate(len, &[])));
    all
}

/// A start flag, so many bytes that are no flags, and what comes after them.
fn candidate(len: usize, end: &[u8]) -> Vec<u8> {
    [&[START], &vec![STRAY; len][..], end].concat()
}

/// The short parts, and the longest candidate and one that is too long, each closed and cut short.
fn parts() -> Vec<Vec<u8>> {
    let mut all: Vec<Vec<u8>> = PARTS.iter().map(|part| part.to_vec()).collect();
    for len in [HELD_LEN, HELD_LEN + 1] {
        for end in [STOP, START] {
            all.push(candidate(len, &[end]));
        }
    }
    all
}

/// What a call does that tells of `S02` without data.
fn sound(taken: usize) -> Done {
    let (header, len) = (*b"S02", 0);
    Done {
        answer: Some(Ok(Read { header, len })),
        ..Done::nothing(taken)
    }
}

#[test]
fn bytes_without_an_answer_are_all_taken_up_to_the_limit() {
    for beginning in beginnings() {
        for len in LENGTHS {
            let input = || format!("{len} bytes 30 after {}", hex(&beginning));
            let chunk = vec![STRAY; len];
            let mut readers = Readers::new();
            readers.feed(&beginning, |left| left);
            let done = readers.feed_chunk(&chunk, &input);
            assert_eq!(done, Done::nothing(len.min(LIMIT)), "{}", input());
            readers.feed(&chunk[done.taken..], |left| left);
            readers.feed(PACKET, |left| left);
            readers.finish(&input);
        }
    }
}

/// The place of a stop flag, and how many bytes the first and the second call take. The packet is told by the first
/// where it takes the stop flag, and else by the second, where that takes it.
const STOPS: [(usize, [usize; 2]); 6] = [
    (LIMIT - 2, [LIMIT - 1, LIMIT]),
    (LIMIT - 1, [LIMIT, LIMIT]),
    (LIMIT, [LIMIT, 1]),
    (LIMIT + 1, [LIMIT, 2]),
    (2 * LIMIT - 1, [LIMIT, LIMIT]),
    (2 * LIMIT, [LIMIT, LIMIT]),
];

#[test]
fn the_last_byte_within_the_limit_is_answered_and_the_next_is_not_taken() {
    for (stop, takes) in STOPS {
        let input = || format!("a packet that ends at {stop}");
        let mut chunk = vec![STRAY; 2 * LIMIT + 1];
        chunk[stop + 1 - PACKET.len()..=stop].copy_from_slice(PACKET);
        let mut readers = Readers::new();
        let mut start = 0;
        for taken in takes {
            let done = readers.feed_chunk(&chunk[start..], &input);
            let end = start + taken;
            let expected = match end == stop + 1 {
                true => sound(taken),
                false => Done::nothing(taken),
            };
            assert_eq!(done, expected, "{}", input());
            start = end;
        }
    }
}

#[test]
fn parts_of_a_line_about_the_limit_are_read_alike() {
    let mut readers = Readers::new();
    for beginning in beginnings() {
        for part in parts() {
            for before in places(&part) {
                let mut line = vec![STRAY; LIMIT - before];
                line.extend(&part);
                line.extend(PACKET);
                readers.feed(&beginning, |left| left);
                readers.feed(&line, |left| left);
                readers.finish(&|| format!("finishing after the line {}", hex(&line)));
            }
        }
    }
    readers.tally.has_each(&[0, 2, 4, 5, 6, 22], 20);
}

#[test]
fn long_lines_are_read_alike() {
    let mut random = Xorshift::new();
    let mut traffic = PacketTraffic::default();
    let mut line = Vec::new();
    while line.len() < 500_000 {
        line.extend(traffic.any(&mut random));
    }
    for limit in [65_535, 65_536, 65_537, line.len()] {
        let mut readers = Readers::new();
        readers.feed(&line, |left| limit.min(left));
        readers.tally.has_each(&[0, 2, 4, 5, 6, 22], 20);
    }
}

/// All answers of our iterator and our finish.
fn iterated(pieces: &[(&[u8], bool)]) -> Vec<Done> {
    let mut reader = PacketReader::new();
    let mut all = Vec::new();
    for (piece, finished) in pieces {
        for told in reader.answers(piece) {
            let told = told.as_ref().map(|packet| packet.packet());
            all.push(Done::by_ours(0, Some(told.map_err(|error| *error))));
        }
        if *finished {
            all.push(Done::by_ours(0, reader.finish().err().map(Err)));
        }
    }
    all
}

/// The same of the independent reader, byte by byte.
fn singly(pieces: &[(&[u8], bool)]) -> Vec<Done> {
    let mut line = PacketLine::new();
    let mut all = Vec::new();
    for (piece, finished) in pieces {
        for byte in *piece {
            let answer = line.feed(*byte);
            if answer.is_some() {
                all.push(Done::by_theirs(0, answer, &line));
            }
        }
        if *finished {
            let answer = line.finish();
            all.push(Done::by_theirs(0, answer, &line));
        }
    }
    all
}

fn streams(random: &mut Xorshift) -> Vec<[u8; STREAM_LEN]> {
    let mut any = |_| PACKET_ALPHABET[random.below(PACKET_ALPHABET.len())];
    let mut all = STREAMS.to_vec();
    for _ in 0..RANDOM_STREAMS {
        all.push(std::array::from_fn(&mut any));
    }
    all
}

#[test]
fn every_cutting_of_a_short_stream_is_read_as_its_single_bytes() {
    let mut random = Xorshift::new();
    for stream in streams(&mut random) {
        for cuts in 0..1 << (STREAM_LEN - 1) {
            // One bit in eight is set.
            let finishes = random.number() & random.number() & random.number();
            let pieces = pieces(&stream, cuts, finishes);
            let input = || format!("pieces and finishes {pieces:02X?}");
            let mut readers = Readers::new();
            for (piece, finished) in &pieces {
                readers.feed(piece, |left| left);
                if *finished {
                    readers.finish(&input);
                }
            }
            assert_eq!(iterated(&pieces), singly(&pieces), "{}", input());
        }
    }
}

#[test]
fn an_iterator_has_fed_all_but_its_rest() {
    let mut chunk = vec![STRAY; 2 * LIMIT + 1];
    chunk[LIMIT + 1 - PACKET.len()..=LIMIT].copy_from_slice(PACKET);
    let mut reader = PacketReader::new();
    let mut answers = reader.answers(&chunk);
    assert_eq!(
        (answers.rest(), answers.size_hint()),
        (&chunk[..], (0, Some(chunk.len())))
    );
    let told = answers.next().and_then(Result::ok);
    assert_eq!(told.map(|packet| packet.header().bytes()), Some(*b"S02"));
    let rest = answers.rest();
    assert_eq!(rest, &chunk[LIMIT + 1..]);
    let mut answers = reader.answers(rest);
    for _ in 0..2 {
        assert_eq!(answers.next(), None);
        assert_eq!(
            (answers.rest(), answers.size_hint()),
            (&[][..], (0, Some(0)))
        );
    }
    let mut answers = reader.answers(&[START, START, STRAY]);
    assert_eq!(answers.next(), Some(Err(Error::Truncated)));
    assert_eq!(answers.rest(), [STRAY]);
    // The byte that was not fed is not held.
    assert_eq!(
        reader.clone().feed(&[STOP]).told,
        Some(Err(Error::TooShort))
    );
}
