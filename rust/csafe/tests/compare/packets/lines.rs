//! Lines fed to both readers: to ours in chunks of any length, to the independent one byte by byte and by the chunk.

use std::fs;
use std::path::Path;

use csafe::packet::HELD_LEN;
use plain::packet::Read;

use super::pair::{Done, Readers};
use super::sound_packet;
use crate::common::Xorshift;
use crate::cuts::any_chunk;
use crate::frames::of_alphabet;
use crate::output::hex;
use crate::packet_damage::{PacketTraffic, PACKET_ALPHABET, START, STOP};
use crate::tally::Tally;

/// Feeds a line to new readers, in chunks whose lengths `chunk` chooses, and finishes it. Answers what was told.
fn feed_and_finish(line: &[u8], chunk: impl FnMut(usize) -> usize) -> Tally {
    let mut readers = Readers::new();
    readers.feed(line, chunk);
    readers.finish(&|| format!("finishing after the line {}", hex(line)));
    readers.tally
}

#[test]
fn every_short_line_is_read_alike() {
    let mut random = Xorshift::new();
    let mut tally = Tally::default();
    // The shortest packet has seven bytes.
    for len in 0..=7 {
        for number in 0..PACKET_ALPHABET.len().pow(len) {
            let line = of_alphabet(&PACKET_ALPHABET, number, len);
            tally.add_all(&feed_and_finish(&line, |left| any_chunk(&mut random, left)));
        }
    }
    tally.has_each(&[0], 1);
    tally.has_each(&[4, 5, 6, 22], 10);
}

#[test]
fn random_and_damaged_lines_are_read_alike() {
    let mut random = Xorshift::new();
    let mut traffic = PacketTraffic::default();
    let mut readers = Readers::new();
    let mut truncated = 0;
    for number in 0..200_000 {
        let mut line = Vec::new();
        for _ in 0..=random.below(4) {
            line.extend(traffic.any(&mut random));
        }
        if random.below(4) == 0 {
            line.truncate(random.below(line.len() + 1));
        }
        readers.feed(&line, |left| any_chunk(&mut random, left));
        if random.below(3) == 0 {
            let finished =
                readers.finish(&|| format!("finishing after line {number}, {}", hex(&line)));
            truncated += usize::from(finished.is_some());
        }
    }
    readers.tally.has_each(&[0, 2, 4, 5, 6, 22], 1_000);
    assert!(truncated > 1_000, "{truncated} lines were open at a finish");
}

/// A candidate with so many bytes between its flags that is a sound packet where it is not too long, and one of zeros.
fn candidates(random: &mut Xorshift, len: usize) -> [Vec<u8>; 2] {
    let mut zeros = vec![0x00; len + 2];
    zeros[0] = START;
    zeros[len + 1] = STOP;
    [sound_packet(random, len - 5), zeros]
}

#[test]
fn candidates_about_the_limit_are_read_alike() {
    let mut random = Xorshift::new();
    for len in HELD_LEN - 6..=HELD_LEN + 8 {
        for mut line in candidates(&mut random, len) {
            let sound = line[1] != 0x00;
            let number = match len <= HELD_LEN {
                true if sound => 0,
                true => 22,
                false => 2,
            };
            for step in 1..=len + 2 {
                let tally = feed_and_finish(&line, |left| step.min(left));
                tally.has_each(&[number], 1);
            }
            line[len + 1] = START;
            for step in 1..=len + 2 {
                let tally = feed_and_finish(&line, |left| step.min(left));
                tally.has_each(&[6], 1);
            }
        }
    }
}

/// What is in the sample stands in `samples/README.md`.
#[test]
fn the_sample_is_read_alike() {
    let path = Path::new(env!("CARGO_MANIFEST_DIR")).join("../../samples/treadmill.bin");
    let sample = fs::read(path).expect("the sample is there");
    for step in 1..=sample.len() {
        let tally = feed_and_finish(&sample, |left| step.min(left));
        tally.has_each(&[0], 12);
        tally.has_each(&[5, 6, 22], 1);
    }
}

/// Finishes with and without an open candidate, after which a packet is told as by a new reader, and its second half
/// by itself is not.
#[test]
fn after_a_finish_a_reader_is_as_new() {
    const PACKET: &[u8] = b"\x01S011.5076\x17";
    let (header, len) = (*b"S01", 4);
    let sound = Done {
        taken: PACKET.len(),
        answer: Some(Ok(Read { header, len })),
        unit: b"1.50".to_vec(),
    };
    let long = [&[START][..], &[b'0'; 300]].concat();
    let mut readers = Readers::new();
    for (before, open) in [
        (&[][..], false),
        (b"\x06", false),
        (PACKET, false),
        (&[START], true),
        (&PACKET[..5], true),
        (&long[..1 + HELD_LEN], true),
        (&long, true),
    ] {
        let input = || format!("finishing after {}", hex(before));
        readers.feed(before, |left| left);
        let expected = open.then_some(Err(6));
        assert_eq!(readers.finish(&input), expected, "{}", input());
        assert_eq!(readers.finish(&input), None, "{}", input());
        let half = &PACKET[5..];
        assert_eq!(readers.feed_chunk(half, &input), Done::nothing(half.len()));
        assert_eq!(readers.feed_chunk(PACKET, &input), sound, "{}", input());
    }
}
