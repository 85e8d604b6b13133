//! The line reader against the rule for the line: the answers, their positions, and the most bytes that it takes.

use plain::frame::{self, Origin, Read};
use plain::line::{Answer, Line, COUNT_MAX};

const ORIGINS: [Origin; 2] = [Origin::Live, Origin::Trace];

/// The most bytes between two finishes, as the papers have it.
const LIMIT: u32 = 4_294_967_295;

const NOTHING: Answer = Answer::Nothing;
const FULL: Answer = refused_at(0, 16);

const fn refused_at(position: u32, code: u8) -> Answer {
    Answer::Refused { position, code }
}

const fn standard_at(position: u32, len: usize) -> Answer {
    let frame = Read::Standard { len };
    Answer::Frame { position, frame }
}

const fn extended_at(position: u32, len: usize) -> Answer {
    let (to, from) = (0x05, 0x00);
    let frame = Read::Extended { to, from, len };
    Answer::Frame { position, frame }
}

fn bytes(hex: &str) -> Vec<u8> {
    let byte = |word| u8::from_str_radix(word, 16).unwrap();
    hex.split_whitespace().map(byte).collect()
}

/// The rule for the line: the open candidate, kept whole with its position, and a
/// count of its own.
#[derive(Clone)]
struct Rule {
    origin: Origin,
    open: Option<(u32, Vec<u8>)>,
    count: u64,
}

impl Rule {
    fn new(origin: Origin, count: u32) -> Rule {
        Rule {
            origin,
            open: None,
            count: count.into(),
        }
    }

    fn take(&mut self, byte: u8) -> Answer {
        if self.count == u64::from(LIMIT) {
            return FULL;
        }
        let position = self.count as u32;
        self.count += 1;
        match byte {
            0xF0 | 0xF1 => {
                let answer = self.truncate();
                self.open = Some((position, vec![byte]));
                answer
            }
            0xF2 => self.terminate(),
            _ => {
                if let Some((_, candidate)) = &mut self.open {
                    candidate.push(byte);
                }
                NOTHING
            }
        }
    }

    fn finish(&mut self) -> Answer {
        self.count = 0;
        self.truncate()
    }

    fn truncate(&mut self) -> Answer {
        let open = self.open.take();
        open.map_or(NOTHING, |(position, _)| refused_at(position, 6))
    }

    fn terminate(&mut self) -> Answer {
        let Some((position, mut candidate)) = self.open.take() else {
            return NOTHING;
        };
        candidate.push(0xF2);
        match frame::read(self.origin, &candidate, &mut [0; 200]) {
            Ok(frame) => Answer::Frame { position, frame },
            Err(code) => refused_at(position, code),
        }
    }

    /// The first answer to a chunk and how many bytes are taken for it, from the
    /// answers to its bytes singly. A byte that can't be taken is answered where it
    /// is the first.
    fn take_chunk(&mut self, chunk: &[u8]) -> (usize, Answer) {
        for (at, byte) in chunk.iter().enumerate() {
            match self.take(*byte) {
                NOTHING => {}
                FULL if at > 0 => return (at, NOTHING),
                FULL => return (0, FULL),
                answer => return (at + 1, answer),
            }
        }
        (chunk.len(), NOTHING)
    }
}

struct Random(u64);

impl Random {
    fn below(&mut self, limit: usize) -> usize {
        self.0 = self.0.wrapping_mul(6_364_136_223_846_793_005);
        self.0 = self.0.wrapping_add(1);
        (self.0 >> 33) as usize % limit
    }

    /// Mostly flags, and bytes of which frames, escapes and faults are made.
    fn byte(&mut self) -> u8 {
        [0xF0, 0xF1, 0xF2, 0xF2, 0xF3, 0x00, 0x01, 0x55][self.below(8)]
    }
}

fn is_refused(answer: Answer, number: u8) -> bool {
    matches!(answer, Answer::Refused { code, .. } if code == number)
}

#[test]
fn line_follows_its_rule() {
    let unnamed = ORIGINS.map(unnamed_by_rule);
    assert!(unnamed[0] > 1_000, "{unnamed:?}");
    assert_eq!(unnamed[1], 0);
}

/// Makes many calls, each of which has to be answered by the rule, and counts the
/// answers that are 17.
fn unnamed_by_rule(origin: Origin) -> usize {
    let (mut line, mut rule) = (Line::new(origin), Rule::new(origin, 0));
    let mut random = Random(1);
    let mut unnamed = 0;
    for _ in 0..500_000 {
        let answer = if random.below(50) == 0 {
            let answer = line.finish();
            assert_eq!(answer, rule.finish());
            answer
        } else {
            let byte = random.byte();
            let answer = line.feed(byte);
            assert_eq!(answer, rule.take(byte));
            answer
        };
        unnamed += usize::from(is_refused(answer, 17));
    }
    unnamed
}

/// Readers that begin near the limit: single bytes and chunks past it, then a finish
/// and a few bytes more, by the rule.
#[test]
fn line_follows_its_rule_at_the_limit() {
    assert_eq!(COUNT_MAX, LIMIT);
    let mut random = Random(1);
    let [mut full, mut open, mut ended_full] = [0; 3];
    for number in 0..50_000 {
        let origin = ORIGINS[number % 2];
        let count = LIMIT - random.below(30) as u32;
        let (mut line, mut rule) = (Line::with_count(origin, count), Rule::new(origin, count));
        let told = feed_by_rule(&mut line, &mut rule, &mut random);
        full += told.iter().filter(|answer| **answer == FULL).count();
        let last = told.last() == Some(&FULL);
        let finished = line.finish();
        assert_eq!(finished, rule.finish());
        open += usize::from(last && finished != NOTHING);
        ended_full += usize::from(last);
        feed_by_rule(&mut line, &mut rule, &mut random);
    }
    assert!(full > 10_000 && open > 1_000, "{full} {open}");
    assert!(ended_full > open, "{ended_full} {open}");
}

/// Feeds chunks and single bytes, whose answers have to be the rule's.
fn feed_by_rule(line: &mut Line, rule: &mut Rule, random: &mut Random) -> Vec<Answer> {
    let mut told = Vec::new();
    for _ in 0..10 {
        let len = random.below(8);
        let chunk: Vec<u8> = (0..len).map(|_| random.byte()).collect();
        if len == 1 {
            told.push(line.feed(chunk[0]));
            assert_eq!(told.last(), Some(&rule.take(chunk[0])));
        } else {
            let fed = line.feed_chunk(&chunk);
            assert_eq!(fed, rule.take_chunk(&chunk), "{chunk:02X?}");
            told.push(fed.1);
        }
    }
    told
}

/// The answers to the bytes, without those that are nothing, and that of the finish.
fn answers(line: &mut Line, trace: &str) -> (Vec<Answer>, Answer) {
    let told = bytes(trace).into_iter().map(|byte| line.feed(byte));
    let told = told.filter(|answer| *answer != NOTHING).collect();
    (told, line.finish())
}

/// Feeds a trace twice. Before the second time the reader was finished, so its
/// positions begin at 0 again.
fn check_answers(trace: &str, told: &[Answer], finished: Answer) {
    let mut line = Line::new(Origin::Trace);
    for _ in 0..2 {
        let expected = (told.to_vec(), finished);
        assert_eq!(answers(&mut line, trace), expected, "{trace}");
    }
}

#[test]
fn an_answer_has_the_position_of_its_own_start_flag() {
    let cases = [
        (
            "55 F1 76 04 F0 05 00 76 04 13 02 01 02 60 F2",
            vec![refused_at(1, 6), extended_at(4, 6)],
            NOTHING,
        ),
        (
            "F1 00 F2 F2 55 F1 F2 F0 05 00 00 F2",
            vec![standard_at(0, 0), refused_at(5, 4), extended_at(7, 0)],
            NOTHING,
        ),
        (
            "F0 F1 F0 F2 F2 F1",
            vec![refused_at(0, 6), refused_at(1, 6), refused_at(2, 4)],
            refused_at(5, 6),
        ),
        (
            "F1 F3 04 F2 F1 01 F2",
            vec![refused_at(0, 3), refused_at(4, 5)],
            NOTHING,
        ),
    ];
    for (trace, told, finished) in cases {
        check_answers(trace, &told, finished);
    }
}

#[test]
fn bytes_of_an_overlong_candidate_are_counted() {
    let closed = format!("55 F1 {} F2 F1 00 F2", "00 ".repeat(200));
    let told = [refused_at(1, 2), standard_at(203, 0)];
    check_answers(&closed, &told, NOTHING);
    let cut = format!("55 F1 {} F1 00 F2", "00 ".repeat(300));
    let told = [refused_at(1, 6), standard_at(302, 0)];
    check_answers(&cut, &told, NOTHING);
    let unfinished = format!("55 F1 {}", "00 ".repeat(119));
    check_answers(&unfinished, &[], refused_at(1, 6));
}

#[test]
fn a_finish_outside_of_a_candidate_begins_the_count_anew() {
    let mut line = Line::new(Origin::Trace);
    assert_eq!(line.feed_chunk(&bytes("55 55 F2")), (3, NOTHING));
    assert_eq!(line.finish(), NOTHING);
    let chunk = bytes("F1 00 F2");
    assert_eq!(line.feed_chunk(&chunk), (3, standard_at(0, 0)));
    assert_eq!(line.feed_chunk(&chunk), (3, standard_at(3, 0)));
}

#[test]
fn the_last_byte_may_end_a_frame_and_the_next_is_refused() {
    let mut line = Line::with_count(Origin::Trace, LIMIT - 3);
    let last = standard_at(LIMIT - 3, 0);
    assert_eq!(line.feed_chunk(&bytes("F1 00 F2 F1")), (3, last));
    for byte in 0..=0xFF {
        assert_eq!(line.feed(byte), FULL);
        assert_eq!(line.feed_chunk(&[byte, 0xF1]), (0, FULL));
    }
    assert_eq!(line.feed_chunk(&[]), (0, NOTHING));
    assert_eq!(line.finish(), NOTHING);
    let first = standard_at(0, 0);
    assert_eq!(line.feed_chunk(&bytes("F1 00 F2")), (3, first));
}

/// The start flag is the last byte taken, and its position the largest.
#[test]
fn a_full_reader_keeps_its_open_candidate() {
    let mut line = Line::with_count(Origin::Trace, LIMIT - 1);
    assert_eq!(line.feed(0xF1), NOTHING);
    for byte in [0xF0, 0xF1, 0xF2, 0x00] {
        assert_eq!(line.feed(byte), FULL);
    }
    assert_eq!(line.feed_chunk(&bytes("F1 00 F2")), (0, FULL));
    assert_eq!(line.finish(), refused_at(4_294_967_294, 6));
    assert_eq!(line.finish(), NOTHING);
}

#[test]
fn a_full_reader_keeps_the_contents_of_its_last_frame() {
    let mut line = Line::with_count(Origin::Trace, LIMIT - 4);
    let frame = bytes("F1 41 41 F2");
    assert_eq!(line.feed_chunk(&frame), (4, standard_at(LIMIT - 4, 1)));
    assert_eq!(line.feed_chunk(&frame), (0, FULL));
    assert_eq!(line.contents(), [0x41]);
}

/// The byte that can't be taken stands later in the chunk, so it isn't answered yet.
#[test]
fn a_chunk_is_taken_up_to_the_limit() {
    for left in 1..=20 {
        let mut line = Line::with_count(Origin::Trace, LIMIT - left);
        let chunk = [&[0x55; 19][..], &bytes("F1 55 55")].concat();
        let left = left as usize;
        assert_eq!(line.feed_chunk(&chunk), (left, NOTHING));
        assert_eq!(line.feed_chunk(&chunk[left..]), (0, FULL));
    }
}

/// The papers let the 65,536 bytes of a call and the limit cut a chunk in either order.
#[test]
fn a_long_chunk_is_taken_up_to_the_nearer_limit() {
    let chunk = [0x55; 70_000];
    for (left, first, second) in [
        (65_535, (65_535, NOTHING), (0, FULL)),
        (65_536, (65_536, NOTHING), (0, FULL)),
        (65_537, (65_536, NOTHING), (1, NOTHING)),
    ] {
        let mut line = Line::with_count(Origin::Live, LIMIT - left);
        assert_eq!(line.feed_chunk(&chunk), first);
        assert_eq!(line.feed_chunk(&chunk[first.0..]), second);
    }
}
