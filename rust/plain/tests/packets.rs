//! Packets of treadmills: the cases that the requirements and the manual of the treadmills
//! state, and the line reader against the rule for the line.

mod treadmill;

use std::fs;
use std::path::PathBuf;

use plain::line::CHUNK_MAX;
use plain::packet::{self, Read};
use plain::packet_line::{Answer, PacketLine};

/// A value no result of these tests depends on, to see what stays untouched.
const MARK: u8 = 0xA5;

/// `S02` without data, and the checksum that the request prints for it.
const S02: &[u8] = b"\x01S0281\x17";

fn bytes(hex: &str) -> Vec<u8> {
    let byte = |word| u8::from_str_radix(word, 16).unwrap();
    hex.split_whitespace().map(byte).collect()
}

fn header(text: &str) -> [u8; 3] {
    text.as_bytes().try_into().unwrap()
}

/// A packet around some bytes, whatever they are.
fn wire(body: &[u8]) -> Vec<u8> {
    [b"\x01", body, b"\x17"].concat()
}

/// Writes a packet; checks that nothing else is touched, and the room that it takes.
fn write(header: [u8; 3], unit: &[u8]) -> Result<Vec<u8>, u8> {
    let mut out = [MARK; 300];
    let result = packet::write(header, unit, &mut out);
    let len = result.unwrap_or(0);
    assert!(out[len..].iter().all(|&byte| byte == MARK));
    result?;
    let mut exact = vec![MARK; len];
    assert_eq!(packet::write(header, unit, &mut exact), Ok(len));
    assert_eq!(exact, out[..len]);
    let mut short = vec![MARK; len - 1];
    assert_eq!(packet::write(header, unit, &mut short), Err(1));
    assert!(short.iter().all(|&byte| byte == MARK));
    Ok(exact)
}

/// Reads a packet; checks what is left untouched, that an accepted packet is written
/// again with the same bytes, and that the line reader tells the same.
fn read(wire: &[u8]) -> Result<([u8; 3], Vec<u8>), u8> {
    let mut out = [MARK; 300];
    let result = packet::read(wire, &mut out);
    let len = result.map_or(0, |read| read.len);
    assert!(out[len..].iter().all(|&byte| byte == MARK));
    if result != Err(6) {
        assert_eq!(answers(wire), [(wire.len() - 1, result)]);
    }
    let Read { header, len } = result?;
    assert_eq!(write(header, &out[..len]), Ok(wire.to_vec()));
    if len > 0 {
        let mut short = vec![MARK; len - 1];
        assert_eq!(packet::read(wire, &mut short), Err(1));
        assert!(short.iter().all(|&byte| byte == MARK));
    }
    Ok((header, out[..len].to_vec()))
}

/// The answers to a trace, with the place of the byte, and that of the finish.
fn answers(trace: &[u8]) -> Vec<(usize, Answer)> {
    let mut line = PacketLine::new();
    let mut told: Vec<Option<Answer>> = trace.iter().map(|&byte| line.feed(byte)).collect();
    told.push(line.finish());
    let told = told.into_iter().enumerate();
    told.filter_map(|(by, answer)| Some((by, answer?)))
        .collect()
}

/// The answer to a packet with a header and a data unit of so many bytes.
fn told(text: &str, len: usize) -> Answer {
    let header = header(text);
    Ok(Read { header, len })
}

#[test]
fn packets_of_the_manual() {
    for (name, hex, head, unit) in treadmill::PACKETS {
        let (packet, unit) = (bytes(hex), unit.as_bytes());
        assert_eq!(read(&packet), Ok((header(head), unit.to_vec())), "{name}");
        assert_eq!(write(header(head), unit), Ok(packet), "{name}");
    }
}

#[test]
fn s02_without_data_has_81() {
    assert_eq!(write(*b"S02", b""), Ok(S02.to_vec()));
    assert_eq!(read(S02), Ok((*b"S02", vec![])));
}

/// Taken literally, the record of the manual has two blanks more, which its sum of 1113
/// does not count.
#[test]
fn blanks_of_line_breaks_are_not_data() {
    let literal = b"X00872\x1D0\x1D2.00 \x1D0.2\x1D1086\x1D  13";
    assert_eq!(read(&wire(literal)), Err(5));
}

/// Every header with every data unit of one character.
#[test]
fn the_checksum_is_the_sum_modulo_100() {
    for letter in b'A'..=b'Z' {
        for number in 0..100 {
            let head = format!("{}{number:02}", char::from(letter));
            for character in (0x20..=0x7E).chain([0x1D]) {
                let covered = [head.as_bytes(), &[character]].concat();
                let sum: u32 = covered.iter().map(|&byte| u32::from(byte)).sum();
                let digits = format!("{:02}", sum % 100);
                let packet = wire(&[&covered, digits.as_bytes()].concat());
                assert_eq!(write(header(&head), &[character]), Ok(packet));
            }
        }
    }
}

/// The sum of `S02` and w is 300.
#[test]
fn a_checksum_under_10_has_a_leading_zero() {
    for (unit, packet) in [
        (b"w", b"\x01S02w00\x17"),
        (b"x", b"\x01S02x01\x17"),
        (b"~", b"\x01S02~07\x17"),
    ] {
        assert_eq!(write(*b"S02", unit), Ok(packet.to_vec()));
        assert_eq!(read(packet), Ok((*b"S02", unit.to_vec())));
    }
    assert_eq!(read(b"\x01S02w0\x17"), Err(22));
    assert_eq!(read(b"\x01S02w 0\x17"), Err(22));
    assert_eq!(read(b"\x01S02C501\x17"), Ok((*b"S02", b"C5".to_vec())));
    assert_eq!(read(b"\x01S02C51\x17"), Err(5));
}

#[test]
fn the_slice_must_be_one_whole_candidate() {
    for slice in [
        &b""[..],
        b"\x01",
        b"\x17",
        b"\x17\x01",
        b"S0281",
        b"S0281\x17",
        b"\x01S0281",
        b"\x06\x01S0281\x17",
        b"\x01S0281\x17\x06",
        b"\x01S0281\x17\x01S0281\x17",
        b"\x01\x01S0281\x17",
        b"\x01S0281\x17\x17",
        b"\x01S02\x0181\x17",
        b"\x01S02\x1781\x17",
    ] {
        assert_eq!(read(slice), Err(6), "{slice:02X?}");
    }
}

/// Where several refusals hold, the first in the order is given.
#[test]
fn reading_refuses_in_order() {
    let rubbish = [0xFF; 400];
    let over = |len| wire(&rubbish[..len]);
    for (slice, code) in [
        (rubbish[..1].to_vec(), 6),
        (rubbish.to_vec(), 6),
        ([&over(300)[..], &over(300)].concat(), 6),
        (over(255), 2),
        (over(254), 22),
        (over(5), 22),
        (over(4), 4),
        (over(0), 4),
        (wire(b"S028"), 4),
        (wire(b"S0280"), 5),
        (wire(b"S0282"), 5),
        (wire(b"S028A"), 22),
        (wire(b"S02A1"), 22),
        (wire(b"s0281"), 22),
        (wire(b"S021.39\xFF84"), 22),
    ] {
        assert_eq!(read(&slice), Err(code), "{slice:02X?}");
    }
}

/// 22 and 5 come before the room, which only the data unit needs.
#[test]
fn reading_wants_room_for_the_data_unit() {
    let long = [b"S02", &[b'0'; 249][..], b"33"].concat();
    for (body, code) in [
        (&b"S02\xFF00"[..], 22),
        (b"S02200", 5),
        (b"S02w00", 1),
        (&long, 1),
    ] {
        assert_eq!(packet::read(&wire(body), &mut []), Err(code));
    }
    let read = packet::read(S02, &mut []);
    assert_eq!(read, told("S02", 0));
}

fn is_allowed(place: usize, len: usize, byte: u8) -> bool {
    match place {
        1 => byte.is_ascii_uppercase(),
        2 | 3 => byte.is_ascii_digit(),
        _ if place >= len - 3 => byte.is_ascii_digit(),
        _ => byte == 0x1D || (0x20..=0x7E).contains(&byte),
    }
}

/// One changed byte between the ends: it ends the packet, is not allowed at its place,
/// or makes the checksum wrong, as allowed bytes differ by less than 100.
#[test]
fn each_byte_has_its_place() {
    let packet = wire(b"S011.5076");
    for place in 1..packet.len() - 1 {
        for byte in 0..=0xFF {
            let mut changed = packet.clone();
            changed[place] = byte;
            let answer = read(&changed).map(|(header, _)| header);
            let expected = match byte {
                0x01 | 0x17 => Err(6),
                _ if !is_allowed(place, packet.len(), byte) => Err(22),
                _ if byte != packet[place] => Err(5),
                _ => Ok(*b"S01"),
            };
            assert_eq!(answer, expected, "{byte:02X} at {place}");
        }
    }
}

#[test]
fn data_is_printed_characters_and_1d() {
    let allowed = (0..=0xFF).filter(|&byte| write(*b"U05", &[byte]).is_ok());
    let expected: Vec<u8> = [0x1D].into_iter().chain(0x20..=0x7E).collect();
    assert_eq!(allowed.collect::<Vec<u8>>(), expected);
}

#[test]
fn a_packet_has_at_most_256_bytes() {
    let longest = write(*b"U18", &[b' '; 249]).unwrap();
    assert_eq!(longest.len(), 256);
    assert_eq!(read(&longest), Ok((*b"U18", vec![b' '; 249])));
    assert_eq!(write(*b"U18", &[b' '; 250]), Err(2));
    let mut over = longest.clone();
    over.insert(4, b' ');
    assert_eq!((over.len(), read(&over)), (257, Err(2)));
}

#[test]
fn writing_refuses_in_order() {
    for (head, unit, code) in [
        (*b"u18", &[0xFF; 250][..], 2),
        (*b"u18", &[0xFF; 249], 22),
        (*b"U18", &[0xFF; 249], 22),
        (*b"U18", &[b' '; 249], 1),
        (*b"@00", b"", 22),
        (*b"[00", b"", 22),
        (*b"A/0", b"", 22),
        (*b"A:0", b"", 22),
        (*b"A0/", b"", 22),
        (*b"A0:", b"", 22),
        (*b"A00", b"", 1),
    ] {
        assert_eq!(packet::write(head, unit, &mut [MARK; 6]), Err(code));
    }
}

#[test]
fn stray_bytes_are_not_answered() {
    for stray in [&b""[..], b"\x06\x15\x17", b"S0281\x17", &[0x17; 3]] {
        assert_eq!(answers(stray), []);
    }
    let trace = [b"\x06\x17", S02, b"\x15\x17", S02].concat();
    assert_eq!(answers(&trace), [(8, told("S02", 0)), (17, told("S02", 0))]);
}

#[test]
fn a_start_opens_a_candidate_even_inside_another() {
    let trace = [b"\x01\x01S02", S02, b"\x01S028"].concat();
    let expected = [(1, Err(6)), (5, Err(6)), (11, told("S02", 0)), (17, Err(6))];
    assert_eq!(answers(&trace), expected);
}

/// The 17 inside ends the packet, and what comes after it is stray.
#[test]
fn a_stop_ends_a_candidate_anywhere() {
    let expected = [(4, Err(4)), (14, told("S02", 0))];
    let trace = [b"\x01S02\x1781\x17", S02].concat();
    assert_eq!(answers(&trace), expected);
}

#[test]
fn the_line_holds_254_bytes_between_the_ends() {
    let ended = |len, end| [b"\x01", &vec![b'0'; len][..], &[end], S02].concat();
    let sound = |by| (by, told("S02", 0));
    assert_eq!(answers(&ended(254, 0x17)), [(255, Err(22)), sound(262)]);
    assert_eq!(answers(&ended(255, 0x17)), [(256, Err(2)), sound(263)]);
    assert_eq!(answers(&ended(900, 0x17)), [(901, Err(2)), sound(908)]);
    let cut = [(901, Err(6)), (902, Err(6)), sound(908)];
    assert_eq!(answers(&ended(900, 0x01)), cut);
    let open = &ended(900, 0x17)[..901];
    assert_eq!(answers(open), [(901, Err(6))]);
}

#[test]
fn the_data_unit_is_that_of_the_packet_told_last() {
    let mut line = PacketLine::new();
    assert_eq!(line.unit(), b"");
    let packet = b"\x01S011.5076\x17";
    assert_eq!(
        line.feed_chunk(packet),
        (packet.len(), Some(told("S01", 4)))
    );
    assert_eq!(line.unit(), b"1.50");
    assert_eq!(line.feed_chunk(b"\x06"), (1, None));
    assert_eq!(line.unit(), b"1.50");
    assert_eq!(line.feed(0x01), None);
    assert_eq!(line.unit(), b"");
    assert_eq!(line.feed_chunk(b"S011.5077\x17"), (10, Some(Err(5))));
    assert_eq!(line.unit(), b"");
    assert_eq!(line.feed_chunk(packet).1, Some(told("S01", 4)));
    assert_eq!(line.unit(), b"1.50");
    assert_eq!(line.finish(), None);
    assert_eq!(line.unit(), b"");
}

#[test]
fn after_a_finish_the_reader_is_new() {
    let mut line = PacketLine::new();
    assert_eq!(line.finish(), None);
    for open in [&b"\x01"[..], b"\x01S02", &wire(&[b'0'; 300])[..300]] {
        assert_eq!(line.feed_chunk(open), (open.len(), None));
        assert_eq!(line.finish(), Some(Err(6)));
        assert_eq!(line.finish(), None);
        assert_eq!(line.feed_chunk(b"81\x17"), (3, None));
        assert_eq!(line.feed_chunk(S02), (7, Some(told("S02", 0))));
    }
}

#[test]
fn a_chunk_is_taken_up_to_its_answer() {
    let mut line = PacketLine::new();
    for (chunk, taken, answer) in [
        (&b""[..], 0, None),
        (b"\x06\x17\x01", 3, None),
        (b"", 0, None),
        (b"S0\x01S0", 3, Some(Err(6))),
        (b"S011.", 5, None),
        (b"5076\x17\x06\x01", 5, Some(told("S01", 4))),
        (b"\x06\x01S0282\x17\x15", 8, Some(Err(5))),
        (b"\x15", 1, None),
    ] {
        assert_eq!(line.feed_chunk(chunk), (taken, answer), "{chunk:02X?}");
    }
}

#[test]
fn a_chunk_is_cut_to_its_first_65_536_bytes() {
    assert_eq!(CHUNK_MAX, 65_536);
    let sound = Some(told("S02", 0));
    // The place of the 17, and what the first and the second call tell.
    for (stop, first, second) in [
        (65_534, (65_535, sound), (4, None)),
        (65_535, (65_536, sound), (3, None)),
        (65_536, (65_536, None), (1, sound)),
        (65_538, (65_536, None), (3, sound)),
    ] {
        let mut chunk = vec![0x06; 65_539];
        chunk[stop + 1 - S02.len()..=stop].copy_from_slice(S02);
        let mut line = PacketLine::new();
        assert_eq!(line.feed_chunk(&chunk), first, "{stop}");
        assert_eq!(line.feed_chunk(&chunk[first.0..]), second, "{stop}");
    }
}

/// The rule for the line: the open candidate, kept whole.
#[derive(Default)]
struct Rule {
    open: Option<Vec<u8>>,
}

impl Rule {
    fn take(&mut self, byte: u8) -> Option<Answer> {
        match byte {
            0x01 => {
                let answer = self.finish();
                self.open = Some(vec![byte]);
                answer
            }
            0x17 => {
                let mut candidate = self.open.take()?;
                candidate.push(byte);
                Some(packet::read(&candidate, &mut [0; 300]))
            }
            _ => {
                self.open.as_mut()?.push(byte);
                None
            }
        }
    }

    /// The first answer to a chunk and how many bytes are taken for it, from the
    /// answers to its bytes singly.
    fn take_chunk(&mut self, chunk: &[u8]) -> (usize, Option<Answer>) {
        for (at, &byte) in chunk.iter().enumerate() {
            if let Some(answer) = self.take(byte) {
                return (at + 1, Some(answer));
            }
        }
        (chunk.len(), None)
    }

    fn finish(&mut self) -> Option<Answer> {
        self.open.take().map(|_| Err(6))
    }
}

struct Random(u64);

impl Random {
    fn below(&mut self, limit: usize) -> usize {
        self.0 = self.0.wrapping_mul(6_364_136_223_846_793_005);
        self.0 = self.0.wrapping_add(1);
        (self.0 >> 33) as usize % limit
    }

    /// A packet with a short or a long data unit, damaged more often than not.
    fn packet(&mut self) -> Vec<u8> {
        let len = [0, 1, 4, 248, 249][self.below(5)];
        let unit: Vec<u8> = (0..len).map(|_| 0x20 + self.below(0x5F) as u8).collect();
        let mut packet = write(*b"S01", &unit).unwrap();
        let at = self.below(packet.len());
        let byte = [0x01, 0x17, 0x06, b'0', b'9'][self.below(5)];
        match self.below(5) {
            0 | 1 => {}
            2 => packet[at] = byte,
            3 => packet.insert(at, byte),
            _ => packet.truncate(at),
        }
        packet
    }
}

/// Bytes, chunks and finishes are answered by the rule, with every number that the line
/// reader gives among the answers.
#[test]
fn the_line_follows_its_rule() {
    let (mut line, mut rule) = (PacketLine::new(), Rule::default());
    let mut random = Random(1);
    let mut counts = [0; 23];
    for _ in 0..20_000 {
        let packet = random.packet();
        let mut rest = &packet[..];
        while !rest.is_empty() {
            let len = 1 + random.below(rest.len());
            let (taken, answer) = line.feed_chunk(&rest[..len]);
            assert_eq!((taken, answer), rule.take_chunk(&rest[..len]));
            rest = &rest[taken..];
            count(&mut counts, answer);
        }
        for _ in 0..random.below(3) {
            let byte = [0x01, 0x17, 0x06][random.below(3)];
            let answer = line.feed(byte);
            assert_eq!(answer, rule.take(byte));
            count(&mut counts, answer);
        }
        if random.below(5) == 0 {
            assert_eq!(line.finish(), rule.finish());
        }
    }
    for number in [0, 2, 4, 5, 6, 22] {
        assert!(counts[number] > 100, "{counts:?}");
    }
    assert_eq!(counts[1], 0);
}

/// Counts a packet as 0 and a refusal as its number.
fn count(counts: &mut [usize], answer: Option<Answer>) {
    if let Some(answer) = answer {
        counts[usize::from(answer.err().unwrap_or(0))] += 1;
    }
}

/// A packet of the manual by its name.
fn named(name: &str) -> Vec<u8> {
    let packet = treadmill::PACKETS.iter().find(|row| row.0 == name);
    bytes(packet.unwrap().1)
}

/// A packet of the manual with one byte changed.
fn changed(name: &str, at: usize, byte: u8) -> Vec<u8> {
    let mut packet = named(name);
    packet[at] = byte;
    packet
}

/// A request and its reply, each acknowledged.
fn exchanged(request: &str, reply: &str) -> Vec<u8> {
    [named(request), vec![0x06], named(reply), vec![0x06]].concat()
}

#[test]
fn the_sample_is_made_of_packets_of_the_manual() {
    let trace = [
        exchanged("T401", "T408"),
        exchanged("T190", "T192"),
        changed("T194", 7, b'8'),
        vec![0x15],
        exchanged("T194", "T196"),
        named("T198")[..6].to_vec(),
        exchanged("T198", "T200"),
        changed("T416", 5, b'.' | 0x80),
        vec![0x15],
        exchanged("T416", "T423"),
        exchanged("T522", "T527"),
    ];
    let path = PathBuf::from(env!("CARGO_MANIFEST_DIR")).join("../../samples/treadmill.bin");
    let sample = fs::read(path).unwrap();
    assert_eq!(sample, trace.concat());
    let answers: Vec<Answer> = answers(&sample).into_iter().map(|told| told.1).collect();
    let [speed, set_speed] = ["S01", "S02"].map(|head| told(head, 4));
    assert_eq!(
        answers[..4],
        [told("S01", 0), speed, told("P11", 1), told("P11", 1)]
    );
    assert_eq!(answers[4..7], [Err(5), told("P13", 4), told("P13", 4)]);
    assert_eq!(answers[7..10], [Err(6), told("P14", 2), told("P14", 4)]);
    assert_eq!(answers[10..13], [Err(22), set_speed, set_speed]);
    assert_eq!(answers[13..], [told("X00", 0), told("X00", 21)]);
}
