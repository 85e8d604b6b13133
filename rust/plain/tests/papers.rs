//! The cases that the requirements and the source documents state.

mod examples;

use std::io::{self, Read as _};

use plain::command::{self, Cursor, Found};
use plain::frame::{self, Origin, Read};
use plain::line::{Answer, Line, CHUNK_MAX};
use plain::reply::{self, Status};
use plain::workout::{self, Goal, Workout};
use plain::{lease, listing};

/// A value no result of these tests depends on, to see what stays untouched.
const MARK: u8 = 0xA5;
const TABLE_LEN: usize = 2_048;

fn bytes(hex: &str) -> Vec<u8> {
    hex.split_whitespace()
        .map(|byte| u8::from_str_radix(byte, 16).unwrap())
        .collect()
}

fn hex(bytes: &[u8]) -> String {
    let pairs: Vec<String> = bytes.iter().map(|byte| format!("{byte:02X}")).collect();
    pairs.join(" ")
}

/// Runs a writer on a marked output; checks that nothing else is touched.
fn written(write: impl Fn(&mut [u8]) -> Result<usize, u8>) -> Result<String, u8> {
    let mut out = [MARK; 300];
    let result = write(&mut out);
    let len = result.unwrap_or(0);
    assert!(out[len..].iter().all(|&byte| byte == MARK));
    if result.is_ok() {
        let mut exact = vec![MARK; len];
        assert_eq!(write(&mut exact), Ok(len));
        assert_eq!(exact, out[..len]);
        let mut short = vec![MARK; len - 1];
        assert_eq!(write(&mut short), Err(1));
        assert!(short.iter().all(|&byte| byte == MARK));
    }
    result.map(|len| hex(&out[..len]))
}

/// Writes a frame; checks that its length is the one that is told.
fn write_frame(origin: Origin, frame: Read, contents: &[u8]) -> Result<String, u8> {
    let wire = written(|out| match frame {
        Read::Standard { .. } => frame::write_standard(origin, contents, out),
        Read::Extended { to, from, .. } => frame::write_extended(to, from, contents, out),
    });
    let len = match frame {
        Read::Standard { .. } => frame::standard_length(origin, contents),
        Read::Extended { to, from, .. } => frame::extended_length(to, from, contents),
    };
    assert_eq!(len, wire.clone().map(|wire| bytes(&wire).len()));
    wire
}

/// Writes a standard frame into a trace.
fn write_standard(contents: &[u8]) -> Result<String, u8> {
    let len = contents.len();
    write_frame(Origin::Trace, Read::Standard { len }, contents)
}

/// Reads a frame of a trace.
fn read_frame(wire: &[u8]) -> Result<(Read, Vec<u8>), u8> {
    read_frame_from(Origin::Trace, wire)
}

/// Reads a frame; checks what is left untouched, and that an accepted frame is
/// written again with the same bytes.
fn read_frame_from(origin: Origin, wire: &[u8]) -> Result<(Read, Vec<u8>), u8> {
    let mut out = [MARK; 200];
    let result = frame::read(origin, wire, &mut out);
    let len = match result {
        Ok(Read::Standard { len } | Read::Extended { len, .. }) => len,
        Err(_) => 0,
    };
    assert!(out[len..].iter().all(|&byte| byte == MARK));
    let frame = result?;
    assert_eq!(write_frame(origin, frame, &out[..len]), Ok(hex(wire)));
    if len > 0 {
        let mut short = vec![MARK; len - 1];
        assert_eq!(frame::read(origin, wire, &mut short), Err(1));
        assert!(short.iter().all(|&byte| byte == MARK));
    }
    Ok((frame, out[..len].to_vec()))
}

fn contents_of(name: &str) -> Vec<u8> {
    let bare = examples::BARE.iter().find(|example| example.0 == name);
    if let Some((_, contents)) = bare {
        return bytes(contents);
    }
    let frame = examples::FRAMES.iter().find(|example| example.0 == name);
    read_frame(&bytes(frame.unwrap().1)).unwrap().1
}

fn list_text(trace: &[u8]) -> String {
    let mut text = Vec::new();
    listing::list(&mut &trace[..], &mut text).unwrap();
    String::from_utf8(text).unwrap()
}

/// The answers to a trace that are not nothing, with the place of the byte, and the
/// finish.
fn line_answers(trace: &[u8]) -> Vec<(usize, Answer)> {
    line_answers_from(Origin::Trace, trace)
}

fn frame_at(position: u32, frame: Read) -> Answer {
    Answer::Frame { position, frame }
}

fn refused_at(position: u32, code: u8) -> Answer {
    Answer::Refused { position, code }
}

/// The answer to a candidate that begins at a position, by what reading it answers.
fn read_at(position: u32, read: Result<Read, u8>) -> Answer {
    match read {
        Ok(frame) => frame_at(position, frame),
        Err(code) => refused_at(position, code),
    }
}

fn line_answers_from(origin: Origin, trace: &[u8]) -> Vec<(usize, Answer)> {
    let mut line = Line::new(origin);
    let mut answers: Vec<Answer> = trace.iter().map(|&byte| line.feed(byte)).collect();
    answers.push(line.finish());
    let told = answers.into_iter().enumerate();
    told.filter(|(_, answer)| *answer != Answer::Nothing)
        .collect()
}

#[test]
fn bench_frames_read() {
    let standard = |contents: &str| {
        let contents = bytes(contents);
        let len = contents.len();
        Ok((Read::Standard { len }, contents))
    };
    let (to, from, len) = (0x05, 0x00, 0);
    let empty_extended = Ok((Read::Extended { to, from, len }, vec![]));
    let cases = [
        ("F1 F2", Err(4)),
        ("F1 00 F2", standard("")),
        ("F0 05 00 F2", Err(4)),
        ("F0 05 00 00 F2", empty_extended),
        ("F1 F3 04 F2", Err(3)),
        ("F1 F3 F2", Err(3)),
        ("F1 24 02 03 00 25 F2", standard("24 02 03 00")),
        ("F1 24 02 03 00 24 F2", Err(5)),
        (
            "F1 1A 07 05 05 80 64 00 00 00 F9 F2",
            standard("1A 07 05 05 80 64 00 00 00"),
        ),
    ];
    for (wire, expected) in cases {
        assert_eq!(read_frame(&bytes(wire)), expected, "{wire}");
    }
}

#[test]
fn bench_frames_written() {
    let stuffed = write_standard(&[0xF1]);
    assert_eq!(stuffed.as_deref(), Ok("F1 F3 01 F3 01 F2"));
    let longest = write_standard(&[0; 117]).unwrap();
    assert_eq!(bytes(&longest).len(), 120);
    let longer = write_standard(&[0; 118]);
    assert_eq!(longer, Err(2));
}

#[test]
fn bench_reply() {
    let contents = bytes("81 1A 00");
    let status = Status {
        toggle: true,
        previous: Status::PREVIOUS_OK,
        state: Status::READY,
    };
    assert_eq!(reply::read(&contents), Ok((status, 1)));
    let item = Found {
        byte: 0x1A,
        start: 3,
        len: 0,
    };
    assert_eq!(reply::nth_item(&contents, 0), Ok(item));
    assert_eq!(reply::nth_item(&contents, 1), Err(15));
}

#[test]
fn bench_stop() {
    let mut table = [0; TABLE_LEN];
    lease::hold(&mut table, 0xF1, 7).unwrap();
    let stop = written(|out| lease::stop(&table, 0xF1, 7, out));
    let expected = "F0 F3 01 00 76 04 13 02 01 02 60 F2";
    assert_eq!(stop.as_deref(), Ok(expected));
}

fn distance(metres: u32, split: u32) -> Workout {
    let goal = Goal::Distance { metres, split };
    Workout { goal, watts: 200 }
}

fn time(seconds: u32, split: u32) -> Workout {
    let goal = Goal::Time { seconds, split };
    Workout { goal, watts: 100 }
}

#[test]
fn bench_workouts() {
    let write = |workout| written(|out| workout::write(workout, out));
    let example = write(distance(2_000, 500)).unwrap();
    let expected = "21 03 02 00 21 1A 07 05 05 80 F4 01 00 00 34 03 C8 00 58 24 02 00 00";
    assert_eq!(example, expected);
    let wire = write_standard(&bytes(&example)).unwrap();
    assert!(wire.ends_with("E8 F2"));
    let metres = write(distance(2_001, 500)).unwrap();
    assert!(metres.starts_with("21 03 D1 07 24 "));
    assert!(write(distance(50_000, 1_667)).is_ok());
    assert_eq!(write(distance(50_000, 1_666)), Err(12));
}

#[test]
fn slip_stuffed_stop_flag_does_not_end_the_frame() {
    let wire = bytes("F1 F3 02 F3 02 F2");
    let frame = Read::Standard { len: 1 };
    assert_eq!(read_frame(&wire), Ok((frame, vec![0xF2])));
    assert_eq!(line_answers(&wire), [(5, frame_at(0, frame))]);
}

#[test]
fn slip_checksum_does_not_cover_addresses() {
    let mut table = [0; TABLE_LEN];
    lease::hold(&mut table, 0x05, 7).unwrap();
    let stop = written(|out| lease::stop(&table, 0x05, 7, out));
    let expected = "F0 05 00 76 04 13 02 01 02 60 F2";
    assert_eq!(stop.as_deref(), Ok(expected));
    let folded = bytes("F0 05 00 76 04 13 02 01 02 65 F2");
    assert_eq!(read_frame(&folded), Err(5));
}

#[test]
fn slip_token_0_never_holds() {
    let mut table = [0; TABLE_LEN];
    assert_eq!(written(|out| lease::stop(&table, 0x05, 0, out)), Err(11));
    assert_eq!(lease::release(&mut table, 0x05, 0), Err(11));
    assert_eq!(lease::hold(&mut table, 0x05, 0), Err(14));
    assert_eq!(table, [0; TABLE_LEN]);
}

#[test]
fn slip_frame_after_a_truncated_one_is_found() {
    let answers = line_answers(&bytes("F1 76 04 F1 24 02 03 00 25 F2"));
    let frame = frame_at(3, Read::Standard { len: 4 });
    assert_eq!(answers, [(3, refused_at(0, 6)), (9, frame)]);
}

#[test]
fn example_frames() {
    for (name, wire, verdict) in examples::FRAMES {
        let wire = bytes(wire);
        let read = read_frame(&wire);
        let told = match &read {
            Ok((Read::Standard { len }, _)) => format!("std {len}"),
            Ok((Read::Extended { to, from, len }, _)) => {
                format!("ext to {to:02X} from {from:02X} {len}")
            }
            Err(code) => format!("refused {code}"),
        };
        assert_eq!(told, *verdict, "{name}");
        let mut line = Line::new(Origin::Trace);
        let (stop, before) = wire.split_last().unwrap();
        assert!(before
            .iter()
            .all(|&byte| line.feed(byte) == Answer::Nothing));
        let answer = line.feed(*stop);
        match read {
            Ok((frame, contents)) => {
                assert_eq!(answer, frame_at(0, frame), "{name}");
                assert_eq!(line.contents(), contents, "{name}");
            }
            Err(code) => assert_eq!(answer, refused_at(0, code), "{name}"),
        }
    }
}

/// The commands that `nth` finds, until 15, in the notation of the examples.
fn list_notation(contents: &[u8], nth: impl Fn(usize) -> Result<Found, u8>) -> String {
    let mut commands = Vec::new();
    loop {
        let found = match nth(commands.len()) {
            Ok(found) => found,
            Err(code) => {
                assert_eq!(code, 15);
                return commands.join(", ");
            }
        };
        let data = hex(&contents[found.start..][..found.len]);
        commands.push(match found.byte {
            byte @ 0x80.. => format!("{byte:02X}"),
            byte @ (0x1A | 0x76 | 0x77 | 0x7E | 0x7F) => format!("{byte:02X}{{{data}}}"),
            byte => format!("{byte:02X}:{data}"),
        });
    }
}

#[test]
fn example_commands() {
    for (name, list) in examples::LISTS {
        let contents = contents_of(name);
        let mut told = list_notation(&contents, |n| command::nth(&contents, n));
        let mut w = 0;
        while let Ok(wrapper) = command::nth(&contents, w) {
            let data = hex(&contents[wrapper.start..][..wrapper.len]);
            let inside = list_notation(&contents, |n| command::nth_inside(&contents, w, n));
            told = told.replace(&format!("{{{data}}}"), &format!("{{{inside}}}"));
            w += 1;
        }
        assert_eq!(told, *list, "{name}");
    }
}

fn reply_notation(contents: &[u8]) -> String {
    let (status, items) = match reply::read(contents) {
        Ok(read) => read,
        Err(code) => return format!("refusal {code}"),
    };
    assert_eq!(status.previous, Status::PREVIOUS_OK);
    let state = match status.state {
        Status::READY => "ready",
        Status::OFFLINE => "offline",
        other => panic!("state {other}"),
    };
    assert_eq!(items, 1);
    assert_eq!(reply::nth_item(contents, 1), Err(15));
    let item = reply::nth_item(contents, 0).unwrap();
    let data = &contents[item.start..][..item.len];
    let again = written(|out| reply::write_item(&contents[..1], item.byte, data, out));
    assert_eq!(again, Ok(hex(contents)));
    let toggle = u8::from(status.toggle);
    let (byte, data) = (item.byte, hex(data));
    format!("toggle {toggle}, ok, {state}; 1 item: {byte:02X}[{data}]")
}

#[test]
fn example_replies() {
    for (name, reply) in examples::REPLIES {
        assert_eq!(reply_notation(&contents_of(name)), *reply, "{name}");
    }
}

fn workout_notation(contents: &[u8]) -> String {
    let workout = match workout::read(contents) {
        Ok(workout) => workout,
        Err(code) => return format!("refusal {code}"),
    };
    let again = written(|out| workout::write(workout, out));
    assert_eq!(again, Ok(hex(contents)));
    let watts = workout.watts;
    match workout.goal {
        Goal::Distance { metres, split } => format!("distance {metres}, split {split}, {watts} W"),
        Goal::Time { seconds, split } => format!("time {seconds}, split {split}, {watts} W"),
    }
}

#[test]
fn example_workouts() {
    for (name, workout) in examples::WORKOUTS {
        assert_eq!(workout_notation(&contents_of(name)), *workout, "{name}");
    }
}

#[test]
fn listing_example() {
    let trace = bytes("55 F1 76 04 F0 05 00 76 04 13 02 01 02 60 F2");
    let text = "n=1 at=1 kind=refused code=6\n\
                n=2 at=4 kind=ext to=05 from=00 len=6 stop=yes\n\
                frames=1 refused=1 loose=1\n";
    assert_eq!(list_text(&trace), text);
    let standard = "n=1 at=0 kind=std len=4 stop=no\nframes=1 refused=0 loose=0\n";
    assert_eq!(list_text(&bytes("F1 24 02 03 00 25 F2")), standard);
    assert_eq!(list_text(&[]), "frames=0 refused=0 loose=0\n");
}

/// Gives a trace one byte at a time, then fails.
struct Failing<'a>(&'a [u8]);

impl io::Read for Failing<'_> {
    fn read(&mut self, out: &mut [u8]) -> io::Result<usize> {
        if self.0.is_empty() {
            return Err(io::Error::other("no more"));
        }
        self.0.read(&mut out[..1])
    }
}

#[test]
fn listing_of_a_failed_read() {
    let trace = bytes("55 F1 24 02 03 00 25 F2 F1 00");
    let mut text = Vec::new();
    let result = listing::list(&mut Failing(&trace), &mut text);
    assert_eq!(result.unwrap_err().to_string(), "no more");
    assert_eq!(text, b"n=1 at=1 kind=std len=4 stop=no\n");
}

#[test]
fn listing_of_a_long_trace() {
    let frame = bytes("F0 05 FD 76 04 13 02 01 02 60 F2 F2 00");
    let count = 50_000;
    let mut text = String::new();
    for n in 1..=count {
        let at = (n - 1) * frame.len();
        text += &format!("n={n} at={at} kind=ext to=05 from=FD len=6 stop=yes\n");
    }
    let stray = 2 * count;
    text += &format!("frames={count} refused=0 loose={stray}\n");
    assert!(list_text(&frame.repeat(count)) == text);
}

/// The last byte that is taken ends a frame, and the frame after it is not read.
#[test]
#[cfg_attr(debug_assertions, ignore = "it lists 4,294,967,295 bytes")]
fn listing_of_the_longest_trace() {
    let stray = 4_294_967_292;
    let frames = bytes("F1 00 F2 F1 00 F2");
    let mut trace = io::repeat(0x55).take(stray).chain(&frames[..]);
    let mut text = Vec::new();
    listing::list(&mut trace, &mut text).unwrap();
    let expected =
        format!("n=1 at={stray} kind=std len=0 stop=no\nframes=1 refused=0 loose={stray}\n");
    assert_eq!(String::from_utf8(text).unwrap(), expected);
}

#[test]
fn garbled_examples_are_no_byte_strings() {
    for (name, printed) in examples::GARBLED {
        let is_byte = |word: &str| word.len() == 2 && u8::from_str_radix(word, 16).is_ok();
        assert!(!printed.split(' ').all(is_byte), "{name}");
    }
}

#[test]
fn example_stops() {
    for (name, _) in examples::LISTS {
        let stops = command::terminates(&contents_of(name));
        assert_eq!(stops, examples::STOPS.contains(name), "{name}");
    }
}

#[test]
fn listing_marks_stops() {
    let cases = [
        ("76 04 13 02 01 02", "yes"),
        ("76 04 13 02 01 02 20", "no"),
        ("76 04 13 02 01 02 1A 01 05", "yes"),
        ("76 01 13 76 04 13 02 01 02", "yes"),
        ("76 05 13 02 01 02 01", "no"),
        ("81 76 04 13 02 01 02", "yes"),
        ("81 76 01 13", "no"),
        ("76 05 13 03 01 02 00", "no"),
        ("13 02 01 02", "no"),
        ("1A 04 13 02 01 02", "no"),
        ("77 04 13 02 01 02", "no"),
        ("7E 04 13 02 01 02", "no"),
        ("7F 04 13 02 01 02", "no"),
    ];
    for (contents, stop) in cases {
        let contents = bytes(contents);
        let wire = write_standard(&contents).unwrap();
        let len = contents.len();
        let text = format!("n=1 at=0 kind=std len={len} stop={stop}\nframes=1 refused=0 loose=0\n");
        assert_eq!(list_text(&bytes(&wire)), text);
    }
}

#[test]
fn one_frame_reader_wants_one_whole_candidate() {
    let cases = [
        "",
        "F1",
        "F2",
        "55",
        "F1 00",
        "F1 00 F2 F2",
        "F1 00 F2 55",
        "55 F1 00 F2",
        "F1 00 F2 F1 00 F2",
        "F1 F1 00 F2",
        "F1 F3 F1 00 F2",
        "F2 00 F2",
    ];
    for wire in cases {
        assert_eq!(read_frame(&bytes(wire)), Err(6), "{wire}");
    }
    let mut long = vec![0; 200];
    long[0] = 0xF1;
    assert_eq!(read_frame(&long), Err(6));
}

#[test]
fn frame_refusals_in_order() {
    let long = format!("F1 F3 04 {} F2", "00 ".repeat(117));
    assert_eq!(read_frame(&bytes(&long)), Err(2));
    let flagged = format!("F1 F3 04 F2 {} F2", "00 ".repeat(117));
    assert_eq!(read_frame(&bytes(&flagged)), Err(6));
    assert_eq!(read_frame(&bytes("F0 05 F3 04 F2")), Err(3));
    assert_eq!(read_frame(&bytes("F0 05 F3 00 F2")), Err(4));
    let read = |wire| frame::read(Origin::Trace, &bytes(wire), &mut []);
    assert_eq!(read("F1 05 04 F2"), Err(5));
    assert_eq!(read("F1 05 05 F2"), Err(1));
    let write = |contents: &[u8], room| {
        frame::write_standard(Origin::Trace, contents, &mut vec![MARK; room])
    };
    assert_eq!(write(&[0; 118], 0), Err(2));
    assert_eq!(write(&[], 2), Err(1));
}

#[test]
fn frame_length_counts_addresses_and_escapes() {
    let extended = |to, contents: &[u8]| {
        let (from, len) = (0x00, contents.len());
        let wire = write_frame(Origin::Live, Read::Extended { to, from, len }, contents);
        wire.map(|wire| bytes(&wire).len())
    };
    assert_eq!(extended(0x05, &[0; 115]), Ok(120));
    assert_eq!(extended(0x05, &[0; 116]), Err(2));
    assert_eq!(extended(0xF2, &[0; 114]), Ok(120));
    assert_eq!(extended(0xF2, &[0; 115]), Err(2));
    // An even number of equal bytes has checksum 00, an odd one that byte.
    let standard = |len| write_standard(&vec![0xF3; len]).map(|wire| bytes(&wire).len());
    assert_eq!(standard(58), Ok(119));
    assert_eq!(standard(59), Err(2));
    assert_eq!(standard(57), Ok(118));
}

#[test]
fn lengths_are_told() {
    let cases = [
        ("", Ok(3), Ok(6)),
        ("80", Ok(4), Ok(7)),
        ("F1", Ok(6), Ok(9)),
        // The checksum of 70 and 83 is F3.
        ("70 83", Ok(6), Ok(9)),
        ("76 04 13 02 01 02", Ok(9), Ok(12)),
    ];
    for (contents, standard, extended) in cases {
        let contents = bytes(contents);
        assert_eq!(frame::standard_length(Origin::Trace, &contents), standard);
        assert_eq!(frame::extended_length(0x05, 0xF1, &contents), extended);
    }
    assert_eq!(frame::standard_length(Origin::Trace, &[0; 117]), Ok(120));
    assert_eq!(frame::extended_length(0xF0, 0xF3, &[0; 113]), Ok(120));
    for len in [118, 255, 256, 4_096, 65_536] {
        let contents = vec![0; len];
        assert_eq!(
            frame::standard_length(Origin::Trace, &contents),
            Err(2),
            "{len}"
        );
        assert_eq!(frame::extended_length(0, 0, &contents), Err(2), "{len}");
    }
}

/// The length by the rule: two flags, and each byte between them once more where
/// it is F0 to F3.
fn counted(addresses: &[u8], contents: &[u8]) -> Result<usize, u8> {
    let sum = contents.iter().fold(0, |sum, byte| sum ^ byte);
    let between = [addresses, contents, &[sum]].concat();
    let escaped = between.iter().filter(|byte| (0xF0..=0xF3).contains(*byte));
    let len = 2 + between.len() + escaped.count();
    (len <= 120).then_some(len).ok_or(2)
}

#[test]
fn lengths_count_every_escape() {
    for len in 0..=130 {
        for place in 0..len {
            for byte in 0xEF..=0xF4 {
                let mut contents = vec![0x00; len];
                contents[place] = byte;
                let standard = frame::standard_length(Origin::Trace, &contents);
                assert_eq!(standard, counted(&[], &contents), "{byte:02X} of {len}");
                let extended = frame::extended_length(byte, 0x00, &contents);
                let expected = counted(&[byte, 0x00], &contents);
                assert_eq!(extended, expected, "{byte:02X} of {len}");
            }
        }
    }
}

#[test]
fn lengths_of_all_addresses_and_checksums() {
    for byte in 0..=0xFF {
        for other in 0..=0xFF {
            let extended = frame::extended_length(byte, other, &[0; 114]);
            assert_eq!(extended, counted(&[byte, other], &[0; 114]));
            let standard = frame::standard_length(Origin::Trace, &[byte, other]);
            assert_eq!(standard, counted(&[], &[byte, other]));
        }
    }
}

#[test]
fn line_length() {
    let candidate = |body: usize, last: u8| {
        let mut trace = vec![0; body + 2];
        trace[0] = 0xF1;
        trace[body + 1] = last;
        line_answers(&trace)
    };
    let longest = frame_at(0, Read::Standard { len: 117 });
    assert_eq!(candidate(118, 0xF2), [(119, longest)]);
    assert_eq!(candidate(119, 0xF2), [(120, refused_at(0, 2))]);
    let truncated = refused_at(0, 6);
    let again = refused_at(401, 6);
    assert_eq!(candidate(400, 0xF1), [(401, truncated), (402, again)]);
    assert_eq!(candidate(400, 0x00), [(402, truncated)]);
}

#[test]
fn line_finds_flags_before_escapes() {
    let answers = line_answers(&bytes("F1 F3 F1 00 F2"));
    let frame = frame_at(2, Read::Standard { len: 0 });
    assert_eq!(answers, [(2, refused_at(0, 6)), (4, frame)]);
}

#[test]
fn a_chunk_is_taken_up_to_its_answer() {
    let (to, from, len) = (0x05, 0x00, 1);
    let cases = [
        ("", 0, Answer::Nothing),
        ("55 F2 F1", 3, Answer::Nothing),
        ("", 0, Answer::Nothing),
        ("00 F0 05", 2, refused_at(2, 6)),
        (
            "05 00 41 41 F2 F1",
            5,
            frame_at(4, Read::Extended { to, from, len }),
        ),
        ("F1 41 42 F2 55", 4, refused_at(10, 5)),
        ("55", 1, Answer::Nothing),
    ];
    let mut line = Line::new(Origin::Trace);
    for (chunk, taken, answer) in cases {
        assert_eq!(line.feed_chunk(&bytes(chunk)), (taken, answer), "{chunk}");
    }
}

#[test]
fn a_chunk_is_cut_to_its_first_65_536_bytes() {
    assert_eq!(CHUNK_MAX, 65_536);
    let empty_at = |position| frame_at(position, Read::Standard { len: 0 });
    // The place of the stop flag, and what the first and the second call tell.
    let cases = [
        (65_534, (65_535, empty_at(65_532)), (4, Answer::Nothing)),
        (65_535, (65_536, empty_at(65_533)), (3, Answer::Nothing)),
        (65_536, (65_536, Answer::Nothing), (1, empty_at(65_534))),
        (65_537, (65_536, Answer::Nothing), (2, empty_at(65_535))),
        (65_538, (65_536, Answer::Nothing), (3, empty_at(65_536))),
    ];
    for (stop, first, second) in cases {
        let mut chunk = vec![0x55; 65_539];
        chunk[stop - 2..=stop].copy_from_slice(&[0xF1, 0x00, 0xF2]);
        let mut line = Line::new(Origin::Trace);
        assert_eq!(line.feed_chunk(&chunk), first, "{stop}");
        assert_eq!(line.feed_chunk(&chunk[first.0..]), second, "{stop}");
    }
}

/// The verdict on a frame of a live line, by that on the same frame of a trace.
fn live_verdict(read: Result<(Read, Vec<u8>), u8>) -> Result<(Read, Vec<u8>), u8> {
    match read {
        Ok((Read::Standard { .. }, _)) => Err(17),
        other => other,
    }
}

#[test]
fn live_examples_are_as_in_a_trace_but_for_standard_frames() {
    let mut unnamed = 0;
    for (name, wire, verdict) in examples::FRAMES {
        let wire = bytes(wire);
        let live = read_frame_from(Origin::Live, &wire);
        assert_eq!(live, live_verdict(read_frame(&wire)), "{name}");
        assert_eq!(live == Err(17), verdict.starts_with("std"), "{name}");
        unnamed += usize::from(live == Err(17));
        let answer = read_at(0, live.map(|(frame, _)| frame));
        let answers = line_answers_from(Origin::Live, &wire);
        assert_eq!(answers, [(wire.len() - 1, answer)], "{name}");
    }
    assert!(unnamed > 20, "{unnamed} frames are refused with 17");
}

#[test]
fn live_reading_refuses_a_sound_standard_frame_with_17() {
    let long = format!("F1 {} F2", "00 ".repeat(119));
    let longest = format!("F1 {} F2", "00 ".repeat(118));
    let (to, from, len) = (0x05, 0x00, 1);
    let extended = Ok(Read::Extended { to, from, len });
    let cases = [
        (long.as_str(), Err(2)),
        ("F1 F3 04 F2", Err(3)),
        ("F1 F3 F2", Err(3)),
        ("F1 F2", Err(4)),
        ("F1 24 02 03 00 24 F2", Err(5)),
        ("F1 24 02 03 00 25 F2", Err(17)),
        ("F1 F3 01 F3 01 F2", Err(17)),
        ("F1 00 F2", Err(17)),
        (longest.as_str(), Err(17)),
        ("F0 05 00 41 41 F2", extended),
        ("F0 05 00 F2", Err(4)),
        ("F0 05 00 41 42 F2", Err(5)),
    ];
    for (wire, answer) in cases {
        let wire = bytes(wire);
        let read = read_frame_from(Origin::Live, &wire).map(|(frame, _)| frame);
        assert_eq!(read, answer);
        let answers = line_answers_from(Origin::Live, &wire);
        assert_eq!(answers, [(wire.len() - 1, read_at(0, answer))]);
    }
    let unterminated = read_frame_from(Origin::Live, &bytes("F1 24 02 03 00 25"));
    assert_eq!(unterminated, Err(6));
}

#[test]
fn live_reading_refuses_with_17_before_1() {
    let standard = bytes("F1 24 02 03 00 25 F2");
    let extended = bytes("F0 05 00 24 02 03 00 25 F2");
    for room in 0..4 {
        let mut out = vec![MARK; room];
        assert_eq!(frame::read(Origin::Live, &standard, &mut out), Err(17));
        assert_eq!(frame::read(Origin::Trace, &standard, &mut out), Err(1));
        assert_eq!(frame::read(Origin::Live, &extended, &mut out), Err(1));
        assert_eq!(out, vec![MARK; room]);
    }
}

#[test]
fn live_writing_refuses_a_standard_frame_with_17_first() {
    for contents in [&[][..], &[0x80], &[0; 117], &[0; 118], &[0; 4_096]] {
        let frame = Read::Standard {
            len: contents.len(),
        };
        assert_eq!(write_frame(Origin::Live, frame, contents), Err(17));
        let none = frame::write_standard(Origin::Live, contents, &mut []);
        assert_eq!(none, Err(17));
    }
}

#[test]
fn a_finish_keeps_the_origin() {
    let standard = bytes("F1 24 02 03 00 25 F2");
    let frame = frame_at(0, Read::Standard { len: 4 });
    for (origin, answer) in [(Origin::Live, refused_at(0, 17)), (Origin::Trace, frame)] {
        let mut line = Line::new(origin);
        assert_eq!(line.finish(), Answer::Nothing);
        for (open, finished) in [("55", Answer::Nothing), ("F1 24", refused_at(7, 6))] {
            assert_eq!(line.feed_chunk(&standard), (7, answer));
            assert_eq!(line.feed_chunk(&bytes(open)).1, Answer::Nothing);
            assert_eq!(line.finish(), finished);
        }
        assert_eq!(line.feed_chunk(&standard), (7, answer));
    }
}

#[test]
fn a_refusal_with_17_hands_out_no_contents() {
    let mut line = Line::new(Origin::Live);
    let (to, from, len) = (0x05, 0x00, 1);
    let extended = frame_at(0, Read::Extended { to, from, len });
    assert_eq!(line.feed_chunk(&bytes("F0 05 00 41 41 F2")), (6, extended));
    assert_eq!(line.contents(), [0x41]);
    let refused = line.feed_chunk(&bytes("F1 42 42 F2"));
    assert_eq!(refused, (4, refused_at(6, 17)));
    assert_eq!(line.contents(), []);
}

#[test]
fn workouts_go_out_in_extended_frames_from_the_host() {
    let write = |address, workout| written(|out| workout::write_frame(address, workout, out));
    let contents = "21 03 02 00 21 1A 07 05 05 80 F4 01 00 00 34 03 C8 00 58 24 02 00 00";
    let example = write(0x05, distance(2_000, 500)).unwrap();
    assert_eq!(example, format!("F0 05 00 {contents} E8 F2"));
    let escaped = write(0xF1, distance(2_000, 500)).unwrap();
    assert_eq!(escaped, format!("F0 F3 01 00 {contents} E8 F2"));
    for address in 0x01..=0xFC {
        let wire = bytes(&write(address, time(1_200, 24_000)).unwrap());
        let (frame, contents) = read_frame_from(Origin::Live, &wire).unwrap();
        let to = address as u8;
        let (from, len) = (0x00, 23);
        assert_eq!(frame, Read::Extended { to, from, len });
        assert_eq!(workout::read(&contents), Ok(time(1_200, 24_000)));
    }
}

#[test]
fn workout_frames_are_refused_in_order() {
    let (kept, beyond) = (distance(2_000, 500), distance(99, 99));
    for address in [0x00, 0xFD, 0xFE, 0xFF, 0x100, 0x105, u32::MAX] {
        assert_eq!(workout::write_frame(address, kept, &mut [0; 64]), Err(9));
        assert_eq!(workout::write_frame(address, beyond, &mut []), Err(9));
    }
    assert_eq!(workout::write_frame(0x05, beyond, &mut []), Err(12));
    assert_eq!(workout::write_frame(0x05, kept, &mut []), Err(1));
    // The address and both bytes of the power are escaped, which takes a byte more for each.
    let watts = 0xF3F2;
    let stuffed = Workout { watts, ..kept };
    let plain = written(|out| workout::write_frame(0x05, kept, out)).unwrap();
    let escaped = written(|out| workout::write_frame(0xF0, stuffed, out)).unwrap();
    assert_eq!([plain, escaped].map(|wire| bytes(&wire).len()), [28, 31]);
}

fn found(byte: u8, start: usize, len: usize) -> Result<Found, u8> {
    Ok(Found { byte, start, len })
}

#[test]
fn walk_at_the_top() {
    let cases = [
        ("", 0, Err(15)),
        ("80 20 05", 0, Err(7)),
        ("20", 0, Err(7)),
        ("76 01 13", 0, found(0x76, 2, 1)),
        ("76 02 13 02 01 02", 0, Err(7)),
        ("76 00 80", 0, found(0x76, 2, 0)),
        ("76 00 80", 1, found(0x80, 3, 0)),
        ("76 00 80", 2, Err(15)),
    ];
    for (contents, n, expected) in cases {
        assert_eq!(command::nth(&bytes(contents), n), expected, "{contents}");
    }
}

#[test]
fn cursor_tells_what_the_walk_tells() {
    let cases = [
        "",
        "80 20 05",
        "20",
        "76 01 13",
        "76 00 80",
        "80 24 02 03 00 81",
    ];
    let lists = examples::LISTS.iter().map(|(name, _)| contents_of(name));
    for contents in cases.iter().map(|case| bytes(case)).chain(lists) {
        let mut cursor = Cursor::new(&contents);
        for n in 0..contents.len() + 2 {
            let before = cursor.index();
            let found = cursor.step();
            assert_eq!(found, command::nth(&contents, n));
            let after = found.map_or(before, |found| found.start + found.len);
            assert_eq!(cursor.index(), after);
        }
    }
}

#[test]
fn cursor_at_any_index() {
    let list = bytes("80 24 02 03 00 81");
    let cases = [
        (1, found(0x24, 3, 2)),
        (3, found(0x03, 5, 0)),
        (5, found(0x81, 6, 0)),
        (6, Err(15)),
        (7, Err(15)),
        (usize::MAX, Err(15)),
    ];
    for (at, expected) in cases {
        assert_eq!(Cursor::at(&list, at).step(), expected, "{at}");
    }
    assert_eq!(Cursor::at(&bytes("80 20 05"), 1).step(), Err(7));
}

#[test]
fn walk_in_a_wrapper() {
    let cases = [
        ("80 76 02 13 00", 1, 0, found(0x13, 5, 0)),
        ("80 76 01 13", 0, 0, Err(15)),
        ("80 76 01 13", 1, 0, Err(7)),
        ("80 76 01 13", 2, 0, Err(15)),
        ("76 04 1A 02 05 09", 0, 0, found(0x1A, 4, 2)),
        ("76 02 13 02 80 80", 0, 0, Err(7)),
        ("76 00", 0, 0, Err(15)),
        ("76 02 80 81 20", 0, 0, Err(7)),
        ("7F 02 80 81", 0, 1, found(0x81, 4, 0)),
    ];
    for (contents, w, n, expected) in cases {
        let told = command::nth_inside(&bytes(contents), w, n);
        assert_eq!(told, expected, "{contents}");
    }
}

#[test]
fn status_bytes() {
    for byte in 0..=0xFF {
        let state = byte & 0x0F;
        let sound = byte & 0x40 == 0 && [0, 1, 2, 3, 5, 6, 7, 8, 9].contains(&state);
        let status = Status {
            toggle: byte >= 0x80,
            previous: byte % 0x40 / 0x10,
            state,
        };
        let expected = if sound { Ok(status) } else { Err(8) };
        assert_eq!(reply::status(byte), expected);
        let alone = written(|out| reply::write_status(byte, out));
        assert_eq!(alone, expected.map(|_| hex(&[byte])));
    }
}

#[test]
fn replies_refused_and_written() {
    assert_eq!(reply::read(&[]), Err(4));
    assert_eq!(reply::read(&bytes("44 20")), Err(8));
    assert_eq!(reply::read(&bytes("81 80")), Err(7));
    assert_eq!(reply::nth_item(&bytes("81 80 00 20 01"), 0), Err(7));
    let write = |prior: &[u8], data: usize| {
        let item = vec![0; data];
        written(|out| reply::write_item(prior, 0x20, &item, out)).map(|text| bytes(&text).len())
    };
    assert_eq!(write(&[], 256), Err(4));
    assert_eq!(write(&[0x44], 256), Err(8));
    assert_eq!(write(&[0x81, 0x80], 0), Err(7));
    assert_eq!(write(&[0x81], 256), Err(7));
    assert_eq!(write(&[0x81], 255), Err(2));
    assert_eq!(write(&[0x81], 115), Err(2));
    assert_eq!(write(&[0x81], 114), Ok(117));
    let mut long = vec![0; 201];
    long[0] = 0x81;
    assert_eq!(write(&long, 0), Err(2));
}

#[test]
fn workout_limits() {
    let cases = [
        (distance(99, 99), false),
        (distance(100, 100), true),
        (distance(100, 99), false),
        (distance(100, 101), false),
        (distance(50_000, 50_000), true),
        (distance(50_001, 50_000), false),
        (distance(0, 0), false),
        (distance(u32::MAX, u32::MAX), false),
        (time(19, 2_000), false),
        (time(20, 2_000), true),
        (time(20, 1_999), false),
        (time(20, 2_001), false),
        (time(600, 2_000), true),
        (time(601, 2_000), false),
        (time(35_999, 119_997), true),
        (time(35_999, 119_996), false),
        (time(36_000, 120_000), false),
        (time(u32::MAX, u32::MAX), false),
    ];
    for (workout, kept) in cases {
        let result = written(|out| workout::write(workout, out));
        match &result {
            Ok(contents) => assert_eq!(workout::read(&bytes(contents)), Ok(workout)),
            Err(code) => assert_eq!(*code, 12),
        }
        assert_eq!(result.is_ok(), kept, "{workout:?}");
    }
}

#[test]
fn workout_forms() {
    let cases = [
        (
            "21 03 D0 07 24",
            "80 F4 01 00 00",
            "00",
            Ok(distance(2_000, 500)),
        ),
        (
            "21 03 02 00 21",
            "80 F4 01 00 00",
            "00",
            Ok(distance(2_000, 500)),
        ),
        ("21 03 02 00 22", "80 F4 01 00 00", "00", Err(13)),
        ("21 03 02 00 21", "00 F4 01 00 00", "00", Err(13)),
        ("20 03 00 14 00", "80 C0 5D 00 00", "00", Err(13)),
        ("20 03 00 3C 00", "00 C0 5D 00 00", "01", Err(13)),
        ("20 03 00 3C 00", "00 C0 5D 00 00", "00", Err(12)),
        ("20 03 00 13 3C", "00 C0 5D 00 00", "00", Err(12)),
        ("20 03 0A 00 00", "00 C0 D4 01 00", "00", Err(12)),
        ("21 03 33 00 21", "80 10 27 00 00", "00", Err(12)),
        ("21 03 00 00 21", "80 F4 01 00 00", "00", Err(12)),
        ("21 03 02 00 21", "80 00 00 00 00", "00", Err(12)),
        ("21 03 02 00 21", "80 F4 01 00 00", "00 00", Err(13)),
        ("21 03 02 00 21", "80 F4 01 00 00", "", Err(13)),
    ];
    for (goal, split, last, expected) in cases {
        let contents = format!("{goal} 1A 07 05 05 {split} 34 03 C8 00 58 24 02 00 {last}");
        assert_eq!(workout::read(&bytes(&contents)), expected, "{contents}");
    }
}

#[test]
fn lease_of_an_address() {
    const TOKEN: u64 = 0x0807_0605_0403_0201;
    let mut table = [0; TABLE_LEN];
    assert_eq!(lease::release(&mut table, 5, TOKEN), Err(11));
    assert_eq!(lease::hold(&mut table, 5, TOKEN), Ok(()));
    let mut held = [0; TABLE_LEN];
    held[40..48].copy_from_slice(&bytes("01 02 03 04 05 06 07 08"));
    assert_eq!(table, held);
    assert_eq!(lease::hold(&mut table, 5, TOKEN), Err(10));
    assert_eq!(lease::hold(&mut table, 5, 0), Err(14));
    for token in [0, 1, TOKEN + 1] {
        assert_eq!(lease::release(&mut table, 5, token), Err(11));
        assert_eq!(written(|out| lease::stop(&table, 5, token, out)), Err(11));
    }
    assert!(written(|out| lease::stop(&table, 5, TOKEN, out)).is_ok());
    assert_eq!(table, held);
    assert_eq!(lease::release(&mut table, 5, TOKEN), Ok(()));
    assert_eq!(table, [0; TABLE_LEN]);
    assert_eq!(lease::hold(&mut table, 5, 1), Ok(()));
}

#[test]
fn lease_addresses_and_table_size() {
    let mut table = [1; TABLE_LEN];
    let token = 0x0101_0101_0101_0101;
    for address in [0x00, 0xFD, 0xFE, 0xFF, 0x100, 0x105, u32::MAX] {
        assert_eq!(lease::hold(&mut table, address, 0), Err(9));
        assert_eq!(lease::release(&mut table, address, token), Err(9));
        assert_eq!(lease::stop(&table, address, token, &mut []), Err(9));
    }
    assert_eq!(table, [1; TABLE_LEN]);
    assert_eq!(lease::stop(&table, 0x01, token, &mut []), Err(1));
    assert!(written(|out| lease::stop(&table, 0xFC, token, out)).is_ok());
    for len in [0, 8, 2_047, 2_049, 4_096] {
        let mut table = vec![0; len];
        assert_eq!(lease::hold(&mut table, 0, 0), Err(18));
        assert_eq!(lease::release(&mut table, 0, 0), Err(18));
        assert_eq!(lease::stop(&table, 0, 0, &mut []), Err(18));
    }
}
