//! One changed byte in sound frames that the requirements print, and in a few with more escapes.

use plain::damage::{is_allowed, part_at, read_changed, Part};
use plain::frame::{self, Origin, Read};

/// A value that no answer of these tests depends on, to see what stays untouched.
const MARK: u8 = 0xA5;

const ORIGINS: [Origin; 2] = [Origin::Live, Origin::Trace];

/// The stop to 05, and the stop to F1, whose destination is escaped.
const STOP_TO_05: &[u8] = &[
    0xF0, 0x05, 0x00, 0x76, 0x04, 0x13, 0x02, 0x01, 0x02, 0x60, 0xF2,
];
const STOP_TO_F1: &[u8] = &[
    0xF0, 0xF3, 0x01, 0x00, 0x76, 0x04, 0x13, 0x02, 0x01, 0x02, 0x60, 0xF2,
];

/// Sound frames. For each byte the first text has the part: T destination, F source, C contents, S checksum, a dash
/// for a flag. The second has a Y where the byte may be changed.
#[rustfmt::skip]
const FRAMES: [(&[u8], &str, &str); 8] = [
    (STOP_TO_05, "-TFCCCCCCS-", "-YYYYYYYYY-"),
    (STOP_TO_F1, "-TTFCCCCCCS-", "---YYYYYYYY-"),
    (&[0xF0, 0x05, 0x00, 0x00, 0xF2], "-TFS-", "-YYY-"),
    (&[0xF0, 0xF3, 0x00, 0xF3, 0x03, 0xF3, 0x02, 0xF3, 0x02, 0xF2], "-TTFFCCSS-", "----------"),
    (&[0xF0, 0x03, 0xF3, 0x03, 0x03, 0xF3, 0x03, 0xF3, 0x00, 0xF2], "-TFFCCCSS-", "-Y--Y-----"),
    (&[0xF1, 0x00, 0xF2], "-S-", "-Y-"),
    (&[0xF1, 0x24, 0x02, 0x03, 0x00, 0x25, 0xF2], "-CCCCS-", "-YYYYY-"),
    (&[0xF1, 0xF3, 0x01, 0xF3, 0x01, 0xF2], "-CCSS-", "------"),
];

fn letter(part: Option<Part>) -> char {
    match part {
        None => '-',
        Some(Part::Destination) => 'T',
        Some(Part::Source) => 'F',
        Some(Part::Contents) => 'C',
        Some(Part::Checksum) => 'S',
    }
}

/// The bytes to which the one at an index may be changed.
fn allowed(wire: &[u8], index: usize) -> Vec<u8> {
    let all = 0..=u8::MAX;
    all.filter(|new| is_allowed(wire, index, *new)).collect()
}

/// What reading answers, and the contents, or what is left of the output where there are none.
fn read(origin: Origin, wire: &[u8]) -> (Result<Read, u8>, Vec<u8>) {
    let mut out = vec![MARK; 120];
    let answer = frame::read(origin, wire, &mut out);
    if let Ok(Read::Standard { len } | Read::Extended { len, .. }) = answer {
        out.truncate(len);
    }
    (answer, out)
}

#[test]
fn every_byte_between_the_flags_has_its_part() {
    for (wire, parts, _) in FRAMES {
        let told = (0..wire.len()).map(|index| letter(part_at(wire, index)));
        assert_eq!(told.collect::<String>(), parts, "{wire:02X?}");
    }
}

#[test]
fn an_index_past_the_frame_has_no_part_and_allows_nothing() {
    for (wire, _, _) in FRAMES {
        for index in [wire.len(), wire.len() + 1, usize::MAX] {
            assert_eq!(part_at(wire, index), None);
            assert!(allowed(wire, index).is_empty());
        }
    }
    for short in [&[][..], &[0xF1], &[0xF1, 0xF2]] {
        assert_eq!(part_at(short, 1), None);
        assert!(allowed(short, 1).is_empty());
    }
}

/// 251 bytes are left where the one that stands there and F0 to F3 are taken out.
#[test]
fn a_byte_may_become_any_other_that_is_not_escaped() {
    for (wire, _, changeable) in FRAMES {
        for (index, mark) in changeable.chars().enumerate() {
            let news = allowed(wire, index);
            let expected = if mark == 'Y' { 251 } else { 0 };
            assert_eq!(news.len(), expected, "byte {index} of {wire:02X?}");
            assert!(!news.contains(&wire[index]));
            assert!(!news.iter().any(|new| (0xF0..=0xF3).contains(new)));
        }
    }
}

#[test]
fn a_changed_stop_is_refused_or_names_another_address() {
    let extended = |to, from| Some(Ok(Read::Extended { to, from, len: 6 }));
    let refused = Some(Err(5));
    let cases = [
        (STOP_TO_05, 1, extended(0x06, 0x00)),
        (STOP_TO_05, 2, extended(0x05, 0x06)),
        (STOP_TO_05, 3, refused),
        (STOP_TO_05, 8, refused),
        (STOP_TO_05, 9, refused),
        (STOP_TO_F1, 3, extended(0xF1, 0x06)),
        (STOP_TO_F1, 4, refused),
        (STOP_TO_F1, 9, refused),
        (STOP_TO_F1, 10, refused),
    ];
    for (wire, index, answer) in cases {
        for origin in ORIGINS {
            assert!(is_allowed(wire, index, 0x06));
            assert_eq!(read_changed(origin, wire, index, 0x06), answer);
        }
    }
}

#[test]
fn every_allowed_change_is_read_as_foretold() {
    for (wire, _, _) in FRAMES {
        for origin in ORIGINS {
            for index in 0..wire.len() {
                let read_as_foretold = |new| check_change(origin, wire, index, new);
                allowed(wire, index).into_iter().for_each(read_as_foretold);
            }
        }
    }
}

/// Reads the changed frame. Its contents are those from before the change, or nothing is written.
fn check_change(origin: Origin, wire: &[u8], index: usize, new: u8) {
    let mut changed = wire.to_vec();
    changed[index] = new;
    let foretold = read_changed(origin, wire, index, new).expect("the frame is sound");
    let left = match foretold {
        Ok(_) => read(origin, wire).1,
        Err(_) => vec![MARK; 120],
    };
    let told = read(origin, &changed);
    assert_eq!(told, (foretold, left), "{origin:?} {changed:02X?}");
}

#[test]
fn nothing_is_foretold_of_flags_and_of_frames_that_are_not_sound() {
    let wrong_checksum = [0xF1, 0x24, 0x02, 0x03, 0x00, 0x24, 0xF2];
    let too_short = [0xF0, 0x05, 0x00, 0xF2];
    for origin in ORIGINS {
        for index in [0, 10, 11] {
            assert_eq!(read_changed(origin, STOP_TO_05, index, 0x06), None);
        }
        assert_eq!(read_changed(origin, &wrong_checksum, 1, 0x06), None);
        assert_eq!(read_changed(origin, &too_short, 1, 0x06), None);
    }
}
