//! Lengths of frames that both sides tell, on a live line and in a trace, and what the writers do with just that much
//! room.

use csafe::frame::{self, WIRE_LIMIT};
use csafe::Error;
use plain::frame::{self as plain_rust, Origin};

use crate::by_origin;
use crate::common::Xorshift;
use crate::frame_damage::Plain;
use crate::output::{hex, told, Output};
use crate::tally::Tally;
use crate::ORIGINS;

/// Room that is no reason for a refusal.
const VAST: usize = 512;

/// The bytes that are escaped, and their neighbours.
const ABOUT_ESCAPED: [u8; 6] = [0xEF, 0xF0, 0xF1, 0xF2, 0xF3, 0xF4];

const ADDRESSES: [Option<(u8, u8)>; 5] = [
    None,
    Some((0x05, 0x00)),
    Some((0xF0, 0xEF)),
    Some((0xF4, 0xF3)),
    Some((0xF1, 0xF2)),
];

/// The length that both sides tell, after the writer was seen to keep to it.
pub fn measured_on_both(origin: Origin, plain: &Plain) -> Result<usize, u8> {
    let contents = &plain.contents;
    let (ours, theirs) = match plain.addresses {
        None => (
            by_origin::standard_length(origin, contents),
            plain_rust::standard_length(origin, contents),
        ),
        Some((to, from)) => (
            frame::extended_length(to, from, contents),
            plain_rust::extended_length(to, from, contents),
        ),
    };
    let ours = ours.map_err(Error::number);
    let input = || {
        let addresses = plain.addresses;
        format!(
            "{origin:?}, measuring {} to {addresses:02X?}",
            hex(contents)
        )
    };
    assert_eq!(
        ours,
        theirs,
        "our length (left) and the independent one (right) differ: {}",
        told(&input)
    );
    assert!(
        is_kept_by_the_writer(origin, plain, ours),
        "the writer does not keep to the length {ours:?}: {}",
        told(&input)
    );
    ours
}

/// Whether the writer takes just that much room, is refused with 1 where a byte of it is missing, and is refused with
/// the same number, whatever the room, where no length is told.
fn is_kept_by_the_writer(origin: Origin, plain: &Plain, length: Result<usize, u8>) -> bool {
    let written = |room| written_in(origin, plain, room);
    match length {
        Ok(len) => written(len) == Ok(len) && written(len - 1) == Err(1),
        Err(number) => written(VAST) == Err(number) && written(0) == Err(number),
    }
}

/// What the writer answers with so much room, past whose result every byte has to be as it was.
fn written_in(origin: Origin, plain: &Plain, room: usize) -> Result<usize, u8> {
    let mut output = Output::new(room);
    let written = write(origin, plain, output.lent());
    assert!(
        output.kept_past(written.unwrap_or(0)),
        "bytes past the result changed: {}",
        told(&|| format!("writing {} with room {room}", hex(&plain.contents)))
    );
    written
}

fn write(origin: Origin, plain: &Plain, out: &mut [u8]) -> Result<usize, u8> {
    let written = match plain.addresses {
        None => by_origin::write_standard(origin, &plain.contents, out),
        Some((to, from)) => frame::write_extended(to, from, &plain.contents, out),
    };
    written.map_err(Error::number)
}

/// Measures frames, each of which has to have as many bytes as it has when it is put together without a limit. On a
/// live line no length is told of a standard one, also where it is too long.
struct Measuring {
    origin: Origin,
    wire: Vec<u8>,
    tally: Tally,
}

/// One for each origin.
fn measurings() -> [Measuring; 2] {
    ORIGINS.map(|origin| Measuring {
        origin,
        wire: Vec::new(),
        tally: Tally::default(),
    })
}

impl Measuring {
    fn measure(&mut self, plain: &Plain) {
        plain.put_wire(&mut self.wire);
        let expected = match (self.origin, plain.addresses, self.wire.len()) {
            (Origin::Live, None, _) => Err(17),
            (_, _, len @ ..=WIRE_LIMIT) => Ok(len),
            _ => Err(2),
        };
        let length = measured_on_both(self.origin, plain);
        assert_eq!(length, expected, "the frame is {}", hex(&self.wire));
        self.tally.add(&length);
    }

    /// The answers have to have occurred this often, and 17 on a live line alone.
    fn has_each(&self, numbers: &[usize], least: usize) {
        self.tally.has_each_of(self.origin, numbers, least);
    }

    /// Measures these contents without addresses and with each pair of them.
    fn measure_with_all_addresses(&mut self, contents: Vec<u8>) {
        let mut plain = Plain {
            addresses: None,
            contents,
        };
        for addresses in ADDRESSES {
            plain.addresses = addresses;
            self.measure(&plain);
        }
    }
}

#[test]
fn every_length_is_measured_alike() {
    for mut measuring in measurings() {
        for len in 0..=130 {
            for byte in [0x00, 0x41, 0xFF].into_iter().chain(ABOUT_ESCAPED) {
                measuring.measure_with_all_addresses(vec![byte; len]);
            }
        }
        measuring.has_each(&[0, 2], 500);
    }
}

/// The checksum is the byte itself where all others are 00, and it is not escaped where one other is not.
#[test]
fn an_escape_at_every_place_is_measured_alike() {
    for mut measuring in measurings() {
        for len in 1..=118 {
            for place in 0..len {
                for byte in ABOUT_ESCAPED {
                    let mut contents = vec![0x00; len];
                    contents[place] = byte;
                    measuring.measure_with_all_addresses(contents.clone());
                    contents[(place + 1) % len] ^= 0x41;
                    measuring.measure_with_all_addresses(contents);
                }
            }
        }
        measuring.has_each(&[0, 2], 500);
    }
}

/// Every checksum, of contents in which nothing is escaped and of others.
#[test]
fn every_checksum_is_measured_alike() {
    for mut measuring in measurings() {
        for sum in 0..=u8::MAX {
            for len in [1, 2, 3, 111, 112, 113, 114, 115, 116, 117] {
                let mut contents = vec![0x00; len];
                contents[0] = sum;
                measuring.measure_with_all_addresses(contents.clone());
                contents[0] = sum ^ 0x80;
                contents[len - 1] ^= 0x80;
                measuring.measure_with_all_addresses(contents);
            }
        }
        measuring.has_each(&[0, 2], 500);
    }
}

/// These frames are all extended, and of those a trace is measured by the same calls as a live line.
#[test]
fn every_pair_of_addresses_is_measured_alike() {
    let [mut measuring, _] = measurings();
    let mut plain = Plain::default();
    for len in [0, 112, 113, 114, 115, 116] {
        plain.contents = vec![0x00; len];
        for to in 0..=u8::MAX {
            for from in 0..=u8::MAX {
                plain.addresses = Some((to, from));
                measuring.measure(&plain);
            }
        }
    }
    measuring.tally.has_each(&[0, 2], 500);
}

#[test]
fn random_contents_are_measured_alike() {
    for mut measuring in measurings() {
        let mut random = Xorshift::new();
        let mut plain = Plain::default();
        for _ in 0..400_000 {
            plain.renew(&mut random);
            measuring.measure(&plain);
        }
        measuring.has_each(&[0, 2], 1_000);
    }
}
