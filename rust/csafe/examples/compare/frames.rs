//! Frames that are measured, written, read, damaged and read again.

use csafe::frame::WIRE_LIMIT;
use plain::frame::Origin;

use crate::answer::{Answer, Function};
use crate::both::{agreed, literal, make};
use crate::common::Xorshift;
use crate::frame_damage::{
    any_allowed_change, damage, damage_with_checksum, Plain, STANDARD_START, STOP,
};
use crate::tally::Tally;
use crate::traces::ALPHABET;
use crate::{ours, theirs, Comparison};

/// Room for every result.
const AMPLE: usize = 256;

/// The longest output.
const ROOM_LIMIT: usize = 512;

/// How many bytes a slice has that is much too long.
const VERY_LONG: usize = 5_000;

/// The bytes before a slice that is lent, at most, and after it. They are flags, so that reading one of them would
/// change an answer.
const AROUND: usize = 32;

pub struct Frames {
    origin: Origin,
    plain: Plain,
    wire: Vec<u8>,
    placed: Vec<u8>,
}

impl Comparison for Frames {
    fn kind(&self) -> &'static str {
        match self.origin {
            Origin::Live => "live frames",
            Origin::Trace => "frames of traces",
        }
    }

    fn step(&mut self, random: &mut Xorshift, tally: &mut Tally) -> Result<(), String> {
        self.plain.renew(random);
        if random.below(512) == 0 {
            let len = random.below(VERY_LONG);
            random.push_bytes(&mut self.plain.contents, len, 0);
        }
        self.plain.put_wire(&mut self.wire);
        let length = self.measure(random, tally)?;
        let room = any_room(random, self.wire.len());
        let written = self.write(room, random, tally)?;
        self.check_length(length, room, written)?;
        self.read(random, tally)?;
        self.read_changed(random, tally)?;
        self.spoil(random);
        self.read(random, tally)
    }
}

/// The functions of an origin.
struct Functions {
    standard_length: Function,
    write_standard: Function,
    read: Function,
}

impl Frames {
    pub fn new(origin: Origin) -> Frames {
        Frames {
            origin,
            plain: Plain::default(),
            wire: Vec::new(),
            placed: Vec::new(),
        }
    }

    fn functions(&self) -> Functions {
        match self.origin {
            Origin::Live => Functions {
                standard_length: Function::StandardLength,
                write_standard: Function::WriteStandard,
                read: Function::Read,
            },
            Origin::Trace => Functions {
                standard_length: Function::TraceStandardLength,
                write_standard: Function::TraceWriteStandard,
                read: Function::TraceRead,
            },
        }
    }

    /// Answers the length that both sides tell.
    fn measure(&mut self, random: &mut Xorshift, tally: &mut Tally) -> Result<Answer, String> {
        let (origin, functions) = (self.origin, self.functions());
        let contents = place(&mut self.placed, &self.plain.contents, random);
        let (function, ours, theirs) = match self.plain.addresses {
            None => (
                functions.standard_length,
                ours::standard_length(origin, contents),
                theirs::standard_length(origin, contents),
            ),
            Some((to, from)) => (
                Function::ExtendedLength,
                ours::extended_length(to, from, contents),
                theirs::extended_length(to, from, contents),
            ),
        };
        let answer = agreed(function, ours, theirs, || self.arguments())?;
        tally.add(function, answer);
        Ok(answer)
    }

    fn write(
        &mut self,
        room: usize,
        random: &mut Xorshift,
        tally: &mut Tally,
    ) -> Result<Answer, String> {
        let (origin, functions) = (self.origin, self.functions());
        let contents = place(&mut self.placed, &self.plain.contents, random);
        let (function, made) = match self.plain.addresses {
            None => (
                functions.write_standard,
                make(
                    room,
                    |out| ours::write_standard(origin, contents, out),
                    |out| theirs::write_standard(origin, contents, out),
                ),
            ),
            Some((to, from)) => (
                Function::WriteExtended,
                make(
                    room,
                    |out| ours::write_extended(to, from, contents, out),
                    |out| theirs::write_extended(to, from, contents, out),
                ),
            ),
        };
        let answer = made.check(function, || self.arguments())?;
        tally.add(function, answer);
        Ok(answer)
    }

    /// A frame is written exactly where the output is as long as was told, or longer, and refused alike where no length
    /// was told.
    fn check_length(&self, length: Answer, room: usize, written: Answer) -> Result<(), String> {
        let expected = match room < length.len {
            true => Answer::refused(1),
            false => length,
        };
        match written == expected {
            true => Ok(()),
            false => Err(format!(
                "what was measured and written\n{}output of {room} bytes\nmeasured: {length}\nwritten:  {written}",
                self.arguments()
            )),
        }
    }

    /// The frame as the arguments of a call.
    fn arguments(&self) -> String {
        let addresses = match self.plain.addresses {
            None => String::new(),
            Some((to, from)) => format!("to 0x{to:02X}\nfrom 0x{from:02X}\n"),
        };
        format!("{addresses}contents {}\n", literal(&self.plain.contents))
    }

    fn read(&mut self, random: &mut Xorshift, tally: &mut Tally) -> Result<(), String> {
        let (origin, function) = (self.origin, self.functions().read);
        let wire = place(&mut self.placed, &self.wire, random);
        let room = any_room(random, self.plain.contents.len());
        let made = make(
            room,
            |out| ours::read(origin, wire, out),
            |out| theirs::read(origin, wire, out),
        );
        let answer = made.check(function, || format!("wire {}\n", literal(wire)))?;
        tally.add(function, answer);
        Ok(())
    }

    /// Reads the frame with one byte changed, unless it is over-long or the change that was drawn is not allowed. The
    /// independent side foretells the answer from the frame as it is.
    fn read_changed(&mut self, random: &mut Xorshift, tally: &mut Tally) -> Result<(), String> {
        if self.wire.len() > WIRE_LIMIT {
            return Ok(());
        }
        let Some((index, new)) = any_allowed_change(&self.wire, random) else {
            return Ok(());
        };
        let (origin, function) = (self.origin, self.functions().read);
        let (intact, contents) = (&self.wire, &self.plain.contents);
        let mut changed = intact.clone();
        changed[index] = new;
        let wire = place(&mut self.placed, &changed, random);
        let made = make(
            any_room(random, contents.len()),
            |out| ours::read(origin, wire, out),
            |out| theirs::read_changed(origin, intact, (index, new), contents, out),
        );
        let arguments = || format!("wire {}\nchanged at {index}\n", literal(wire));
        tally.add(function, made.check(function, arguments)?);
        Ok(())
    }

    /// Damages the frame, or puts something else in its place.
    fn spoil(&mut self, random: &mut Xorshift) {
        match random.below(8) {
            0 => damage_with_checksum(&mut self.wire, random),
            1..=4 => {
                for _ in 0..=random.below(3) {
                    damage(&mut self.wire, random);
                }
            }
            5 => {
                let len = random.below(125);
                let percent = [0, 2, 20][random.below(3)];
                self.wire.clear();
                self.wire.push(STANDARD_START - random.below(2) as u8);
                random.push_bytes(&mut self.wire, len, percent);
                self.wire.push(STOP);
            }
            6 => {
                let len = random.below(9);
                self.wire.clear();
                self.wire
                    .extend((0..len).map(|_| ALPHABET[random.below(ALPHABET.len())]));
            }
            _ => {
                let len = random.below(130);
                self.wire.clear();
                random.push_bytes(&mut self.wire, len, 5);
            }
        }
    }
}

/// Puts bytes at a place of any alignment, between stop flags.
fn place<'a>(placed: &'a mut Vec<u8>, bytes: &[u8], random: &mut Xorshift) -> &'a [u8] {
    place_between(STOP, placed, bytes, random)
}

/// The same between flags of any protocol.
pub fn place_between<'a>(
    flag: u8,
    placed: &'a mut Vec<u8>,
    bytes: &[u8],
    random: &mut Xorshift,
) -> &'a [u8] {
    let start = random.below(AROUND);
    placed.clear();
    placed.resize(start, flag);
    placed.extend(bytes);
    let end = placed.len();
    placed.resize(end + AROUND, flag);
    &placed[start..end]
}

/// The length of an output: any, about that of the result, or ample.
pub fn any_room(random: &mut Xorshift, exact: usize) -> usize {
    let room = match random.below(4) {
        0 => random.below(AMPLE),
        1 => (exact + 1).saturating_sub(random.below(3)),
        _ => AMPLE,
    };
    room.min(ROOM_LIMIT)
}
