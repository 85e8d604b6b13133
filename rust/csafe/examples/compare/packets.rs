//! Treadmill packets that are written, read, damaged and read again.

use crate::answer::Function;
use crate::both::{literal, make};
use crate::common::Xorshift;
use crate::frames::{any_room, place_between};
use crate::packet_damage::{
    any_byte, any_character, spoil_packet, PlainPacket, PACKET_ALPHABET, START, STOP,
};
use crate::tally::Tally;
use crate::{ours, theirs, Comparison};

/// How many bytes a slice has that is much too long.
const VERY_LONG: usize = 5_000;

#[derive(Default)]
pub struct Packets {
    plain: PlainPacket,
    wire: Vec<u8>,
    placed: Vec<u8>,
}

impl Comparison for Packets {
    fn kind(&self) -> &'static str {
        "packets"
    }

    fn step(&mut self, random: &mut Xorshift, tally: &mut Tally) -> Result<(), String> {
        self.plain.renew(random);
        if random.below(512) == 0 {
            let len = random.below(VERY_LONG);
            let more = (0..len).map(|_| any_character(random));
            self.plain.unit.extend(more);
        }
        self.plain.put_wire(&mut self.wire);
        self.write(random, tally)?;
        self.read(random, tally)?;
        self.spoil(random);
        self.read(random, tally)
    }
}

impl Packets {
    fn write(&mut self, random: &mut Xorshift, tally: &mut Tally) -> Result<(), String> {
        let PlainPacket { header, unit } = &self.plain;
        let room = any_room(random, self.wire.len());
        let unit = place_between(STOP, &mut self.placed, unit, random);
        let made = make(
            room,
            |out| ours::packet_write(*header, unit, out),
            |out| theirs::packet_write(*header, unit, out),
        );
        let arguments = || format!("header {}\nunit {}\n", literal(header), literal(unit));
        let answer = made.check(Function::PacketWrite, arguments)?;
        tally.add(Function::PacketWrite, answer);
        Ok(())
    }

    fn read(&mut self, random: &mut Xorshift, tally: &mut Tally) -> Result<(), String> {
        let room = any_room(random, self.plain.unit.len());
        let wire = place_between(STOP, &mut self.placed, &self.wire, random);
        let made = make(
            room,
            |out| ours::packet_read(wire, out),
            |out| theirs::packet_read(wire, out),
        );
        let answer = made.check(Function::PacketRead, || format!("wire {}\n", literal(wire)))?;
        tally.add(Function::PacketRead, answer);
        Ok(())
    }

    /// Damages the packet, or puts something else in its place.
    fn spoil(&mut self, random: &mut Xorshift) {
        if random.below(4) > 0 {
            return spoil_packet(&mut self.wire, random);
        }
        self.wire.clear();
        let is_short = random.below(2) == 0;
        let len = random.below(if is_short { 9 } else { 270 });
        self.wire.extend((0..len).map(|_| match random.below(40) {
            0 => any_byte(random),
            _ if is_short => PACKET_ALPHABET[random.below(PACKET_ALPHABET.len())],
            _ => any_character(random),
        }));
        if random.below(2) == 0 {
            self.wire.insert(0, START);
            self.wire.push(STOP);
        }
    }
}
