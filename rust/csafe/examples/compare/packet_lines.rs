//! Packet readers: ours is fed chunks of any length, the independent one the same bytes singly.

use csafe::packet::HELD_LEN;
use plain::packet_line::PacketLine;

use crate::answer::{Answer, Function, Outcome};
use crate::both::literal;
use crate::common::Xorshift;
use crate::held::{first_of, CHUNK_LIMIT};
use crate::lent_output::Output;
use crate::lines::any_chunk;
use crate::packet_damage::{any_character, PacketTraffic};
use crate::packet_held::PacketHeld;
use crate::tally::Tally;
use crate::{ours, theirs, Comparison};

/// How many readers are kept to go on from later.
const KEPT: usize = 4;

/// One line in so many begins with about as many bytes without a flag as a call takes, or twice as many.
const LONG_SHARE: usize = 1_024;

/// The most bytes that such a beginning is shorter by, so that the end of what a call takes stands in the rest.
const SHORTER_BY: usize = 300;

/// A reader on both sides, and what ours has to hold.
#[derive(Clone)]
struct Reader {
    lent: Output,
    state: u64,
    theirs: PacketLine,
    held: PacketHeld,
}

impl Reader {
    fn new() -> Reader {
        let lent = Output::new(HELD_LEN);
        let held = PacketHeld::new(held_bytes(&lent), 0);
        Reader {
            lent,
            state: 0,
            theirs: PacketLine::new(),
            held,
        }
    }

    fn feed(&mut self, chunk: &[u8]) -> (usize, Answer) {
        match self.lent.lent().try_into() {
            Ok(bytes) => ours::packet_feed(bytes, &mut self.state, chunk),
            Err(_) => unreachable!("the room is that of a reader"),
        }
    }

    /// Feeds the independent reader up to its first answer.
    fn feed_singly(&mut self, chunk: &[u8]) -> (usize, Answer) {
        let chunk = first_of(chunk);
        for (at, byte) in chunk.iter().enumerate() {
            let answer = theirs::packet_feed(&mut self.theirs, *byte);
            let unit = match answer.outcome() {
                Outcome::Accepted => self.theirs.unit(),
                _ => &[],
            };
            self.held.take(*byte, unit);
            if answer != Answer::nothing() {
                return (at + 1, answer);
            }
        }
        (chunk.len(), Answer::nothing())
    }

    fn is_as_held(&self) -> bool {
        self.lent.result(HELD_LEN) == self.held.bytes()
            && self.state == self.held.state()
            && self.lent.kept_past(HELD_LEN)
    }
}

fn held_bytes(lent: &Output) -> [u8; HELD_LEN] {
    let mut bytes = [0; HELD_LEN];
    bytes.copy_from_slice(lent.result(HELD_LEN));
    bytes
}

pub struct PacketLines {
    reader: Reader,
    /// Our reader's bytes and state before the last call.
    before: ([u8; HELD_LEN], u64),
    kept: [Reader; KEPT],
    traffic: PacketTraffic,
    line: Vec<u8>,
}

impl Comparison for PacketLines {
    fn kind(&self) -> &'static str {
        "lines of packets"
    }

    fn step(&mut self, random: &mut Xorshift, tally: &mut Tally) -> Result<(), String> {
        self.put_line(random);
        let mut at = 0;
        while at < self.line.len() {
            let len = any_chunk(random, self.line.len() - at);
            at += self.feed(at, len, tally)?;
        }
        if random.below(3) == 0 {
            self.finish(tally)?;
        }
        let place = random.below(KEPT);
        match random.below(16) {
            0 => self.kept[place].clone_from(&self.reader),
            1 => self.reader.clone_from(&self.kept[place]),
            _ => {}
        }
        Ok(())
    }
}

impl PacketLines {
    pub fn new() -> PacketLines {
        PacketLines {
            reader: Reader::new(),
            before: ([0; HELD_LEN], 0),
            kept: std::array::from_fn(|_| Reader::new()),
            traffic: PacketTraffic::default(),
            line: Vec::new(),
        }
    }

    fn put_line(&mut self, random: &mut Xorshift) {
        self.line.clear();
        if random.below(LONG_SHARE) == 0 {
            let limits = 1 + random.below(2);
            let len = limits * CHUNK_LIMIT - random.below(SHORTER_BY);
            self.line.resize(len, any_character(random));
        }
        for _ in 0..=random.below(4) {
            self.line.extend(self.traffic.any(random));
        }
        if random.below(4) == 0 {
            self.line.truncate(random.below(self.line.len() + 1));
        }
    }

    /// Answers how many bytes both sides took.
    fn feed(&mut self, at: usize, len: usize, tally: &mut Tally) -> Result<usize, String> {
        self.before = (held_bytes(&self.reader.lent), self.reader.state);
        let chunk = &self.line[at..at + len];
        let (taken, ours) = self.reader.feed(chunk);
        let (their_taken, theirs) = self.reader.feed_singly(chunk);
        if taken != their_taken || ours != theirs || !self.reader.is_as_held() {
            let input = format!("input {}\n", literal(chunk));
            let answers = [(taken, ours), (their_taken, theirs)];
            return Err(self.difference(Function::PacketFeed, &input, answers));
        }
        tally.add(Function::PacketFeed, ours);
        Ok(taken)
    }

    fn finish(&mut self, tally: &mut Tally) -> Result<(), String> {
        self.before = (held_bytes(&self.reader.lent), self.reader.state);
        let ours = ours::packet_finish(&mut self.reader.state);
        let theirs = theirs::packet_finish(&mut self.reader.theirs);
        self.reader.held.finish();
        if ours != theirs || !self.reader.is_as_held() {
            return Err(self.difference(Function::PacketFinish, "", [(0, ours), (0, theirs)]));
        }
        tally.add(Function::PacketFinish, ours);
        Ok(())
    }

    fn difference(&self, function: Function, input: &str, answers: [(usize, Answer); 2]) -> String {
        let reader = &self.reader;
        let [(taken, ours), (their_taken, theirs)] = answers;
        let (bytes, state) = &self.before;
        let around = match reader.lent.kept_past(HELD_LEN) {
            true => "",
            false => "\n       bytes around the reader changed",
        };
        format!(
            "{}\nbytes {}\nstate {state:#X}\n{input}ours:  taken {taken}, {ours}\n       state {:#X}, bytes {}{around}\nplain: taken {their_taken}, {theirs}\n       state {:#X}, bytes {}",
            function.name(),
            literal(bytes),
            reader.state,
            literal(reader.lent.result(HELD_LEN)),
            reader.held.state(),
            literal(reader.held.bytes()),
        )
    }
}
