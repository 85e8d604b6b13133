//! Calls on a lease table, in long sequences, and on tables of other lengths.

use csafe::lease::TABLE_LEN;

use crate::answer::{Answer, Function};
use crate::both::{literal, make};
use crate::common::Xorshift;
use crate::lease_calls::{any_table, Action, Call, LONGEST};
use crate::tally::Tally;
use crate::{ours, theirs, Comparison};

/// Bytes before and after the table, which no call may change.
const MARGIN: usize = 16;

/// The bytes that one address has.
const TOKEN_LEN: usize = 8;

/// A table of each side, and our one before the last call. Margins are included.
struct Tables {
    ours: Vec<u8>,
    theirs: Vec<u8>,
    before: Vec<u8>,
}

impl Tables {
    fn of(table: &[u8]) -> Tables {
        let mut bytes = vec![0xA5; MARGIN];
        bytes.extend(table);
        bytes.extend([0xA5; MARGIN]);
        Tables {
            ours: bytes.clone(),
            theirs: bytes.clone(),
            before: bytes,
        }
    }

    /// Makes a call on the first bytes of both tables.
    fn call(&mut self, call: Call, len: usize) -> Result<Answer, String> {
        self.before.copy_from_slice(&self.ours);
        let room = match call.action {
            Action::Stop { room } => room,
            _ => 0,
        };
        let (ours, theirs) = (
            &mut self.ours[MARGIN..MARGIN + len],
            &mut self.theirs[MARGIN..MARGIN + len],
        );
        let made = make(
            room,
            |out| call_ours(call, ours, out),
            |out| call_theirs(call, theirs, out),
        );
        let answer = made.check(function(call), || self.arguments(call, len))?;
        if self.ours != self.theirs || !self.only_own_bytes_changed(call, answer) {
            return Err(self.table_difference(call, len));
        }
        Ok(answer)
    }

    /// An accepted hold or release changes its own address's eight bytes; nothing else changes a table.
    fn only_own_bytes_changed(&self, call: Call, answer: Answer) -> bool {
        let stops = matches!(call.action, Action::Stop { .. });
        if stops || answer.number != 0 {
            return self.ours == self.before;
        }
        let own = MARGIN + TOKEN_LEN * call.address as usize;
        let past = own + TOKEN_LEN;
        self.ours[..own] == self.before[..own] && self.ours[past..] == self.before[past..]
    }

    fn arguments(&self, call: Call, len: usize) -> String {
        let Call { address, token, .. } = call;
        let table = literal(&self.before[MARGIN..MARGIN + len]);
        format!("table {table}\naddress {address:#X}\ntoken {token:#X}\n")
    }

    fn table_difference(&self, call: Call, len: usize) -> String {
        let changed = |table: &[u8]| {
            let places = table.iter().zip(&self.before).enumerate();
            let changed = places.filter(|(_, (after, before))| after != before);
            let texts: Vec<String> = changed
                .map(|(at, (after, _))| format!("[{}] = 0x{after:02X}", at as i64 - MARGIN as i64))
                .collect();
            texts.join(", ")
        };
        format!(
            "{}\n{}the tables differ afterwards\nours:  changed {}\nplain: changed {}",
            function(call).name(),
            self.arguments(call, len),
            changed(&self.ours),
            changed(&self.theirs),
        )
    }
}

fn function(call: Call) -> Function {
    match call.action {
        Action::Hold => Function::Hold,
        Action::Release => Function::Release,
        Action::Stop { .. } => Function::Stop,
    }
}

fn call_ours(call: Call, table: &mut [u8], out: &mut [u8]) -> Answer {
    match call.action {
        Action::Hold => ours::hold(table, call.address, call.token),
        Action::Release => ours::release(table, call.address, call.token),
        Action::Stop { .. } => ours::stop(table, call.address, call.token, out),
    }
}

fn call_theirs(call: Call, table: &mut [u8], out: &mut [u8]) -> Answer {
    match call.action {
        Action::Hold => theirs::hold(table, call.address, call.token),
        Action::Release => theirs::release(table, call.address, call.token),
        Action::Stop { .. } => theirs::stop(table, call.address, call.token, out),
    }
}

pub struct Leases {
    tables: Tables,
    /// Lent in part, as tables of other lengths.
    wrong: Tables,
}

impl Leases {
    pub fn new() -> Leases {
        Leases {
            tables: Tables::of(&[0; TABLE_LEN]),
            wrong: Tables::of(&[0x01; LONGEST]),
        }
    }
}

impl Comparison for Leases {
    fn kind(&self) -> &'static str {
        "leases"
    }

    fn step(&mut self, random: &mut Xorshift, tally: &mut Tally) -> Result<(), String> {
        if random.below(200) == 0 {
            self.tables = Tables::of(&any_table(random));
        }
        let call = Call::any(random);
        let answer = match call.wrong_len {
            Some(len) => self.wrong.call(call, len)?,
            None => self.tables.call(call, TABLE_LEN)?,
        };
        tally.add(function(call), answer);
        Ok(())
    }
}
