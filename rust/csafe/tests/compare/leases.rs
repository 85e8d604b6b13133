//! Lists of calls on a lease table: on both sides, against a model of the history, and one address at a time.

use csafe::{lease, Error};
use plain::lease as plain_rust;

use crate::common::Xorshift;
use crate::lease_calls::{any_table, Action, Call, ADDRESSES};
use crate::output::{hex, same, told, Output};

/// The frame that a stop writes is this long where its address needs no escape.
const STOP_LEN: usize = 11;

/// A refusal's number, or the bytes that were written.
type Answer = Result<Vec<u8>, u8>;

fn make_ours(call: Call, table: &mut [u8], out: &mut Output) -> Result<usize, u8> {
    let answer = match call.action {
        Action::Hold => lease::hold(table, call.address, call.token).map(|()| 0),
        Action::Release => lease::release(table, call.address, call.token).map(|()| 0),
        Action::Stop { .. } => lease::stop(table, call.address, call.token, out.lent()),
    };
    answer.map_err(Error::number)
}

fn make_theirs(call: Call, table: &mut [u8], out: &mut Output) -> Result<usize, u8> {
    match call.action {
        Action::Hold => plain_rust::hold(table, call.address, call.token).map(|()| 0),
        Action::Release => plain_rust::release(table, call.address, call.token).map(|()| 0),
        Action::Stop { .. } => plain_rust::stop(table, call.address, call.token, out.lent()),
    }
}

fn output_of(call: Call) -> Output {
    match call.action {
        Action::Stop { room } => Output::new(room),
        _ => Output::new(0),
    }
}

/// Makes a call on our table alone.
fn answer_of(call: Call, table: &mut [u8]) -> Answer {
    let mut out = output_of(call);
    let answer = match call.wrong_len {
        Some(len) => make_ours(call, &mut vec![0x01; len], &mut out),
        None => make_ours(call, table, &mut out),
    };
    answer.map(|len| out.result(len).to_vec())
}

/// Makes a call on both sides, each with its own table, and compares answers, outputs and tables.
fn answer_on_both(call: Call, ours: &mut [u8], theirs: &mut [u8], list: &[Call]) -> Answer {
    if let Some(len) = call.wrong_len {
        let (mut wrong, mut their_wrong) = (vec![0x01; len], vec![0x01; len]);
        let correct = Call {
            wrong_len: None,
            ..call
        };
        let answer = answer_on_both(correct, &mut wrong, &mut their_wrong, list);
        assert_eq!(answer, Err(18), "{call:?}");
        assert!(wrong.iter().all(|byte| *byte == 0x01), "{call:?}");
        return answer;
    }
    let before = ours.to_vec();
    let (mut our_output, mut their_output) = (output_of(call), output_of(call));
    let our_answer = make_ours(call, ours, &mut our_output);
    let their_answer = make_theirs(call, theirs, &mut their_output);
    let input = || {
        format!(
            "{call:X?} on table {} as the last of {list:X?}",
            hex(&before)
        )
    };
    same(
        (&our_answer, &our_output),
        (&their_answer, &their_output),
        |len| *len,
        &input,
    );
    assert!(ours == theirs, "the tables differ: {}", told(&input));
    assert!(
        only_own_bytes_changed(call, our_answer.is_ok(), &before, ours),
        "bytes that the call may not change did: {}",
        told(&input)
    );
    our_answer.map(|len| our_output.result(len).to_vec())
}

/// An accepted hold or release changes its own address's eight bytes; nothing else changes a table.
fn only_own_bytes_changed(call: Call, accepted: bool, before: &[u8], after: &[u8]) -> bool {
    let changes = accepted && matches!(call.action, Action::Hold | Action::Release);
    if !changes {
        return before == after;
    }
    let own = 8 * call.address as usize;
    before[..own] == after[..own] && before[own + 8..] == after[own + 8..]
}

/// For each address the token of the last accepted hold that was not released since, 0 for none.
struct History([u64; 256]);

impl History {
    fn of(table: &[u8]) -> History {
        let mut tokens = [0; 256];
        for (token, bytes) in tokens.iter_mut().zip(table.chunks_exact(8)) {
            *token = bytes
                .iter()
                .rev()
                .fold(0, |sum, byte| sum << 8 | u64::from(*byte));
        }
        History(tokens)
    }

    /// What the papers' order of refusals answers, and the history after the call.
    fn answer(&mut self, call: Call) -> Answer {
        if call.wrong_len.is_some() {
            return Err(18);
        }
        if !(0x01..=0xFC).contains(&call.address) {
            return Err(9);
        }
        let held = &mut self.0[call.address as usize];
        match call.action {
            Action::Hold if call.token == 0 => Err(14),
            Action::Hold if *held != 0 => Err(10),
            Action::Hold => {
                *held = call.token;
                Ok(Vec::new())
            }
            _ if call.token == 0 || call.token != *held => Err(11),
            Action::Release => {
                *held = 0;
                Ok(Vec::new())
            }
            Action::Stop { room } => stop_frame(call.address as u8, room),
        }
    }
}

fn stop_frame(address: u8, room: usize) -> Answer {
    let mut wire = vec![0xF0];
    match address {
        0xF0..=0xF3 => wire.extend([0xF3, address - 0xF0]),
        _ => wire.push(address),
    }
    wire.extend([0x00, 0x76, 0x04, 0x13, 0x02, 0x01, 0x02, 0x60, 0xF2]);
    if room < wire.len() {
        return Err(1);
    }
    Ok(wire)
}

#[test]
fn random_calls_are_answered_alike_and_as_the_history_says() {
    let mut random = Xorshift::new();
    let (mut accepted, mut stops) = (0, 0);
    for _ in 0..3_000 {
        let start = any_table(&mut random);
        let mut history = History::of(&start);
        let (mut ours, mut theirs) = (start, start);
        let mut list = Vec::new();
        for _ in 0..200 {
            let call = Call::any(&mut random);
            list.push(call);
            let answer = answer_on_both(call, &mut ours, &mut theirs, &list);
            let expected = history.answer(call);
            let input = || format!("the last of {list:X?}");
            assert_eq!(answer, expected, "not by the history: {}", told(&input));
            accepted += usize::from(answer.is_ok());
            stops += usize::from(answer.is_ok_and(|wire| wire.len() >= STOP_LEN));
        }
    }
    assert!(accepted > 20_000, "only {accepted} calls were accepted");
    assert!(stops > 2_000, "only {stops} stops were written");
}

#[test]
fn every_address_is_treated_alike() {
    let (mut ours, mut theirs) = (vec![0; lease::TABLE_LEN], vec![0; lease::TABLE_LEN]);
    let mut history = History::of(&ours);
    for address in 0..0x300 {
        let stop = Action::Stop { room: 16 };
        for action in [
            stop,
            Action::Hold,
            stop,
            Action::Release,
            stop,
            Action::Hold,
        ] {
            for token in [0, 7, 0x0706_0504_0302_0100] {
                let call = Call {
                    action,
                    address,
                    token,
                    wrong_len: None,
                };
                let answer = answer_on_both(call, &mut ours, &mut theirs, &[call]);
                assert_eq!(answer, history.answer(call), "{call:X?}");
            }
        }
    }
}

#[test]
fn an_address_is_answered_by_its_own_calls_alone() {
    let mut random = Xorshift::new();
    for _ in 0..500 {
        let list: Vec<Call> = (0..200).map(|_| Call::any(&mut random)).collect();
        let mut table = vec![0; lease::TABLE_LEN];
        let answers: Vec<Answer> = list
            .iter()
            .map(|call| answer_of(*call, &mut table))
            .collect();
        for address in ADDRESSES {
            let mut own_table = vec![0; lease::TABLE_LEN];
            for (call, answer) in list.iter().zip(&answers) {
                if call.address != address {
                    continue;
                }
                let alone = answer_of(*call, &mut own_table);
                let input = || format!("{call:X?} of {list:X?}");
                assert_eq!(&alone, answer, "others' calls matter: {}", told(&input));
            }
        }
    }
}
