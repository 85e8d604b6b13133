//! How often each function was called, and what it answered.

use crate::answer::{Answer, Function, Outcome, FUNCTIONS};

/// A place for every number of a refusal, one for results and one for no answer.
const PLACES: usize = 258;

#[derive(Clone)]
struct Count {
    calls: u64,
    answers: [u64; PLACES],
}

/// Counts calls by function and answers by outcome.
pub struct Tally {
    total: u64,
    counts: Vec<Count>,
}

impl Tally {
    pub fn new() -> Tally {
        let none = Count {
            calls: 0,
            answers: [0; PLACES],
        };
        Tally {
            total: 0,
            counts: vec![none; FUNCTIONS.len()],
        }
    }

    /// Counts a call and its answer.
    #[inline]
    pub fn add(&mut self, function: Function, answer: Answer) {
        self.add_call(function);
        self.add_answer(function, answer.outcome());
    }

    #[inline]
    pub fn add_call(&mut self, function: Function) {
        self.total += 1;
        self.counts[function as usize].calls += 1;
    }

    #[inline]
    pub fn add_answer(&mut self, function: Function, outcome: Outcome) {
        self.counts[function as usize].answers[place(outcome)] += 1;
    }

    /// The number of all calls.
    pub fn calls(&self) -> u64 {
        self.total
    }

    fn met(&self, function: Function, outcome: Outcome) -> u64 {
        self.counts[function as usize].answers[place(outcome)]
    }

    /// Prints each function with its calls and the answers that it can give.
    pub fn print(&self) {
        for (function, name, outcomes) in FUNCTIONS {
            let calls = self.counts[function as usize].calls;
            println!("{name:<34} {:>15} calls", grouped(calls));
            for outcome in outcomes {
                let count = grouped(self.met(function, *outcome));
                println!("    {:<30} {count:>15}", described(*outcome));
            }
        }
    }

    /// What was left out: functions that were not called and, where `all` is asked for, answers that never came.
    pub fn gaps(&self, all: bool) -> Vec<String> {
        let mut gaps = Vec::new();
        for (function, name, outcomes) in FUNCTIONS {
            if self.counts[function as usize].calls == 0 {
                gaps.push(format!("{name} was not called"));
                continue;
            }
            let missing = outcomes
                .iter()
                .filter(|outcome| all && self.met(function, **outcome) == 0);
            gaps.extend(
                missing.map(|outcome| format!("{name} never gave {}", described(*outcome))),
            );
        }
        gaps
    }

    /// Answers that a function was not to give, although both sides gave them.
    pub fn strangers(&self) -> Vec<String> {
        let mut strangers = Vec::new();
        for (function, name, outcomes) in FUNCTIONS {
            let count = &self.counts[function as usize];
            let expected: u64 = outcomes
                .iter()
                .map(|outcome| self.met(function, *outcome))
                .sum();
            if count.answers.iter().sum::<u64>() != expected {
                strangers.push(format!("{name} gave an answer that it cannot give"));
            }
        }
        strangers
    }
}

fn place(outcome: Outcome) -> usize {
    match outcome {
        Outcome::Accepted => 0,
        Outcome::Refused(number) => usize::from(number),
        Outcome::Nothing => PLACES - 1,
    }
}

fn described(outcome: Outcome) -> String {
    match outcome {
        Outcome::Accepted => "a result".to_string(),
        Outcome::Nothing => "no answer".to_string(),
        Outcome::Refused(number) => format!("refusal {number}"),
    }
}

/// A number with its digits in groups of three.
pub fn grouped(number: u64) -> String {
    let digits = number.to_string();
    let mut text = String::new();
    for (at, digit) in digits.chars().enumerate() {
        if at > 0 && (digits.len() - at).is_multiple_of(3) {
            text.push(',');
        }
        text.push(digit);
    }
    text
}

#[cfg(test)]
mod tests {
    use super::*;

    /// Each function has given every answer that it can give.
    fn full() -> Tally {
        let mut tally = Tally::new();
        for (function, _, outcomes) in FUNCTIONS {
            tally.add_call(function);
            for outcome in outcomes {
                tally.add_answer(function, *outcome);
            }
        }
        tally
    }

    #[test]
    fn a_full_tally_has_no_gap() {
        assert_eq!(full().gaps(true), Vec::<String>::new());
        assert_eq!(full().strangers(), Vec::<String>::new());
        assert_eq!(full().calls(), 23);
    }

    #[test]
    fn a_function_that_was_not_called_is_told() {
        let mut tally = full();
        tally.counts[Function::Hold as usize].calls = 0;
        assert_eq!(tally.gaps(false), ["csafe_hold was not called"]);
    }

    #[test]
    fn a_refusal_that_was_not_met_is_told_where_all_are_asked_for() {
        let mut tally = full();
        tally.counts[Function::Read as usize].answers[4] = 0;
        assert_eq!(tally.gaps(true), ["csafe_read never gave refusal 4"]);
        assert_eq!(tally.gaps(false), Vec::<String>::new());
    }

    #[test]
    fn an_answer_that_a_function_cannot_give_is_told() {
        let mut tally = full();
        tally.add(Function::Stop, Answer::refused(13));
        assert_eq!(tally.strangers().len(), 1);
    }

    #[test]
    fn the_functions_stand_at_their_places() {
        for (place, (function, _, _)) in FUNCTIONS.into_iter().enumerate() {
            assert_eq!(function as usize, place);
        }
    }

    #[test]
    fn digits_are_grouped() {
        let texts = [0, 999, 1_000, 1_234_567].map(grouped);
        assert_eq!(texts, ["0", "999", "1,000", "1,234,567"]);
    }
}
