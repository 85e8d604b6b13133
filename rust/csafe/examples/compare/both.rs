//! One call on both sides, and how a difference is told.

use crate::answer::{Answer, Function};
use crate::lent_output::Output;

/// What both sides answered and left in their outputs.
pub struct Made {
    ours: Answer,
    theirs: Answer,
    room: usize,
    our_output: Output,
    their_output: Output,
}

/// Makes a call on both sides, each with an output of its own that is filled with the same pattern.
#[inline]
pub fn make(
    room: usize,
    ours: impl FnOnce(&mut [u8]) -> Answer,
    theirs: impl FnOnce(&mut [u8]) -> Answer,
) -> Made {
    let (mut our_output, mut their_output) = (Output::new(room), Output::new(room));
    Made {
        ours: ours(our_output.lent()),
        theirs: theirs(their_output.lent()),
        room,
        our_output,
        their_output,
    }
}

impl Made {
    /// Whether the answers are the same, the results are, and everything else is as it was.
    #[inline]
    fn agrees(&self) -> bool {
        let len = self.ours.len;
        self.ours == self.theirs
            && len <= self.room
            && self.our_output.result(len) == self.their_output.result(len)
            && self.our_output.kept_past(len)
            && self.their_output.kept_past(len)
    }

    /// The answer of a call that both sides agree on, or their difference. `arguments` are those apart from the
    /// output.
    #[inline]
    pub fn check(
        &self,
        function: Function,
        arguments: impl FnOnce() -> String,
    ) -> Result<Answer, String> {
        match self.agrees() {
            true => Ok(self.ours),
            false => Err(self.difference(function, &arguments())),
        }
    }

    fn difference(&self, function: Function, arguments: &str) -> String {
        let output = |output: &Output| literal(output.result(self.room));
        let around = match self.our_output.kept_past(self.room) {
            true => "",
            false => "\n       bytes around the output changed",
        };
        format!(
            "{}\n{arguments}output of {} bytes\nours:  {}\n       output {}{around}\nplain: {}\n       output {}",
            function.name(),
            self.room,
            self.ours,
            output(&self.our_output),
            self.theirs,
            output(&self.their_output),
        )
    }
}

/// The answer of a call without an output that both sides agree on, or their difference.
#[inline]
pub fn agreed(
    function: Function,
    ours: Answer,
    theirs: Answer,
    arguments: impl FnOnce() -> String,
) -> Result<Answer, String> {
    match ours == theirs {
        true => Ok(ours),
        false => Err(format!(
            "{}\n{}ours:  {ours}\nplain: {theirs}",
            function.name(),
            arguments()
        )),
    }
}

/// Bytes as an array of Rust.
pub fn literal(bytes: &[u8]) -> String {
    let digits: Vec<String> = bytes.iter().map(|byte| format!("0x{byte:02X}")).collect();
    format!("[{}]", digits.join(", "))
}

#[cfg(test)]
mod tests {
    use super::*;

    /// Both sides have an output of four bytes. The independent one writes 41 and answers so.
    fn checked(ours: impl FnOnce(&mut [u8]) -> Answer) -> Result<Answer, String> {
        let theirs = |out: &mut [u8]| {
            out[0] = 0x41;
            Answer::done(1)
        };
        make(4, ours, theirs).check(Function::Stop, || "token 0x5\n".to_string())
    }

    #[test]
    fn the_same_result_is_taken() {
        let answer = checked(|out| {
            out[0] = 0x41;
            Answer::done(1)
        });
        assert_eq!(answer, Ok(Answer::done(1)));
    }

    #[test]
    fn another_answer_is_told_with_the_arguments() {
        let told = checked(|_| Answer::refused(1)).expect_err("the answers differ");
        for part in [
            "csafe_stop",
            "token 0x5",
            "output of 4 bytes",
            "ours:  number 1",
            "plain: number 0",
        ] {
            assert!(told.contains(part), "{told}");
        }
    }

    #[test]
    fn another_result_and_a_byte_past_it_are_told() {
        for place in 0..4 {
            let told = checked(|out| {
                out[0] = 0x41;
                out[place] = 0x42;
                Answer::done(1)
            });
            assert!(told.expect_err("the outputs differ").contains("0x42"));
        }
    }

    #[test]
    fn a_refusal_that_writes_is_told() {
        let refused = |out: &mut [u8]| {
            out[3] = 0x42;
            Answer::refused(1)
        };
        let made = make(4, refused, |_| Answer::refused(1));
        assert!(made.check(Function::Read, String::new).is_err());
    }

    #[test]
    fn an_answer_without_an_output_is_taken_or_told() {
        let check = |ours| {
            let arguments = || "contents [0x41]\n".to_string();
            agreed(Function::StandardLength, ours, Answer::done(4), arguments)
        };
        assert_eq!(check(Answer::done(4)), Ok(Answer::done(4)));
        let told = check(Answer::done(5)).expect_err("the answers differ");
        for part in [
            "csafe_standard_length",
            "contents [0x41]",
            "length 5, position 0\nplain",
        ] {
            assert!(told.contains(part), "{told}");
        }
    }

    #[test]
    fn a_result_longer_than_the_output_is_told() {
        let made = make(4, |_| Answer::done(5), |_| Answer::done(5));
        assert!(made.check(Function::Read, String::new).is_err());
    }
}
