//! How often each answer occurred.

use plain::frame::Origin;

/// Counts answers by their number, 0 for a result.
#[derive(Default)]
pub struct Tally([usize; 23]);

impl Tally {
    pub fn add<T>(&mut self, answer: &Result<T, u8>) {
        let number = answer.as_ref().err().copied().unwrap_or(0);
        self.0[usize::from(number)] += 1;
    }

    /// Adds the counts of another tally.
    pub fn add_all(&mut self, other: &Tally) {
        for (count, more) in self.0.iter_mut().zip(other.0) {
            *count += more;
        }
    }

    /// A comparison shows little of an answer that hardly occurs.
    pub fn has_each(&self, numbers: &[usize], least: usize) {
        for number in numbers {
            let count = self.0[*number];
            assert!(
                count >= least,
                "answer {number} occurred only {count} times"
            );
        }
    }

    /// The same of calls of one origin: 17 has to occur as often on a live line, and not at all in a trace.
    pub fn has_each_of(&self, origin: Origin, numbers: &[usize], least: usize) {
        self.has_each(numbers, least);
        match origin {
            Origin::Live => self.has_each(&[17], least),
            Origin::Trace => assert_eq!(self.0[17], 0, "a trace was refused with 17"),
        }
    }
}
