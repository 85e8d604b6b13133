//! Times of both sides, taken in turn.

use std::hint::black_box;
use std::time::Instant;

use crate::sides::Ours;
use crate::work::Work;

/// About how many seconds a slice lasts at least: so short that most of them run undisturbed, and so long that reading
/// the clock does not count.
const SLICE: f64 = 100e-6;

/// Seconds that each side takes for its calls on one input, in its fastest slice. Whatever disturbs a slice makes it
/// slower, and on a busy machine the fastest ones differ less from run to run than the medians do.
#[derive(Clone, Copy)]
pub struct Times {
    pub ours: f64,
    pub plain: f64,
}

impl Times {
    /// What any measured time is less than.
    pub const NONE: Times = Times {
        ours: f64::INFINITY,
        plain: f64::INFINITY,
    };

    /// The lesser times of two measurements.
    pub fn least(self, other: Times) -> Times {
        Times {
            ours: self.ours.min(other.ours),
            plain: self.plain.min(other.plain),
        }
    }

    /// How many times as fast as plain Rust ours is.
    pub fn ratio(&self) -> f64 {
        self.plain / self.ours
    }
}

/// Checks that our side and another one answer and write alike, and then times so many slices of each in turn.
pub fn compare<S>(work: &mut (impl Work<Ours> + Work<S>), slices: usize) -> Times {
    assert!(
        shown::<Ours>(work) == shown::<S>(work),
        "the two sides differ"
    );
    let runs = 1 + (SLICE / slice::<S>(work, 1)) as usize;
    let mut times = Times::NONE;
    for _ in 0..slices {
        times = times.least(Times {
            ours: slice::<Ours>(work, runs),
            plain: slice::<S>(work, runs),
        });
    }
    times
}

/// All answers of one side, and the bytes that they are about.
fn shown<S>(work: &mut impl Work<S>) -> (Vec<u64>, Vec<u8>) {
    let (mut answers, mut all) = (Vec::new(), Vec::new());
    work.run(|answer, bytes| {
        answers.push(answer);
        all.extend_from_slice(bytes);
    });
    (answers, all)
}

/// Seconds that one of so many runs takes.
#[inline(never)]
fn slice<S>(work: &mut impl Work<S>, runs: usize) -> f64 {
    let start = Instant::now();
    for _ in 0..runs {
        work.run(|answer, bytes| {
            black_box(answer);
            black_box(bytes.as_ptr());
        });
    }
    start.elapsed().as_secs_f64() / runs as f64
}
