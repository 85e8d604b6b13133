//! Programmed workouts: the contents that set one up, and the frame that takes them to a machine.

use crate::{ffi, Error};

/// The length of a workout's contents.
pub const LEN: usize = 23;

/// No workout's frame has more bytes than this on the wire, so an output of this length has room for every one.
pub const FRAME_LIMIT: usize = 54;

/// A distance in metres.
#[derive(Clone, Copy, Debug, PartialEq, Eq, PartialOrd, Ord, Hash)]
pub struct Metres(pub u32);

/// A time in seconds.
#[derive(Clone, Copy, Debug, PartialEq, Eq, PartialOrd, Ord, Hash)]
pub struct Seconds(pub u32);

/// A time in hundredths of a second.
#[derive(Clone, Copy, Debug, PartialEq, Eq, PartialOrd, Ord, Hash)]
pub struct Hundredths(pub u32);

/// What is to be rowed, and how it is divided. There are at most 30 splits, the last of which may be shorter.
///
/// The splits of a time are in hundredths of a second, so those of a distance are not taken for them:
///
/// ```compile_fail,E0308
/// use csafe::workout::{Goal, Metres, Seconds};
///
/// let mixed = Goal::Time { time: Seconds(1_200), split: Metres(500) };
/// ```
#[derive(Clone, Copy, Debug, PartialEq, Eq, Hash)]
pub enum Goal {
    /// A distance of 100 to 50,000 m.
    Distance {
        /// The whole distance.
        distance: Metres,
        /// At least 100 m and at most the distance.
        split: Metres,
    },
    /// A time of 20 to 35,999 s.
    Time {
        /// The whole time.
        time: Seconds,
        /// At least 2,000 hundredths of a second and at most the time.
        split: Hundredths,
    },
}

/// A workout. Its numbers may be any; writing it refuses those outside the limits that stand with [`Goal`].
///
/// ```
/// use csafe::workout::{self, Goal, Hundredths, Metres, Seconds};
/// use csafe::{Error, Workout};
///
/// let rowed = Workout {
///     goal: Goal::Distance { distance: Metres(2_000), split: Metres(500) },
///     watts: 200,
/// };
/// assert_eq!(rowed.to_contents()?[..5], [0x21, 0x03, 0x02, 0x00, 0x21]);
///
/// let timed = Workout {
///     goal: Goal::Time { time: Seconds(20 * 60), split: Hundredths(4 * 60 * 100) },
///     watts: 100,
/// };
/// let mut wire = [0; workout::FRAME_LIMIT];
/// let len = timed.write_frame(0x05, &mut wire)?;
/// assert_eq!(wire[..8], [0xF0, 0x05, 0x00, 0x20, 0x03, 0x00, 0x14, 0x00]);
/// assert_eq!(len, 28);
///
/// let too_many_splits = Workout {
///     goal: Goal::Distance { distance: Metres(50_000), split: Metres(1_666) },
///     watts: 200,
/// };
/// assert_eq!(too_many_splits.to_contents(), Err(Error::OutOfLimits));
/// # Ok::<(), Error>(())
/// ```
#[derive(Clone, Copy, Debug, PartialEq, Eq, Hash)]
pub struct Workout {
    /// What is to be rowed.
    pub goal: Goal,
    /// The power to aim at, which may be any number.
    pub watts: u16,
}

impl Workout {
    /// Writes the workout's contents first in the output and answers their length, [`LEN`].
    ///
    /// # Errors
    ///
    /// In this order:
    ///
    /// 1. [`Error::OutOfLimits`]: the goal, the split or the number of splits is outside its limits.
    /// 2. [`Error::NoRoom`]: the output is shorter than [`LEN`].
    #[inline]
    pub fn write(&self, out: &mut [u8]) -> Result<usize, Error> {
        let answer = match self.goal {
            Goal::Distance { distance, split } => {
                ffi::write_distance(distance.0, split.0, self.watts, out)
            }
            Goal::Time { time, split } => ffi::write_time(time.0, split.0, self.watts, out),
        };
        Ok(answer.accepted()?.len())
    }

    /// The workout's contents.
    ///
    /// # Errors
    ///
    /// [`Error::OutOfLimits`]: the goal, the split or the number of splits is outside its limits.
    #[inline]
    pub fn to_contents(&self) -> Result<[u8; LEN], Error> {
        let mut contents = [0; LEN];
        self.write(&mut contents)?;
        Ok(contents)
    }

    /// Writes the extended frame with the workout's contents that goes from the host, 00, to this address. It stands
    /// first in the output, and its length on the wire is answered, which is at most [`FRAME_LIMIT`].
    ///
    /// # Errors
    ///
    /// In this order:
    ///
    /// 1. [`Error::BadAddress`]: the address is not one of 01 to FC.
    /// 2. [`Error::OutOfLimits`]: the goal, the split or the number of splits is outside its limits.
    /// 3. [`Error::NoRoom`]: the output is shorter than the frame.
    #[inline]
    pub fn write_frame(&self, address: u8, out: &mut [u8]) -> Result<usize, Error> {
        let (address, watts) = (address.into(), self.watts);
        let answer = match self.goal {
            Goal::Distance { distance, split } => {
                ffi::write_distance_frame(address, distance.0, split.0, watts, out)
            }
            Goal::Time { time, split } => {
                ffi::write_time_frame(address, time.0, split.0, watts, out)
            }
        };
        Ok(answer.accepted()?.len())
    }
}
