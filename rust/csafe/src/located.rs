use core::fmt;

use crate::Error;

/// What a line reader tells, and where the candidate for a frame that it is about began.
///
/// ```
/// use csafe::{Error, LineReader, Located};
///
/// let mut reader = LineReader::new();
/// let fed = reader.feed(&[0x55, 0xF0, 0x76, 0x04, 0xF0]);
/// let truncated = Located { position: 1, answer: Error::Truncated };
/// assert_eq!(fed.told, Some(Err(truncated)));
/// assert!(truncated.to_string().starts_with("at 1: "));
/// ```
#[derive(Clone, Copy, Debug, PartialEq, Eq, Hash)]
pub struct Located<T> {
    /// How many bytes the reader had taken before the candidate's start flag, since it was new or finished last.
    ///
    /// It is 0 for [`Error::Full`], which is about no candidate.
    pub position: u32,
    /// The frame, or why the candidate was refused.
    pub answer: T,
}

/// The refusal with its position. That a reader is full has none.
impl fmt::Display for Located<Error> {
    fn fmt(&self, f: &mut fmt::Formatter<'_>) -> fmt::Result {
        match self.answer {
            Error::Full => self.answer.fmt(f),
            error => write!(f, "at {}: {error}", self.position),
        }
    }
}

impl core::error::Error for Located<Error> {}

/// The refusal without its position, so that `?` passes it on as any other call's.
impl From<Located<Error>> for Error {
    #[inline]
    fn from(refusal: Located<Error>) -> Error {
        refusal.answer
    }
}

#[cfg(test)]
mod tests {
    use std::string::ToString;

    use super::*;

    #[test]
    fn a_refusal_is_shown_with_its_position() {
        let shown = |position, answer| Located { position, answer }.to_string();
        let at_812 = shown(812, Error::TooShort);
        assert_eq!(at_812, std::format!("at 812: {}", Error::TooShort));
        assert_eq!(shown(0, Error::Full), Error::Full.to_string());
    }

    #[test]
    fn a_refusal_is_passed_on_without_its_position() {
        let refused = || -> Result<(), Error> {
            Err(Located {
                position: 812,
                answer: Error::TooShort,
            })?
        };
        assert_eq!(refused(), Err(Error::TooShort));
    }
}
