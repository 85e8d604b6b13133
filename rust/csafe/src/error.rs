use core::fmt;

/// Why a call was refused: a variant for each number of the table of refusals.
///
/// The section "Errors" of each function lists what it can give, in order: the first that holds is given. The
/// functions of this crate give 1 to 6, 9 to 12, 14, 16 to 18 and 22. The others are those of the command, reply and
/// workout readers, and stand here so that one table serves a portal's logs.
///
/// A static library of another version may answer a number that stands for nothing here. Any function tells that as
/// [`Error::Unknown`], so that it is taken neither for a result nor for another refusal.
///
/// ```
/// use csafe::{frame, Error};
///
/// let wire = [0xF0, 0x05, 0x00, 0x24, 0x02, 0x03, 0x00, 0x24, 0xF2];
/// match frame::read(&wire, &mut [0; frame::CONTENTS_LIMIT]) {
///     Ok(frame) => panic!("{frame:?}"),
///     Err(Error::BadChecksum) => {}
///     Err(error) => panic!("{error}"),
/// }
///
/// assert_eq!(Error::BadChecksum.number(), 5);
/// assert_eq!(Error::from_number(5), Some(Error::BadChecksum));
/// ```
#[derive(Clone, Copy, Debug, PartialEq, Eq, Hash)]
#[non_exhaustive]
#[repr(u8)]
pub enum Error {
    /// The output is shorter than the result.
    NoRoom = 1,
    /// A frame is over 120 bytes on the wire, a packet is over 256, or a reply's contents are over 117.
    TooLong = 2,
    /// F3 is not followed by 00 to 03.
    BadEscape = 3,
    /// There are too few bytes for the kind of frame or for a packet, or a reply is empty.
    TooShort = 4,
    /// The checksum is not that of the contents, or of a packet's header and data unit.
    BadChecksum = 5,
    /// The bytes are not one frame or packet from its start flag to its stop flag.
    Truncated = 6,
    /// A count is missing or runs beyond the end, or an item's data is over 255 bytes.
    BadCount = 7,
    /// Bit 6 of the status byte is set, or its state is unknown.
    BadStatus = 8,
    /// The address is not one of 01 to FC.
    BadAddress = 9,
    /// The address is held already.
    AlreadyHeld = 10,
    /// The token is 0 or not the holder's, or the address is free; nothing tells which.
    NotHolder = 11,
    /// A number of the workout is outside its limits.
    OutOfLimits = 12,
    /// The contents are not a programmed workout.
    NotWorkout = 13,
    /// An address was to be held with token 0.
    ZeroToken = 14,
    /// There is no n-th command or item.
    Absent = 15,
    /// The line reader has taken [`LIMIT`](crate::line::LIMIT) bytes. It stays as it is, and takes bytes again once it
    /// is finished.
    Full = 16,
    /// A standard frame was read or was to be written on a live line, or its length there was asked for. It has no
    /// addresses, so it names no sender. The functions of [`trace`](crate::trace) take it.
    Unnamed = 17,
    /// The lent lease table is not 2,048 bytes long.
    BadTable = 18,
    /// A byte of a packet is not allowed at its place: a header is a letter A to Z and two digits, a data unit has 20
    /// to 7E and 1D alone, and a checksum is two digits.
    BadCharacter = 22,
    /// The static library answered a number that no refusal of this version has.
    #[non_exhaustive]
    Unknown {
        /// The number.
        number: u8,
    } = 0,
}

impl Error {
    /// The number of the table, or the unknown one.
    #[inline]
    #[must_use]
    pub const fn number(self) -> u8 {
        match self {
            Error::NoRoom => 1,
            Error::TooLong => 2,
            Error::BadEscape => 3,
            Error::TooShort => 4,
            Error::BadChecksum => 5,
            Error::Truncated => 6,
            Error::BadCount => 7,
            Error::BadStatus => 8,
            Error::BadAddress => 9,
            Error::AlreadyHeld => 10,
            Error::NotHolder => 11,
            Error::OutOfLimits => 12,
            Error::NotWorkout => 13,
            Error::ZeroToken => 14,
            Error::Absent => 15,
            Error::Full => 16,
            Error::Unnamed => 17,
            Error::BadTable => 18,
            Error::BadCharacter => 22,
            Error::Unknown { number } => number,
        }
    }

    /// The refusal with this number, and none for 0, which stands for a result.
    ///
    /// ```
    /// use csafe::Error;
    ///
    /// assert_eq!(Error::from_number(0), None);
    /// assert_eq!(Error::from_number(6), Some(Error::Truncated));
    /// assert!(matches!(Error::from_number(200), Some(Error::Unknown { number: 200, .. })));
    /// ```
    #[inline]
    #[must_use]
    pub const fn from_number(number: u8) -> Option<Error> {
        match number {
            0 => None,
            _ => Some(Error::with_number(number)),
        }
    }

    /// The refusal with this number, which is not 0.
    #[inline]
    pub(crate) const fn with_number(number: u8) -> Error {
        match number {
            1 => Error::NoRoom,
            2 => Error::TooLong,
            3 => Error::BadEscape,
            4 => Error::TooShort,
            5 => Error::BadChecksum,
            6 => Error::Truncated,
            7 => Error::BadCount,
            8 => Error::BadStatus,
            9 => Error::BadAddress,
            10 => Error::AlreadyHeld,
            11 => Error::NotHolder,
            12 => Error::OutOfLimits,
            13 => Error::NotWorkout,
            14 => Error::ZeroToken,
            15 => Error::Absent,
            16 => Error::Full,
            17 => Error::Unnamed,
            18 => Error::BadTable,
            22 => Error::BadCharacter,
            _ => Error::Unknown { number },
        }
    }
}

impl fmt::Display for Error {
    fn fmt(&self, f: &mut fmt::Formatter<'_>) -> fmt::Result {
        f.write_str(match self {
            Error::NoRoom => "the output is shorter than the result",
            Error::TooLong => {
                "the frame is over 120 bytes on the wire, the packet over 256, or the reply's contents over 117"
            }
            Error::BadEscape => "F3 is not followed by 00 to 03",
            Error::TooShort => {
                "there are too few bytes for the kind of frame or for a packet, or the reply is empty"
            }
            Error::BadChecksum => "the checksum is not that of the contents, or of the packet",
            Error::Truncated => {
                "the bytes are not one frame or packet from its start flag to its stop flag"
            }
            Error::BadCount => {
                "a count is missing or runs beyond the end, or an item's data is over 255 bytes"
            }
            Error::BadStatus => "bit 6 of the status byte is set, or its state is unknown",
            Error::BadAddress => "the address is not one of 01 to FC",
            Error::AlreadyHeld => "the address is held already",
            Error::NotHolder => "the token is 0 or not the holder's, or the address is free",
            Error::OutOfLimits => "a number of the workout is outside its limits",
            Error::NotWorkout => "the contents are not a programmed workout",
            Error::ZeroToken => "the token is 0",
            Error::Absent => "there is no n-th command or item",
            Error::Full => {
                "the line reader has taken 4,294,967,295 bytes, and has to be finished before it takes more"
            }
            Error::Unnamed => "a standard frame names no sender, so a live line takes none",
            Error::BadTable => "the lent lease table is not 2,048 bytes long",
            Error::BadCharacter => "a byte of the packet is not allowed at its place",
            Error::Unknown { number } => {
                return write!(
                    f,
                    "the static library answered {number}, which no refusal of this version has"
                )
            }
        })
    }
}

impl core::error::Error for Error {}

#[cfg(test)]
mod tests {
    use std::collections::HashSet;
    use std::string::ToString;

    use super::Error;

    #[test]
    fn every_number_but_0_is_a_refusal_with_that_number() {
        assert_eq!(Error::from_number(0), None);
        for number in 1..=u8::MAX {
            let error = Error::from_number(number).expect("a refusal");
            assert_eq!(error.number(), number);
            let named = !matches!(error, Error::Unknown { .. });
            assert_eq!(named, matches!(number, 1..=18 | 22), "number {number}");
        }
    }

    #[test]
    fn every_refusal_has_its_own_text() {
        let texts: HashSet<_> = (1..=u8::MAX)
            .filter_map(Error::from_number)
            .map(|error| error.to_string())
            .collect();
        assert_eq!(texts.len(), 255);
    }

    #[test]
    fn an_unknown_number_is_shown() {
        let unknown = Error::from_number(19).expect("a refusal");
        assert!(unknown.to_string().contains("answered 19,"));
    }
}
