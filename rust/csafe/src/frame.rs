//! CSAFE frames of a live line: measured, written, and read from a slice that holds exactly one.
//!
//! A live line has extended frames alone. A standard frame names no sender, so it is refused as [`Error::Unnamed`];
//! [`trace`](crate::trace) has the functions for standard frames of a stored trace.

use core::fmt;
use core::hash::{Hash, Hasher};

use crate::{ffi, Error};

/// The most bytes that a frame has on the wire, its flags and escapes included.
pub const WIRE_LIMIT: usize = 120;

/// The most bytes of contents that fit into a frame. Only a standard frame has so many, and only a trace has standard
/// frames; an extended one has at most 115. An output of this length has room for every frame that is read.
pub const CONTENTS_LIMIT: usize = 117;

/// What a frame is apart from its contents.
#[derive(Clone, Copy, Debug, PartialEq, Eq, Hash)]
pub enum Kind {
    /// A frame without addresses, which only a trace has.
    Standard,
    /// A frame with addresses, which may be any. The checksum does not cover them.
    Extended {
        /// The destination.
        to: u8,
        /// The source.
        from: u8,
    },
}

/// A frame whose contents stand elsewhere: in the output of [`read`], in a line reader, or where the caller has them.
#[derive(Clone, Copy, Debug, PartialEq, Eq, Hash)]
pub struct Frame<'a> {
    /// Whether it has addresses, and which.
    pub kind: Kind,
    /// Its contents, without escapes.
    pub contents: &'a [u8],
}

impl Frame<'_> {
    /// Writes the frame first in the output and answers its length on the wire.
    ///
    /// # Errors
    ///
    /// In this order, as [`write_standard`] and [`write_extended`]:
    ///
    /// 1. [`Error::Unnamed`]: it is a standard frame.
    /// 2. [`Error::TooLong`]: the frame would be over [`WIRE_LIMIT`] on the wire.
    /// 3. [`Error::NoRoom`]: the output is shorter than the frame.
    ///
    /// ```
    /// use csafe::frame::{self, Frame, Kind};
    ///
    /// let frame = Frame { kind: Kind::Extended { to: 0x05, from: 0x00 }, contents: &[0x80] };
    /// let mut wire = [0; frame::WIRE_LIMIT];
    /// let len = frame.write(&mut wire)?;
    /// assert_eq!(frame::read(&wire[..len], &mut [0; frame::CONTENTS_LIMIT]), Ok(frame));
    /// # Ok::<(), csafe::Error>(())
    /// ```
    #[inline]
    pub fn write(&self, out: &mut [u8]) -> Result<usize, Error> {
        match self.kind {
            Kind::Standard => write_standard(self.contents, out),
            Kind::Extended { to, from } => write_extended(to, from, self.contents, out),
        }
    }

    /// How many bytes the frame takes on the wire, which is the room that [`write`](Frame::write) needs.
    ///
    /// # Errors
    ///
    /// In this order:
    ///
    /// 1. [`Error::Unnamed`]: it is a standard frame.
    /// 2. [`Error::TooLong`]: the frame would be over [`WIRE_LIMIT`] on the wire.
    ///
    /// ```
    /// use csafe::frame::{Frame, Kind};
    /// use csafe::Error;
    ///
    /// let frame = Frame { kind: Kind::Extended { to: 0x05, from: 0xF1 }, contents: &[0x80] };
    /// let mut wire = vec![0; frame.length()?];
    /// assert_eq!(frame.write(&mut wire), Ok(wire.len()));
    /// assert_eq!(wire, [0xF0, 0x05, 0xF3, 0x01, 0x80, 0x80, 0xF2]);
    ///
    /// let long = Frame { contents: &[0; 118], ..frame };
    /// assert_eq!(long.length(), Err(Error::TooLong));
    /// let standard = Frame { kind: Kind::Standard, ..frame };
    /// assert_eq!(standard.length(), Err(Error::Unnamed));
    /// # Ok::<(), Error>(())
    /// ```
    #[inline]
    pub fn length(&self) -> Result<usize, Error> {
        match self.kind {
            Kind::Standard => standard_length(self.contents),
            Kind::Extended { to, from } => extended_length(to, from, self.contents),
        }
    }
}

/// A frame that has its contents itself, so that it outlasts the reader's next call.
/// [`LineReader::answers`](crate::LineReader::answers) gives such frames.
///
/// It takes as many bytes as the longest contents do and a few more, and a copy copies them all.
#[derive(Clone, Copy)]
pub struct OwnedFrame {
    kind: Kind,
    len: u8,
    bytes: [u8; CONTENTS_LIMIT],
}

impl OwnedFrame {
    /// Takes a copy of a frame that was read. The contracts of the library keep its contents within
    /// [`CONTENTS_LIMIT`].
    #[inline]
    pub(crate) fn copy_of(frame: Frame<'_>) -> OwnedFrame {
        let len = frame.contents.len();
        let mut bytes = [0; CONTENTS_LIMIT];
        bytes[..len].copy_from_slice(frame.contents);
        OwnedFrame {
            kind: frame.kind,
            len: len as u8,
            bytes,
        }
    }

    /// Whether it has addresses, and which.
    #[inline]
    #[must_use]
    pub const fn kind(&self) -> Kind {
        self.kind
    }

    /// Its contents, without escapes.
    #[inline]
    #[must_use]
    pub fn contents(&self) -> &[u8] {
        &self.bytes[..usize::from(self.len)]
    }

    /// The same frame with borrowed contents.
    #[inline]
    #[must_use]
    pub fn frame(&self) -> Frame<'_> {
        Frame {
            kind: self.kind,
            contents: self.contents(),
        }
    }
}

impl PartialEq for OwnedFrame {
    #[inline]
    fn eq(&self, other: &OwnedFrame) -> bool {
        self.frame() == other.frame()
    }
}

impl Eq for OwnedFrame {}

impl Hash for OwnedFrame {
    #[inline]
    fn hash<H: Hasher>(&self, state: &mut H) {
        self.frame().hash(state);
    }
}

impl fmt::Debug for OwnedFrame {
    fn fmt(&self, f: &mut fmt::Formatter<'_>) -> fmt::Result {
        f.debug_struct("OwnedFrame")
            .field("kind", &self.kind)
            .field("contents", &self.contents())
            .finish()
    }
}

/// Refuses to write a standard frame, whatever its contents. The output stays as it was.
///
/// A standard frame names no sender, so none goes out on a live line. A program that asks for one is told so by this
/// function; what it has to send goes through [`write_extended`].
/// [`trace::write_standard`](crate::trace::write_standard) writes one into a stored trace.
///
/// # Errors
///
/// [`Error::Unnamed`]: always.
///
/// ```
/// use csafe::{frame, Error};
///
/// let mut wire = [0; 8];
/// assert_eq!(frame::write_standard(&[0x80], &mut wire), Err(Error::Unnamed));
///
/// let len = frame::write_extended(0x05, 0x00, &[0x80], &mut wire)?;
/// assert_eq!(wire[..len], [0xF0, 0x05, 0x00, 0x80, 0x80, 0xF2]);
/// # Ok::<(), Error>(())
/// ```
#[inline]
pub fn write_standard(contents: &[u8], out: &mut [u8]) -> Result<usize, Error> {
    Ok(ffi::write_standard(contents, out).accepted()?.len())
}

/// Writes an extended frame first in the output and answers its length on the wire. Any addresses are taken.
///
/// A frame that stops a workout goes through [`LeaseTable::stop`](crate::LeaseTable::stop), which asks for the
/// holder's token.
///
/// # Errors
///
/// In this order:
///
/// 1. [`Error::TooLong`]: the frame would be over [`WIRE_LIMIT`] on the wire.
/// 2. [`Error::NoRoom`]: the output is shorter than the frame.
///
/// ```
/// use csafe::frame;
///
/// let mut wire = [0; 8];
/// let len = frame::write_extended(0x05, 0x00, &[0x80], &mut wire)?;
/// assert_eq!(wire[..len], [0xF0, 0x05, 0x00, 0x80, 0x80, 0xF2]);
/// # Ok::<(), csafe::Error>(())
/// ```
#[inline]
pub fn write_extended(to: u8, from: u8, contents: &[u8], out: &mut [u8]) -> Result<usize, Error> {
    Ok(ffi::write_extended(to, from, contents, out)
        .accepted()?
        .len())
}

/// Refuses to tell the length of a standard frame, whatever its contents, because [`write_standard`] writes none. A
/// program that asks for it is told why before it has made an output.
/// [`trace::standard_length`](crate::trace::standard_length) tells the length in a stored trace.
///
/// # Errors
///
/// [`Error::Unnamed`]: always.
///
/// ```
/// use csafe::{frame, Error};
///
/// assert_eq!(frame::standard_length(&[0x80]), Err(Error::Unnamed));
/// assert_eq!(frame::extended_length(0x05, 0x00, &[0x80]), Ok(6));
/// ```
#[inline]
pub fn standard_length(contents: &[u8]) -> Result<usize, Error> {
    Ok(ffi::standard_length(contents).accepted()?.len())
}

/// How many bytes an extended frame takes on the wire, which is the room that [`write_extended`] needs. Any addresses
/// are taken, and one that is F0 to F3 takes two bytes.
///
/// # Errors
///
/// [`Error::TooLong`]: the frame would be over [`WIRE_LIMIT`] on the wire.
///
/// ```
/// use csafe::{frame, Error};
///
/// let mut wire = vec![0; frame::extended_length(0xF1, 0x00, &[0x80])?];
/// frame::write_extended(0xF1, 0x00, &[0x80], &mut wire)?;
/// assert_eq!(wire, [0xF0, 0xF3, 0x01, 0x00, 0x80, 0x80, 0xF2]);
///
/// assert_eq!(frame::extended_length(0x05, 0x00, &[0; 116]), Err(Error::TooLong));
/// # Ok::<(), Error>(())
/// ```
#[inline]
pub fn extended_length(to: u8, from: u8, contents: &[u8]) -> Result<usize, Error> {
    Ok(ffi::extended_length(to, from, contents).accepted()?.len())
}

/// Reads a slice that has to be one frame, from its start flag to its stop flag. Its contents are put first in the
/// output, and the frame that is answered borrows them there.
///
/// # Errors
///
/// In this order:
///
/// 1. [`Error::Truncated`]: the slice does not begin with a start flag, does not end with a stop flag, or has a flag
///    between them.
/// 2. [`Error::TooLong`]: it is over [`WIRE_LIMIT`] long.
/// 3. [`Error::BadEscape`]: F3 is not followed by 00 to 03.
/// 4. [`Error::TooShort`]: a checksum or an address is missing.
/// 5. [`Error::BadChecksum`]: the checksum is not the one that the contents have.
/// 6. [`Error::Unnamed`]: it is a standard frame. [`trace::read`](crate::trace::read) takes it.
/// 7. [`Error::NoRoom`]: the output is shorter than the contents.
///
/// ```
/// use csafe::frame::{self, Kind};
/// use csafe::Error;
///
/// let mut out = [0; frame::CONTENTS_LIMIT];
/// let frame = frame::read(&[0xF0, 0x00, 0x05, 0x24, 0x02, 0x03, 0x00, 0x25, 0xF2], &mut out)?;
/// assert_eq!(frame.kind, Kind::Extended { to: 0x00, from: 0x05 });
/// assert_eq!(frame.contents, [0x24, 0x02, 0x03, 0x00]);
///
/// assert_eq!(frame::read(&[0xF0, 0x00, 0x05, 0xF3, 0x04, 0xF2], &mut out), Err(Error::BadEscape));
///
/// // A standard frame that is damaged is refused for its damage, and a sound one because it names no sender.
/// let mut standard = [0xF1, 0x24, 0x02, 0x03, 0x00, 0x24, 0xF2];
/// assert_eq!(frame::read(&standard, &mut out), Err(Error::BadChecksum));
/// standard[5] = 0x25;
/// assert_eq!(frame::read(&standard, &mut out), Err(Error::Unnamed));
/// # Ok::<(), Error>(())
/// ```
#[inline]
pub fn read<'a>(wire: &[u8], out: &'a mut [u8]) -> Result<Frame<'a>, Error> {
    let answer = ffi::read(wire, out).accepted()?;
    Ok(answer.frame_in(out))
}

#[cfg(test)]
mod tests {
    use std::format;
    use std::hash::{BuildHasher, BuildHasherDefault, DefaultHasher};

    use super::*;

    const EXTENDED: Kind = Kind::Extended {
        to: 0x05,
        from: 0x00,
    };

    #[test]
    fn an_owned_frame_is_the_frame_that_it_was_copied_from() {
        let bytes: [u8; CONTENTS_LIMIT] = core::array::from_fn(|at| at as u8);
        for kind in [Kind::Standard, EXTENDED] {
            for len in 0..=CONTENTS_LIMIT {
                let contents = &bytes[..len];
                let owned = OwnedFrame::copy_of(Frame { kind, contents });
                assert_eq!(owned.kind(), kind);
                assert_eq!(owned.contents(), contents);
                assert_eq!(owned.frame(), Frame { kind, contents });
            }
        }
    }

    #[test]
    fn owned_frames_are_compared_by_kind_and_contents() {
        let owned = |kind, contents| OwnedFrame::copy_of(Frame { kind, contents });
        let hash =
            |frame: OwnedFrame| BuildHasherDefault::<DefaultHasher>::default().hash_one(frame);
        let frame = owned(EXTENDED, &[0x41]);
        assert_eq!(frame, owned(EXTENDED, &[0x41]));
        assert_eq!(hash(frame), hash(owned(EXTENDED, &[0x41])));
        assert_ne!(frame, owned(Kind::Standard, &[0x41]));
        assert_ne!(frame, owned(EXTENDED, &[0x42]));
        assert_ne!(frame, owned(EXTENDED, &[0x41, 0x00]));
    }

    #[test]
    fn an_owned_frame_shows_its_contents_alone() {
        let contents = &[0x41];
        let owned = OwnedFrame::copy_of(Frame {
            kind: Kind::Standard,
            contents,
        });
        let shown = format!("{owned:02X?}");
        assert_eq!(shown, "OwnedFrame { kind: Standard, contents: [41] }");
    }
}
