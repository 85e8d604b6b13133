//! Packets of treadmills, of the coscom protocol: written, read from a slice that holds exactly one, and read from a
//! line whose bytes arrive in chunks of any length.
//!
//! A packet is the start flag 01, a [`Header`], a data unit, a checksum and the stop flag 17. The data unit has the
//! bytes 20 to 7E and 1D alone, so that no flag stands in it and nothing is escaped. The checksum is the sum of header
//! and data unit modulo 100, as two digits. A packet has at most [`WIRE_LIMIT`] bytes.
//!
//! [`PacketReader`] reads a line and owns its bytes. [`feed`] and [`finish`] do the same on bytes and a number that
//! stand elsewhere. Nobody else may access those during a call; in shared memory that includes other processes.
//!
//! A packet reader counts no bytes, so it tells no positions and is never full.
//!
//! # Example
//!
//! A computer sets a treadmill's speed, and reads what the line hands over: an acknowledgement, and a packet in two
//! chunks.
//!
//! ```
//! use csafe::packet::{self, Header};
//! use csafe::PacketReader;
//!
//! const SET_SPEED: Header = Header::new(b"S02");
//!
//! let mut wire = [0; packet::WIRE_LIMIT];
//! let len = packet::write(SET_SPEED, b"2.22", &mut wire)?;
//! assert_eq!(wire[..len], *b"\x01S022.2277\x17");
//!
//! let mut reader = PacketReader::new();
//! let mut told = Vec::new();
//! for chunk in [&b"\x06\x01S022."[..], b"2277\x17\x06"] {
//!     for answer in reader.answers(chunk) {
//!         match answer {
//!             Ok(packet) => told.push(packet),
//!             Err(refusal) => println!("refused: {refusal}"),
//!         }
//!     }
//! }
//! reader.finish()?;
//! assert_eq!(told.len(), 1);
//! assert_eq!((told[0].header(), told[0].unit()), (SET_SPEED, &b"2.22"[..]));
//! # Ok::<(), csafe::Error>(())
//! ```

use core::fmt;
use core::hash::{Hash, Hasher};
use core::iter::FusedIterator;

use crate::{ffi, Error};

/// The most bytes that a packet has on the wire, its flags included.
pub const WIRE_LIMIT: usize = 256;

/// The most bytes of a data unit. An output of this length has room for every packet that is read.
pub const UNIT_LIMIT: usize = 249;

/// The bytes of a packet around its data unit: flags, header and checksum. [`write()`] needs so much room more than the
/// data unit has bytes.
pub const OVERHEAD: usize = WIRE_LIMIT - UNIT_LIMIT;

/// The bytes of a packet reader: the most that may stand between the flags of a packet.
pub const HELD_LEN: usize = 254;

/// The header of a packet, which says what the packet is about: a letter A to Z and two digits, as `S02`.
///
/// Any three bytes make one. [`write()`] refuses those that are not a letter and two digits, and one that was read
/// always is.
///
/// ```
/// use csafe::packet::Header;
///
/// let header = Header::new(b"S02");
/// assert_eq!(header.bytes(), [0x53, 0x30, 0x32]);
/// assert_eq!(header, Header::from([0x53, 0x30, 0x32]));
/// assert_eq!(header.to_string(), "S02");
/// ```
#[derive(Clone, Copy, PartialEq, Eq, PartialOrd, Ord, Hash)]
pub struct Header([u8; 3]);

impl Header {
    /// The header with this letter and these two digits.
    #[inline]
    #[must_use]
    pub const fn new(bytes: &[u8; 3]) -> Header {
        Header(*bytes)
    }

    /// Its letter and its two digits, as they stand on the wire.
    #[inline]
    #[must_use]
    pub const fn bytes(self) -> [u8; 3] {
        self.0
    }
}

impl From<[u8; 3]> for Header {
    #[inline]
    fn from(bytes: [u8; 3]) -> Header {
        Header(bytes)
    }
}

/// A byte that is not printed is shown as an escape, so that a wrong header can't break a log's line.
impl fmt::Display for Header {
    fn fmt(&self, f: &mut fmt::Formatter<'_>) -> fmt::Result {
        match core::str::from_utf8(&self.0) {
            Ok(text) if self.0.iter().all(u8::is_ascii_graphic) => f.pad(text),
            _ => write!(f, "{}", self.0.escape_ascii()),
        }
    }
}

impl fmt::Debug for Header {
    fn fmt(&self, f: &mut fmt::Formatter<'_>) -> fmt::Result {
        f.debug_tuple("Header")
            .field(&format_args!("{self}"))
            .finish()
    }
}

/// A packet whose data unit stands elsewhere: in the output of [`read`], in a packet reader, or where the caller has
/// it.
#[derive(Clone, Copy, Debug, PartialEq, Eq, Hash)]
pub struct Packet<'a> {
    /// What it is about.
    pub header: Header,
    /// Its data unit.
    pub unit: &'a [u8],
}

impl Packet<'_> {
    /// Writes the packet as [`write()`] does.
    ///
    /// # Errors
    ///
    /// In this order:
    ///
    /// 1. [`Error::TooLong`]: the data unit is over [`UNIT_LIMIT`] long.
    /// 2. [`Error::BadCharacter`]: the header is not a letter A to Z and two digits, or the data unit has another byte
    ///    than 20 to 7E and 1D.
    /// 3. [`Error::NoRoom`]: the output is shorter than the packet.
    ///
    /// ```
    /// use csafe::packet::{self, Header, Packet};
    ///
    /// let packet = Packet { header: Header::new(b"P13"), unit: b"3.89" };
    /// let mut wire = [0; packet::WIRE_LIMIT];
    /// let len = packet.write(&mut wire)?;
    /// assert_eq!(packet::read(&wire[..len], &mut [0; packet::UNIT_LIMIT]), Ok(packet));
    /// # Ok::<(), csafe::Error>(())
    /// ```
    #[inline]
    pub fn write(&self, out: &mut [u8]) -> Result<usize, Error> {
        write(self.header, self.unit, out)
    }
}

/// A packet that has its data unit itself, so that it outlasts the reader's next call. [`PacketReader::answers`] gives
/// such packets.
///
/// It takes as many bytes as the longest data unit does and a few more, and a copy copies them all.
#[derive(Clone, Copy)]
pub struct OwnedPacket {
    header: Header,
    len: u8,
    bytes: [u8; UNIT_LIMIT],
}

impl OwnedPacket {
    /// Takes a copy of a packet that was read. The contracts of the library keep its data unit within [`UNIT_LIMIT`].
    #[inline]
    fn copy_of(packet: Packet<'_>) -> OwnedPacket {
        let len = packet.unit.len();
        let mut bytes = [0; UNIT_LIMIT];
        bytes[..len].copy_from_slice(packet.unit);
        OwnedPacket {
            header: packet.header,
            len: len as u8,
            bytes,
        }
    }

    /// What it is about.
    #[inline]
    #[must_use]
    pub const fn header(&self) -> Header {
        self.header
    }

    /// Its data unit.
    #[inline]
    #[must_use]
    pub fn unit(&self) -> &[u8] {
        &self.bytes[..usize::from(self.len)]
    }

    /// The same packet with a borrowed data unit.
    #[inline]
    #[must_use]
    pub fn packet(&self) -> Packet<'_> {
        Packet {
            header: self.header,
            unit: self.unit(),
        }
    }
}

impl PartialEq for OwnedPacket {
    #[inline]
    fn eq(&self, other: &OwnedPacket) -> bool {
        self.packet() == other.packet()
    }
}

impl Eq for OwnedPacket {}

impl Hash for OwnedPacket {
    #[inline]
    fn hash<H: Hasher>(&self, state: &mut H) {
        self.packet().hash(state);
    }
}

impl fmt::Debug for OwnedPacket {
    fn fmt(&self, f: &mut fmt::Formatter<'_>) -> fmt::Result {
        f.debug_struct("OwnedPacket")
            .field("header", &self.header)
            .field("unit", &self.unit())
            .finish()
    }
}

/// Writes a packet first in the output and answers its length on the wire, which is [`OVERHEAD`] more than that of the
/// data unit.
///
/// # Errors
///
/// In this order:
///
/// 1. [`Error::TooLong`]: the data unit is over [`UNIT_LIMIT`] long.
/// 2. [`Error::BadCharacter`]: the header is not a letter A to Z and two digits, or the data unit has another byte than
///    20 to 7E and 1D.
/// 3. [`Error::NoRoom`]: the output is shorter than the packet.
///
/// ```
/// use csafe::packet::{self, Header};
/// use csafe::Error;
///
/// let mut wire = [0; 8];
/// let len = packet::write(Header::new(b"S02"), b"", &mut wire)?;
/// assert_eq!(wire[..len], *b"\x01S0281\x17");
///
/// assert_eq!(packet::write(Header::new(b"s02"), b"", &mut wire), Err(Error::BadCharacter));
/// assert_eq!(packet::write(Header::new(b"S02"), b"1\n5", &mut wire), Err(Error::BadCharacter));
/// assert_eq!(packet::write(Header::new(b"S02"), b"1.5", &mut wire), Err(Error::NoRoom));
/// # Ok::<(), Error>(())
/// ```
#[inline]
pub fn write(header: Header, unit: &[u8], out: &mut [u8]) -> Result<usize, Error> {
    Ok(ffi::packet_write(header, unit, out).accepted()?.len())
}

/// Reads a slice that has to be one packet, from its start flag to its stop flag. Its data unit is put first in the
/// output, and the packet that is answered borrows it there.
///
/// # Errors
///
/// In this order:
///
/// 1. [`Error::Truncated`]: the slice does not begin with the start flag, does not end with the stop flag, or has a
///    flag between them.
/// 2. [`Error::TooLong`]: it is over [`WIRE_LIMIT`] long.
/// 3. [`Error::TooShort`]: there are under five bytes between the flags.
/// 4. [`Error::BadCharacter`]: a byte of header, data unit or checksum is not allowed at its place.
/// 5. [`Error::BadChecksum`]: the checksum is not the one that header and data unit have.
/// 6. [`Error::NoRoom`]: the output is shorter than the data unit.
///
/// ```
/// use csafe::packet::{self, Header};
/// use csafe::Error;
///
/// let mut out = [0; packet::UNIT_LIMIT];
/// let packet = packet::read(b"\x01S011.5076\x17", &mut out)?;
/// assert_eq!(packet.header, Header::new(b"S01"));
/// assert_eq!(packet.unit, b"1.50");
///
/// assert_eq!(packet::read(b"\x01S011.5077\x17", &mut out), Err(Error::BadChecksum));
/// assert_eq!(packet::read(b"\x01S011.507A\x17", &mut out), Err(Error::BadCharacter));
/// # Ok::<(), Error>(())
/// ```
#[inline]
pub fn read<'a>(wire: &[u8], out: &'a mut [u8]) -> Result<Packet<'a>, Error> {
    let answer = ffi::packet_read(wire, out).accepted()?;
    Ok(answer.packet_in(out))
}

/// What a call of [`PacketReader::feed`] or [`feed`] did with its bytes.
#[derive(Clone, Copy, Debug, PartialEq, Eq, Hash)]
#[non_exhaustive]
pub struct Fed<'a> {
    /// How many bytes were taken. The next call has to start with the byte after the last of them.
    ///
    /// Where something was told, the last byte taken gave it. Where nothing was told, all bytes were taken, or
    /// [`CHUNK_LIMIT`](crate::line::CHUNK_LIMIT) of a longer chunk.
    pub taken: usize,
    /// What the last byte taken gave: nothing, a packet whose data unit stands in the reader, or why a candidate for a
    /// packet was refused.
    pub told: Option<Result<Packet<'a>, Error>>,
}

/// As [`PacketReader::feed`], on lent bytes and the number that goes with them, which is 0 for a new reader. Any number
/// and any bytes are a reader. The data unit of a packet that is told is the first of the bytes.
///
/// The number has in its lowest two bits 0 outside of a candidate, 1 in one, and 2 or 3 in one that has more than
/// [`HELD_LEN`] bytes after its start flag. Above them stands how many of the bytes are held, and more than there are
/// counts as all. No call leaves 3.
///
/// # Errors
///
/// What is told is refused as by [`PacketReader::feed`]. No call holds a flag. Where the caller's own bytes have one
/// among those held, the candidate is told as [`Error::Truncated`] at its stop flag, unless it is too long.
///
/// ```
/// use csafe::packet::{self, Header, HELD_LEN};
///
/// let (mut bytes, mut state) = ([0; HELD_LEN], 0);
/// let fed = packet::feed(&mut bytes, &mut state, b"\x06\x01S011.5076\x17\x06");
/// assert_eq!(fed.taken, 12);
/// let told = fed.told.unwrap()?;
/// assert_eq!((told.header, told.unit), (Header::new(b"S01"), &b"1.50"[..]));
/// # Ok::<(), csafe::Error>(())
/// ```
#[inline]
#[must_use = "the bytes that were not taken have to be fed again, and what was told is told once"]
pub fn feed<'a>(bytes: &'a mut [u8; HELD_LEN], state: &mut u64, chunk: &[u8]) -> Fed<'a> {
    let (taken, answer) = ffi::packet_feed(bytes, state, chunk);
    let told = match answer.accepted() {
        Err(error) => Some(Err(error)),
        Ok(answer) if answer.is_packet_told() => Some(Ok(answer.packet_in(bytes))),
        Ok(_) => None,
    };
    Fed { taken, told }
}

/// As [`PacketReader::finish`], on the number of a reader that was fed with [`feed`]. It is 0 afterwards. The reader's
/// bytes stay as they are.
///
/// # Errors
///
/// [`Error::Truncated`]: a candidate for a packet was open.
///
/// ```
/// use csafe::packet::{self, HELD_LEN};
/// use csafe::Error;
///
/// let (mut bytes, mut state) = ([0; HELD_LEN], 0);
/// let fed = packet::feed(&mut bytes, &mut state, b"\x01S01");
/// assert_eq!((fed.taken, fed.told), (4, None));
/// assert_eq!(packet::finish(&mut state), Err(Error::Truncated));
/// assert_eq!(state, 0);
/// assert_eq!(packet::finish(&mut state), Ok(()));
/// ```
#[inline]
pub fn finish(state: &mut u64) -> Result<(), Error> {
    ffi::packet_finish(state).accepted()?;
    Ok(())
}

/// A reader that is fed the bytes of a treadmill's line and tells of each packet and each refusal at the byte that ends
/// it.
///
/// A candidate for a packet begins at a start flag. Its stop flag has it judged as [`read`] judges a slice. A start
/// flag before that ends it as [`Error::Truncated`] and begins the next one. Bytes outside of any candidate, such as 06
/// and 15 between packets, give no answer.
///
/// [`feed`](PacketReader::feed) gives one answer a call, and the data unit of a packet stands in the reader until the
/// next one. [`answers`](PacketReader::answers) is an iterator over all answers of a chunk, whose packets have copies.
///
/// ```
/// use csafe::{Error, PacketReader};
///
/// let mut reader = PacketReader::new();
/// let mut told = Vec::new();
/// for chunk in [&b"\x06\x01S0"[..], b"\x01S011.5", b"076\x17\x06\x01"] {
///     let mut rest = chunk;
///     while !rest.is_empty() {
///         let fed = reader.feed(rest);
///         rest = &rest[fed.taken..];
///         told.extend(fed.told.map(|told| told.map(|packet| packet.unit.to_vec())));
///     }
/// }
/// assert_eq!(told, [Err(Error::Truncated), Ok(b"1.50".to_vec())]);
/// assert_eq!(reader.finish(), Err(Error::Truncated));
/// assert_eq!(reader.finish(), Ok(()));
/// ```
#[derive(Clone)]
pub struct PacketReader {
    bytes: [u8; HELD_LEN],
    state: u64,
}

impl PacketReader {
    /// A reader outside of any candidate.
    #[inline]
    #[must_use]
    pub const fn new() -> PacketReader {
        PacketReader {
            bytes: [0; HELD_LEN],
            state: 0,
        }
    }

    /// Feeds bytes up to the first that is answered. Answers how many were taken, and what they gave. With no answer
    /// all of them were taken, up to the limit below. An empty chunk gives no answer. The next call starts right after
    /// the last byte taken.
    ///
    /// A chunk longer than [`CHUNK_LIMIT`](crate::line::CHUNK_LIMIT) is cut to its first so many bytes, so with no
    /// answer among those that many were taken. There is no limit to the bytes of all calls together.
    ///
    /// However a stream is cut into calls, its answers are those of its bytes fed one by one.
    ///
    /// # Errors
    ///
    /// A candidate is told as [`Error::Truncated`] where a start flag comes before its stop flag. At its stop flag it
    /// is told, in this order, as
    ///
    /// 1. [`Error::TooLong`]: it is over [`WIRE_LIMIT`] long.
    /// 2. [`Error::TooShort`]: there are under five bytes between the flags.
    /// 3. [`Error::BadCharacter`]: a byte of header, data unit or checksum is not allowed at its place.
    /// 4. [`Error::BadChecksum`]: the checksum is not the one that header and data unit have.
    ///
    /// The reader goes on after each of these.
    #[inline]
    #[must_use = "the bytes that were not taken have to be fed again, and what was told is told once"]
    pub fn feed(&mut self, chunk: &[u8]) -> Fed<'_> {
        feed(&mut self.bytes, &mut self.state, chunk)
    }

    /// The answers of a chunk of any length, in order. It is fed by as many calls of [`feed`](PacketReader::feed) as it
    /// needs, each when the next answer is asked for.
    ///
    /// Each packet has a copy of its data unit, so it can be kept while the reader goes on.
    ///
    /// Where the iterator is dropped before it has answered `None`, the bytes after its last answer are not fed.
    /// [`Answers::rest`] has them.
    ///
    /// # Errors
    ///
    /// Candidates are refused as by [`feed`](PacketReader::feed), which does not end the iterator.
    ///
    /// ```
    /// use csafe::{Error, PacketReader};
    ///
    /// let mut reader = PacketReader::new();
    /// let chunk = b"\x01S0\x01S011.5076\x17\x06\x01";
    /// let mut answers = reader.answers(chunk);
    /// assert_eq!(answers.next(), Some(Err(Error::Truncated)));
    /// assert_eq!(answers.rest(), &chunk[4..]);
    /// let packet = answers.next().unwrap()?;
    /// assert_eq!(answers.next(), None);
    /// assert_eq!(answers.rest(), []);
    ///
    /// assert_eq!(reader.finish(), Err(Error::Truncated));
    /// assert_eq!(packet.unit(), b"1.50");
    /// # Ok::<(), Error>(())
    /// ```
    #[inline]
    pub fn answers<'r, 'c>(&'r mut self, chunk: &'c [u8]) -> Answers<'r, 'c> {
        Answers {
            reader: self,
            rest: chunk,
        }
    }

    /// Ends the input, after which the reader is as new.
    ///
    /// # Errors
    ///
    /// [`Error::Truncated`]: a candidate for a packet was open.
    #[inline]
    pub fn finish(&mut self) -> Result<(), Error> {
        finish(&mut self.state)
    }
}

impl Default for PacketReader {
    #[inline]
    fn default() -> PacketReader {
        PacketReader::new()
    }
}

impl fmt::Debug for PacketReader {
    fn fmt(&self, f: &mut fmt::Formatter<'_>) -> fmt::Result {
        f.debug_struct("PacketReader")
            .field("state", &self.state)
            .finish_non_exhaustive()
    }
}

/// The answers of a chunk, which is fed as they are asked for. [`PacketReader::answers`] makes it.
#[derive(Debug)]
#[must_use = "the bytes are fed as the answers are asked for"]
pub struct Answers<'r, 'c> {
    reader: &'r mut PacketReader,
    rest: &'c [u8],
}

impl<'c> Answers<'_, 'c> {
    /// The bytes that are not taken yet: those after the last answer. None are left once the iterator has answered
    /// `None`.
    #[inline]
    #[must_use]
    pub fn rest(&self) -> &'c [u8] {
        self.rest
    }
}

impl Iterator for Answers<'_, '_> {
    type Item = Result<OwnedPacket, Error>;

    #[inline]
    fn next(&mut self) -> Option<Self::Item> {
        while !self.rest.is_empty() {
            let fed = self.reader.feed(self.rest);
            self.rest = &self.rest[fed.taken..];
            if let Some(told) = fed.told {
                return Some(told.map(OwnedPacket::copy_of));
            }
            // The contracts of the library have a byte of every chunk taken. One of another version must not stop here
            // for ever.
            if fed.taken == 0 {
                self.rest = &[];
            }
        }
        None
    }

    /// Each answer is given to a byte of its own.
    #[inline]
    fn size_hint(&self) -> (usize, Option<usize>) {
        (0, Some(self.rest.len()))
    }
}

impl FusedIterator for Answers<'_, '_> {}

#[cfg(test)]
mod tests {
    use std::format;
    use std::hash::{BuildHasher, BuildHasherDefault, DefaultHasher};
    use std::string::ToString;

    use super::*;

    const S02: Header = Header::new(b"S02");

    #[test]
    fn an_owned_packet_is_the_packet_that_it_was_copied_from() {
        let bytes: [u8; UNIT_LIMIT] = core::array::from_fn(|at| at as u8);
        for len in 0..=UNIT_LIMIT {
            let unit = &bytes[..len];
            let owned = OwnedPacket::copy_of(Packet { header: S02, unit });
            assert_eq!((owned.header(), owned.unit()), (S02, unit));
            assert_eq!(owned.packet(), Packet { header: S02, unit });
        }
    }

    #[test]
    fn owned_packets_are_compared_by_header_and_data_unit() {
        let owned = |header, unit| OwnedPacket::copy_of(Packet { header, unit });
        let hash =
            |packet: OwnedPacket| BuildHasherDefault::<DefaultHasher>::default().hash_one(packet);
        let packet = owned(S02, b"1");
        assert_eq!(packet, owned(S02, b"1"));
        assert_eq!(hash(packet), hash(owned(S02, b"1")));
        assert_ne!(packet, owned(Header::new(b"S01"), b"1"));
        assert_ne!(packet, owned(S02, b"2"));
        assert_ne!(packet, owned(S02, b"1\0"));
    }

    #[test]
    fn packets_and_headers_are_shown() {
        let unit = b"1";
        let owned = OwnedPacket::copy_of(Packet { header: S02, unit });
        let shown = format!("{owned:02X?}");
        assert_eq!(shown, "OwnedPacket { header: Header(S02), unit: [31] }");
        assert_eq!(format!("{S02:>5}|{S02:<5}|"), "  S02|S02  |");
        let wrong = Header::new(&[0x01, b'0', 0xFF]);
        assert_eq!(wrong.to_string(), r"\x010\xff");
        assert_eq!(Header::new(b"S 2").to_string(), "S 2");
    }

    #[test]
    fn a_header_has_the_bytes_that_it_was_made_of() {
        for byte in 0..=u8::MAX {
            let bytes = [byte, !byte, b'0'];
            assert_eq!(Header::new(&bytes).bytes(), bytes);
            assert_eq!(Header::from(bytes), Header::new(&bytes));
        }
    }
}
