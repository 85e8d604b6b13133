//! Frames on a live line, whose bytes arrive in chunks of any length.
//!
//! [`LineReader`] owns its bytes. The functions of this module do the same on bytes and two numbers that stand
//! elsewhere. Nobody else may access those during a call; in shared memory that includes other processes.
//!
//! A standard frame names no sender, so a live line refuses it as [`Error::Unnamed`]. The bytes of a stored trace are
//! fed to [`LineReader::for_trace`] or [`trace::feed`], which hand it out.
//!
//! A call of [`LineReader::feed`] or [`feed`] takes bytes up to the first that is answered, and at most
//! [`CHUNK_LIMIT`]. [`LineReader::answers`] makes as many calls as a chunk needs.
//!
//! Every answer is [`Located`]: it has the position of its start flag among the bytes that the reader took. A reader
//! takes [`LIMIT`] bytes, and refuses each further one as [`Error::Full`] until it is finished.
//!
//! # Example
//!
//! A stream is read to its end through a buffer of seven bytes. What a read hands over begins and ends anywhere in a
//! frame.
//!
//! ```
//! use std::io::{self, Read};
//!
//! use csafe::{Error, LineReader, Located, OwnedFrame};
//!
//! type Told = Result<Located<OwnedFrame>, Located<Error>>;
//!
//! /// All frames and refusals of a stream of at most `LIMIT` bytes, in order.
//! fn read_to_end(mut stream: impl Read) -> io::Result<Vec<Told>> {
//!     let mut reader = LineReader::new();
//!     let mut told = Vec::new();
//!     let mut buffer = [0; 7];
//!     loop {
//!         match stream.read(&mut buffer) {
//!             Ok(0) => break,
//!             Ok(len) => told.extend(reader.answers(&buffer[..len])),
//!             Err(error) if error.kind() == io::ErrorKind::Interrupted => {}
//!             Err(error) => return Err(error),
//!         }
//!     }
//!     // A frame that the stream's end has cut short is told by the finish.
//!     told.extend(reader.finish().err().map(Err));
//!     Ok(told)
//! }
//!
//! // Two frames with a stray byte between them, one with a wrong checksum, a standard one, and the beginning of one.
//! // The reads give 7, 4, 7, 4, 4 and 5 bytes.
//! let first = [0xF0, 0x00, 0x05, 0x24, 0x02, 0x03, 0x00, 0x25, 0xF2, 0x55, 0xF0];
//! let second = [0x00, 0x05, 0x81, 0x81, 0xF2, 0xF0, 0x00, 0x05, 0x41, 0x42, 0xF2];
//! let third = [0xF1, 0x41, 0x41, 0xF2];
//! let fourth = [0xF0, 0x05, 0x00, 0x76, 0x04];
//! let beginning = first.as_slice().chain(second.as_slice());
//! let told = read_to_end(beginning.chain(third.as_slice()).chain(fourth.as_slice()))?;
//!
//! assert_eq!(told.len(), 5);
//! assert_eq!(told[0].unwrap().answer.contents(), [0x24, 0x02, 0x03, 0x00]);
//! assert_eq!(told[1].unwrap().answer.contents(), [0x81]);
//! assert_eq!(told[1].unwrap().position, 10);
//! let refused = |position, answer| Err(Located { position, answer });
//! assert_eq!(told[2], refused(16, Error::BadChecksum));
//! assert_eq!(told[3..], [refused(22, Error::Unnamed), refused(26, Error::Truncated)]);
//! # Ok::<(), io::Error>(())
//! ```

use core::fmt;
use core::iter::FusedIterator;

use crate::{ffi, trace, Error, Frame, Located, OwnedFrame};

/// The bytes of a reader: the most that may stand between the flags of a frame.
pub const HELD_LEN: usize = 118;

/// The most bytes that one call of a reader takes, of this one and of [`PacketReader`](crate::PacketReader). A longer
/// chunk is cut to its first bytes, as if the others were not there.
pub const CHUNK_LIMIT: usize = 65_536;

/// The most bytes that a reader takes since it was new or finished last. Each further one is refused as
/// [`Error::Full`], and the reader stays as it is until it is finished.
///
/// A line of 960 bytes a second needs seven weeks for so many. A program that reads one for so long finishes the reader
/// where it is full, and goes on with the bytes that were not taken.
pub const LIMIT: u32 = 4_294_967_295;

/// What a call of [`LineReader::feed`], [`feed`] or [`trace::feed`] did with its bytes.
#[derive(Clone, Copy, Debug, PartialEq, Eq, Hash)]
#[non_exhaustive]
pub struct Fed<'a> {
    /// How many bytes were taken. The next call has to start with the byte after the last of them.
    ///
    /// Where something but [`Error::Full`] was told, the last byte taken gave it. Where nothing was told, all bytes
    /// were taken, or [`CHUNK_LIMIT`] of a longer chunk, or those up to which the reader has taken [`LIMIT`]. Where
    /// [`Error::Full`] was told, none were taken.
    pub taken: usize,
    /// What the last byte taken gave: nothing, a frame whose contents stand in the reader, or why a candidate for a
    /// frame was refused. [`Error::Full`] is what the first byte gave, which was not taken.
    pub told: Option<Result<Located<Frame<'a>>, Located<Error>>>,
}

impl<'a> Fed<'a> {
    /// What the library did on a reader, which has these bytes afterwards.
    #[inline]
    pub(crate) fn of(
        bytes: &'a [u8; HELD_LEN],
        taken: usize,
        told: Located<ffi::Answer>,
    ) -> Fed<'a> {
        let position = told.position;
        let told = match told.answer.accepted() {
            Err(answer) => Some(Err(Located { position, answer })),
            Ok(answer) if answer.is_told() => {
                let answer = answer.frame_in(bytes);
                Some(Ok(Located { position, answer }))
            }
            Ok(_) => None,
        };
        Fed { taken, told }
    }
}

/// As [`LineReader::feed`] of a reader for a live line, on lent bytes and the two numbers that go with them, which are
/// 0 for a new reader. Any numbers and any bytes are a reader. The contents of a frame that is told are the first of
/// the bytes. A chunk longer than [`CHUNK_LIMIT`] is cut here too.
///
/// The state says how many of the bytes are held, and more than there are counts as all. The counts have in bits 0 to
/// 31 the position of the last start flag, which matters only while a candidate is open, and in bits 32 to 63 how many
/// bytes were taken since the reader was new or finished last.
///
/// # Errors
///
/// What is told is refused as by [`LineReader::feed`]. No call holds a flag. Where the caller's own bytes have one
/// among those held, the candidate is told as [`Error::Truncated`] at its stop flag, unless it is too long.
///
/// ```
/// use csafe::line::{self, HELD_LEN};
///
/// let (mut bytes, mut state, mut counts) = ([0; HELD_LEN], 0, 0);
/// let chunk = [0x55, 0xF0, 0x00, 0x05, 0x41, 0x41, 0xF2, 0xF0];
/// let fed = line::feed(&mut bytes, &mut state, &mut counts, &chunk);
/// assert_eq!(fed.taken, 7);
/// let told = fed.told.unwrap()?;
/// assert_eq!(told.position, 1);
/// assert_eq!(told.answer.contents, [0x41]);
/// assert_eq!(counts >> 32, 7);
/// # Ok::<(), csafe::Located<csafe::Error>>(())
/// ```
#[inline]
#[must_use = "the bytes that were not taken have to be fed again, and what was told is told once"]
pub fn feed<'a>(
    bytes: &'a mut [u8; HELD_LEN],
    state: &mut u64,
    counts: &mut u64,
    chunk: &[u8],
) -> Fed<'a> {
    let (taken, told) = ffi::feed(bytes, state, counts, chunk);
    Fed::of(bytes, taken, told)
}

/// As [`LineReader::finish`], on the numbers of a reader that was fed with [`feed`] or with [`trace::feed`]. Both are 0
/// afterwards. Its bytes stay as they are.
///
/// # Errors
///
/// [`Error::Truncated`]: a candidate for a frame was open.
#[inline]
pub fn finish(state: &mut u64, counts: &mut u64) -> Result<(), Located<Error>> {
    let Located { position, answer } = ffi::finish(state, counts);
    match answer.accepted() {
        Ok(_) => Ok(()),
        Err(answer) => Err(Located { position, answer }),
    }
}

/// Where the bytes come from that a reader is fed.
#[derive(Clone, Copy, Debug)]
enum Origin {
    Live,
    Trace,
}

/// A reader that is fed the bytes of a line and tells of each frame and each refusal at the byte that ends it.
///
/// A candidate for a frame begins at a start flag. Its stop flag has it judged as [`frame::read`](crate::frame::read)
/// judges a slice. A start flag before that ends it as [`Error::Truncated`] and begins the next one. Bytes outside of
/// any candidate give no answer.
///
/// A reader that [`new`](LineReader::new) makes is for a live line, and one that [`for_trace`](LineReader::for_trace)
/// makes for a stored trace, in which it judges as [`trace::read`] does. A reader stays what it is.
///
/// [`feed`](LineReader::feed) gives one answer a call, and the contents of a frame stand in the reader until the next
/// one. [`answers`](LineReader::answers) is an iterator over all answers of a chunk, whose frames have copies.
///
/// The position in an answer is that of the candidate's start flag. It is counted from 0 since the reader was new or
/// [finished](LineReader::finish) last, and a stop flag leaves the count running. A reader takes [`LIMIT`] bytes.
///
/// ```
/// use csafe::{Error, LineReader, Located};
///
/// let mut reader = LineReader::new();
/// let mut told = Vec::new();
/// for chunk in [&[0x55, 0xF0, 0x76][..], &[0x04, 0xF0, 0x05, 0x00, 0x41], &[0x41, 0xF2, 0xF0]] {
///     let mut rest = chunk;
///     while !rest.is_empty() {
///         let fed = reader.feed(rest);
///         rest = &rest[fed.taken..];
///         match fed.told {
///             Some(Ok(Located { position, answer })) => told.push((position, Ok(answer.contents.to_vec()))),
///             // The reader takes bytes again once it is finished, which may tell of a candidate that was open.
///             Some(Err(Located { answer: Error::Full, .. })) => {
///                 if let Err(Located { position, answer }) = reader.finish() {
///                     told.push((position, Err(answer)));
///                 }
///             }
///             Some(Err(Located { position, answer })) => told.push((position, Err(answer))),
///             None => {}
///         }
///     }
/// }
/// assert_eq!(told, [(1, Err(Error::Truncated)), (4, Ok(vec![0x41]))]);
/// assert_eq!(reader.finish(), Err(Located { position: 10, answer: Error::Truncated }));
/// assert_eq!(reader.finish(), Ok(()));
/// ```
#[derive(Clone)]
pub struct LineReader {
    origin: Origin,
    bytes: [u8; HELD_LEN],
    state: u64,
    counts: u64,
}

impl LineReader {
    /// A reader for a live line, outside of any candidate.
    #[inline]
    #[must_use]
    pub const fn new() -> LineReader {
        LineReader::of(Origin::Live)
    }

    /// A reader for a stored trace, outside of any candidate. It hands out standard frames too, also after a
    /// [`finish`](LineReader::finish). It is not for bytes that come from a machine: [`trace`] says why.
    ///
    /// ```
    /// use csafe::frame::Kind;
    /// use csafe::{Error, LineReader};
    ///
    /// let kept = [0xF1, 0x24, 0x02, 0x03, 0x00, 0x25, 0xF2];
    /// let mut reader = LineReader::for_trace();
    /// let told: Vec<_> = reader.answers(&kept).collect::<Result<_, _>>()?;
    /// assert_eq!(told[0].answer.kind(), Kind::Standard);
    /// assert_eq!(told[0].answer.contents(), [0x24, 0x02, 0x03, 0x00]);
    ///
    /// let mut live = LineReader::new();
    /// let refused = live.answers(&kept).next().unwrap().unwrap_err();
    /// assert_eq!(refused.answer, Error::Unnamed);
    /// # Ok::<(), csafe::Located<Error>>(())
    /// ```
    #[inline]
    #[must_use]
    pub const fn for_trace() -> LineReader {
        LineReader::of(Origin::Trace)
    }

    #[inline]
    const fn of(origin: Origin) -> LineReader {
        LineReader {
            origin,
            bytes: [0; HELD_LEN],
            state: 0,
            counts: 0,
        }
    }

    /// Feeds bytes up to the first that is answered. Answers how many were taken, and what they gave. With no answer
    /// all of them were taken, up to the two limits below. An empty chunk gives no answer. The next call starts right
    /// after the last byte taken.
    ///
    /// A chunk longer than [`CHUNK_LIMIT`] is cut to its first [`CHUNK_LIMIT`] bytes, so with no answer among those
    /// that many were taken. Before a byte that would be one more than [`LIMIT`] the call stops, and with no answer
    /// before it only those up to there were taken. The next call is then refused.
    ///
    /// However a stream that the reader can take is cut into calls, its answers are those of its bytes fed one by one.
    ///
    /// # Errors
    ///
    /// The first byte is told as [`Error::Full`], before any other refusal, where the reader has taken [`LIMIT`] bytes.
    /// No byte is taken, and the reader stays as it is. It takes bytes again after a [`finish`](LineReader::finish).
    ///
    /// A candidate is told as [`Error::Truncated`] where a start flag comes before its stop flag. At its stop flag it
    /// is told, in this order, as
    ///
    /// 1. [`Error::TooLong`]: it is over [`WIRE_LIMIT`](crate::frame::WIRE_LIMIT) long.
    /// 2. [`Error::BadEscape`]: F3 is not followed by 00 to 03.
    /// 3. [`Error::TooShort`]: a checksum or an address is missing.
    /// 4. [`Error::BadChecksum`]: the checksum is not the one that the contents have.
    /// 5. [`Error::Unnamed`]: it is a standard frame, and the reader is for a live line.
    ///
    /// The reader goes on after each of these.
    #[inline]
    #[must_use = "the bytes that were not taken have to be fed again, and what was told is told once"]
    pub fn feed(&mut self, chunk: &[u8]) -> Fed<'_> {
        let (bytes, state, counts) = (&mut self.bytes, &mut self.state, &mut self.counts);
        match self.origin {
            Origin::Live => feed(bytes, state, counts, chunk),
            Origin::Trace => trace::feed(bytes, state, counts, chunk),
        }
    }

    /// The answers of a chunk of any length, in order. It is fed by as many calls of [`feed`](LineReader::feed) as it
    /// needs, each when the next answer is asked for.
    ///
    /// Each frame has a copy of its contents, so it can be kept while the reader goes on.
    ///
    /// Where the iterator is dropped before it has answered `None`, the bytes after its last answer are not fed.
    /// [`Answers::rest`] has them.
    ///
    /// # Errors
    ///
    /// Candidates are refused as by [`feed`](LineReader::feed), which does not end the iterator. Where the reader is
    /// full, [`Error::Full`] is its last answer, and [`Answers::rest`] has the bytes that were not taken.
    ///
    /// ```
    /// use csafe::{Error, LineReader, Located};
    ///
    /// let mut reader = LineReader::new();
    /// let chunk = [0xF0, 0x05, 0xF0, 0x00, 0x05, 0x41, 0x41, 0xF2, 0x55, 0xF0];
    /// let mut answers = reader.answers(&chunk);
    /// let truncated = |position| Located { position, answer: Error::Truncated };
    /// assert_eq!(answers.next(), Some(Err(truncated(0))));
    /// assert_eq!(answers.rest(), &chunk[3..]);
    /// let told = answers.next().unwrap()?;
    /// assert_eq!(answers.next(), None);
    /// assert_eq!(answers.rest(), []);
    ///
    /// assert_eq!(reader.finish(), Err(truncated(9)));
    /// assert_eq!(told.position, 2);
    /// assert_eq!(told.answer.contents(), [0x41]);
    /// # Ok::<(), Located<Error>>(())
    /// ```
    #[inline]
    pub fn answers<'r, 'c>(&'r mut self, chunk: &'c [u8]) -> Answers<'r, 'c> {
        Answers {
            reader: self,
            rest: chunk,
            is_full: false,
        }
    }

    /// Ends the input, after which the reader is as new, for a live line or for a trace as before. Positions begin at 0
    /// again. A reader that is full is finished like any other.
    ///
    /// # Errors
    ///
    /// [`Error::Truncated`]: a candidate for a frame was open.
    #[inline]
    pub fn finish(&mut self) -> Result<(), Located<Error>> {
        finish(&mut self.state, &mut self.counts)
    }
}

/// A reader for a live line.
impl Default for LineReader {
    #[inline]
    fn default() -> LineReader {
        LineReader::new()
    }
}

impl fmt::Debug for LineReader {
    fn fmt(&self, f: &mut fmt::Formatter<'_>) -> fmt::Result {
        f.debug_struct("LineReader")
            .field("origin", &self.origin)
            .field("state", &self.state)
            .field("counts", &self.counts)
            .finish_non_exhaustive()
    }
}

/// The answers of a chunk, which is fed as they are asked for. [`LineReader::answers`] makes it.
#[derive(Debug)]
#[must_use = "the bytes are fed as the answers are asked for"]
pub struct Answers<'r, 'c> {
    reader: &'r mut LineReader,
    rest: &'c [u8],
    /// Whether the reader takes no more of the chunk.
    is_full: bool,
}

impl<'c> Answers<'_, 'c> {
    /// The bytes that are not taken yet: those after the last answer, from the refused byte on where that is
    /// [`Error::Full`]. Once the iterator has answered `None`, none are left but those of a full reader.
    #[inline]
    #[must_use]
    pub fn rest(&self) -> &'c [u8] {
        self.rest
    }
}

impl Iterator for Answers<'_, '_> {
    type Item = Result<Located<OwnedFrame>, Located<Error>>;

    #[inline]
    fn next(&mut self) -> Option<Self::Item> {
        while !self.rest.is_empty() && !self.is_full {
            let fed = self.reader.feed(self.rest);
            self.rest = &self.rest[fed.taken..];
            self.is_full = fed.taken == 0;
            if let Some(told) = fed.told {
                return Some(told.map(|Located { position, answer }| Located {
                    position,
                    answer: OwnedFrame::copy_of(answer),
                }));
            }
        }
        None
    }

    /// Each answer is given to a byte of its own.
    #[inline]
    fn size_hint(&self) -> (usize, Option<usize>) {
        let most = if self.is_full { 0 } else { self.rest.len() };
        (0, Some(most))
    }
}

impl FusedIterator for Answers<'_, '_> {}

#[cfg(test)]
mod tests {
    use super::*;

    const FRAME: [u8; 6] = [0xF0, 0x05, 0x00, 0x41, 0x41, 0xF2];
    const FULL: Located<Error> = Located {
        position: 0,
        answer: Error::Full,
    };

    /// Readers of both origins that take so many bytes more.
    fn readers_with(left: u32) -> [LineReader; 2] {
        [LineReader::new(), LineReader::for_trace()].map(|reader| LineReader {
            counts: u64::from(LIMIT - left) << 32,
            ..reader
        })
    }

    #[test]
    fn the_iterator_tells_once_that_the_reader_is_full() {
        for mut reader in readers_with(6) {
            let chunk = [FRAME, FRAME].concat();
            let mut answers = reader.answers(&chunk);
            let told = answers.next().and_then(Result::ok);
            assert_eq!(told.map(|told| told.position), Some(LIMIT - 6));
            assert_eq!(answers.size_hint(), (0, Some(6)));
            assert_eq!(answers.next(), Some(Err(FULL)));
            for _ in 0..2 {
                assert_eq!(answers.next(), None);
                assert_eq!(
                    (answers.rest(), answers.size_hint()),
                    (&FRAME[..], (0, Some(0)))
                );
            }
            assert_eq!(reader.answers(&FRAME).next(), Some(Err(FULL)));
            assert_eq!(reader.answers(&[]).next(), None);
        }
    }

    #[test]
    fn a_full_reader_is_finished_and_takes_the_rest() {
        for mut reader in readers_with(4) {
            let mut answers = reader.answers(&FRAME);
            assert_eq!(answers.next(), Some(Err(FULL)));
            let rest = answers.rest();
            assert_eq!(rest, &FRAME[4..]);
            let position = LIMIT - 4;
            let answer = Error::Truncated;
            assert_eq!(reader.finish(), Err(Located { position, answer }));
            assert_eq!(reader.answers(rest).next(), None);
            let told = reader.answers(&FRAME).next().and_then(Result::ok);
            assert_eq!(told.map(|told| told.position), Some(2));
        }
    }
}
