//! CSAFE frames of a live line and of stored traces, programmed workouts, machine leases and treadmill packets for a
//! portal's server.
//!
//! The work is done by functions that are proved: each takes any bytes and any numbers, returns, and answers a
//! result or one numbered refusal, an [`Error`]. A refusal leaves every lent byte as it was, but that a packet reader,
//! and a line reader that is not full, goes on. After a success the bytes of the output past the result are as they
//! were. This crate passes slices and numbers to these functions and takes their answers apart, which is tested. It
//! allocates nothing and does without the standard library.
//!
//! - [`frame`] tells how long a frame is on the wire, writes it, and reads one from a slice.
//! - [`mod@line`] reads the frames of a live line, in whatever chunks its bytes arrive, and tells where each began.
//! - [`trace`] does both for stored traces, in which standard frames are read as they stand.
//! - [`workout`] writes a programmed workout, and the frame that takes it to a machine.
//! - [`lease`] keeps who holds which machine, and writes the frame that stops it for the holder alone.
//! - [`packet`] writes and reads the packets of treadmills, from a slice and from a line.
//!
//! A standard frame names no sender. On a live line it is refused as [`Error::Unnamed`], in reading and in writing.
//!
//! A frame's checksum does not cover its addresses, so an accepted frame says nothing sure about who sent it.
//!
//! # Example
//!
//! A portal holds machine 05, reads what the line hands over, and stops the machine.
//!
//! ```
//! use csafe::frame::Kind;
//! use csafe::{lease, Error, LeaseTable, LineReader, Located};
//!
//! const MACHINE: u8 = 0x05;
//! // A real token comes from a generator whose numbers are hard to guess.
//! const TOKEN: u64 = 0x5EED_0001;
//!
//! /// Reads one chunk of the line, prints what it tells, and counts the frames that name the machine as their source.
//! fn read_chunk(reader: &mut LineReader, chunk: &[u8]) -> usize {
//!     let mut count = 0;
//!     for answer in reader.answers(chunk) {
//!         match answer {
//!             Ok(Located { position, answer: frame }) => {
//!                 println!("at {position}: {:?} {:02X?}", frame.kind(), frame.contents());
//!                 count += usize::from(frame.kind() == Kind::Extended { to: 0x00, from: MACHINE });
//!             }
//!             Err(refusal) => println!("refused: {refusal}"),
//!         }
//!     }
//!     count
//! }
//!
//! let mut leases = LeaseTable::new();
//! leases.hold(MACHINE, TOKEN)?;
//!
//! // A stray byte, a frame cut short, and two frames of the machine, as they happen to arrive.
//! let chunks: [&[u8]; 4] = [
//!     &[0x55, 0xF0, 0x00],
//!     &[0xF0, 0x00, 0x05, 0x81],
//!     &[0x81, 0xF2, 0xF0, 0x00, 0x05, 0x01, 0xF3],
//!     &[0x02, 0xF3, 0x03, 0xF2],
//! ];
//! // After `line::LIMIT` bytes a reader has to be finished; `LineReader` has an example that does so.
//! let mut reader = LineReader::new();
//! let mut count = 0;
//! for chunk in chunks {
//!     count += read_chunk(&mut reader, chunk);
//! }
//! reader.finish()?;
//! assert_eq!(count, 2);
//!
//! let mut wire = [0; lease::STOP_LIMIT];
//! assert_eq!(leases.stop(MACHINE, 1, &mut wire), Err(Error::NotHolder));
//! let len = leases.stop(MACHINE, TOKEN, &mut wire)?;
//! assert_eq!(wire[..len], [0xF0, 0x05, 0x00, 0x76, 0x04, 0x13, 0x02, 0x01, 0x02, 0x60, 0xF2]);
//! # Ok::<(), Box<dyn std::error::Error>>(())
//! ```

#![no_std]
#![deny(missing_docs, missing_debug_implementations)]
#![deny(unsafe_code, clippy::undocumented_unsafe_blocks)]

#[cfg(test)]
extern crate std;

mod error;
#[allow(unsafe_code)]
mod ffi;
pub mod frame;
pub mod lease;
pub mod line;
mod located;
pub mod packet;
pub mod trace;
pub mod workout;

pub use error::Error;
pub use frame::{Frame, OwnedFrame};
pub use lease::LeaseTable;
pub use line::LineReader;
pub use located::Located;
pub use packet::{OwnedPacket, Packet, PacketReader};
pub use workout::Workout;

/// The snippet of the repository's README is compiled and run with the tests.
#[doc = include_str!("../../../README.md")]
#[cfg(doctest)]
struct ReadMe;
