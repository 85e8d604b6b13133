//! The refusal numbers.

/// The output is shorter than the result.
pub const NO_ROOM: u8 = 1;
/// Over 120 bytes on the wire, over 256 for a packet, or over 117 bytes of written
/// reply contents.
pub const LONG: u8 = 2;
/// F3 without 00 to 03 after it.
pub const ESCAPE: u8 = 3;
/// Too few bytes for a frame or a packet, or an empty reply.
pub const SHORT: u8 = 4;
/// The checksum differs.
pub const SUM: u8 = 5;
/// Not one whole terminated candidate.
pub const TRUNCATED: u8 = 6;
/// A count is missing, runs beyond the end or does not fit a byte.
pub const COUNT: u8 = 7;
/// Not a status byte.
pub const STATUS: u8 = 8;
/// Not an address from 01 to FC.
pub const ADDRESS: u8 = 9;
/// The address is held already.
pub const HELD: u8 = 10;
/// The token is 0 or not the holder's.
pub const NOT_HOLDER: u8 = 11;
/// A limit of the workout is not kept.
pub const LIMITS: u8 = 12;
/// The contents are not a workout.
pub const NOT_WORKOUT: u8 = 13;
/// Token 0 cannot hold an address.
pub const TOKEN_ZERO: u8 = 14;
/// There is no n-th command or item.
pub const NONE: u8 = 15;
/// The line reader has taken as many bytes as it may before a finish.
pub const FULL: u8 = 16;
/// A standard frame, which names no sender, on a live line.
pub const UNNAMED: u8 = 17;
/// The lent lease table is not 2,048 bytes.
pub const TABLE_SIZE: u8 = 18;
/// A byte of a packet is not allowed at its place.
pub const CHARACTER: u8 = 22;
