//! The independent implementation that the proved library is compared with:
//! CSAFE frames of rowing machines measured, written and read, a line reader, the
//! commands, replies and workouts inside, the lease table for stops, a listing of
//! recorded traces, and what one changed byte does to a sound frame. Frames and the line
//! reader are of a live line or of a trace, which an [`Origin`](frame::Origin) says.
//! Packets of treadmills are written and read, and have a line reader of their own.
//!
//! Every refusal is one of the numbers in [`refusal`].

pub mod command;
pub mod damage;
pub mod frame;
pub mod lease;
pub mod line;
pub mod listing;
pub mod packet;
pub mod packet_line;
pub mod refusal;
pub mod reply;
pub mod workout;
