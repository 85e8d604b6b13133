//! The proved library against an independent implementation in Rust, on many inputs.
//!
//! No buffer is cleared. Before each call every output is filled with a pattern, and afterwards it has to hold the
//! pattern past the result, around the lent slice, and, after a refusal, everywhere. The inputs come from one
//! generator with a fixed seed, which every failure names together with the bytes.

#[path = "../common/by_origin.rs"]
mod by_origin;
#[path = "../common/mod.rs"]
mod common;
mod cuts;
mod damage;
#[path = "../common/frame_damage.rs"]
mod frame_damage;
mod frames;
#[path = "../common/held.rs"]
mod held;
#[path = "../common/lease_calls.rs"]
mod lease_calls;
mod leases;
mod lengths;
#[path = "../common/output.rs"]
mod lent_output;
mod lines;
#[path = "../common/listed.rs"]
mod listed;
mod listings;
mod output;
#[path = "../common/packet_damage.rs"]
mod packet_damage;
#[path = "../common/packet_held.rs"]
mod packet_held;
mod packets;
#[path = "../common/program.rs"]
mod program;
mod tally;
#[path = "../common/traces.rs"]
mod traces;
mod workouts;

use plain::frame::Origin;

/// Where bytes may come from. Frames, lengths and lines are compared for both wherever the origin can matter.
const ORIGINS: [Origin; 2] = [Origin::Live, Origin::Trace];
