//! The reference: a second head, written from 01 and the change requests alone in
//! plain Rust. It is a CANopen slave for a linear encoder: object dictionary, NMT
//! states, SDO server (expedited, and segmented for the names), two transmit PDOs,
//! SYNC, heartbeat, emergency.
//!
//! The host owns a [`Head`] and calls it: a frame came in, a millisecond
//! passed, a sample was taken, the bus has a free slot.

#![no_std]
#![forbid(unsafe_code)]

mod entry;
mod frame;
mod head;
mod line;
mod sdo;
mod settings;
mod upload;
pub mod wire;

pub use frame::{refusal, Frame, Identity, Name, Received};
pub use head::{Head, State};
pub use line::Kind;
pub use sdo::abort;
pub use upload::Transfer;
