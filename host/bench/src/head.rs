//! What both heads offer to the benchmark.

use reference::{Frame, Identity, Name, Received};

pub const NODE: u8 = 1;
/// The device name has a full segment and a last one.
pub const IDENTITY: Identity = Identity {
    vendor: 1,
    product: 2,
    revision: 3,
    serial: 4,
    names: [Name::of(b"Haybleater"), Name::of(b"1"), Name::of(b"1")],
};

pub trait Head: Copy {
    /// A received frame in the form that this head takes.
    type Received: From<Received>;
    /// What a slot answers.
    type Due: Into<Option<Frame>>;

    /// A head of [`NODE`] and [`IDENTITY`].
    fn power_up() -> Self;
    fn receive(&mut self, frame: &Self::Received) -> u8;
    fn tick(&mut self);
    fn sample(&mut self, raw: u32) -> u8;
    fn missing(&mut self);
    fn slot(&mut self) -> Self::Due;
}
