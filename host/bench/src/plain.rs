//! The reference behind functions that are not inlined, so that its calls cost one call too.

use reference::{Frame, Head, Received};

use crate::head::{self, IDENTITY, NODE};

impl head::Head for Head {
    type Received = Received;
    type Due = Option<Frame>;

    fn power_up() -> Head {
        Head::power_up(NODE, IDENTITY).1
    }

    #[inline(never)]
    fn receive(&mut self, frame: &Received) -> u8 {
        Head::receive(self, frame)
    }

    #[inline(never)]
    fn tick(&mut self) {
        Head::tick(self)
    }

    #[inline(never)]
    fn sample(&mut self, raw: u32) -> u8 {
        Head::sample(self, raw)
    }

    #[inline(never)]
    fn missing(&mut self) {
        Head::missing(self)
    }

    #[inline(never)]
    fn slot(&mut self) -> Option<Frame> {
        Head::slot(self)
    }
}
