//! The segmented upload of a name.

use super::head::Head;
use super::sdo::{abort, abort_reply};

const TOGGLE: u8 = 0x10;
const LAST: u8 = 0x01;
/// Bytes of a full segment.
const FULL: u8 = 7;

/// An upload that is under way.
#[derive(Clone, Copy, PartialEq, Eq, Debug)]
pub struct Transfer {
    /// Of the entry; the sub-index is 0.
    pub index: u16,
    /// Bytes of the name sent so far.
    pub sent: u8,
    /// The toggle bit of the segment due.
    pub toggle: bool,
}

impl Transfer {
    pub(super) fn start(index: u16) -> Transfer {
        Transfer {
            index,
            sent: 0,
            toggle: false,
        }
    }

    fn next(self) -> Transfer {
        Transfer {
            sent: self.sent + FULL,
            toggle: !self.toggle,
            ..self
        }
    }

    /// A request that names the entry, as an abort repeats it.
    fn naming(self) -> [u8; 8] {
        let [low, high] = self.index.to_le_bytes();
        [0, low, high, 0, 0, 0, 0, 0]
    }
}

impl Head {
    /// The reply to a segment request. What was running goes on if more is left.
    pub(super) fn segment(
        &mut self,
        bytes: &[u8; 8],
        running: Option<Transfer>,
    ) -> Result<[u8; 8], u32> {
        let transfer = running.ok_or(abort::COMMAND)?;
        let toggle = bytes[0] & TOGGLE;
        if (toggle != 0) != transfer.toggle {
            return Ok(abort_reply(&transfer.naming(), abort::TOGGLE));
        }
        let left = self.identity.name(transfer.index).left(transfer.sent);
        let is_last = left.len() <= usize::from(FULL);
        if !is_last {
            self.transfer = Some(transfer.next());
        }
        Ok(segment(toggle, left, is_last))
    }
}

fn segment(toggle: u8, left: &[u8], is_last: bool) -> [u8; 8] {
    let unused = FULL.saturating_sub(left.len() as u8);
    let mut reply = [0; 8];
    reply[0] = toggle | unused << 1 | if is_last { LAST } else { 0 };
    for (byte, of_name) in reply[1..].iter_mut().zip(left) {
        *byte = *of_name;
    }
    reply
}
