//! The proved head through its C interface.

use std::mem::MaybeUninit;

use crate::head::{self, IDENTITY, NODE};

/// The words of the three names.
const NAMES: usize = 25;
/// A head has at most this many words.
const WORDS: usize = 64 + NAMES;
/// A head has at most this many bytes.
pub const LARGEST: usize = WORDS * size_of::<u32>();
/// Words of memory that are lent for a head: whole cache lines, and one word more. So of many heads side by
/// side each starts at another place in its cache line.
const ROOM: usize = WORDS.next_multiple_of(16) + 1;

#[derive(Clone, Copy)]
#[repr(C)]
pub struct Head {
    memory: [u32; ROOM],
}

#[derive(Clone, Copy)]
#[repr(C)]
struct Name {
    bytes: [u8; 32],
    length: u8,
}

#[derive(Clone, Copy)]
#[repr(C)]
struct Identity {
    vendor: u32,
    product: u32,
    revision: u32,
    serial: u32,
    names: [Name; 3],
}

#[derive(Clone, Copy)]
#[repr(C)]
struct Setup {
    node: u8,
    identity: Identity,
}

#[derive(Clone, Copy)]
#[repr(C)]
pub struct Received {
    bytes: [u8; 8],
    identifier: u32,
    extended: bool,
    remote: bool,
    length: u8,
}

#[derive(Clone, Copy)]
#[repr(C)]
struct Frame {
    identifier: u32,
    length: u8,
    bytes: [u8; 8],
}

#[derive(Clone, Copy)]
#[repr(C)]
pub struct Outgoing {
    waited: bool,
    frame: Frame,
}

// The compiled `haybleater_slot` takes the address of its answer as first argument and returns this address.
// C returns a structure of that size in this way on x86-64.
extern "C" {
    fn haybleater_power_up(head: *mut u32, setup: Setup) -> u8;
    fn haybleater_receive(head: *mut u32, frame: Received) -> u8;
    fn haybleater_tick(head: *mut u32);
    fn haybleater_sample(head: *mut u32, raw: u32) -> u8;
    fn haybleater_missing(head: *mut u32);
    fn haybleater_slot(outgoing: *mut Outgoing, head: *mut u32) -> *mut Outgoing;
}

const SETUP: Setup = Setup {
    node: NODE,
    identity: Identity {
        vendor: IDENTITY.vendor,
        product: IDENTITY.product,
        revision: IDENTITY.revision,
        serial: IDENTITY.serial,
        names: [
            given(IDENTITY.names[0]),
            given(IDENTITY.names[1]),
            given(IDENTITY.names[2]),
        ],
    },
};

const fn given(name: reference::Name) -> Name {
    Name {
        bytes: name.bytes,
        length: name.length,
    }
}

/// # Safety
/// The memory is as large as a head.
unsafe fn power_up(memory: *mut u32) {
    haybleater_power_up(memory, SETUP);
}

/// The bytes of a head: up to the last word that power-up writes, whatever was in the memory before.
pub fn size() -> usize {
    let written = |held| {
        let mut memory = [held; 4 * ROOM];
        // SAFETY: the memory is four times as large as a head may be.
        unsafe { power_up(memory.as_mut_ptr()) };
        memory.iter().rposition(|word| *word != held)
    };
    let last = written(0).max(written(u32::MAX));
    last.map_or(0, |last| (last + 1) * size_of::<u32>())
}

// SAFETY of the calls: the memory holds a head since power-up. It is large enough: `size` says so and is
// checked before any other call.
impl head::Head for Head {
    type Received = Received;
    type Due = Outgoing;

    fn power_up() -> Head {
        let mut memory = [0; ROOM];
        unsafe { power_up(memory.as_mut_ptr()) };
        Head { memory }
    }

    fn receive(&mut self, frame: &Received) -> u8 {
        unsafe { haybleater_receive(self.memory.as_mut_ptr(), *frame) }
    }

    fn tick(&mut self) {
        unsafe { haybleater_tick(self.memory.as_mut_ptr()) }
    }

    fn sample(&mut self, raw: u32) -> u8 {
        unsafe { haybleater_sample(self.memory.as_mut_ptr(), raw) }
    }

    fn missing(&mut self) {
        unsafe { haybleater_missing(self.memory.as_mut_ptr()) }
    }

    fn slot(&mut self) -> Outgoing {
        let mut due = MaybeUninit::uninit();
        unsafe {
            haybleater_slot(due.as_mut_ptr(), self.memory.as_mut_ptr());
            due.assume_init()
        }
    }
}

impl From<reference::Received> for Received {
    fn from(frame: reference::Received) -> Received {
        Received {
            identifier: frame.identifier,
            extended: frame.extended,
            remote: frame.remote,
            length: frame.length,
            bytes: frame.bytes,
        }
    }
}

impl From<Outgoing> for Option<reference::Frame> {
    fn from(due: Outgoing) -> Option<reference::Frame> {
        due.waited.then_some(reference::Frame {
            identifier: due.frame.identifier,
            length: due.frame.length,
            bytes: due.frame.bytes,
        })
    }
}
