//! What the host passes to the head, and the frames that the head sends.

/// Numbers a call answers with; 0 is no refusal.
pub mod refusal {
    pub const NONE: u8 = 0;
    pub const IDENTIFIER: u8 = 1;
    pub const LENGTH: u8 = 2;
    pub const SAMPLE: u8 = 3;
    pub const NODE: u8 = 4;
    pub const NAME: u8 = 5;
}

const HIGHEST_11_BIT: u32 = 0x7FF;
const HIGHEST_29_BIT: u32 = 0x1FFF_FFFF;
const LONGEST: u8 = 8;
const LONGEST_NAME: usize = 32;

/// A name as the host gives it: any length, any bytes. Those past the length say nothing.
#[derive(Clone, Copy, PartialEq, Eq, Debug)]
pub struct Name {
    pub bytes: [u8; LONGEST_NAME],
    pub length: u8,
}

impl Name {
    /// Of at most 32 bytes.
    pub const fn of(text: &[u8]) -> Name {
        let mut bytes = [0; LONGEST_NAME];
        let mut at = 0;
        while at < text.len() {
            bytes[at] = text[at];
            at += 1;
        }
        Name {
            bytes,
            length: text.len() as u8,
        }
    }

    pub(super) fn is_valid(&self) -> bool {
        (1..=LONGEST_NAME).contains(&usize::from(self.length))
    }

    /// What is left of it when the first bytes are sent.
    pub(super) fn left(&self, sent: u8) -> &[u8] {
        let left = usize::from(sent)..usize::from(self.length);
        self.bytes.get(left).unwrap_or_default()
    }
}

/// The four numbers of entry 1018h, and the names of 1008h, 1009h and 100Ah.
#[derive(Clone, Copy, PartialEq, Eq, Debug)]
pub struct Identity {
    pub vendor: u32,
    pub product: u32,
    pub revision: u32,
    pub serial: u32,
    pub names: [Name; 3],
}

impl Identity {
    /// That of a head whose power-up was refused.
    pub const UNKNOWN: Identity = Identity {
        vendor: 0,
        product: 0,
        revision: 0,
        serial: 0,
        names: [Name::of(b"?"); 3],
    };

    pub(super) fn name(&self, index: u16) -> &Name {
        let [device, hardware, software] = &self.names;
        match index {
            0x1008 => device,
            0x1009 => hardware,
            _ => software,
        }
    }
}

/// A frame as the host's driver hands it over; any values at all.
#[derive(Clone, Copy, PartialEq, Eq, Debug)]
pub struct Received {
    pub identifier: u32,
    pub extended: bool,
    pub remote: bool,
    pub length: u8,
    pub bytes: [u8; 8],
}

impl Received {
    pub(super) fn refusal(&self) -> u8 {
        let highest = if self.extended {
            HIGHEST_29_BIT
        } else {
            HIGHEST_11_BIT
        };
        if self.identifier > highest {
            refusal::IDENTIFIER
        } else if self.length > LONGEST {
            refusal::LENGTH
        } else {
            refusal::NONE
        }
    }

    /// The head listens to data frames with 11-bit identifiers only.
    pub(super) fn is_plain_data(&self) -> bool {
        !self.extended && !self.remote
    }
}

/// A frame to be sent; bytes past the length are 0.
#[derive(Clone, Copy, PartialEq, Eq, Debug)]
pub struct Frame {
    pub identifier: u32,
    pub length: u8,
    pub bytes: [u8; 8],
}

impl Frame {
    pub(super) fn of_one(identifier: u32, byte: u8) -> Frame {
        Frame {
            identifier,
            length: 1,
            bytes: [byte, 0, 0, 0, 0, 0, 0, 0],
        }
    }

    pub(super) fn of_four(identifier: u32, value: u32) -> Frame {
        let [a, b, c, d] = value.to_le_bytes();
        Frame {
            identifier,
            length: 4,
            bytes: [a, b, c, d, 0, 0, 0, 0],
        }
    }

    pub(super) fn of_eight(identifier: u32, bytes: [u8; 8]) -> Frame {
        Frame {
            identifier,
            length: 8,
            bytes,
        }
    }
}
