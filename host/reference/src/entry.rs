//! The object dictionary: its entries, their widths and access. 01, "Entries".

use super::sdo::abort;
use super::settings::{Which, RAW_STEP};

const DEVICE_TYPE: u32 = 0x0008_0196;
const SYNC_IDENTIFIER: u32 = 0x80;
const MAPPED_POSITION: u32 = 0x6004_0020;

#[derive(Clone, Copy, PartialEq, Eq, Debug)]
pub(super) enum Entry {
    /// Width in bytes and the value, which never changes.
    Fixed(u8, u32),
    ErrorRegister,
    ErrorCount,
    /// 1 is the newest.
    Error(u8),
    Save,
    Load,
    Emergency,
    Inhibit,
    Heartbeat,
    Identity(u8),
    /// The index; the sub-index is 0.
    Name(u16),
    PdoIdentifier(Which),
    PdoType(Which),
    PdoTimer(Which),
    Operating,
    Range,
    Preset,
    Position,
    Step,
    Status,
    Alarms,
    Offset,
}

impl Entry {
    /// The entry, or the abort code of one that isn't there.
    pub(super) fn find(index: u16, sub: u8) -> Result<Entry, u32> {
        let found = match index {
            0x1000..=0x1018 => general(index, sub),
            0x1800 => pdo_communication(Which::One, sub),
            0x1801 => pdo_communication(Which::Two, sub),
            0x1A00 | 0x1A01 => pdo_mapping(sub),
            0x6000..=0x6509 => profile(index, sub),
            _ => None,
        };
        match found {
            Some(entry) => Ok(entry),
            None if has_index(index) => Err(abort::NO_SUB_INDEX),
            None => Err(abort::NO_INDEX),
        }
    }

    /// Width in bytes; a name's is that of its size.
    pub(super) fn width(self) -> u8 {
        match self {
            Entry::Fixed(width, _) => width,
            Entry::ErrorRegister | Entry::ErrorCount | Entry::PdoType(_) => 1,
            Entry::Inhibit
            | Entry::Heartbeat
            | Entry::PdoTimer(_)
            | Entry::Operating
            | Entry::Status
            | Entry::Alarms => 2,
            _ => 4,
        }
    }

    pub(super) fn is_writable(self) -> bool {
        !matches!(
            self,
            Entry::Fixed(..)
                | Entry::ErrorRegister
                | Entry::Error(_)
                | Entry::Identity(_)
                | Entry::Name(_)
                | Entry::Position
                | Entry::Status
                | Entry::Alarms
                | Entry::Offset
        )
    }
}

fn general(index: u16, sub: u8) -> Option<Entry> {
    Some(match (index, sub) {
        (0x1000, 0) => Entry::Fixed(4, DEVICE_TYPE),
        (0x1001, 0) => Entry::ErrorRegister,
        (0x1003, 0) => Entry::ErrorCount,
        (0x1003, 1..=4) => Entry::Error(sub),
        (0x1005, 0) => Entry::Fixed(4, SYNC_IDENTIFIER),
        (0x1008..=0x100A, 0) => Entry::Name(index),
        (0x1010 | 0x1011, 0) => Entry::Fixed(1, 1),
        (0x1010, 1) => Entry::Save,
        (0x1011, 1) => Entry::Load,
        (0x1014, 0) => Entry::Emergency,
        (0x1015, 0) => Entry::Inhibit,
        (0x1017, 0) => Entry::Heartbeat,
        (0x1018, 0) => Entry::Fixed(1, 4),
        (0x1018, 1..=4) => Entry::Identity(sub),
        _ => return None,
    })
}

fn pdo_communication(which: Which, sub: u8) -> Option<Entry> {
    Some(match sub {
        0 => Entry::Fixed(1, 5),
        1 => Entry::PdoIdentifier(which),
        2 => Entry::PdoType(which),
        5 => Entry::PdoTimer(which),
        _ => return None,
    })
}

fn pdo_mapping(sub: u8) -> Option<Entry> {
    Some(match sub {
        0 => Entry::Fixed(1, 1),
        1 => Entry::Fixed(4, MAPPED_POSITION),
        _ => return None,
    })
}

fn profile(index: u16, sub: u8) -> Option<Entry> {
    Some(match (index, sub) {
        (0x6000, 0) => Entry::Operating,
        (0x6002, 0) => Entry::Range,
        (0x6003, 0) => Entry::Preset,
        (0x6004, 0) => Entry::Position,
        (0x6005, 0) => Entry::Fixed(1, 1),
        (0x6005, 1) => Entry::Step,
        (0x6200, 0) => Entry::PdoTimer(Which::One),
        (0x6500, 0) => Entry::Status,
        (0x6501, 0) => Entry::Fixed(4, RAW_STEP),
        (0x6503, 0) => Entry::Alarms,
        (0x6504, 0) => Entry::Fixed(2, 1),
        (0x6509, 0) => Entry::Offset,
        _ => return None,
    })
}

fn has_index(index: u16) -> bool {
    matches!(
        index,
        0x1000
            | 0x1001
            | 0x1003
            | 0x1005
            | 0x1008..=0x100A
            | 0x1010
            | 0x1011
            | 0x1014
            | 0x1015
            | 0x1017
            | 0x1018
            | 0x1800
            | 0x1801
            | 0x1A00
            | 0x1A01
            | 0x6000
            | 0x6002..=0x6005 | 0x6200 | 0x6500 | 0x6501 | 0x6503 | 0x6504 | 0x6509
    )
}
