//! The entries of the object dictionary, and frames that ask for them.

use reference::{Head, Kind, Received};

pub struct Entry {
    pub index: u16,
    pub sub: u8,
    pub name: &'static str,
    pub width: u8,
    pub writable: bool,
}

const fn ro(index: u16, sub: u8, width: u8, name: &'static str) -> Entry {
    Entry {
        index,
        sub,
        name,
        width,
        writable: false,
    }
}

const fn rw(index: u16, sub: u8, width: u8, name: &'static str) -> Entry {
    Entry {
        index,
        sub,
        name,
        width,
        writable: true,
    }
}

/// The names among them; their width is that of the size that a read tells.
pub const NAMES: [(u16, &str); 3] = [(0x1008, "1008-0"), (0x1009, "1009-0"), (0x100A, "100A-0")];

pub const ENTRIES: [Entry; 47] = [
    ro(0x1000, 0, 4, "1000-0"),
    ro(0x1001, 0, 1, "1001-0"),
    rw(0x1003, 0, 1, "1003-0"),
    ro(0x1003, 1, 4, "1003-1"),
    ro(0x1003, 2, 4, "1003-2"),
    ro(0x1003, 3, 4, "1003-3"),
    ro(0x1003, 4, 4, "1003-4"),
    ro(0x1005, 0, 4, "1005-0"),
    ro(0x1008, 0, 4, "1008-0"),
    ro(0x1009, 0, 4, "1009-0"),
    ro(0x100A, 0, 4, "100A-0"),
    ro(0x1010, 0, 1, "1010-0"),
    rw(0x1010, 1, 4, "1010-1"),
    ro(0x1011, 0, 1, "1011-0"),
    rw(0x1011, 1, 4, "1011-1"),
    rw(0x1014, 0, 4, "1014-0"),
    rw(0x1015, 0, 2, "1015-0"),
    rw(0x1017, 0, 2, "1017-0"),
    ro(0x1018, 0, 1, "1018-0"),
    ro(0x1018, 1, 4, "1018-1"),
    ro(0x1018, 2, 4, "1018-2"),
    ro(0x1018, 3, 4, "1018-3"),
    ro(0x1018, 4, 4, "1018-4"),
    ro(0x1800, 0, 1, "1800-0"),
    rw(0x1800, 1, 4, "1800-1"),
    rw(0x1800, 2, 1, "1800-2"),
    rw(0x1800, 5, 2, "1800-5"),
    ro(0x1801, 0, 1, "1801-0"),
    rw(0x1801, 1, 4, "1801-1"),
    rw(0x1801, 2, 1, "1801-2"),
    rw(0x1801, 5, 2, "1801-5"),
    ro(0x1A00, 0, 1, "1A00-0"),
    ro(0x1A00, 1, 4, "1A00-1"),
    ro(0x1A01, 0, 1, "1A01-0"),
    ro(0x1A01, 1, 4, "1A01-1"),
    rw(0x6000, 0, 2, "6000-0"),
    rw(0x6002, 0, 4, "6002-0"),
    rw(0x6003, 0, 4, "6003-0"),
    ro(0x6004, 0, 4, "6004-0"),
    ro(0x6005, 0, 1, "6005-0"),
    rw(0x6005, 1, 4, "6005-1"),
    rw(0x6200, 0, 2, "6200-0"),
    ro(0x6500, 0, 2, "6500-0"),
    ro(0x6501, 0, 4, "6501-0"),
    ro(0x6503, 0, 2, "6503-0"),
    ro(0x6504, 0, 2, "6504-0"),
    ro(0x6509, 0, 4, "6509-0"),
];

pub fn data_frame(identifier: u32, data: &[u8]) -> Received {
    let mut bytes = [0; 8];
    bytes[..data.len()].copy_from_slice(data);
    Received {
        identifier,
        extended: false,
        remote: false,
        length: data.len() as u8,
        bytes,
    }
}

/// `command` is the first byte; `node` the head's.
pub fn request(node: u8, command: u8, (index, sub): (u16, u8), data: [u8; 4]) -> Received {
    let [low, high] = index.to_le_bytes();
    let [a, b, c, d] = data;
    data_frame(
        0x600 + u32::from(node),
        &[command, low, high, sub, a, b, c, d],
    )
}

pub fn read(node: u8, index: u16, sub: u8) -> Received {
    request(node, 0x40, (index, sub), [0; 4])
}

/// Asks for a segment; the top bits and the toggle are put into the bytes.
pub fn segment(node: u8, toggle: bool, mut bytes: [u8; 8]) -> Received {
    bytes[0] = 0x60 | u8::from(toggle) << 4 | bytes[0] & 0x0F;
    data_frame(0x600 + u32::from(node), &bytes)
}

pub fn nmt(command: u8, node: u8) -> Received {
    data_frame(0x000, &[command, node])
}

/// What an entry reads at present, asked of a copy; none if blank or not to be asked now.
pub fn peek(head: &Head, index: u16, sub: u8) -> Option<u32> {
    let mut copy = *head;
    while copy.waits(Kind::Reply) {
        copy.slot();
    }
    copy.receive(&read(copy.node(), index, sub));
    while copy.waits(Kind::Reply) {
        let is_reply = copy.first_waiting() == Some(Kind::Reply);
        let bytes = copy.slot()?.bytes;
        if is_reply && bytes[0] != 0x80 {
            return Some(u32::from_le_bytes([bytes[4], bytes[5], bytes[6], bytes[7]]));
        }
    }
    None
}

/// Every entry, and around each the places where nothing is.
pub fn places() -> Vec<(u16, u8)> {
    let mut places: Vec<(u16, u8)> = Vec::new();
    for entry in &ENTRIES {
        places.push((entry.index, entry.sub));
        places.push((entry.index, entry.sub + 1));
        places.push((entry.index + 1, 0));
        places.push((entry.index - 1, 0));
    }
    places.extend(ENTRIES.map(|entry| (entry.index, 0xFF)));
    places.extend([(0x1800, 4), (0x1801, 4), (0x0000, 0), (0xFFFF, 0)]);
    places.sort_unstable();
    places.dedup();
    places
}
