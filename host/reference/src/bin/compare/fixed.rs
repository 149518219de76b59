//! What a call does to a waiting position frame of types 1 to 240, whose position is fixed.

use reference::wire::Call;
use reference::{Head, Kind, Received};

use crate::coverage::{is_due, Item};
use crate::dictionary::peek;

const FRAME: &str = "SYNC frame";
const WAITS: &str = "waits";
const SENT: &str = "sent";
const ANEW: &str = "fixed anew";
const KEPT: &str = "kept";

pub const ITEMS: [Item; 18] = [
    (FRAME, WAITS, "while missing"),
    (FRAME, WAITS, "beside one with another position"),
    (FRAME, SENT, "while missing"),
    (FRAME, SENT, "not with the present position"),
    (FRAME, SENT, "not with the present position, type 240"),
    (FRAME, ANEW, "the last in the line"),
    (FRAME, ANEW, "with others behind it"),
    (FRAME, KEPT, "by SYNC that isn't due"),
    (FRAME, KEPT, "by due SYNC while missing"),
    (FRAME, KEPT, "by sample"),
    (FRAME, KEPT, "by sample after a gap"),
    (FRAME, KEPT, "by missing sample"),
    (FRAME, KEPT, "by missing sample that takes the other frame"),
    (FRAME, KEPT, "by another missing sample"),
    (FRAME, KEPT, "by write of 6000-0"),
    (FRAME, KEPT, "by write of 6002-0"),
    (FRAME, KEPT, "by write of 6003-0"),
    (FRAME, KEPT, "by write of 6005-1"),
];

/// What the call is an example of, with the head before and after it.
pub fn items(before: &Head, call: &Call, after: &Head) -> Vec<Item> {
    let mut items = Vec::new();
    for (kind, other) in [(Kind::Tpdo1, Kind::Tpdo2), (Kind::Tpdo2, Kind::Tpdo1)] {
        if !waits_fixed(before, kind) {
            continue;
        }
        if !before.reading_good() {
            items.push((FRAME, WAITS, "while missing"));
        }
        if waits_fixed(before, other) && carried(before, kind) != carried(before, other) {
            items.push((FRAME, WAITS, "beside one with another position"));
        }
        let how = match call {
            Call::Slot => sent(before, kind, after).map(|how| (FRAME, SENT, how)),
            _ if carried(before, kind) != carried(after, kind) => {
                anew(kind, after).map(|how| (FRAME, ANEW, how))
            }
            // It is seen only if the head's own position is another one.
            _ if carried(after, kind) == after.position() => None,
            _ => kept(before, call, (kind, other), after).map(|how| (FRAME, KEPT, how)),
        };
        items.extend(how);
    }
    items
}

fn sent(before: &Head, kind: Kind, after: &Head) -> Option<&'static str> {
    if after.waits(kind) || carried(before, kind) == before.position() {
        return None;
    }
    Some(match transmission(before, kind) {
        _ if !before.reading_good() => "while missing",
        Some(240) => "not with the present position, type 240",
        _ => "not with the present position",
    })
}

/// None if it was withdrawn.
fn anew(kind: Kind, after: &Head) -> Option<&'static str> {
    let (_, rest) = leave(after, kind)?;
    Some(if rest.anything_waits() {
        "with others behind it"
    } else {
        "the last in the line"
    })
}

fn kept(
    before: &Head,
    call: &Call,
    (kind, other): (Kind, Kind),
    after: &Head,
) -> Option<&'static str> {
    let was_good = before.reading_good();
    Some(match call {
        Call::Sample(_) if !was_good => "by sample after a gap",
        Call::Sample(_) => "by sample",
        Call::Missing if !was_good => "by another missing sample",
        Call::Missing if before.waits(other) != after.waits(other) => {
            "by missing sample that takes the other frame"
        }
        Call::Missing => "by missing sample",
        Call::Receive(frame) if before.position() != after.position() => written(frame)?,
        Call::Receive(frame) => match (is_due(before, call, kind), was_good) {
            (true, _) => "by due SYNC while missing",
            (false, true) if is_sync(frame) => "by SYNC that isn't due",
            _ => return None,
        },
        _ => return None,
    })
}

fn written(request: &Received) -> Option<&'static str> {
    let [_, low, high, ..] = request.bytes;
    match u16::from_le_bytes([low, high]) {
        0x6000 => Some("by write of 6000-0"),
        0x6002 => Some("by write of 6002-0"),
        0x6003 => Some("by write of 6003-0"),
        0x6005 => Some("by write of 6005-1"),
        _ => None,
    }
}

pub fn is_sync(frame: &Received) -> bool {
    let plain = !frame.extended && !frame.remote;
    plain && frame.identifier == 0x080 && frame.length <= 1
}

fn waits_fixed(head: &Head, kind: Kind) -> bool {
    head.waits(kind) && is_of_sync_type(head, kind)
}

/// Of types 1 to 240; false also where no request is served.
pub fn is_of_sync_type(head: &Head, kind: Kind) -> bool {
    transmission(head, kind).is_some_and(|transmission| transmission <= 240)
}

fn transmission(head: &Head, kind: Kind) -> Option<u32> {
    match kind {
        Kind::Tpdo1 => peek(head, 0x1800, 2),
        Kind::Tpdo2 => peek(head, 0x1801, 2),
        _ => None,
    }
}

/// The position with which the frame would leave now; none if it doesn't wait.
fn carried(head: &Head, kind: Kind) -> Option<u32> {
    leave(head, kind).map(|(position, _)| position)
}

/// The same, and the head with nothing left before the frame nor the frame itself.
fn leave(head: &Head, kind: Kind) -> Option<(u32, Head)> {
    let mut copy = *head;
    while copy.waits(kind) {
        let first = copy.first_waiting();
        let [a, b, c, d, ..] = copy.slot()?.bytes;
        if first == Some(kind) {
            return Some((u32::from_le_bytes([a, b, c, d]), copy));
        }
    }
    None
}
