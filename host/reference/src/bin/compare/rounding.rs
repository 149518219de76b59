//! How a scaled count is rounded, and where the count of a half is seen.

use std::cmp::Ordering;

use reference::wire::Call;
use reference::{Head, Kind, Received};

use crate::coverage::{joined, Item};
use crate::dictionary::{peek, request};
use crate::fixed::{is_of_sync_type, is_sync};
use crate::values::{HIGHEST_SAMPLE, RAW_STEP};

const COUNT: &str = "scaled count";
const HALF: &str = "half";
const TO_RANGE: &str = "rounded up to T";
const WIDE: &str = "past 32 bits";

const SCALING: u32 = 0x4;
const INVERTED: u32 = 0x8;

pub const ITEMS: [Item; 27] = [
    (COUNT, "step of 5,000", "whole"),
    (COUNT, "odd step", "whole"),
    (COUNT, "odd step", "down"),
    (COUNT, "odd step", "down, closest to a half"),
    (COUNT, "odd step", "up, closest to a half"),
    (COUNT, "odd step", "up"),
    (COUNT, "even step", "whole"),
    (COUNT, "even step", "down"),
    (COUNT, "even step", "down, one sample before a half"),
    (COUNT, "even step", "half, to an even count"),
    (COUNT, "even step", "half, to an odd count"),
    (COUNT, "even step", "up, one sample after a half"),
    (COUNT, "even step", "up"),
    (COUNT, "scaling off", "step other than 5,000"),
    (HALF, "sampled", "inverted"),
    (HALF, "preset", ""),
    (HALF, "read", "6004-0"),
    (HALF, "sent", "with the position at the slot"),
    (HALF, "fixed", "at a SYNC"),
    (TO_RANGE, "sampled", "above a half"),
    (TO_RANGE, "sampled", "a half"),
    (TO_RANGE, "sampled", "a half, inverted"),
    (TO_RANGE, "preset", ""),
    (WIDE, "length", ""),
    (WIDE, "length and half of the step", ""),
    (WIDE, "twice the length", ""),
    (WIDE, "twice the length and the step", ""),
];

/// What the call is an example of, with the head before and after it.
pub fn items(before: &Head, call: &Call, after: &Head) -> Vec<Item> {
    match call {
        Call::Sample(raw) if *raw <= HIGHEST_SAMPLE => sampled(after),
        Call::Receive(frame) => received(before, frame, after),
        Call::Slot if sends_timed(before) => half(after, "sent", "with the position at the slot"),
        _ => Vec::new(),
    }
}

fn sampled(head: &Head) -> Vec<Item> {
    let Some(scaled) = Scaled::of(head) else {
        return unscaled(head);
    };
    let mut items = vec![(COUNT, scaled.kind_of_step(), scaled.rounding())];
    if scaled.is_half() && scaled.inverted {
        items.push((HALF, "sampled", "inverted"));
    }
    if scaled.reaches_range() {
        items.push((TO_RANGE, "sampled", scaled.range_reached()));
    }
    items.extend(scaled.wide().map(|what| (WIDE, what, "")));
    items
}

/// 6005h keeps its value when scaling is switched off.
fn unscaled(head: &Head) -> Vec<Item> {
    match peek(head, 0x6005, 1) {
        None | Some(RAW_STEP) => Vec::new(),
        Some(_) => vec![(COUNT, "scaling off", "step other than 5,000")],
    }
}

fn received(before: &Head, frame: &Received, after: &Head) -> Vec<Item> {
    if is_sync(frame) {
        return if fixes(before, after) {
            half(after, "fixed", "at a SYNC")
        } else {
            Vec::new()
        };
    }
    let replies = joined(before, after, Kind::Reply);
    match (frame.bytes[0] >> 5, &frame.bytes[1..4]) {
        (1, [0x03, 0x60, 0]) if replies => preset(before, after),
        (2, [0x04, 0x60, 0]) if replies => half(after, "read", "6004-0"),
        _ => Vec::new(),
    }
}

/// It is seen in the offset.
fn preset(before: &Head, after: &Head) -> Vec<Item> {
    let mut items = Vec::new();
    if peek(before, 0x6509, 0) != peek(after, 0x6509, 0) {
        items.extend(half(after, "preset", ""));
        if Scaled::of(after).is_some_and(|scaled| scaled.reaches_range()) {
            items.push((TO_RANGE, "preset", ""));
        }
    }
    items
}

fn half(head: &Head, what: &'static str, how: &'static str) -> Vec<Item> {
    match Scaled::of(head) {
        Some(scaled) if scaled.is_half() => vec![(HALF, what, how)],
        _ => Vec::new(),
    }
}

/// Whether the next slot sends the position that the head has then.
fn sends_timed(head: &Head) -> bool {
    match head.first_waiting() {
        Some(kind @ (Kind::Tpdo1 | Kind::Tpdo2)) => !is_of_sync_type(head, kind),
        _ => false,
    }
}

fn fixes(before: &Head, after: &Head) -> bool {
    [Kind::Tpdo1, Kind::Tpdo2]
        .into_iter()
        .any(|kind| joined(before, after, kind) && is_of_sync_type(after, kind))
}

/// A reading with scaling on; lengths in nanometres.
struct Scaled {
    length: u64,
    step: u64,
    range: u64,
    inverted: bool,
}

impl Scaled {
    /// None also where no request is served.
    fn of(head: &Head) -> Option<Scaled> {
        let operating = peek(head, 0x6000, 0)?;
        if operating & SCALING == 0 {
            return None;
        }
        Some(Scaled {
            length: u64::from(raw(head)?) * u64::from(RAW_STEP),
            step: peek(head, 0x6005, 1)?.into(),
            range: peek(head, 0x6002, 0)?.into(),
            inverted: operating & INVERTED != 0,
        })
    }

    /// Twice what the length has past a whole number of steps.
    fn twice_past(&self) -> u64 {
        2 * (self.length % self.step)
    }

    fn is_half(&self) -> bool {
        self.twice_past() == self.step
    }

    fn reaches_range(&self) -> bool {
        let above = self.length / self.step + 1;
        self.twice_past() >= self.step && above.is_multiple_of(self.range)
    }

    fn kind_of_step(&self) -> &'static str {
        match self.step {
            5_000 => "step of 5,000",
            step if step % 2 == 0 => "even step",
            _ => "odd step",
        }
    }

    fn rounding(&self) -> &'static str {
        let twice = self.twice_past();
        let from_half = twice.abs_diff(self.step);
        match (twice.cmp(&self.step), from_half) {
            (Ordering::Less, _) if twice == 0 => "whole",
            (Ordering::Less, 1) => "down, closest to a half",
            (Ordering::Less, 10_000) => "down, one sample before a half",
            (Ordering::Less, _) => "down",
            (Ordering::Equal, _) if self.length / self.step % 2 == 1 => "half, to an even count",
            (Ordering::Equal, _) => "half, to an odd count",
            (Ordering::Greater, 1) => "up, closest to a half",
            (Ordering::Greater, 10_000) => "up, one sample after a half",
            (Ordering::Greater, _) => "up",
        }
    }

    /// The first sum or product of these that takes more than 32 bits.
    fn wide(&self) -> Option<&'static str> {
        let sums = [
            (self.length, "length"),
            (self.length + self.step / 2, "length and half of the step"),
            (2 * self.length, "twice the length"),
            (2 * self.length + self.step, "twice the length and the step"),
        ];
        let found = sums.iter().find(|(sum, _)| *sum > u32::MAX.into());
        found.map(|(_, what)| *what)
    }

    fn range_reached(&self) -> &'static str {
        match (self.is_half(), self.inverted) {
            (true, true) => "a half, inverted",
            (true, false) => "a half",
            (false, _) => "above a half",
        }
    }
}

/// The raw sample: the position of a copy without scaling, direction and preset.
fn raw(head: &Head) -> Option<u32> {
    let mut copy = *head;
    while copy.waits(Kind::Reply) {
        copy.slot();
    }
    copy.receive(&request(copy.node(), 0x2B, (0x6000, 0), [0; 4]));
    copy.position()
}
