//! Counts what the runs reach. They must reach every expected item, and no other.

use std::collections::BTreeMap;
use std::fmt;

use reference::wire::{Answer, Call, Outcome};
use reference::{abort, refusal, Frame, Head, Identity, Kind, Received, State, Transfer};

use crate::dictionary::{peek, ENTRIES, NAMES};
use crate::fixed::{self, is_of_sync_type};
use crate::rounding;

/// Group, what, how.
pub type Item = (&'static str, &'static str, &'static str);

const STATES: [(u8, &str); 4] = [
    (State::Initialising as u8, "Initialising"),
    (State::Stopped as u8, "Stopped"),
    (State::Operational as u8, "Operational"),
    (State::PreOperational as u8, "Pre-operational"),
];

const ABORTS: [(u32, &str); 11] = [
    (abort::TOGGLE, "0503 0000h"),
    (abort::COMMAND, "0504 0001h"),
    (abort::READ_ONLY, "0601 0002h"),
    (abort::NO_INDEX, "0602 0000h"),
    (abort::TOO_LONG, "0607 0012h"),
    (abort::TOO_SHORT, "0607 0013h"),
    (abort::NO_SUB_INDEX, "0609 0011h"),
    (abort::VALUE, "0609 0030h"),
    (abort::SIGNATURE, "0800 0020h"),
    (abort::STATE, "0800 0022h"),
    (abort::BLANK, "0800 0024h"),
];

const KINDS: [Kind; 5] = [
    Kind::Emergency,
    Kind::Reply,
    Kind::Heartbeat,
    Kind::Tpdo1,
    Kind::Tpdo2,
];

const REFUSALS: [&str; 6] = ["", "1", "2", "3", "4", "5"];
const LENGTHS: [&str; 6] = ["0", "1", "2", "3", "4", "5"];

const POWER_UP: &str = "by power-up";
const TICK: &str = "by tick";
const SAMPLE: &str = "by sample";
const NO_SAMPLE: &str = "by missing sample";
const SLOT: &str = "by slot";
const COPY: &str = "by copy";
const SYNC: &str = "by SYNC";
const REQUEST: &str = "by request";
const RESET: &str = "by reset";
const TO_STOPPED: &str = "by entry to Stopped";
const TO_OPERATIONAL: &str = "by entry to Operational";
const TO_PRE_OPERATIONAL: &str = "by entry to Pre-operational";

const READ: &str = "by read";
const WRITE: &str = "by write";
const SEGMENT: &str = "by segment";
const WRONG_TOGGLE: &str = "by wrong toggle";
const CLIENT_ABORT: &str = "by client's abort";
const OTHER_REQUEST: &str = "by other top bits";

const TRANSFERS: [(&str, &[&str]); 3] = [
    (
        "over",
        &[
            READ,
            WRITE,
            SEGMENT,
            WRONG_TOGGLE,
            CLIENT_ABORT,
            OTHER_REQUEST,
            RESET,
            TO_STOPPED,
        ],
    ),
    // By the read of a name: another one.
    (
        "running",
        &[READ, SEGMENT, TO_OPERATIONAL, TO_PRE_OPERATIONAL],
    ),
    (
        "running, a reply waits",
        &[
            READ,
            WRITE,
            SEGMENT,
            WRONG_TOGGLE,
            CLIENT_ABORT,
            OTHER_REQUEST,
        ],
    ),
];

const JOINS: [(&str, &[&str]); 7] = [
    (
        "emergency",
        &[
            SAMPLE,
            NO_SAMPLE,
            TICK,
            SLOT,
            REQUEST,
            TO_OPERATIONAL,
            TO_PRE_OPERATIONAL,
        ],
    ),
    ("reply", &[REQUEST]),
    ("heartbeat", &[TICK]),
    ("TPDO1 of 254, 255", &[TICK, TO_OPERATIONAL]),
    ("TPDO1 of 1..240", &[SYNC]),
    ("TPDO2 of 254, 255", &[TICK, TO_OPERATIONAL]),
    ("TPDO2 of 1..240", &[SYNC]),
];

const WITHDRAWALS: [(&str, &[&str]); 7] = [
    (
        "emergency",
        &[RESET, TO_STOPPED, SAMPLE, NO_SAMPLE, REQUEST],
    ),
    ("reply", &[RESET, TO_STOPPED]),
    ("heartbeat", &[RESET, REQUEST]),
    (
        "TPDO1 of 254, 255",
        &[RESET, TO_STOPPED, TO_PRE_OPERATIONAL, NO_SAMPLE, REQUEST],
    ),
    (
        "TPDO1 of 1..240",
        &[RESET, TO_STOPPED, TO_PRE_OPERATIONAL, REQUEST],
    ),
    (
        "TPDO2 of 254, 255",
        &[RESET, TO_STOPPED, TO_PRE_OPERATIONAL, NO_SAMPLE, REQUEST],
    ),
    (
        "TPDO2 of 1..240",
        &[RESET, TO_STOPPED, TO_PRE_OPERATIONAL, REQUEST],
    ),
];

const WITHDRAWALS_WHILE_MISSING: [(&str, &[&str]); 2] = [
    (
        "TPDO1 of 1..240",
        &[RESET, TO_STOPPED, TO_PRE_OPERATIONAL, REQUEST],
    ),
    (
        "TPDO2 of 1..240",
        &[RESET, TO_STOPPED, TO_PRE_OPERATIONAL, REQUEST],
    ),
];

const SINGLE: [Item; 32] = [
    ("sent", "boot-up", ""),
    ("sent", "emergency", "missing"),
    ("sent", "emergency", "good"),
    ("sent", "heartbeat", "Stopped"),
    ("sent", "heartbeat", "Operational"),
    ("sent", "heartbeat", "Pre-operational"),
    ("sent", "reply", "read 1 byte"),
    ("sent", "reply", "read 2 bytes"),
    ("sent", "reply", "read 4 bytes"),
    ("sent", "reply", "read a name"),
    ("sent", "reply", "segment"),
    ("sent", "reply", "last segment"),
    ("sent", "reply", "write"),
    ("sent", "reply", "abort"),
    ("sent", "TPDO1", ""),
    ("sent", "TPDO2", ""),
    ("sent", "nothing", ""),
    ("inhibit", "started", ""),
    ("inhibit", "ran out", ""),
    ("inhibit", "ran out", "of 6555 ticks"),
    ("heartbeat", "joined", "after 65535 ms"),
    ("event timer", "joined", "after 65535 ms"),
    ("passed over", "tick", "reading missing"),
    ("passed over", "SYNC", "reading missing"),
    ("SYNC type", "1", ""),
    ("SYNC type", "2..239", ""),
    ("SYNC type", "240", ""),
    ("reset", "81h", ""),
    ("reset", "82h", ""),
    ("request", "while a reply waits", ""),
    ("request", "segment", "without a transfer"),
    ("refusal", "4", "before 5"),
];

pub struct Coverage {
    counts: BTreeMap<Item, u64>,
    unforeseen: Vec<Item>,
    nodes: [bool; 128],
    /// By the length of the name.
    uploads: [bool; 33],
}

impl Coverage {
    pub fn new() -> Coverage {
        let mut items: Vec<Item> = [&SINGLE[..], &fixed::ITEMS, &rounding::ITEMS].concat();
        for (_, state) in STATES {
            items.extend([("state", state, ""), ("request", "in state", state)]);
        }
        items.extend(transitions());
        items.extend(REFUSALS[1..].iter().map(|number| ("refusal", *number, "")));
        items.extend(ABORTS.map(|(_, name)| ("abort", name, "")));
        items.extend(LENGTHS.map(|length| ("line", length, "")));
        for entry in &ENTRIES {
            items.push(("entry read", entry.name, ""));
            if entry.writable {
                items.push(("entry written", entry.name, ""));
            }
        }
        for (_, name) in NAMES {
            items.extend(["empty", "too long"].map(|fault| ("bad name", name, fault)));
            items.push(("write to a name", name, ""));
        }
        items.extend(crossed("transfer", &TRANSFERS));
        items.extend(crossed("joined", &JOINS));
        items.extend(crossed("withdrawn", &WITHDRAWALS));
        items.extend(crossed(
            "withdrawn while missing",
            &WITHDRAWALS_WHILE_MISSING,
        ));
        Coverage {
            counts: items.into_iter().map(|item| (item, 0)).collect(),
            unforeseen: Vec::new(),
            nodes: [false; 128],
            uploads: [false; 33],
        }
    }

    fn count(&mut self, item: Item) {
        match self.counts.get_mut(&item) {
            Some(count) => *count += 1,
            None => self.unforeseen.push(item),
        }
    }

    /// One call of a run, with the head before and after it.
    pub fn observe(&mut self, before: &Head, call: &Call, answer: &Answer, after: &Head) {
        self.count(("state", state_name(answer.view.state), ""));
        self.count(("line", LENGTHS[after.count_waiting()], ""));
        match (call, answer.outcome) {
            (Call::PowerUp(_, identity), Outcome::Number(number)) => {
                self.nodes[usize::from(after.node())] = true;
                self.observe_names(identity, number);
            }
            (Call::Receive(frame), _) => self.observe_frame(before, frame, after),
            (Call::Tick, _) => self.observe_tick(before, after),
            (_, Outcome::Sent(frame)) => self.observe_sent(before, &frame, after),
            (_, Outcome::Silent) => self.count(("sent", "nothing", "")),
            _ => {}
        }
        if let Outcome::Number(number @ 1..) = answer.outcome {
            self.count(("refusal", REFUSALS[usize::from(number)], ""));
        }
        self.observe_line(before, call, after);
        self.observe_transfer(before, call, after);
        for item in rounding::items(before, call, after) {
            self.count(item);
        }
    }

    fn observe_names(&mut self, identity: &Identity, number: u8) {
        for ((_, name), given) in NAMES.iter().zip(&identity.names) {
            let fault = match given.length {
                0 => "empty",
                1..=32 => continue,
                _ => "too long",
            };
            match number {
                refusal::NODE => self.count(("refusal", "4", "before 5")),
                _ => self.count(("bad name", name, fault)),
            }
        }
    }

    fn observe_transfer(&mut self, before: &Head, call: &Call, after: &Head) {
        let request = match call {
            Call::Receive(frame) if is_request(before, frame) => Some(frame),
            _ => None,
        };
        let Some(transfer) = before.transfer() else {
            let asks = request.is_some_and(|frame| frame.bytes[0] >> 5 == 3);
            if asks && joined(before, after, Kind::Reply) {
                self.count(("request", "segment", "without a transfer"));
            }
            return;
        };
        let cause = match request {
            Some(frame) => cause_in(&transfer, frame),
            None => cause(before, call, after),
        };
        let over = after.transfer().is_none();
        if cause == POWER_UP || cause == COPY {
            return;
        }
        if request.is_some() && before.waits(Kind::Reply) {
            self.count(("transfer", "running, a reply waits", cause));
        } else if over {
            self.count(("transfer", "over", cause));
        } else if request.is_some() || before.nmt_state() != after.nmt_state() {
            self.count(("transfer", "running", cause));
        }
        if over && cause == SEGMENT {
            let length = peek(before, transfer.index, 0).unwrap_or_default();
            self.uploads[length as usize] = true;
        }
    }

    fn observe_line(&mut self, before: &Head, call: &Call, after: &Head) {
        let cause = cause(before, call, after);
        if cause == POWER_UP || cause == COPY {
            return;
        }
        for kind in KINDS {
            match (before.waits(kind), after.waits(kind)) {
                (false, true) => self.count(("joined", kind_name(kind, after), cause)),
                (true, false) if cause != SLOT => self.observe_withdrawal(before, kind, cause),
                _ => {}
            }
        }
        for item in fixed::items(before, call, after) {
            self.count(item);
        }
    }

    fn observe_withdrawal(&mut self, before: &Head, kind: Kind, cause: &'static str) {
        let name = kind_name(kind, before);
        self.count(("withdrawn", name, cause));
        if matches!(kind, Kind::Tpdo1 | Kind::Tpdo2) && !before.reading_good() {
            self.count(("withdrawn while missing", name, cause));
        }
    }

    fn observe_frame(&mut self, before: &Head, frame: &Received, after: &Head) {
        let (from, to) = (
            state_name(before.nmt_state()),
            state_name(after.nmt_state()),
        );
        if is_request(before, frame) {
            self.count(("request", "in state", from));
            if before.waits(Kind::Reply) {
                self.count(("request", "while a reply waits", ""));
            }
        }
        if to == "Initialising" && from != to {
            let which = if frame.bytes[0] == 0x81 { "81h" } else { "82h" };
            self.count(("reset", which, ""));
        } else if from != to {
            self.count(("entered", to, from));
        }
        if frame.identifier == 0x080 && from == "Operational" {
            self.observe_sync(before, frame, after);
        }
    }

    fn observe_sync(&mut self, before: &Head, frame: &Received, after: &Head) {
        if is_passed_over(before, &Call::Receive(*frame)) {
            self.count(("passed over", "SYNC", "reading missing"));
        }
        for (kind, index) in [(Kind::Tpdo1, 0x1800), (Kind::Tpdo2, 0x1801)] {
            if joined(before, after, kind) {
                let name = match peek(after, index, 2) {
                    Some(1) => "1",
                    Some(240) => "240",
                    _ => "2..239",
                };
                self.count(("SYNC type", name, ""));
            }
        }
    }

    fn observe_tick(&mut self, before: &Head, after: &Head) {
        if before.is_inhibited() && !after.is_inhibited() {
            self.count(("inhibit", "ran out", ""));
            if peek(after, 0x1015, 0) == Some(65_535) {
                self.count(("inhibit", "ran out", "of 6555 ticks"));
            }
        }
        if joined(before, after, Kind::Heartbeat) && peek(after, 0x1017, 0) == Some(65_535) {
            self.count(("heartbeat", "joined", "after 65535 ms"));
        }
        if joined(before, after, Kind::Tpdo1) && peek(after, 0x1800, 5) == Some(65_535) {
            self.count(("event timer", "joined", "after 65535 ms"));
        }
        if is_passed_over(before, &Call::Tick) {
            self.count(("passed over", "tick", "reading missing"));
        }
    }

    fn observe_sent(&mut self, before: &Head, frame: &Frame, after: &Head) {
        let how = match before.first_waiting() {
            None => ("boot-up", ""),
            Some(Kind::Emergency) if frame.bytes[1] == 0x50 => ("emergency", "missing"),
            Some(Kind::Emergency) => ("emergency", "good"),
            Some(Kind::Heartbeat) => ("heartbeat", state_name(frame.bytes[0])),
            Some(Kind::Reply) => ("reply", self.observe_reply(frame)),
            Some(Kind::Tpdo1) => ("TPDO1", ""),
            Some(Kind::Tpdo2) => ("TPDO2", ""),
        };
        self.count(("sent", how.0, how.1));
        if after.is_inhibited() && how.0 == "emergency" {
            self.count(("inhibit", "started", ""));
        }
    }

    fn observe_reply(&mut self, frame: &Frame) -> &'static str {
        let [first, low, high, sub, data @ ..] = frame.bytes;
        let index = u16::from_le_bytes([low, high]);
        let found = ENTRIES
            .iter()
            .find(|entry| (entry.index, entry.sub) == (index, sub));
        let name = found.map_or("none", |entry| entry.name);
        match first {
            0x80 => {
                let code = u32::from_le_bytes(data);
                let known = ABORTS.iter().find(|(known, _)| *known == code);
                self.count(("abort", known.map_or("unknown", |(_, name)| *name), ""));
                if code == abort::READ_ONLY && NAMES.iter().any(|(named, _)| *named == index) {
                    self.count(("write to a name", name, ""));
                }
                return "abort";
            }
            0x60 => self.count(("entry written", name, "")),
            0x00..=0x1F => {}
            _ => self.count(("entry read", name, "")),
        }
        match first {
            0x00..=0x1F if first & 0x01 == 0 => "segment",
            0x00..=0x1F => "last segment",
            0x41 => "read a name",
            0x60 => "write",
            0x4F => "read 1 byte",
            0x4B => "read 2 bytes",
            _ => "read 4 bytes",
        }
    }
}

/// What is missing or was not foreseen; empty if all is well.
impl Coverage {
    pub fn complaints(&self) -> Vec<String> {
        let mut complaints = Vec::new();
        for ((group, what, how), count) in &self.counts {
            if *count == 0 {
                complaints.push(format!("never met: {group} {what} {how}"));
            }
        }
        for (group, what, how) in &self.unforeseen {
            complaints.push(format!("not foreseen: {group} {what} {how}"));
        }
        for (node, met) in self.nodes.iter().enumerate().skip(1) {
            if !met {
                complaints.push(format!("never met: node {node}"));
            }
        }
        for (length, met) in self.uploads.iter().enumerate().skip(1) {
            if !met {
                complaints.push(format!("never met: upload of {length} bytes"));
            }
        }
        complaints
    }
}

impl fmt::Display for Coverage {
    fn fmt(&self, out: &mut fmt::Formatter) -> fmt::Result {
        let mut present = "";
        for ((group, what, how), count) in &self.counts {
            if *group != present {
                write!(out, "\n  {group}:")?;
                present = group;
            }
            let space = if how.is_empty() { "" } else { " " };
            write!(out, " [{what}{space}{how}] {count}")?;
        }
        let nodes = self.nodes.iter().filter(|met| **met).count();
        let lengths = self.uploads.iter().filter(|met| **met).count();
        write!(out, "\n  nodes: {nodes}\n  lengths uploaded: {lengths}")
    }
}

fn transitions() -> Vec<Item> {
    let mut items = Vec::new();
    for to in ["Stopped", "Operational", "Pre-operational"] {
        for from in ["Stopped", "Operational", "Pre-operational"] {
            if from != to {
                items.push(("entered", to, from));
            }
        }
    }
    items
}

fn crossed(group: &'static str, table: &[(&'static str, &[&'static str])]) -> Vec<Item> {
    let mut items = Vec::new();
    for (what, causes) in table {
        items.extend(causes.iter().map(|cause| (group, *what, *cause)));
    }
    items
}

fn state_name(code: u8) -> &'static str {
    let found = STATES.iter().find(|(known, _)| *known == code);
    found.map_or("unknown", |(_, name)| name)
}

/// In the head's state a waiting or joining PDO can be asked for its type.
fn kind_name(kind: Kind, head: &Head) -> &'static str {
    match (kind, is_of_sync_type(head, kind)) {
        (Kind::Emergency, _) => "emergency",
        (Kind::Reply, _) => "reply",
        (Kind::Heartbeat, _) => "heartbeat",
        (Kind::Tpdo1, false) => "TPDO1 of 254, 255",
        (Kind::Tpdo1, true) => "TPDO1 of 1..240",
        (Kind::Tpdo2, false) => "TPDO2 of 254, 255",
        (Kind::Tpdo2, true) => "TPDO2 of 1..240",
    }
}

fn is_request(head: &Head, frame: &Received) -> bool {
    let plain = !frame.extended && !frame.remote;
    plain && frame.length == 8 && frame.identifier == 0x600 + u32::from(head.node())
}

fn cause(before: &Head, call: &Call, after: &Head) -> &'static str {
    match call {
        Call::PowerUp(..) => POWER_UP,
        Call::Tick => TICK,
        Call::Sample(_) => SAMPLE,
        Call::Missing => NO_SAMPLE,
        Call::Slot => SLOT,
        Call::Keep | Call::Restore => COPY,
        Call::Receive(frame) if frame.identifier == 0x080 => SYNC,
        Call::Receive(_) if before.nmt_state() == after.nmt_state() => REQUEST,
        Call::Receive(_) => match state_name(after.nmt_state()) {
            "Initialising" => RESET,
            "Stopped" => TO_STOPPED,
            "Operational" => TO_OPERATIONAL,
            _ => TO_PRE_OPERATIONAL,
        },
    }
}

/// How a request touches a transfer.
fn cause_in(transfer: &Transfer, request: &Received) -> &'static str {
    let toggle = request.bytes[0] & 0x10 != 0;
    match request.bytes[0] >> 5 {
        1 => WRITE,
        2 => READ,
        3 if toggle == transfer.toggle => SEGMENT,
        3 => WRONG_TOGGLE,
        4 => CLIENT_ABORT,
        _ => OTHER_REQUEST,
    }
}

pub fn joined(before: &Head, after: &Head, kind: Kind) -> bool {
    !before.waits(kind) && after.waits(kind)
}

/// Whether a PDO would have joined had the reading been good.
fn is_passed_over(before: &Head, call: &Call) -> bool {
    if before.reading_good() || before.nmt_state() != State::Operational as u8 {
        return false;
    }
    is_due(before, call, Kind::Tpdo1) || is_due(before, call, Kind::Tpdo2)
}

/// Whether a PDO joins at the call, were the reading good and its last frame sent.
pub fn is_due(before: &Head, call: &Call, kind: Kind) -> bool {
    let mut copy = *before;
    copy.sample(0);
    while copy.waits(kind) {
        copy.slot();
    }
    match call {
        Call::Receive(frame) => _ = copy.receive(frame),
        Call::Tick => copy.tick(),
        _ => {}
    }
    copy.waits(kind)
}
