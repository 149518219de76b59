//! The measured calls: for each the calls that prepare a head for it, and the frames that a head sends
//! from then on.

use reference::{Frame, Received};

use crate::head::Head;

#[derive(Clone, Copy)]
pub enum Call {
    Receive(Received),
    Tick,
    Sample(u32),
    Missing,
    Slot,
}

pub struct Case {
    pub name: &'static str,
    /// The call's time may be at most this many times the reference's.
    pub target: f64,
    before: Vec<Call>,
    pub call: Call,
    /// The frames, as the session program prints them.
    sends: &'static str,
}

impl Case {
    /// A head that is ready for the call.
    pub fn prepared<H: Head>(&self) -> H {
        let mut head = H::power_up();
        for call in &self.before {
            sent_by(&mut head, call);
        }
        head
    }

    /// True if a head of this kind sends what the case says.
    pub fn holds<H: Head>(&self) -> bool {
        let mut head = self.prepared::<H>();
        let first = sent_by(&mut head, &self.call);
        let rest = std::iter::from_fn(|| head.slot().into());
        let sent: Vec<_> = first.into_iter().chain(rest).map(printed).collect();
        sent.join(", ") == self.sends
    }
}

fn sent_by<H: Head>(head: &mut H, call: &Call) -> Option<Frame> {
    match *call {
        Call::Slot => return head.slot().into(),
        Call::Tick => head.tick(),
        Call::Missing => head.missing(),
        Call::Sample(raw) => drop(head.sample(raw)),
        Call::Receive(frame) => drop(head.receive(&frame.into())),
    }
    None
}

fn printed(frame: Frame) -> String {
    let bytes = frame.bytes.iter().take(frame.length.into());
    let bytes: String = bytes.map(|byte| format!(" {byte:02X}")).collect();
    format!("{:03X} {}{bytes}", frame.identifier, frame.length)
}

const RAW: u32 = 69_637;

fn data<const N: usize>(identifier: u32, given: [u8; N]) -> Call {
    let mut bytes = [0; 8];
    bytes[..N].copy_from_slice(&given);
    Call::Receive(Received {
        identifier,
        extended: false,
        remote: false,
        length: N as u8,
        bytes,
    })
}

/// An NMT command to the head.
fn command(code: u8) -> Call {
    data(0x000, [code, 0x01])
}

fn start() -> Call {
    command(0x01)
}

fn sync() -> Call {
    data(0x080, [])
}

fn read(index: u16, sub: u8) -> Call {
    let [low, high] = index.to_le_bytes();
    data(0x601, [0x40, low, high, sub, 0, 0, 0, 0])
}

/// Asks for a segment.
fn segment(toggle: u8) -> Call {
    data(0x601, [0x60 + 16 * toggle, 0, 0, 0, 0, 0, 0, 0])
}

/// A write of one byte.
fn write_1(index: u16, sub: u8, value: u8) -> Call {
    let [low, high] = index.to_le_bytes();
    data(0x601, [0x2F, low, high, sub, value, 0, 0, 0])
}

/// A write of two bytes.
fn write_2(index: u16, sub: u8, value: u16) -> Call {
    let [low, high] = index.to_le_bytes();
    let [a, b] = value.to_le_bytes();
    data(0x601, [0x2B, low, high, sub, a, b, 0, 0])
}

/// A write of four bytes.
fn write_4(index: u16, sub: u8, value: u32) -> Call {
    let [low, high] = index.to_le_bytes();
    let [a, b, c, d] = value.to_le_bytes();
    data(0x601, [0x23, low, high, sub, a, b, c, d])
}

/// Pre-operational with a good reading; nothing waits, nothing counts.
fn pre_operational() -> Vec<Call> {
    vec![Call::Sample(RAW), Call::Slot]
}

/// Operational with a good reading, a heartbeat each second, TPDO1 every 100 ms, TPDO2 at each
/// SYNC; nothing waits.
fn operational() -> Vec<Call> {
    let heartbeat = write_2(0x1017, 0, 1000);
    let entry = [heartbeat, Call::Slot, start(), Call::Slot];
    [pre_operational(), entry.to_vec()].concat()
}

/// As `operational`, but TPDO2 at each second SYNC, counted from now on.
fn each_second_sync() -> Vec<Call> {
    use Call::Slot;
    let (off, on) = (write_4(0x1801, 1, 0x8000_0281), write_4(0x1801, 1, 0x281));
    let second = write_1(0x1801, 2, 2);
    then(operational(), [off, Slot, second, Slot, on, Slot])
}

/// The same with scaling on and a step of 1 mm.
fn scaled(before: Vec<Call>) -> Vec<Call> {
    let (scaling, step) = (write_2(0x6000, 0, 4), write_4(0x6005, 1, 1_000_000));
    then(before, [scaling, Call::Slot, step, Call::Slot])
}

/// As `operational`, but a heartbeat and TPDO1 at each tick.
fn busy() -> Vec<Call> {
    let (heartbeat, tpdo1) = (write_2(0x1017, 0, 1), write_2(0x1800, 5, 1));
    then(operational(), [heartbeat, Call::Slot, tpdo1, Call::Slot])
}

/// As `busy`, and all five kinds wait; the emergency announces that the reading is good again.
fn full() -> Vec<Call> {
    use Call::{Missing, Sample, Slot, Tick};
    let reply = read(0x6004, 0);
    then(busy(), [Missing, Slot, Sample(RAW), reply, Tick, sync()])
}

fn then<const N: usize>(before: Vec<Call>, more: [Call; N]) -> Vec<Call> {
    [before, more.to_vec()].concat()
}

/// A case whose call may take at most 1.3 times as long as the reference's.
fn case(name: &'static str, before: Vec<Call>, call: Call, sends: &'static str) -> Case {
    Case {
        name,
        target: 1.3,
        before,
        call,
        sends,
    }
}

pub fn all() -> Vec<Case> {
    let groups = [
        at_most(1.8, ticks()),
        samples(),
        frames(),
        at_most(2.5, commands()),
        reads(),
        at_most(1.6, writes()),
        slots(),
    ];
    groups.into_iter().flatten().collect()
}

fn at_most(target: f64, cases: Vec<Case>) -> Vec<Case> {
    let cases = cases.into_iter();
    cases.map(|case| Case { target, ..case }).collect()
}

const BOOT_UP: &str = "701 1 00";
const ANNOUNCED: &str = "081 8 00 50 01 00 00 00 00 00";
const TPDO1: &str = "181 4 05 10 01 00";
const TPDO2: &str = "281 4 05 10 01 00";
/// The frames that `full` sends.
const ALL_FIVE: &str = "081 8 00 00 00 00 00 00 00 00, 581 8 43 04 60 00 05 10 01 00, \
                        701 1 05, 181 4 05 10 01 00, 281 4 05 10 01 00";

fn ticks() -> Vec<Case> {
    let tick = |name, before, sends| case(name, before, Call::Tick, sends);
    vec![
        tick("tick-idle", pre_operational(), ""),
        tick("tick-counting", operational(), ""),
        tick("tick-due", busy(), "701 1 05, 181 4 05 10 01 00"),
        tick("tick-full-line", full(), ALL_FIVE),
    ]
}

fn samples() -> Vec<Case> {
    use Call::{Missing, Sample, Slot, Tick};
    let missing = then(operational(), [Missing, Slot]);
    let ended = "081 8 00 00 00 00 00 00 00 00";
    let with_pdos = then(busy(), [Tick, sync(), read(0x6004, 0)]);
    let without = "701 1 05, 281 4 05 10 01 00, 581 8 43 04 60 00 05 10 01 00, \
                   081 8 00 50 01 00 00 00 00 00";
    let synced = then(operational(), [sync()]);
    let kept = "281 4 05 10 01 00, 081 8 00 50 01 00 00 00 00 00";
    let left = "581 8 43 04 60 00 05 10 01 00, 701 1 05, 281 4 05 10 01 00";
    vec![
        case("sample-good-again", operational(), Sample(70_000), ""),
        case("missing-after-good", operational(), Missing, ANNOUNCED),
        case("missing-takes-pdos", with_pdos, Missing, without),
        case("missing-keeps-tpdo2", synced, Missing, kept),
        case("missing-full-line", full(), Missing, left),
        case("good-after-missing", missing, Sample(RAW), ended),
    ]
}

fn frames() -> Vec<Case> {
    let coarse = "281 4 5C 01 00 00";
    let foreign = data(0x123, [1, 2, 3, 4, 5, 6, 7, 8]);
    vec![
        case("foreign-frame", operational(), foreign, ""),
        case("sync", operational(), sync(), TPDO2),
        case("sync-not-due", each_second_sync(), sync(), ""),
        case("sync-full-line", full(), sync(), ALL_FIVE),
        case("sync-scaled", scaled(operational()), sync(), coarse),
        case("nmt-present-state", operational(), start(), ""),
    ]
}

/// The cases that change the state.
fn commands() -> Vec<Case> {
    let nmt = |name, before, code, sends| case(name, before, command(code), sends);
    let tpdo2 = then(operational(), [sync()]);
    vec![
        nmt("nmt-operational", pre_operational(), 0x01, TPDO1),
        nmt("nmt-stopped", full(), 0x02, "701 1 04"),
        nmt("nmt-pre-operational", tpdo2, 0x80, ""),
        nmt("nmt-reset-node", operational(), 0x81, BOOT_UP),
        nmt("nmt-reset-comm", operational(), 0x82, BOOT_UP),
    ]
}

fn reads() -> Vec<Case> {
    let missing = then(operational(), [Call::Missing, Call::Slot]);
    let asked = |name, index, sub, reply| case(name, operational(), read(index, sub), reply);
    let uploading = then(operational(), [read(0x1008, 0), Call::Slot]);
    let ending = then(uploading.clone(), [segment(0), Call::Slot]);
    let coarse = "581 8 43 04 60 00 5C 01 00 00";
    let no_index = "581 8 80 00 20 00 00 00 02 06";
    let no_sub_index = "581 8 80 01 18 03 11 00 09 06";
    let blank = "581 8 80 04 60 00 24 00 00 08";
    let full = "581 8 00 48 61 79 62 6C 65 61";
    let last = "581 8 19 74 65 72 00 00 00 00";
    vec![
        asked("read-6004", 0x6004, 0, "581 8 43 04 60 00 05 10 01 00"),
        case(
            "read-6004-scaled",
            scaled(operational()),
            read(0x6004, 0),
            coarse,
        ),
        asked("read-1000", 0x1000, 0, "581 8 43 00 10 00 96 01 08 00"),
        asked("read-1018-4", 0x1018, 4, "581 8 43 18 10 04 04 00 00 00"),
        asked("read-no-index", 0x2000, 0, no_index),
        asked("read-no-sub-index", 0x1801, 3, no_sub_index),
        asked("read-6200", 0x6200, 0, "581 8 4B 00 62 00 64 00 00 00"),
        case("read-blank", missing, read(0x6004, 0), blank),
        asked("read-1008", 0x1008, 0, "581 8 41 08 10 00 0A 00 00 00"),
        case("read-segment", uploading, segment(0), full),
        case("read-last-segment", ending, segment(1), last),
    ]
}

fn writes() -> Vec<Case> {
    let given = |name, write, reply| case(name, operational(), write, reply);
    let heartbeat = write_2(0x1017, 0, 500);
    let event = write_2(0x1800, 5, 50);
    let preset = write_4(0x6003, 0, 40);
    let save = write_4(0x1010, 1, u32::from_le_bytes(*b"save"));
    let load = write_4(0x1011, 1, u32::from_le_bytes(*b"load"));
    let bad_bits = write_2(0x6000, 0, 1);
    vec![
        given("write-1017", heartbeat, "581 8 60 17 10 00 00 00 00 00"),
        given("write-1800-5", event, "581 8 60 00 18 05 00 00 00 00"),
        given("write-6003", preset, "581 8 60 03 60 00 00 00 00 00"),
        given("write-save", save, "581 8 60 10 10 01 00 00 00 00"),
        given("write-load", load, "581 8 60 11 10 01 00 00 00 00"),
        given("write-refused", bad_bits, "581 8 80 00 60 00 30 00 09 06"),
    ]
}

fn slots() -> Vec<Case> {
    let slot = |name, before, sends| case(name, before, Call::Slot, sends);
    let missing = then(operational(), [Call::Missing]);
    let reply = then(operational(), [read(0x6004, 0)]);
    let each_tick = [write_2(0x1017, 0, 1), Call::Slot, Call::Tick];
    let heartbeat = then(pre_operational(), each_tick);
    let tpdo1 = then(pre_operational(), [start()]);
    let coarse = then(scaled(pre_operational()), [start()]);
    let tpdo2 = then(operational(), [sync()]);
    vec![
        slot("slot-none", operational(), ""),
        slot("slot-boot-up", vec![Call::Sample(RAW)], BOOT_UP),
        slot("slot-emergency", missing, ANNOUNCED),
        slot("slot-reply", reply, "581 8 43 04 60 00 05 10 01 00"),
        slot("slot-heartbeat", heartbeat, "701 1 7F"),
        slot("slot-tpdo1", tpdo1, TPDO1),
        slot("slot-tpdo1-scaled", coarse, "181 4 5C 01 00 00"),
        slot("slot-tpdo2", tpdo2, TPDO2),
        slot("slot-full-line", full(), ALL_FIVE),
    ]
}
