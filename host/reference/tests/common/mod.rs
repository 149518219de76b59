//! A head on the bench, and short ways to handle it.
#![allow(dead_code)]

use reference::wire::NAMES;
use reference::{Frame, Head, Identity, Kind, Name, Received};

pub const IDENTITY: Identity = Identity {
    vendor: 1,
    product: 2,
    revision: 3,
    serial: 4,
    names: NAMES,
};

pub const SAVE: u32 = 0x6576_6173;
pub const LOAD: u32 = 0x6461_6F6C;
pub const OFF: u32 = 0x8000_0000;

pub const MISSING: [u8; 8] = [0x00, 0x50, 0x01, 0, 0, 0, 0, 0];

pub fn data(identifier: u32, bytes: &[u8]) -> Received {
    let mut all = [0; 8];
    all[..bytes.len()].copy_from_slice(bytes);
    Received {
        identifier,
        extended: false,
        remote: false,
        length: bytes.len() as u8,
        bytes: all,
    }
}

/// Node 1.
pub struct Bench {
    pub head: Head,
}

impl Bench {
    pub fn initialising() -> Bench {
        let (refusal, head) = Head::power_up(1, IDENTITY);
        assert_eq!(refusal, 0);
        Bench { head }
    }

    /// The reading missing and announced, nothing waiting.
    pub fn pre_operational() -> Bench {
        let mut bench = Bench::initialising();
        bench.drain();
        bench
    }

    /// The same, with a name for 1008h.
    pub fn named(name: &[u8]) -> Bench {
        let mut identity = IDENTITY;
        identity.names[0] = Name::of(name);
        let (refusal, head) = Head::power_up(1, identity);
        assert_eq!(refusal, 0);
        let mut bench = Bench { head };
        bench.drain();
        bench
    }

    /// The reading good and announced, nothing waiting.
    pub fn operational(raw: u32) -> Bench {
        let mut bench = Bench::pre_operational();
        bench.sample(raw);
        bench.nmt(0x01);
        bench.drain();
        bench
    }

    pub fn frame(&mut self, identifier: u32, bytes: &[u8]) {
        assert_eq!(self.head.receive(&data(identifier, bytes)), 0);
    }

    pub fn nmt(&mut self, command: u8) {
        self.frame(0x000, &[command, 1]);
    }

    pub fn sync(&mut self) {
        self.frame(0x080, &[]);
    }

    pub fn sample(&mut self, raw: u32) {
        assert_eq!(self.head.sample(raw), 0);
    }

    pub fn missing(&mut self) {
        self.head.missing();
    }

    pub fn ticks(&mut self, count: u32) {
        for _ in 0..count {
            self.head.tick();
        }
    }

    pub fn slot(&mut self) -> Option<Frame> {
        self.head.slot()
    }

    pub fn drain(&mut self) -> Vec<Frame> {
        std::iter::from_fn(|| self.head.slot()).collect()
    }

    /// The identifiers that wait, first to last.
    pub fn line(&self) -> Vec<u32> {
        let mut copy = Bench { head: self.head };
        let frames = copy.drain();
        frames.iter().map(|frame| frame.identifier).collect()
    }

    pub fn waits(&self, kind: Kind) -> bool {
        self.head.waits(kind)
    }

    /// The reply to a request; whatever waits before it goes out.
    pub fn ask(&mut self, request: [u8; 8]) -> [u8; 8] {
        self.frame(0x601, &request);
        loop {
            let frame = self.slot().expect("a reply");
            if frame.identifier == 0x581 {
                return frame.bytes;
            }
        }
    }

    pub fn read(&mut self, index: u16, sub: u8) -> Result<u32, u32> {
        let [low, high] = index.to_le_bytes();
        let reply = self.ask([0x40, low, high, sub, 0, 0, 0, 0]);
        let [.., a, b, c, d] = reply;
        let value = u32::from_le_bytes([a, b, c, d]);
        match reply[0] {
            0x80 => Err(value),
            _ => Ok(value),
        }
    }

    /// All of a name, by segments.
    pub fn upload(&mut self, index: u16) -> Vec<u8> {
        let size = self.read(index, 0).expect("a size");
        let mut name = Vec::new();
        for toggle in [0x60, 0x70].into_iter().cycle() {
            let reply = self.ask([toggle, 0, 0, 0, 0, 0, 0, 0]);
            assert_eq!(reply[0] & 0xF0, toggle & 0x10);
            let used = 7 - usize::from(reply[0] >> 1 & 0x07);
            name.extend_from_slice(&reply[1..=used]);
            assert!(reply[1 + used..].iter().all(|byte| *byte == 0));
            if reply[0] & 0x01 != 0 {
                break;
            }
            assert_eq!(used, 7);
        }
        assert_eq!(name.len() as u32, size);
        name
    }

    /// Without a size, so that any entry takes it.
    pub fn write(&mut self, index: u16, sub: u8, value: u32) -> Result<(), u32> {
        let [low, high] = index.to_le_bytes();
        let [a, b, c, d] = value.to_le_bytes();
        let [first, .., e, f, g, h] = self.ask([0x22, low, high, sub, a, b, c, d]);
        match first {
            0x60 => Ok(()),
            _ => Err(u32::from_le_bytes([e, f, g, h])),
        }
    }

    pub fn set(&mut self, index: u16, sub: u8, value: u32) {
        assert_eq!(self.write(index, sub, value), Ok(()));
    }

    /// Off, another type and timer, on again.
    pub fn set_pdo(&mut self, index: u16, kind: u32, timer: u32) {
        let held = self.read(index, 1).expect("an identifier");
        self.set(index, 1, held | OFF);
        self.set(index, 2, kind);
        self.set(index, 5, timer);
        self.set(index, 1, held & !OFF);
    }
}

/// Pre-operational, with scaling on and these in 6000h, 6005h and 6002h.
pub fn scaled(operating: u32, step: u32, range: u32) -> Bench {
    let mut bench = Bench::pre_operational();
    bench.set(0x6000, 0, operating);
    bench.set(0x6005, 1, step);
    bench.set(0x6002, 0, range);
    bench
}

/// The position of a sample, as shown and as read.
pub fn position(bench: &mut Bench, raw: u32) -> u32 {
    bench.sample(raw);
    let shown = bench.head.position();
    assert_eq!(bench.read(0x6004, 0).ok(), shown);
    shown.expect("a good reading")
}
