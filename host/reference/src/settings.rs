//! The settings that "save" keeps: the writable entries and the offset.

use super::line::Kind;

pub(super) const EMERGENCY: u32 = 0x80;
const TPDO1: u32 = 0x180;
const TPDO2: u32 = 0x280;

/// Bit 31 of 1014h and of a PDO identifier: not in use.
pub(super) const OFF: u32 = 0x8000_0000;
const IDENTIFIER_BITS: u32 = 0x7FF;

pub(super) const ON_CHANGE_MAKER: u8 = 254;
pub(super) const ON_CHANGE_PROFILE: u8 = 255;
pub(super) const MOST_SYNCS: u8 = 240;

pub(super) const SCALING: u16 = 0x0004;
pub(super) const INVERTED: u16 = 0x0008;

pub(super) const RAW_RANGE: u32 = 1_048_576;
pub(super) const SCALED_RANGE: u32 = 1_000_000;
/// Nanometres of one raw step, and the finest step that can be asked for.
pub(super) const RAW_STEP: u32 = 5_000;

/// One of the two transmit PDOs.
#[derive(Clone, Copy, PartialEq, Eq, Debug)]
pub(super) enum Which {
    One,
    Two,
}

impl Which {
    pub(super) fn kind(self) -> Kind {
        match self {
            Which::One => Kind::Tpdo1,
            Which::Two => Kind::Tpdo2,
        }
    }
}

/// Entries 1800h and 1801h.
#[derive(Clone, Copy, PartialEq, Eq, Debug)]
pub(super) struct Pdo {
    pub(super) identifier: u32,
    pub(super) transmission: u8,
    pub(super) timer: u16,
}

impl Pdo {
    pub(super) fn is_on(&self) -> bool {
        self.identifier & OFF == 0
    }

    /// Sent on entry and by timer, not by SYNC.
    pub(super) fn is_timed(&self) -> bool {
        self.transmission >= ON_CHANGE_MAKER
    }

    pub(super) fn frame_identifier(&self) -> u32 {
        self.identifier & IDENTIFIER_BITS
    }
}

/// Settings below 2000h.
#[derive(Clone, Copy, PartialEq, Eq, Debug)]
pub(super) struct Communication {
    pub(super) emergency: u32,
    pub(super) inhibit: u16,
    pub(super) heartbeat: u16,
    pub(super) tpdo1: Pdo,
    pub(super) tpdo2: Pdo,
}

impl Communication {
    pub(super) fn pdo(&self, which: Which) -> &Pdo {
        match which {
            Which::One => &self.tpdo1,
            Which::Two => &self.tpdo2,
        }
    }

    pub(super) fn pdo_mut(&mut self, which: Which) -> &mut Pdo {
        match which {
            Which::One => &mut self.tpdo1,
            Which::Two => &mut self.tpdo2,
        }
    }

    /// 1015h counts 100 microseconds; the tick under way doesn't count as a whole one.
    pub(super) fn inhibit_ticks(&self) -> u16 {
        match self.inhibit {
            0 => 0,
            time => time.div_ceil(10) + 1,
        }
    }
}

/// Settings from 2000h on.
#[derive(Clone, Copy, PartialEq, Eq, Debug)]
pub(super) struct Profile {
    pub(super) operating: u16,
    pub(super) range: u32,
    pub(super) preset: u32,
    pub(super) step: u32,
    pub(super) offset: i32,
}

impl Profile {
    pub(super) fn is_scaled(&self) -> bool {
        self.operating & SCALING != 0
    }

    /// The whole number of steps of 6005h that is nearest to the raw sample; a half goes upward.
    fn scaled(&self, raw: u32) -> u32 {
        let length = u64::from(raw) * u64::from(RAW_STEP);
        let step = u64::from(self.step);
        let (below, past) = (length / step, length % step);
        let short_of_next = step - past;
        let nearest = if past < short_of_next {
            below
        } else {
            below + 1
        };
        // It fits 32 bits: no step is finer than a raw one, so the number is at most the raw one.
        nearest as u32
    }

    /// The position before the offset, below the range.
    fn directed(&self, raw: u32) -> u32 {
        let steps = if self.is_scaled() {
            self.scaled(raw)
        } else {
            raw
        };
        let counted = steps % self.range;
        if self.operating & INVERTED == 0 {
            counted
        } else {
            self.range - 1 - counted
        }
    }

    pub(super) fn position(&self, raw: u32) -> u32 {
        let shifted = self.directed(raw) as i32 + self.offset;
        shifted.rem_euclid(self.range as i32) as u32
    }

    /// Makes the present sample read as the preset.
    pub(super) fn preset_at(&mut self, preset: u32, raw: u32) {
        self.preset = preset;
        self.offset = preset as i32 - self.directed(raw) as i32;
    }

    pub(super) fn set_operating(&mut self, operating: u16) {
        self.operating = operating;
        let range = if self.is_scaled() {
            SCALED_RANGE
        } else {
            RAW_RANGE
        };
        self.set_range(range);
    }

    pub(super) fn set_range(&mut self, range: u32) {
        self.range = range;
        self.forget_preset();
    }

    pub(super) fn set_step(&mut self, step: u32) {
        self.step = step;
        self.forget_preset();
    }

    fn forget_preset(&mut self) {
        self.preset = 0;
        self.offset = 0;
    }
}

#[derive(Clone, Copy, PartialEq, Eq, Debug)]
pub(super) struct Settings {
    pub(super) communication: Communication,
    pub(super) profile: Profile,
}

impl Settings {
    pub(super) fn factory(node: u8) -> Settings {
        let node = u32::from(node);
        let tpdo1 = Pdo {
            identifier: TPDO1 + node,
            transmission: ON_CHANGE_MAKER,
            timer: 100,
        };
        let tpdo2 = Pdo {
            identifier: TPDO2 + node,
            transmission: 1,
            timer: 0,
        };
        Settings {
            communication: Communication {
                emergency: EMERGENCY + node,
                inhibit: 0,
                heartbeat: 0,
                tpdo1,
                tpdo2,
            },
            profile: Profile {
                operating: 0,
                range: RAW_RANGE,
                preset: 0,
                step: RAW_STEP,
                offset: 0,
            },
        }
    }
}
