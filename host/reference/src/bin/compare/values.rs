//! Values for writable entries: accepted ones, and ones at the limits of what is accepted.

use reference::Head;

use crate::dictionary::{peek, Entry};
use crate::rng::Rng;

const SAVE: u32 = 0x6576_6173;
const LOAD: u32 = 0x6461_6F6C;
const OFF: u32 = 0x8000_0000;

pub const HIGHEST_SAMPLE: u32 = 1_048_575;
/// In nanometres.
pub const RAW_STEP: u32 = 5_000;
/// The last whose length, or twice its length, is below 2^32 nanometres, and the next.
pub const WIDE_SAMPLES: [u32; 4] = [429_496, 429_497, 858_993, 858_994];

pub fn valid_value(rng: &Rng, entry: &Entry, head: &Head) -> u32 {
    let node = u32::from(head.node());
    match (entry.index, entry.sub) {
        (0x1010, _) => SAVE,
        (0x1011, _) => LOAD,
        (0x1014, _) => (0x80 + node) | rng.pick(&[0, 0, OFF]),
        (0x1015, _) => rng.pick(&[0, 1, 9, 10, 11, 50, 99, 300, 65_535]),
        (0x1017, _) => rng.pick(&[0, 1, 2, 3, 10, 50, 256, 65_535]),
        (0x1800 | 0x1801, 1) => pdo_identifier(rng),
        (0x1800 | 0x1801, 2) => rng.pick(&[1, 2, 3, 10, 239, 240, 254, 255]),
        (0x1800 | 0x1801, 5) | (0x6200, _) => rng.pick(&[0, 1, 2, 3, 10, 50, 256, 65_535]),
        (0x6000, _) => rng.pick(&[0x0, 0x4, 0x8, 0xC]),
        (0x6002, _) => rng.pick(&[1_000, 1_000_000, rng.between(1_000, 1_000_000)]),
        (0x6003, _) => rng.pick(&[0, 1, 999, rng.between(0, 999_999)]),
        (0x6005, _) => some_step(rng),
        _ => 0,
    }
}

fn pdo_identifier(rng: &Rng) -> u32 {
    let on = rng.pick(&[0x181, 0x57F, rng.between(0x181, 0x57F)]);
    let off = OFF | rng.pick(&[0, 0x180, 0x580, 0x7FF, on]);
    rng.pick(&[on, off])
}

pub fn edge_value(rng: &Rng, entry: &Entry, head: &Head) -> u32 {
    let node = u32::from(head.node());
    let any = rng.word();
    match (entry.index, entry.sub) {
        (0x1003, _) => rng.pick(&[0, 1, 4, 255]),
        (0x1010 | 0x1011, _) => rng.pick(&[SAVE, LOAD, SAVE + 1, LOAD.swap_bytes(), 0, 1, any]),
        (0x1014, _) => {
            let wrong = rng.pick(&[node, 0x7F + node, 0x81 + node, 0x4000_0080 + node, 0]);
            rng.pick(&[wrong, wrong | OFF, 0x2000_0080 + node, any])
        }
        (0x1800 | 0x1801, 1) => edge_pdo_identifier(rng),
        (0x1800 | 0x1801, 2) => rng.pick(&[0, 1, 240, 241, 252, 253, 254, 255]),
        (0x6000, _) => rng.pick(&[1, 2, 3, 5, 0x10, 0x8000, 0x8004, 0xFFFF, 0xC, any]),
        (0x6002, _) => rng.pick(&[0, 999, 1_000, 1_000_000, 1_000_001, 1_048_576, any]),
        (0x6003, _) => {
            let range = peek(head, 0x6002, 0).unwrap_or(1_048_576);
            rng.pick(&[range - 1, range, range + 1, u32::MAX, OFF, any])
        }
        (0x6005, _) => rng.pick(&[0, 4_999, 5_000, 1_000_000, 1_000_001, any]),
        _ => any,
    }
}

fn edge_pdo_identifier(rng: &Rng) -> u32 {
    let high_bit = 1 << rng.between(11, 30);
    let low = rng.pick(&[0, 0x80, 0x180, 0x181, 0x57F, 0x580, 0x601, 0x7FF]);
    let off = rng.pick(&[0, OFF]);
    rng.pick(&[low | off, low | off, low | off | high_bit, rng.word()])
}

/// For 6005h. A step has exact halves if 16 divides it.
pub fn some_step(rng: &Rng) -> u32 {
    let odd = 5_001 + 2 * rng.between(0, 50);
    let with_halves = 16 * rng.between(313, 62_500);
    let any = rng.between(5_000, 1_000_000);
    rng.pick(&[
        5_000,
        5_001,
        10_000,
        20_000,
        1_000_000,
        odd,
        with_halves,
        any,
        any,
    ])
}

/// The sample that lies closest to a half of the step, among many.
pub fn sample_near_half(rng: &Rng, step: u32) -> u32 {
    let any = (0..600).map(|_| rng.between(0, HIGHEST_SAMPLE));
    any.min_by_key(|raw| from_half(*raw, step)).unwrap_or(0)
}

/// Twice the nanometres from there to the half of the step that it lies in.
fn from_half(raw: u32, step: u32) -> u64 {
    let step = u64::from(step);
    let past = u64::from(raw) * u64::from(RAW_STEP) % step;
    (2 * past).abs_diff(step)
}

/// The first sample that is at most half a step below a multiple of the range.
pub fn sample_near_range(rng: &Rng, step: u32, range: u32) -> u32 {
    let whole = u64::from(step) * u64::from(range);
    let tape = u64::from(HIGHEST_SAMPLE) * u64::from(RAW_STEP);
    let times = rng.between(1, (tape / whole).max(1) as u32);
    let twice = 2 * whole * u64::from(times) - u64::from(step);
    let raw = twice.div_ceil(2 * u64::from(RAW_STEP));
    raw.min(HIGHEST_SAMPLE.into()) as u32
}
