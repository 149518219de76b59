//! The scaled count: the nearest whole number, halves upward.

mod common;
use common::{position, scaled, Bench};

/// Raw samples and their counts at a step, none of them above the range.
fn counts(step: u32, pairs: &[(u32, u32)]) {
    let mut bench = scaled(0x4, step, 1_000_000);
    for (raw, count) in pairs {
        assert_eq!(
            position(&mut bench, *raw),
            *count,
            "{raw} at a step of {step}"
        );
    }
}

fn offset(bench: &mut Bench) -> i32 {
    bench.read(0x6509, 0).expect("an offset") as i32
}

#[test]
fn halves_go_upward() {
    // r / 2: 0.5, 1.5, 2.5, 3.5
    counts(10_000, &[(1, 1), (3, 2), (5, 3), (7, 4)]);
    // r / 4
    counts(20_000, &[(2, 1), (6, 2), (10, 3)]);
    // r / 200
    counts(1_000_000, &[(100, 1), (300, 2), (500, 3)]);
    counts(1_000_000, &[(1_048_500, 5_243)]);
    // r x 5,000 / 5,008 = r x 625 / 626: 312.5 and 937.5
    counts(5_008, &[(313, 313), (939, 938)]);
    // 62,499 x 5,000 = 312,495,000 = 312.5 x 999,984
    counts(999_984, &[(62_499, 313)]);
}

#[test]
fn beside_a_half() {
    // 0.495, 0.505, 1.495, 1.505
    counts(1_000_000, &[(99, 0), (101, 1), (299, 1), (301, 2)]);
    // 0.25, 0.75, 1.25, 1.75
    counts(20_000, &[(1, 0), (3, 1), (5, 1), (7, 2)]);
    // 312 x 5,000 = 311 x 5,008 + 2,512; 314 x 5,000 = 313 x 5,008 + 2,496
    counts(5_008, &[(312, 312), (314, 313)]);
}

#[test]
fn whole_numbers_stay() {
    counts(10_000, &[(0, 0), (2, 1), (6, 3), (8, 4)]);
    counts(1_000_000, &[(200, 1), (1_048_400, 5_242)]);
    counts(5_001, &[(5_001, 5_000), (10_002, 10_000)]);
}

/// An odd step has no half. A half that is itself rounded up would lift the first of each two.
#[test]
fn closest_to_a_half_of_an_odd_step() {
    // 2,501 x 5,000 = 2,500 x 5,001 + 2,500; 2,500 x 5,000 = 2,499 x 5,001 + 2,501
    counts(5_001, &[(2_501, 2_500), (2_500, 2_500)]);
    // 834 x 5,000 = 833 x 5,003 + 2,501; 4,169 x 5,000 = 4,166 x 5,003 + 2,502
    counts(5_003, &[(834, 833), (4_169, 4_167)]);
    // 999,899 x 5,000 = 4,999 x 999,999 + 499,999; 100 x 5,000 = 500,000
    counts(999_999, &[(999_899, 4_999), (100, 1), (99, 0)]);
}

/// What nearest means: the sample lies less than half a step above the count, at most half below.
#[test]
fn nearest_at_many_steps() {
    let steps = [5_000, 5_001, 5_002, 5_008, 9_999, 10_000, 10_001, 15_001];
    for step in steps.into_iter().chain([20_000, 999_999, 1_000_000]) {
        let mut bench = scaled(0x4, step, 1_000_000);
        for raw in (0..1_000_000).step_by(97).chain(0..3_000) {
            bench.sample(raw);
            let count = u64::from(bench.head.position().expect("a good reading"));
            let (twice, step) = (2 * u64::from(raw) * 5_000, u64::from(step));
            assert!(
                twice < (2 * count + 1) * step,
                "{raw} at {step}: {count} is low"
            );
            assert!(
                twice + step >= 2 * count * step,
                "{raw} at {step}: {count} is high"
            );
        }
    }
}

#[test]
fn a_step_of_5000_counts_raw_steps() {
    let mut bench = scaled(0x4, 5_000, 1_000_000);
    for raw in 0..=1_048_575 {
        bench.sample(raw);
        assert_eq!(bench.head.position(), Some(raw % 1_000_000));
    }
}

#[test]
fn the_greatest_sample() {
    // 1,048,575 x 5,000 = 5,242,875,000
    let counts = [
        // 1,048,365 and 1,635 left
        (5_001, 48_365),
        // 1,048,155 and 3,690 left
        (5_002, 48_156),
        // 1,047,946 and 1,162 left
        (5_003, 47_946),
        // 524,287.5
        (10_000, 524_288),
        // 5,242 and 880,242 left
        (999_999, 5_243),
        // 5,242.875
        (1_000_000, 5_243),
    ];
    for (step, count) in counts {
        let mut bench = scaled(0x4, step, 1_000_000);
        assert_eq!(position(&mut bench, 1_048_575), count, "a step of {step}");
    }
}

#[test]
fn sums_past_32_bits() {
    // 2^32 = 4,294,967,296. Twice the length is 4,294,960,000 for 429,496, the length 4,294,965,000 for 858,993.
    let pairs = [
        (429_496, 214_748),
        (429_497, 214_749),
        (858_993, 429_497),
        (858_994, 429_497),
    ];
    counts(10_000, &pairs);
    // 429,496 x 5,000 = 2,147.48 x 1,000,000; 858,993 x 5,000 = 4,294.965 x 1,000,000
    counts(1_000_000, &[(429_496, 2_147), (858_993, 4_295)]);
}

#[test]
fn rounded_before_the_range() {
    let mut bench = scaled(0x4, 10_000, 1_000);
    // 999, 999.5, 1,000, 1,000.5, 1,999, 1,999.5
    let pairs = [
        (1_998, 999),
        (1_999, 0),
        (2_000, 0),
        (2_001, 1),
        (3_998, 999),
        (3_999, 0),
    ];
    for (raw, expected) in pairs {
        assert_eq!(position(&mut bench, raw), expected, "{raw}");
    }
    // 999.495 and 999.5
    let mut bench = scaled(0x4, 1_000_000, 1_000);
    assert_eq!(position(&mut bench, 199_899), 999);
    assert_eq!(position(&mut bench, 199_900), 0);
    // 2,998 x 5,000 = 999 x 15,001 + 4,001; 2,999 x 5,000 = 999 x 15,001 + 9,001
    let mut bench = scaled(0x4, 15_001, 1_000);
    assert_eq!(position(&mut bench, 2_998), 999);
    assert_eq!(position(&mut bench, 2_999), 0);
    // 524,287.5
    let mut bench = scaled(0x4, 10_000, 524_288);
    assert_eq!(position(&mut bench, 1_048_575), 0);
}

/// Upward is said of the count: the inverted position goes down.
#[test]
fn inverted_after_rounding() {
    let mut bench = scaled(0xC, 10_000, 1_000);
    for (raw, expected) in [(0, 999), (1, 998), (2, 998), (7, 995), (1_998, 0)] {
        assert_eq!(position(&mut bench, raw), expected, "{raw}");
    }
    // 999.5 is 1,000, and 0 below T
    assert_eq!(position(&mut bench, 1_999), 999);
}

#[test]
fn a_preset_takes_off_the_rounded_count() {
    let mut bench = scaled(0x4, 10_000, 1_000);
    bench.sample(7);
    bench.set(0x6003, 0, 40);
    assert_eq!(offset(&mut bench), 36);
    for (raw, expected) in [(6, 39), (7, 40), (8, 40), (9, 41)] {
        assert_eq!(position(&mut bench, raw), expected, "{raw}");
    }
    bench.set(0x6003, 0, 0);
    assert_eq!(offset(&mut bench), -5);
}

#[test]
fn a_preset_where_the_count_reaches_the_range() {
    let mut bench = scaled(0x4, 10_000, 1_000);
    bench.sample(1_999);
    for preset in [0, 40, 999] {
        bench.set(0x6003, 0, preset);
        assert_eq!(offset(&mut bench), preset as i32);
        assert_eq!(position(&mut bench, 1_999), preset);
    }
    // 999 + 999
    assert_eq!(position(&mut bench, 1_998), 998);
}

#[test]
fn an_inverted_preset_takes_off_the_rounded_count() {
    let mut bench = scaled(0xC, 10_000, 1_000);
    bench.sample(7);
    bench.set(0x6003, 0, 40);
    // 40 - (999 - 4)
    assert_eq!(offset(&mut bench), -955);
    for (raw, expected) in [(6, 41), (7, 40), (8, 40), (9, 39)] {
        assert_eq!(position(&mut bench, raw), expected, "{raw}");
    }
    bench.sample(1_999);
    bench.set(0x6003, 0, 0);
    assert_eq!(offset(&mut bench), -999);
}

#[test]
fn nothing_is_rounded_with_scaling_off() {
    for (operating, expected) in [(0x0, 7), (0x8, 1_048_568)] {
        let mut bench = scaled(0x4, 10_000, 1_000);
        bench.set(0x6000, 0, operating);
        assert_eq!(bench.read(0x6005, 1), Ok(10_000));
        assert_eq!(position(&mut bench, 7), expected);
    }
}

#[test]
fn every_frame_carries_the_rounded_count() {
    let mut bench = scaled(0x4, 10_000, 1_000);
    bench.sample(7);
    bench.drain();
    bench.nmt(0x01);
    bench.sync();
    bench.sample(9);
    // TPDO1 as it is at the slot, 4.5; TPDO2 as it was at the SYNC, 3.5
    let sent: Vec<_> = bench.drain().iter().map(|frame| frame.bytes[0]).collect();
    assert_eq!(sent, [5, 4]);
}
