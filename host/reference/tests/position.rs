//! Scaling, direction, preset.

mod common;
use common::{position, scaled, Bench, OFF};

#[test]
fn raw_by_default() {
    let mut bench = Bench::pre_operational();
    for raw in [0, 1, 1_048_575] {
        assert_eq!(position(&mut bench, raw), raw);
    }
}

#[test]
fn scaled_needs_more_than_32_bits() {
    let mut bench = scaled(0x4, 5_001, 1_000_000);
    // 1,048,575 x 5,000 / 5,001 = 1,048,365.3
    assert_eq!(position(&mut bench, 1_048_575), 48_365);
}

#[test]
fn scaled_within_the_range() {
    let mut bench = scaled(0x4, 5_000, 1_000);
    assert_eq!(position(&mut bench, 999), 999);
    assert_eq!(position(&mut bench, 1_000), 0);
    assert_eq!(position(&mut bench, 1_048_575), 575);
}

#[test]
fn inverted_within_the_range() {
    let mut bench = scaled(0xC, 10_000, 1_000);
    assert_eq!(position(&mut bench, 0), 999);
    // 3.5 and 1,000.5 go upward: 999 - 4, 999 - 1
    assert_eq!(position(&mut bench, 7), 995);
    assert_eq!(position(&mut bench, 2_001), 998);
}

#[test]
fn inverted_preset() {
    let mut bench = scaled(0xC, 5_000, 1_000);
    bench.sample(0);
    bench.set(0x6003, 0, 0);
    assert_eq!(bench.read(0x6509, 0), Ok(-999_i32 as u32));
    assert_eq!(position(&mut bench, 0), 0);
    assert_eq!(position(&mut bench, 1), 999);
}

#[test]
fn highest_offset() {
    let mut bench = Bench::pre_operational();
    bench.sample(0);
    bench.set(0x6003, 0, 1_048_575);
    assert_eq!(bench.read(0x6509, 0), Ok(1_048_575));
    assert_eq!(position(&mut bench, 1), 0);
}

#[test]
fn writes_that_forget_the_preset() {
    for (index, sub, value) in [(0x6000, 0, 0x4), (0x6002, 0, 1_000), (0x6005, 1, 5_000)] {
        let mut bench = scaled(0x4, 5_000, 1_000);
        bench.sample(7);
        bench.set(0x6003, 0, 3);
        bench.set(index, sub, value);
        assert_eq!(bench.read(0x6003, 0), Ok(0));
        assert_eq!(bench.read(0x6509, 0), Ok(0));
    }
}

#[test]
fn operating_parameters_set_the_range_but_not_the_step() {
    let mut bench = scaled(0x4, 10_000, 1_000);
    bench.set(0x6000, 0, 0x4);
    assert_eq!(bench.read(0x6002, 0), Ok(1_000_000));
    assert_eq!(bench.read(0x6005, 1), Ok(10_000));
    bench.set(0x6000, 0, 0x8);
    assert_eq!(bench.read(0x6002, 0), Ok(1_048_576));
    assert_eq!(bench.read(0x6005, 1), Ok(10_000));
}

#[test]
fn refused_writes_keep_the_preset() {
    let mut bench = Bench::pre_operational();
    bench.sample(7);
    bench.set(0x6003, 0, 3);
    assert!(bench.write(0x6000, 0, 1).is_err());
    assert!(bench.write(0x6002, 0, 1_000).is_err());
    assert_eq!(bench.read(0x6003, 0), Ok(3));
}

#[test]
fn blank_until_the_first_sample_and_while_missing() {
    let mut bench = Bench::pre_operational();
    assert_eq!(bench.read(0x6004, 0), Err(0x0800_0024));
    assert_eq!(position(&mut bench, 0), 0);
    bench.missing();
    assert_eq!(bench.head.position(), None);
    assert_eq!(bench.read(0x6004, 0), Err(0x0800_0024));
}

#[test]
fn both_pdos_carry_it_under_their_identifiers() {
    let mut bench = Bench::operational(0x1_2345);
    bench.set(0x1801, 1, OFF | 0x281);
    bench.set(0x1801, 1, 0x57F);
    bench.sync();
    let frame = bench.slot().expect("TPDO2");
    assert_eq!((frame.identifier, frame.length), (0x57F, 4));
    assert_eq!(frame.bytes, [0x45, 0x23, 0x01, 0, 0, 0, 0, 0]);
}
