//! Factory values, ranges, aborts in order.

mod common;
use common::{Bench, LOAD, OFF, SAVE};

const NO_VALUE: Result<(), u32> = Err(0x0609_0030);
const NOT_NOW: Result<(), u32> = Err(0x0800_0022);

/// Node 1, the reading missing.
const FACTORY: [(u16, u8, u32); 37] = [
    (0x1000, 0, 0x0008_0196),
    (0x1003, 0, 0),
    (0x1005, 0, 0x80),
    (0x1010, 0, 1),
    (0x1010, 1, 1),
    (0x1011, 0, 1),
    (0x1011, 1, 1),
    (0x1014, 0, 0x81),
    (0x1015, 0, 0),
    (0x1017, 0, 0),
    (0x1018, 0, 4),
    (0x1018, 1, 1),
    (0x1018, 2, 2),
    (0x1018, 3, 3),
    (0x1018, 4, 4),
    (0x1800, 0, 5),
    (0x1800, 1, 0x181),
    (0x1800, 2, 254),
    (0x1800, 5, 100),
    (0x1801, 0, 5),
    (0x1801, 1, 0x281),
    (0x1801, 2, 1),
    (0x1801, 5, 0),
    (0x1A00, 0, 1),
    (0x1A00, 1, 0x6004_0020),
    (0x1A01, 0, 1),
    (0x1A01, 1, 0x6004_0020),
    (0x6000, 0, 0),
    (0x6002, 0, 1_048_576),
    (0x6003, 0, 0),
    (0x6005, 0, 1),
    (0x6005, 1, 5_000),
    (0x6200, 0, 100),
    (0x6500, 0, 0),
    (0x6501, 0, 5_000),
    (0x6504, 0, 1),
    (0x6509, 0, 0),
];

#[test]
fn factory_values() {
    let mut bench = Bench::pre_operational();
    for (index, sub, value) in FACTORY {
        assert_eq!(bench.read(index, sub), Ok(value), "{index:X}-{sub}");
    }
}

#[test]
fn neighbours_do_not_exist() {
    let mut bench = Bench::pre_operational();
    for index in [
        0x1002, 0x1004, 0x1016, 0x1019, 0x1802, 0x1A02, 0x6001, 0x6006, 0x6502,
    ] {
        assert_eq!(bench.read(index, 0), Err(0x0602_0000), "{index:X}");
    }
    for (index, sub) in [
        (0x1000, 1),
        (0x1003, 5),
        (0x1018, 5),
        (0x1800, 3),
        (0x1800, 6),
        (0x6005, 2),
    ] {
        assert_eq!(bench.read(index, sub), Err(0x0609_0011), "{index:X}-{sub}");
    }
}

#[test]
fn emergency_identifier() {
    let mut bench = Bench::pre_operational();
    for value in [0x80, 0x82, 0, 0x4000_0081, OFF | 0x80, 0x2000_0081] {
        assert_eq!(bench.write(0x1014, 0, value), NO_VALUE, "{value:X}");
    }
    bench.set(0x1014, 0, OFF | 0x81);
    bench.set(0x1014, 0, 0x81);
}

#[test]
fn pdo_identifiers() {
    let mut bench = Bench::pre_operational();
    for value in [
        0x180,
        0x580,
        0,
        0x7FF,
        0x4000_0181,
        OFF | 0x800,
        OFF | 0x4000_0000,
    ] {
        assert_eq!(bench.write(0x1800, 1, value), NO_VALUE, "{value:X}");
    }
    for value in [OFF, OFF | 0x7FF, 0x181] {
        bench.set(0x1800, 1, value);
    }
    bench.set(0x1800, 1, OFF);
    bench.set(0x1800, 1, 0x57F);
    assert_eq!(bench.write(0x1800, 1, 0x57E), NOT_NOW);
    bench.set(0x1800, 1, 0x57F);
}

#[test]
fn pdo_types() {
    let mut bench = Bench::pre_operational();
    assert_eq!(bench.write(0x1801, 2, 1), NOT_NOW);
    assert_eq!(bench.write(0x1801, 2, 0), NO_VALUE);
    bench.set(0x1801, 1, OFF | 0x281);
    for value in [1, 240, 254, 255] {
        bench.set(0x1801, 2, value);
    }
    for value in [0, 241, 253] {
        assert_eq!(bench.write(0x1801, 2, value), NO_VALUE);
    }
}

#[test]
fn operating_parameters() {
    let mut bench = Bench::pre_operational();
    for value in [0x0, 0x4, 0x8, 0xC] {
        bench.set(0x6000, 0, value);
        assert_eq!(bench.read(0x6500, 0), Ok(value));
    }
    for value in [0x1, 0x2, 0x5, 0x10, 0x8000] {
        assert_eq!(bench.write(0x6000, 0, value), NO_VALUE);
    }
    bench.nmt(0x01);
    assert_eq!(bench.read(0x6500, 0), Ok(0x800C));
}

#[test]
fn range_and_step_with_scaling_only() {
    let mut bench = Bench::pre_operational();
    assert_eq!(bench.write(0x6005, 1, 4_999), NO_VALUE);
    assert_eq!(bench.write(0x6005, 1, 5_000), NOT_NOW);
    bench.set(0x6000, 0, 0x4);
    for (index, sub, low, high) in [(0x6002, 0, 1_000, 1_000_000), (0x6005, 1, 5_000, 1_000_000)] {
        bench.set(index, sub, low);
        bench.set(index, sub, high);
        assert_eq!(bench.write(index, sub, low - 1), NO_VALUE);
        assert_eq!(bench.write(index, sub, high + 1), NO_VALUE);
    }
}

#[test]
fn preset_below_the_range_and_with_a_reading() {
    let mut bench = Bench::pre_operational();
    assert_eq!(bench.write(0x6003, 0, 1_048_576), NO_VALUE);
    assert_eq!(bench.write(0x6003, 0, 1_048_575), NOT_NOW);
    bench.sample(0);
    bench.set(0x6003, 0, 1_048_575);
}

#[test]
fn signatures() {
    let mut bench = Bench::pre_operational();
    assert_eq!(bench.write(0x1010, 1, LOAD), Err(0x0800_0020));
    assert_eq!(bench.write(0x1011, 1, SAVE), Err(0x0800_0020));
    bench.set(0x1010, 1, SAVE);
    bench.set(0x1011, 1, LOAD);
}

#[test]
fn read_only_comes_before_length_and_value() {
    let mut bench = Bench::pre_operational();
    for (index, sub) in [
        (0x1000, 0),
        (0x1001, 0),
        (0x1003, 1),
        (0x1005, 0),
        (0x1010, 0),
    ] {
        assert_eq!(bench.write(index, sub, 0), Err(0x0601_0002));
    }
    for (index, sub) in [
        (0x1018, 1),
        (0x1800, 0),
        (0x1A00, 1),
        (0x6004, 0),
        (0x6005, 0),
    ] {
        assert_eq!(bench.write(index, sub, 0), Err(0x0601_0002));
    }
    for index in [0x6500, 0x6501, 0x6503, 0x6504, 0x6509] {
        assert_eq!(bench.write(index, 0, 0), Err(0x0601_0002));
    }
}

#[test]
fn lengths() {
    let mut bench = Bench::pre_operational();
    for (first, code) in [(0x23, 0x12), (0x27, 0x12), (0x2F, 0x13)] {
        let reply = bench.ask([first, 0x17, 0x10, 0, 1, 0, 0, 0]);
        assert_eq!(reply, [0x80, 0x17, 0x10, 0, code, 0, 0x07, 0x06]);
    }
    // Longer comes before the value, here a wrong signature's length too.
    let reply = bench.ask([0x2B, 0x10, 0x10, 1, 0, 0, 0, 0]);
    assert_eq!(reply, [0x80, 0x10, 0x10, 1, 0x13, 0, 0x07, 0x06]);
}

#[test]
fn without_the_size_bit_the_length_is_the_entrys() {
    let mut bench = Bench::pre_operational();
    for first in [0x22, 0x26, 0x2A, 0x2E, 0x32] {
        let reply = bench.ask([first, 0x17, 0x10, 0, 0x34, 0x12, 0xFF, 0xFF]);
        assert_eq!(reply, [0x60, 0x17, 0x10, 0, 0, 0, 0, 0]);
        assert_eq!(bench.read(0x1017, 0), Ok(0x1234));
    }
}

#[test]
fn reserved_bits_are_ignored() {
    let mut bench = Bench::pre_operational();
    let reply = bench.ask([0x5F, 0x01, 0x65, 0, 9, 9, 9, 9]);
    assert_eq!(reply, [0x43, 0x01, 0x65, 0, 0x88, 0x13, 0, 0]);
    let reply = bench.ask([0x3B, 0x15, 0x10, 0, 5, 0, 9, 9]);
    assert_eq!(reply, [0x60, 0x15, 0x10, 0, 0, 0, 0, 0]);
}

#[test]
fn other_commands_come_before_all_else() {
    let mut bench = Bench::pre_operational();
    for first in [0x00, 0x20, 0x21, 0x2D, 0x60, 0xA0, 0xC0, 0xFF] {
        let reply = bench.ask([first, 0xFF, 0xFF, 0xFF, 1, 2, 3, 4]);
        assert_eq!(reply, [0x80, 0xFF, 0xFF, 0xFF, 0x01, 0, 0x04, 0x05]);
    }
}

#[test]
fn a_clients_abort_has_no_effect() {
    let mut bench = Bench::pre_operational();
    let before = bench.head;
    bench.frame(0x601, &[0x80, 0, 0x10, 0, 0, 0, 0, 0]);
    bench.frame(0x601, &[0x9F, 0, 0x10, 0, 0, 0, 0, 0]);
    assert_eq!(bench.head, before);
}

#[test]
fn a_request_while_a_reply_waits_has_no_effect() {
    let mut bench = Bench::pre_operational();
    bench.frame(0x601, &[0x40, 0x01, 0x65, 0, 0, 0, 0, 0]);
    let before = bench.head;
    bench.frame(0x601, &[0x2B, 0x17, 0x10, 0, 9, 0, 0, 0]);
    assert_eq!(bench.head, before);
}
