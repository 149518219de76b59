//! P1 to P12 and the session example.

mod common;
use common::{Bench, MISSING};

fn hex(text: &str) -> [u8; 8] {
    let mut bytes = [0; 8];
    for (byte, word) in bytes.iter_mut().zip(text.split(' ')) {
        *byte = u8::from_str_radix(word, 16).expect("hex");
    }
    bytes
}

fn check(bench: &mut Bench, request: &str, reply: &str) {
    assert_eq!(bench.ask(hex(request)), hex(reply), "{request}");
}

#[test]
fn p1_to_p6_and_p11() {
    let pairs = [
        ("40 01 65 00 00 00 00 00", "43 01 65 00 88 13 00 00"),
        ("2B 00 62 00 64 00 00 00", "60 00 62 00 00 00 00 00"),
        ("2F 17 10 00 88 13 00 00", "80 17 10 00 13 00 07 06"),
        ("20 02 21 00 F4 01 00 00", "80 02 21 00 01 00 04 05"),
        ("2B 00 60 00 01 00 00 00", "80 00 60 00 30 00 09 06"),
        ("40 04 60 00 00 00 00 00", "80 04 60 00 24 00 00 08"),
        ("40 01 18 03 00 00 00 00", "80 01 18 03 11 00 09 06"),
    ];
    for (request, reply) in pairs {
        check(&mut Bench::pre_operational(), request, reply);
    }
}

#[test]
fn p7_position_of_a_raw_sample() {
    let mut bench = Bench::pre_operational();
    bench.sample(69_637);
    check(
        &mut bench,
        "40 04 60 00 00 00 00 00",
        "43 04 60 00 05 10 01 00",
    );
}

#[test]
fn p8_inverted() {
    let mut bench = Bench::pre_operational();
    bench.set(0x6000, 0, 0x8);
    bench.sample(0);
    assert_eq!(bench.read(0x6004, 0), Ok(1_048_575));
}

#[test]
fn p9_scaling_rounds_to_nearest() {
    let mut bench = Bench::pre_operational();
    bench.set(0x6000, 0, 0x4);
    bench.set(0x6005, 1, 10_000);
    for (raw, position) in [(6, 3), (7, 4)] {
        bench.sample(raw);
        assert_eq!(bench.read(0x6004, 0), Ok(position));
    }
}

#[test]
fn p10_preset_and_signed_offset() {
    let mut bench = Bench::pre_operational();
    bench.sample(100);
    bench.set(0x6003, 0, 40);
    check(
        &mut bench,
        "40 09 65 00 00 00 00 00",
        "43 09 65 00 C4 FF FF FF",
    );
    assert_eq!(bench.read(0x6004, 0), Ok(40));
    bench.sample(50);
    assert_eq!(bench.read(0x6004, 0), Ok(1_048_566));
}

#[test]
fn p12_value_before_state() {
    let mut bench = Bench::pre_operational();
    assert_eq!(bench.write(0x6002, 0, 999), Err(0x0609_0030));
    assert_eq!(bench.write(0x6002, 0, 1_000), Err(0x0800_0022));
}

#[test]
fn session_example() {
    let mut bench = Bench::initialising();
    let sent = |bench: &mut Bench| bench.slot().map(|frame| (frame.identifier, frame.bytes));
    assert_eq!(sent(&mut bench), Some((0x701, [0; 8])));
    assert_eq!(sent(&mut bench), Some((0x081, MISSING)));
    bench.sample(69_637);
    assert_eq!(sent(&mut bench), Some((0x081, [0; 8])));
    bench.frame(0x601, &hex("40 04 60 00 00 00 00 00"));
    let reply = hex("43 04 60 00 05 10 01 00");
    assert_eq!(sent(&mut bench), Some((0x581, reply)));
    bench.missing();
    assert_eq!(sent(&mut bench), Some((0x081, MISSING)));
    assert_eq!(sent(&mut bench), None);
}
