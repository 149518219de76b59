//! Power-up, NMT commands, resets, the saved set.

mod common;
use common::{Bench, LOAD, MISSING, OFF, SAVE};
use reference::Kind;

#[test]
fn only_the_boot_up_frame_waits_at_first() {
    let mut bench = Bench::initialising();
    bench.missing();
    bench.frame(0x000, &[0x01, 0]);
    bench.frame(0x601, &[0x40, 0, 0x10, 0, 0, 0, 0, 0]);
    bench.ticks(1000);
    assert_eq!(bench.head.nmt_state(), 0x00);
    let boot_up = bench.slot().expect("boot-up");
    assert_eq!(
        (boot_up.identifier, boot_up.length, boot_up.bytes),
        (0x701, 1, [0; 8])
    );
    assert_eq!(bench.head.nmt_state(), 0x7F);
    assert_eq!(bench.line(), [0x081]);
}

#[test]
fn a_sample_before_boot_up_counts() {
    let mut bench = Bench::initialising();
    bench.sample(5);
    bench.slot();
    assert_eq!(bench.line(), []);
    assert_eq!(bench.read(0x6004, 0), Ok(5));
}

#[test]
fn errors_are_listed_while_initialising() {
    let mut bench = Bench::initialising();
    bench.sample(5);
    bench.missing();
    bench.drain();
    assert_eq!(bench.read(0x1003, 0), Ok(1));
}

#[test]
fn commands() {
    let mut bench = Bench::pre_operational();
    for (command, state) in [(0x01, 0x05), (0x02, 0x04), (0x80, 0x7F), (0x02, 0x04)] {
        bench.nmt(command);
        assert_eq!(bench.head.nmt_state(), state);
    }
    bench.frame(0x000, &[0x01, 0]);
    assert_eq!(bench.head.nmt_state(), 0x05);
    bench.frame(0x000, &[0x80, 2]);
    bench.frame(0x000, &[0x7F, 0]);
    assert_eq!(bench.head.nmt_state(), 0x05);
}

#[test]
fn naming_the_present_state_has_no_effect() {
    let mut bench = Bench::operational(9);
    bench.ticks(50);
    let before = bench.head;
    bench.nmt(0x01);
    assert_eq!(bench.head, before);
}

#[test]
fn stopped_serves_no_requests() {
    let mut bench = Bench::pre_operational();
    bench.nmt(0x02);
    bench.frame(0x601, &[0x40, 0, 0x10, 0, 0, 0, 0, 0]);
    assert_eq!(bench.line(), []);
}

#[test]
fn a_reset_works_in_every_state_but_initialising() {
    for command in [0x01, 0x02, 0x80] {
        let mut bench = Bench::pre_operational();
        bench.nmt(command);
        bench.nmt(0x82);
        assert_eq!(bench.head.nmt_state(), 0x00);
        assert_eq!(bench.slot().map(|frame| frame.identifier), Some(0x701));
    }
}

#[test]
fn a_reset_announces_a_missing_reading_again() {
    let mut bench = Bench::pre_operational();
    bench.nmt(0x82);
    let frames = bench.drain();
    assert_eq!(frames.len(), 2);
    assert_eq!(frames[1].bytes, MISSING);
}

#[test]
fn a_reset_counts_good_as_announced() {
    let mut bench = Bench::operational(3);
    bench.missing();
    bench.drain();
    bench.sample(3);
    bench.nmt(0x81);
    assert_eq!(bench.drain().len(), 1);
}

#[test]
fn a_reset_ends_the_inhibit_time() {
    let mut bench = Bench::operational(3);
    bench.set(0x1015, 0, 65_535);
    bench.nmt(0x80);
    bench.set(0x1010, 1, SAVE);
    bench.missing();
    bench.drain();
    assert!(bench.head.is_inhibited());
    bench.nmt(0x81);
    bench.slot();
    assert_eq!(bench.line(), [0x081]);
}

#[test]
fn reading_and_error_list_outlive_a_reset() {
    let mut bench = Bench::operational(3);
    bench.missing();
    bench.sample(77);
    bench.nmt(0x81);
    bench.drain();
    assert_eq!(bench.read(0x1003, 0), Ok(1));
    assert_eq!(bench.read(0x6004, 0), Ok(77));
}

#[test]
fn reset_node_takes_everything_back_to_the_saved_set() {
    let mut bench = Bench::pre_operational();
    bench.set(0x1017, 0, 500);
    bench.set(0x6000, 0, 0xC);
    bench.nmt(0x81);
    bench.drain();
    assert_eq!(bench.read(0x1017, 0), Ok(0));
    assert_eq!(bench.read(0x6000, 0), Ok(0));
    assert_eq!(bench.read(0x6002, 0), Ok(1_048_576));
}

#[test]
fn reset_communication_stops_at_2000h() {
    let mut bench = Bench::pre_operational();
    bench.sample(100);
    bench.set(0x1017, 0, 500);
    bench.set(0x6200, 0, 7);
    bench.set(0x6000, 0, 0x4);
    bench.set(0x6003, 0, 40);
    bench.nmt(0x82);
    bench.drain();
    assert_eq!(bench.read(0x1017, 0), Ok(0));
    assert_eq!(bench.read(0x6200, 0), Ok(100));
    assert_eq!(bench.read(0x6000, 0), Ok(0x4));
    assert_eq!(bench.read(0x6003, 0), Ok(40));
    assert_eq!(bench.read(0x6509, 0), Ok(-60_i32 as u32));
}

#[test]
fn save_keeps_every_setting() {
    let mut bench = Bench::pre_operational();
    bench.sample(100);
    bench.set_pdo(0x1800, 7, 70);
    bench.set(0x1800, 1, OFF | 0x7FF);
    bench.set_pdo(0x1801, 255, 80);
    bench.set(0x6000, 0, 0x4);
    bench.set(0x6005, 1, 10_000);
    bench.set(0x6002, 0, 5_000);
    let settings = [
        (0x1014, 0, OFF | 0x81),
        (0x1015, 0, 15),
        (0x1017, 0, 1_000),
        (0x6003, 0, 10),
    ];
    for (index, sub, value) in settings {
        bench.set(index, sub, value);
    }
    bench.set(0x1010, 1, SAVE);
    bench.set(0x6000, 0, 0);
    bench.set(0x1801, 5, 81);
    bench.nmt(0x81);
    bench.drain();
    let kept = [
        (0x1800, 1, OFF | 0x7FF),
        (0x1800, 2, 7),
        (0x1800, 5, 70),
        (0x1801, 2, 255),
        (0x1801, 5, 80),
        (0x6000, 0, 0x4),
        (0x6002, 0, 5_000),
        (0x6005, 1, 10_000),
        (0x6509, 0, -40_i32 as u32),
    ];
    for (index, sub, value) in settings.into_iter().chain(kept) {
        assert_eq!(bench.read(index, sub), Ok(value), "{index:X}-{sub}");
    }
}

#[test]
fn load_shows_at_the_next_reset() {
    let mut bench = Bench::pre_operational();
    bench.set(0x1015, 0, 15);
    bench.set(0x6000, 0, 0x8);
    bench.set(0x1010, 1, SAVE);
    bench.set(0x1011, 1, LOAD);
    assert_eq!(bench.read(0x1015, 0), Ok(15));
    bench.nmt(0x82);
    bench.drain();
    assert_eq!(bench.read(0x1015, 0), Ok(0));
    assert_eq!(bench.read(0x6000, 0), Ok(0x8));
    bench.nmt(0x81);
    bench.drain();
    assert_eq!(bench.read(0x6000, 0), Ok(0));
}

#[test]
fn a_reset_empties_the_line() {
    let mut bench = Bench::operational(3);
    bench.frame(0x601, &[0x40, 0, 0x10, 0, 0, 0, 0, 0]);
    bench.sync();
    assert!(bench.waits(Kind::Reply) && bench.waits(Kind::Tpdo2));
    bench.nmt(0x82);
    assert_eq!(bench.line(), [0x701]);
}
