//! The waiting line: order, and each withdrawal.

mod common;
use common::{Bench, OFF};
use reference::{Frame, Kind};

const EMERGENCY: u32 = 0x081;
const REPLY: u32 = 0x581;
const HEARTBEAT: u32 = 0x701;
const TPDO1: u32 = 0x181;
const TPDO2: u32 = 0x281;

/// All five wait, in the order the calls below make them join.
fn crowded() -> Bench {
    let mut bench = Bench::operational(1);
    bench.missing();
    bench.drain();
    bench.set(0x1800, 5, 10);
    bench.set(0x1017, 0, 10);
    bench.frame(0x601, &[0x40, 0x00, 0x60, 0, 0, 0, 0, 0]);
    bench.sample(2);
    bench.sync();
    bench.ticks(10);
    assert_eq!(bench.line(), [REPLY, EMERGENCY, TPDO2, HEARTBEAT, TPDO1]);
    bench
}

#[test]
fn first_come_first_sent() {
    let mut bench = crowded();
    bench.ticks(10);
    bench.sync();
    assert_eq!(bench.line(), [REPLY, EMERGENCY, TPDO2, HEARTBEAT, TPDO1]);
    bench.slot();
    bench.slot();
    bench.slot();
    bench.sync();
    assert_eq!(bench.line(), [HEARTBEAT, TPDO1, TPDO2]);
}

#[test]
fn several_in_one_tick_join_in_the_fixed_order() {
    let mut bench = Bench::operational(1);
    bench.set_pdo(0x1801, 254, 6);
    bench.set(0x1800, 5, 6);
    bench.set(0x1801, 5, 6);
    bench.set(0x1017, 0, 6);
    bench.set(0x1015, 0, 50);
    bench.missing();
    bench.drain();
    bench.sample(1);
    bench.ticks(6);
    assert_eq!(bench.line(), [EMERGENCY, HEARTBEAT, TPDO1, TPDO2]);
}

#[test]
fn steady_requests_do_not_hold_the_heartbeat_back() {
    let mut bench = Bench::pre_operational();
    bench.set(0x1017, 0, 1);
    bench.frame(0x601, &[0x40, 0, 0x10, 0, 0, 0, 0, 0]);
    bench.ticks(1);
    assert_eq!(bench.slot().map(|frame| frame.identifier), Some(REPLY));
    bench.frame(0x601, &[0x40, 0, 0x10, 0, 0, 0, 0, 0]);
    assert_eq!(bench.slot().map(|frame| frame.identifier), Some(HEARTBEAT));
}

#[test]
fn slot_sends_nothing_exactly_if_nothing_waits() {
    let mut bench = Bench::pre_operational();
    assert!(!bench.head.anything_waits());
    assert_eq!(bench.slot(), None);
}

#[test]
fn reply_fixed_at_the_request_and_position_at_the_sync_or_the_slot() {
    let mut bench = Bench::operational(1);
    bench.ticks(100);
    bench.frame(0x601, &[0x40, 0x04, 0x60, 0, 0, 0, 0, 0]);
    bench.sync();
    bench.sample(2);
    let frames = bench.drain();
    assert_eq!(bytes_of(&frames, TPDO1), [2, 0, 0, 0, 0, 0, 0, 0]);
    assert_eq!(bytes_of(&frames, REPLY), [0x43, 0x04, 0x60, 0, 1, 0, 0, 0]);
    assert_eq!(bytes_of(&frames, TPDO2), [1, 0, 0, 0, 0, 0, 0, 0]);
}

fn bytes_of(frames: &[Frame], identifier: u32) -> [u8; 8] {
    let found = frames.iter().find(|frame| frame.identifier == identifier);
    found.expect("a frame").bytes
}

#[test]
fn the_heartbeat_tells_the_state_at_the_slot() {
    let mut bench = crowded();
    bench.nmt(0x02);
    assert_eq!(bench.slot().map(|frame| frame.bytes[0]), Some(0x04));
}

#[test]
fn entering_stopped_takes_all_but_the_heartbeat() {
    let mut bench = crowded();
    bench.nmt(0x02);
    assert_eq!(bench.line(), [HEARTBEAT]);
    bench.nmt(0x80);
    assert_eq!(bench.line(), [HEARTBEAT, EMERGENCY]);
}

#[test]
fn leaving_operational_takes_the_pdos() {
    let mut bench = crowded();
    bench.nmt(0x80);
    assert_eq!(bench.line(), [REPLY, EMERGENCY, HEARTBEAT]);
}

#[test]
fn a_missing_sample_takes_the_pdo_that_is_not_by_sync() {
    let mut bench = crowded();
    bench.missing();
    assert_eq!(bench.line(), [REPLY, TPDO2, HEARTBEAT]);
    bench.sample(3);
    assert_eq!(bench.line(), [REPLY, TPDO2, HEARTBEAT, EMERGENCY]);
}

#[test]
fn switching_a_pdo_off_takes_it() {
    let mut bench = crowded();
    bench.slot();
    bench.frame(0x601, &[0x23, 0x01, 0x18, 1, 0x81, 2, 0, 0x80]);
    assert_eq!(bench.line(), [EMERGENCY, HEARTBEAT, TPDO1, REPLY]);
}

#[test]
fn switching_off_under_another_identifier_takes_it_too() {
    let mut bench = crowded();
    bench.slot();
    bench.frame(0x601, &[0x23, 0x00, 0x18, 1, 0x00, 0, 0, 0x80]);
    assert_eq!(bench.line(), [EMERGENCY, TPDO2, HEARTBEAT, REPLY]);
    bench.drain();
    assert_eq!(bench.read(0x1800, 1), Ok(OFF));
}

#[test]
fn writing_0_to_1017h_takes_the_heartbeat() {
    let mut bench = crowded();
    bench.slot();
    bench.frame(0x601, &[0x2B, 0x17, 0x10, 0, 0, 0, 0, 0]);
    assert_eq!(bench.line(), [EMERGENCY, TPDO2, TPDO1, REPLY]);
}

#[test]
fn another_time_in_1017h_leaves_it() {
    let mut bench = crowded();
    bench.slot();
    bench.frame(0x601, &[0x2B, 0x17, 0x10, 0, 5, 0, 0, 0]);
    assert!(bench.waits(Kind::Heartbeat));
}

#[test]
fn a_reset_takes_all() {
    for command in [0x81, 0x82] {
        let mut bench = crowded();
        bench.nmt(command);
        bench.slot();
        assert_eq!(bench.line(), []);
    }
}
