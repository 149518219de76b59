//! Heartbeat, event timers, SYNC.

mod common;
use common::{Bench, OFF, SAVE};
use reference::Kind;

/// Whether the kind joins at just this tick; it is sent then.
fn joins_after(bench: &mut Bench, kind: Kind, ticks: u32) -> bool {
    bench.ticks(ticks - 1);
    let early = bench.waits(kind);
    bench.ticks(1);
    let joined = bench.waits(kind);
    bench.drain();
    !early && joined
}

#[test]
fn heartbeat_every_h_ticks_from_its_write() {
    let mut bench = Bench::pre_operational();
    bench.set(0x1017, 0, 7);
    assert!(joins_after(&mut bench, Kind::Heartbeat, 7));
    assert!(joins_after(&mut bench, Kind::Heartbeat, 7));
    bench.ticks(6);
    bench.set(0x1017, 0, 7);
    assert!(joins_after(&mut bench, Kind::Heartbeat, 7));
}

#[test]
fn heartbeat_of_65535() {
    let mut bench = Bench::pre_operational();
    bench.set(0x1017, 0, 65_535);
    assert!(joins_after(&mut bench, Kind::Heartbeat, 65_535));
}

#[test]
fn heartbeat_goes_on_through_nmt_states() {
    let mut bench = Bench::pre_operational();
    bench.set(0x1017, 0, 7);
    for command in [0x01, 0x02, 0x80] {
        bench.ticks(1);
        bench.nmt(command);
    }
    bench.drain();
    assert!(joins_after(&mut bench, Kind::Heartbeat, 4));
}

#[test]
fn heartbeat_from_boot_up() {
    let mut bench = Bench::pre_operational();
    bench.set(0x1017, 0, 7);
    bench.set(0x1010, 1, SAVE);
    bench.ticks(3);
    bench.nmt(0x82);
    bench.ticks(100);
    bench.drain();
    assert!(joins_after(&mut bench, Kind::Heartbeat, 7));
}

#[test]
fn a_waiting_heartbeat_does_not_stop_the_count() {
    let mut bench = Bench::pre_operational();
    bench.set(0x1017, 0, 7);
    bench.ticks(10);
    bench.drain();
    assert!(joins_after(&mut bench, Kind::Heartbeat, 4));
}

#[test]
fn entering_operational_sends_the_timed_pdos() {
    for kind in [254, 255] {
        let mut bench = Bench::pre_operational();
        bench.sample(1);
        bench.set_pdo(0x1801, kind, 0);
        bench.drain();
        bench.nmt(0x01);
        assert_eq!(bench.line(), [0x181, 0x281]);
    }
}

#[test]
fn not_if_off_missing_or_by_sync() {
    let mut bench = Bench::pre_operational();
    bench.nmt(0x01);
    assert_eq!(bench.line(), []);
    let mut bench = Bench::pre_operational();
    bench.sample(1);
    bench.set(0x1800, 1, OFF | 0x181);
    bench.drain();
    bench.nmt(0x01);
    assert_eq!(bench.line(), []);
}

#[test]
fn event_timer_from_entry() {
    let mut bench = Bench::operational(1);
    assert!(joins_after(&mut bench, Kind::Tpdo1, 100));
    assert!(joins_after(&mut bench, Kind::Tpdo1, 100));
    bench.ticks(50);
    bench.nmt(0x80);
    bench.ticks(50);
    bench.nmt(0x01);
    bench.drain();
    assert!(joins_after(&mut bench, Kind::Tpdo1, 100));
}

#[test]
fn event_timer_from_switching_on() {
    let mut bench = Bench::operational(1);
    bench.set(0x1800, 1, OFF | 0x181);
    bench.ticks(150);
    bench.set(0x1800, 1, 0x181);
    assert!(!bench.waits(Kind::Tpdo1));
    assert!(joins_after(&mut bench, Kind::Tpdo1, 100));
}

#[test]
fn event_timer_from_a_write_under_either_index() {
    for (index, sub) in [(0x1800, 5), (0x6200, 0)] {
        let mut bench = Bench::operational(1);
        bench.ticks(60);
        bench.set(index, sub, 100);
        assert!(joins_after(&mut bench, Kind::Tpdo1, 100));
        bench.set(index, sub, 0);
        bench.ticks(300);
        assert_eq!(bench.line(), []);
    }
}

#[test]
fn repeating_the_identifier_is_no_switching_on() {
    let mut bench = Bench::operational(1);
    bench.ticks(60);
    bench.set(0x1800, 1, 0x181);
    assert!(joins_after(&mut bench, Kind::Tpdo1, 40));
}

#[test]
fn a_due_moment_while_missing_is_passed_over() {
    let mut bench = Bench::operational(1);
    bench.missing();
    bench.ticks(100);
    bench.sample(1);
    bench.drain();
    assert_eq!(bench.line(), []);
    assert!(joins_after(&mut bench, Kind::Tpdo1, 100));
}

#[test]
fn each_nth_sync() {
    for kind in [1, 2, 240] {
        let mut bench = Bench::operational(1);
        bench.set_pdo(0x1801, kind, 0);
        for at in 1..=2 * kind {
            bench.sync();
            assert_eq!(bench.waits(Kind::Tpdo2), at % kind == 0);
            bench.drain();
        }
    }
}

#[test]
fn syncs_are_counted_from_entry_and_from_switching_on() {
    let mut bench = Bench::operational(1);
    bench.set_pdo(0x1801, 3, 0);
    let restarts: [fn(&mut Bench); 2] = [
        |bench| {
            bench.nmt(0x80);
            bench.nmt(0x01);
        },
        |bench| {
            bench.set(0x1801, 1, OFF | 0x281);
            bench.set(0x1801, 1, 0x281);
        },
    ];
    for restart in restarts {
        bench.sync();
        bench.sync();
        restart(&mut bench);
        bench.sync();
        bench.sync();
        assert!(!bench.waits(Kind::Tpdo2));
        bench.sync();
        assert!(bench.waits(Kind::Tpdo2));
        bench.drain();
    }
}

#[test]
fn a_write_of_the_timer_leaves_the_sync_count() {
    let mut bench = Bench::operational(1);
    bench.set_pdo(0x1801, 2, 0);
    bench.sync();
    bench.set(0x1801, 5, 9);
    bench.sync();
    assert!(bench.waits(Kind::Tpdo2));
}

#[test]
fn syncs_are_counted_while_missing() {
    let mut bench = Bench::operational(1);
    bench.set_pdo(0x1801, 2, 0);
    bench.missing();
    bench.sync();
    bench.sample(1);
    bench.sync();
    assert!(bench.waits(Kind::Tpdo2));
}

#[test]
fn what_counts_as_sync() {
    let mut bench = Bench::operational(1);
    bench.frame(0x080, &[1, 2]);
    assert!(!bench.waits(Kind::Tpdo2));
    bench.frame(0x080, &[200]);
    assert!(bench.waits(Kind::Tpdo2));
    bench.nmt(0x80);
    bench.sync();
    assert!(!bench.waits(Kind::Tpdo2));
}

#[test]
fn a_timer_does_not_send_a_pdo_of_a_sync_type() {
    let mut bench = Bench::operational(1);
    bench.set_pdo(0x1801, 1, 3);
    bench.ticks(9);
    assert!(!bench.waits(Kind::Tpdo2));
}

#[test]
fn a_sync_does_not_send_a_timed_pdo() {
    let mut bench = Bench::operational(1);
    for _ in 0..255 {
        bench.sync();
    }
    assert!(!bench.waits(Kind::Tpdo1));
}
