//! Emergency, its inhibit time, the error list.

mod common;
use common::{Bench, MISSING, OFF};
use reference::Kind;

fn inhibited(time: u32) -> Bench {
    let mut bench = Bench::operational(1);
    bench.set(0x1015, 0, time);
    bench.missing();
    assert_eq!(bench.slot().map(|frame| frame.bytes), Some(MISSING));
    bench.sample(1);
    bench
}

#[test]
fn inhibit_time_in_ticks() {
    for (time, ticks) in [
        (1, 2),
        (9, 2),
        (10, 2),
        (11, 3),
        (20, 3),
        (100, 11),
        (65_535, 6_555),
    ] {
        let mut bench = inhibited(time);
        bench.ticks(ticks - 1);
        assert!(!bench.waits(Kind::Emergency), "{time}");
        bench.ticks(1);
        assert!(bench.waits(Kind::Emergency), "{time}");
    }
}

#[test]
fn no_inhibit_time_if_0() {
    assert!(inhibited(0).waits(Kind::Emergency));
}

#[test]
fn writing_1015h_leaves_a_running_time_alone() {
    for time in [0, 1, 1_000] {
        let mut bench = inhibited(100);
        bench.set(0x1015, 0, time);
        bench.ticks(10);
        assert!(!bench.waits(Kind::Emergency));
        bench.ticks(1);
        assert!(bench.waits(Kind::Emergency));
    }
}

#[test]
fn the_inhibit_time_runs_on_in_stopped() {
    let mut bench = inhibited(100);
    bench.nmt(0x02);
    bench.ticks(11);
    assert!(!bench.waits(Kind::Emergency));
    bench.nmt(0x80);
    assert!(bench.waits(Kind::Emergency));
}

#[test]
fn it_goes_when_the_reading_is_as_announced_again() {
    let mut bench = Bench::operational(1);
    bench.missing();
    assert!(bench.waits(Kind::Emergency));
    bench.sample(2);
    assert!(!bench.waits(Kind::Emergency));
}

#[test]
fn switched_off_by_bit_31_of_1014h() {
    let mut bench = Bench::operational(1);
    bench.set(0x1014, 0, OFF | 0x81);
    bench.missing();
    assert!(!bench.waits(Kind::Emergency));
    bench.frame(0x601, &[0x23, 0x14, 0x10, 0, 0x81, 0, 0, 0]);
    assert_eq!(bench.line(), [0x081, 0x581]);
}

#[test]
fn switching_off_takes_it() {
    let mut bench = Bench::operational(1);
    bench.missing();
    bench.frame(0x601, &[0x23, 0x14, 0x10, 0, 0x81, 0, 0, 0x80]);
    assert_eq!(bench.line(), [0x581]);
}

#[test]
fn the_error_list_counts_changes_to_missing() {
    let mut bench = Bench::pre_operational();
    for count in [1, 2, 3, 4, 4, 4] {
        bench.sample(1);
        bench.missing();
        bench.missing();
        assert_eq!(bench.read(0x1003, 0), Ok(count));
        for sub in 1..=4 {
            let listed = u32::from(sub) <= count;
            let due = if listed { Ok(0x5000) } else { Err(0x0800_0024) };
            assert_eq!(bench.read(0x1003, sub), due);
        }
    }
    assert_eq!(bench.write(0x1003, 0, 1), Err(0x0609_0030));
    bench.set(0x1003, 0, 0);
    assert_eq!(bench.read(0x1003, 0), Ok(0));
    assert_eq!(bench.read(0x1003, 1), Err(0x0800_0024));
}

#[test]
fn register_and_alarms_tell_a_missing_reading() {
    let mut bench = Bench::pre_operational();
    assert_eq!(
        (bench.read(0x1001, 0), bench.read(0x6503, 0)),
        (Ok(1), Ok(1))
    );
    bench.sample(1);
    assert_eq!(
        (bench.read(0x1001, 0), bench.read(0x6503, 0)),
        (Ok(0), Ok(0))
    );
    assert_eq!(bench.read(0x6504, 0), Ok(1));
}
