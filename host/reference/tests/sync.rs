//! Position frames of types 1 to 240: their position is fixed at the SYNC.

mod common;
use common::{Bench, OFF};

const TPDO1: (u16, u32) = (0x1800, 0x181);
const TPDO2: (u16, u32) = (0x1801, 0x281);

/// Operational, both PDOs of these types, nothing waiting.
fn typed(one: u32, two: u32) -> Bench {
    let mut bench = Bench::pre_operational();
    bench.sample(0);
    bench.set_pdo(0x1800, one, 0);
    bench.set_pdo(0x1801, two, 0);
    bench.nmt(0x01);
    bench.drain();
    bench
}

fn syncs(bench: &mut Bench, count: u32) {
    for _ in 0..count {
        bench.sync();
    }
}

/// The position frames that the slots send, by identifier.
fn sent(bench: &mut Bench) -> Vec<(u32, u32)> {
    let frames = bench.drain();
    let positions = frames.iter().filter(|frame| frame.length == 4);
    let numbers = |bytes: [u8; 8]| u32::from_le_bytes([bytes[0], bytes[1], bytes[2], bytes[3]]);
    positions
        .map(|frame| (frame.identifier, numbers(frame.bytes)))
        .collect()
}

#[test]
fn fixed_when_the_frame_joins() {
    for (index, identifier) in [TPDO1, TPDO2] {
        for kind in [1, 2, 239, 240] {
            let mut bench = Bench::operational(5);
            bench.set_pdo(index, kind, 0);
            bench.drain();
            if index == TPDO1.0 {
                bench.set(0x1801, 1, OFF | 0x281);
            }
            syncs(&mut bench, kind);
            bench.sample(6);
            assert_eq!(sent(&mut bench).last(), Some(&(identifier, 5)), "{kind}");
        }
    }
}

#[test]
fn a_timed_frame_carries_the_position_at_the_slot() {
    for kind in [254, 255] {
        let mut bench = typed(kind, kind);
        bench.nmt(0x80);
        bench.nmt(0x01);
        bench.sync();
        bench.sample(6);
        assert_eq!(sent(&mut bench), [(0x181, 6), (0x281, 6)]);
    }
}

#[test]
fn fixed_anew_at_a_due_sync_in_its_place() {
    let mut bench = typed(254, 2);
    syncs(&mut bench, 2);
    bench.frame(0x601, &[0x40, 0x01, 0x65, 0, 0, 0, 0, 0]);
    bench.sample(6);
    syncs(&mut bench, 2);
    assert_eq!(bench.line(), [0x281, 0x581]);
    bench.sample(7);
    assert_eq!(sent(&mut bench), [(0x281, 6)]);
}

#[test]
fn a_sync_that_is_not_due_fixes_nothing() {
    let mut bench = typed(254, 3);
    syncs(&mut bench, 3);
    bench.sample(6);
    syncs(&mut bench, 2);
    assert_eq!(sent(&mut bench), [(0x281, 0)]);
}

#[test]
fn a_due_sync_while_missing_fixes_and_takes_nothing() {
    let mut bench = typed(254, 1);
    bench.sample(5);
    bench.sync();
    bench.sample(6);
    bench.missing();
    bench.sync();
    bench.sync();
    let mut later = Bench { head: bench.head };
    assert_eq!(sent(&mut bench), [(0x281, 5)]);
    bench.sync();
    assert_eq!(sent(&mut bench), []);
    later.sample(7);
    later.sync();
    assert_eq!(sent(&mut later), [(0x281, 7)]);
}

#[test]
fn a_missing_sample_goes_by_the_type() {
    for (one, two) in [(254, 1), (2, 255), (1, 240), (255, 254)] {
        let mut bench = typed(one, two);
        bench.sample(5);
        bench.nmt(0x80);
        bench.nmt(0x01);
        syncs(&mut bench, 240);
        bench.missing();
        let by_sync = [(one, (0x181, 5)), (two, (0x281, 5))];
        let due = by_sync.iter().filter(|(kind, _)| *kind <= 240);
        let due: Vec<_> = due.map(|(_, frame)| *frame).collect();
        assert_eq!(sent(&mut bench), due, "{one}, {two}");
    }
}

#[test]
fn it_waits_through_a_gap() {
    let mut bench = typed(254, 1);
    bench.sample(5);
    bench.sync();
    for raw in [6, 7] {
        bench.missing();
        bench.missing();
        bench.sample(raw);
    }
    assert_eq!(sent(&mut bench), [(0x281, 5)]);
}

#[test]
fn writes_leave_it() {
    let writes: [(u8, [u8; 4], u32); 4] = [
        (0x00, [0, 0, 0, 0], 4_000),
        (0x02, [0, 0xDC, 5, 0], 500),
        (0x03, [0, 40, 0, 0], 40),
        (0x05, [1, 0x88, 0x13, 0], 4_000),
    ];
    for (entry, [sub, low, high, top], position) in writes {
        let mut bench = typed(254, 1);
        bench.set(0x6000, 0, 0x4);
        bench.set(0x6005, 1, 10_000);
        bench.sample(4_000);
        bench.sync();
        bench.frame(0x601, &[0x22, entry, 0x60, sub, low, high, top, 0]);
        assert_eq!(bench.head.position(), Some(position));
        assert_eq!(sent(&mut bench), [(0x281, 2_000)]);
    }
}

#[test]
fn what_takes_it_with_a_good_reading_and_without() {
    let takes: [fn(&mut Bench); 5] = [
        |bench| bench.nmt(0x80),
        |bench| bench.nmt(0x02),
        |bench| bench.nmt(0x81),
        |bench| bench.nmt(0x82),
        |bench| bench.frame(0x601, &[0x23, 0x01, 0x18, 1, 0x81, 2, 0, 0x80]),
    ];
    for take in takes {
        for missing in [false, true] {
            let mut bench = typed(254, 1);
            bench.sync();
            if missing {
                bench.missing();
            }
            assert!(bench.line().contains(&0x281));
            take(&mut bench);
            assert!(!bench.line().contains(&0x281));
        }
    }
}

#[test]
fn each_pdo_has_its_own() {
    let mut bench = typed(2, 3);
    for raw in 11..=15 {
        bench.sample(raw);
        bench.sync();
    }
    assert_eq!(sent(&mut bench), [(0x181, 14), (0x281, 13)]);
}

/// What is sent for each of 300 SYNCs, each second one due, with slots behind every few of them.
fn sent_for_syncs(every: usize) -> Vec<Option<u32>> {
    let mut bench = typed(254, 2);
    let mut positions = vec![None; 300];
    let mut fixing = 0;
    for at in 0..positions.len() {
        if at % 7 < 2 {
            bench.missing();
        } else {
            bench.sample(1_000 + at as u32);
        }
        if at % 2 == 1 && bench.head.reading_good() {
            fixing = at;
        }
        bench.sync();
        bench.sample(2_000 + at as u32);
        if at % every == 0 {
            if let [(_, position)] = sent(&mut bench)[..] {
                positions[fixing] = Some(position);
            }
        }
    }
    positions
}

#[test]
fn the_same_sync_gives_the_same_position_whatever_the_slots() {
    let (early, late) = (sent_for_syncs(1), sent_for_syncs(3));
    let both = early.iter().zip(&late).filter(|(_, late)| late.is_some());
    assert!(both.clone().count() > 50);
    for (early, late) in both {
        assert_eq!(early, late);
    }
}
