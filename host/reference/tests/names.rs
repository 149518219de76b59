//! Names: the segmented upload, and what ends one.

mod common;
use common::{Bench, OFF, SAVE};
use reference::Kind;

const ALPHABET: &[u8; 32] = b"ABCDEFGHIJKLMNOPQRSTUVWXYZ012345";

const READ: [u8; 8] = [0x40, 0x08, 0x10, 0, 0, 0, 0, 0];
const SIZE: [u8; 8] = [0x41, 0x08, 0x10, 0, 32, 0, 0, 0];
const FIRST: [u8; 8] = *b"\0ABCDEFG";
const SECOND: [u8; 8] = *b"\x10HIJKLMN";
const WRONG_TOGGLE: [u8; 8] = [0x80, 0x08, 0x10, 0, 0, 0, 0x03, 0x05];
const CLIENT_ABORT: [u8; 8] = [0x80, 0x08, 0x10, 0, 0, 0, 0x04, 0x05];

/// Bits and bytes that say nothing are set.
const EVEN: [u8; 8] = [0x6F, 1, 2, 3, 4, 5, 6, 7];
const ODD: [u8; 8] = [0x7F, 1, 2, 3, 4, 5, 6, 7];
const NO_TRANSFER: [u8; 8] = [0x80, 1, 2, 3, 0x01, 0, 0x04, 0x05];

/// A name of 32 bytes, the first segment of which is sent.
fn in_transfer() -> Bench {
    let mut bench = Bench::named(ALPHABET);
    assert_eq!(bench.ask(READ), SIZE);
    assert_eq!(bench.ask(EVEN), FIRST);
    bench
}

fn is_over(bench: &mut Bench) {
    assert_eq!(bench.head.transfer(), None);
    assert_eq!(bench.ask(ODD), NO_TRANSFER);
}

#[test]
fn every_length() {
    for length in 1..=32 {
        let mut bench = Bench::named(&ALPHABET[..length]);
        assert_eq!(bench.upload(0x1008), ALPHABET[..length]);
        is_over(&mut bench);
    }
}

#[test]
fn each_name_under_its_index() {
    let mut bench = Bench::pre_operational();
    assert_eq!(bench.upload(0x1008), b"HEAD");
    assert_eq!(bench.upload(0x1009), b"1");
    assert_eq!(bench.upload(0x100A), b"1");
    for index in [0x1007, 0x100B] {
        assert_eq!(bench.read(index, 0), Err(0x0602_0000));
    }
    for index in [0x1008, 0x1009, 0x100A] {
        assert_eq!(bench.read(index, 1), Err(0x0609_0011));
    }
}

#[test]
fn any_byte_is_a_byte_of_a_name() {
    let name = [0, 0xFF, 0, 0x80, 0, 0, 0, 0];
    assert_eq!(Bench::named(&name).upload(0x1008), name);
}

#[test]
fn short_names_come_in_segments_too() {
    let mut bench = Bench::named(b"abcd");
    assert_eq!(bench.ask(READ), [0x41, 0x08, 0x10, 0, 4, 0, 0, 0]);
    let last = [0x07, b'a', b'b', b'c', b'd', 0, 0, 0];
    assert_eq!(bench.ask(EVEN), last);
}

#[test]
fn a_multiple_of_7_ends_with_a_full_segment() {
    let mut bench = Bench::named(b"abcdefghijklmn");
    assert_eq!(bench.ask(READ), [0x41, 0x08, 0x10, 0, 14, 0, 0, 0]);
    assert_eq!(bench.ask(EVEN), *b"\0abcdefg");
    assert_eq!(bench.ask(ODD), *b"\x11hijklmn");
    is_over(&mut bench);
}

#[test]
fn names_are_read_only() {
    // Without a size, and with each.
    for command in [0x22, 0x23, 0x27, 0x2B, 0x2F, 0x3E] {
        let mut bench = in_transfer();
        let write = [command, 0x08, 0x10, 0, b'x', 0, 0, 0];
        let refused = [0x80, 0x08, 0x10, 0, 0x02, 0, 0x01, 0x06];
        assert_eq!(bench.ask(write), refused);
        is_over(&mut bench);
        assert_eq!(bench.upload(0x1008), ALPHABET);
    }
    let mut bench = in_transfer();
    let segmented = [0x21, 0x08, 0x10, 0, 4, 0, 0, 0];
    let refused = [0x80, 0x08, 0x10, 0, 0x01, 0, 0x04, 0x05];
    assert_eq!(bench.ask(segmented), refused);
    is_over(&mut bench);
}

#[test]
fn a_wrong_toggle_names_the_entry_and_ends() {
    let mut bench = Bench::named(ALPHABET);
    bench.ask(READ);
    assert_eq!(bench.ask(ODD), WRONG_TOGGLE);
    is_over(&mut bench);
    let mut bench = in_transfer();
    assert_eq!(bench.ask(EVEN), WRONG_TOGGLE);
    is_over(&mut bench);
    bench.read(0x100A, 0).expect("a size");
    let reply = bench.ask(ODD);
    assert_eq!(reply, [0x80, 0x0A, 0x10, 0, 0, 0, 0x03, 0x05]);
}

#[test]
fn a_segment_without_a_transfer() {
    let mut bench = Bench::pre_operational();
    for mut request in [EVEN, ODD] {
        assert_eq!(bench.ask(request), NO_TRANSFER);
        request[1..4].copy_from_slice(&[0x08, 0x10, 0]);
        let reply = bench.ask(request);
        assert_eq!(reply, [0x80, 0x08, 0x10, 0, 0x01, 0, 0x04, 0x05]);
    }
}

#[test]
fn every_other_request_ends_it() {
    let requests = [
        [0x40, 0x01, 0x65, 0, 0, 0, 0, 0], // a read
        [0x40, 0x04, 0x60, 0, 0, 0, 0, 0], // of a blank
        [0x40, 0xFF, 0xFF, 0, 0, 0, 0, 0], // of nothing
        [0x2B, 0x17, 0x10, 0, 0, 0, 0, 0], // a write
        [0x2F, 0x17, 0x10, 0, 0, 0, 0, 0], // a short one
        [0x20, 0x17, 0x10, 0, 0, 0, 0, 0], // with bit 1 clear
        [0x00, 0x08, 0x10, 0, 0, 0, 0, 0], // other top bits
        [0xA0, 0x08, 0x10, 0, 0, 0, 0, 0],
        [0xC0, 0x08, 0x10, 0, 0, 0, 0, 0],
        [0xE0, 0x08, 0x10, 0, 0, 0, 0, 0],
    ];
    for request in requests {
        let mut bench = in_transfer();
        bench.ask(request);
        is_over(&mut bench);
    }
}

#[test]
fn a_read_of_a_name_begins_anew() {
    let mut bench = in_transfer();
    assert_eq!(bench.ask(READ), SIZE);
    assert_eq!(bench.ask(EVEN), FIRST);
    assert_eq!(bench.ask(ODD), SECOND);
    assert_eq!(bench.read(0x1009, 0), Ok(1));
    assert_eq!(bench.ask(EVEN), [0x0D, b'1', 0, 0, 0, 0, 0, 0]);
}

#[test]
fn a_clients_abort_ends_it_without_a_reply() {
    for (first, index) in [(0x80, 0x08), (0x80, 0x09), (0x9F, 0x08)] {
        let mut bench = in_transfer();
        let mut abort = CLIENT_ABORT;
        (abort[0], abort[1]) = (first, index);
        bench.frame(0x601, &abort);
        assert_eq!(bench.line(), []);
        is_over(&mut bench);
    }
}

#[test]
fn no_request_is_heard_while_a_reply_waits() {
    let segment_due = ODD;
    let requests = [READ, EVEN, segment_due, CLIENT_ABORT, [0x2F; 8], [0xE0; 8]];
    for request in requests {
        let mut bench = Bench::named(ALPHABET);
        bench.frame(0x601, &READ);
        bench.frame(0x601, &request);
        assert_eq!(bench.slot().map(|frame| frame.bytes), Some(SIZE));
        bench.frame(0x601, &EVEN);
        bench.frame(0x601, &request);
        assert_eq!(bench.slot().map(|frame| frame.bytes), Some(FIRST));
        assert_eq!(bench.ask(ODD), SECOND);
    }
}

#[test]
fn resets_end_it() {
    for command in [0x81, 0x82] {
        let mut bench = in_transfer();
        bench.frame(0x601, &ODD);
        bench.nmt(command);
        bench.drain();
        is_over(&mut bench);
        assert_eq!(bench.upload(0x1008), ALPHABET);
    }
}

#[test]
fn entering_stopped_ends_it_with_a_waiting_reply() {
    for waits in [false, true] {
        let mut bench = in_transfer();
        if waits {
            bench.frame(0x601, &ODD);
        }
        bench.nmt(0x02);
        assert!(!bench.waits(Kind::Reply));
        bench.nmt(0x80);
        bench.drain();
        is_over(&mut bench);
    }
}

#[test]
fn nothing_else_ends_it() {
    let mut bench = in_transfer();
    bench.nmt(0x01);
    bench.nmt(0x01);
    bench.sample(5);
    bench.sync();
    bench.ticks(70_000);
    bench.missing();
    bench.drain();
    bench.nmt(0x80);
    bench.nmt(0x03);
    bench.frame(0x000, &[0x02, 2]);
    bench.frame(0x601, &CLIENT_ABORT[..7]);
    bench.frame(0x602, &CLIENT_ABORT);
    bench.drain();
    assert_eq!(bench.ask(ODD), SECOND);
}

#[test]
fn a_reply_that_waits_through_a_change_of_state_is_sent() {
    let mut bench = in_transfer();
    bench.nmt(0x01);
    bench.frame(0x601, &ODD);
    bench.nmt(0x80);
    assert_eq!(bench.slot().map(|frame| frame.bytes), Some(SECOND));
    assert_eq!(bench.ask(EVEN), *b"\0OPQRSTU");
}

#[test]
fn names_are_no_settings() {
    let mut bench = Bench::named(ALPHABET);
    bench.set(0x1010, 1, SAVE);
    bench.set(0x1800, 1, OFF | 0x181);
    for command in [0x81, 0x82] {
        bench.nmt(command);
        bench.drain();
        assert_eq!(bench.upload(0x1008), ALPHABET);
        assert_eq!(bench.upload(0x1009), b"1");
    }
}
