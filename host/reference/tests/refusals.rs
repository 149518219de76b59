//! Refusal numbers, and frames not meant for the head.

mod common;
use common::{data, Bench, IDENTITY};
use reference::{Head, Identity, Name, Received};

fn refusal_of(frame: &Received) -> u8 {
    let mut head = Bench::pre_operational().head;
    let before = head;
    let refusal = head.receive(frame);
    assert_eq!(head, before);
    refusal
}

fn frame(identifier: u32, extended: bool, remote: bool, length: u8) -> Received {
    Received {
        identifier,
        extended,
        remote,
        length,
        bytes: [0xFF; 8],
    }
}

#[test]
fn identifiers() {
    for remote in [false, true] {
        assert_eq!(refusal_of(&frame(0x7FF, false, remote, 0)), 0);
        assert_eq!(refusal_of(&frame(0x800, false, remote, 0)), 1);
        assert_eq!(refusal_of(&frame(0x800, true, remote, 0)), 0);
        assert_eq!(refusal_of(&frame(0x1FFF_FFFF, true, remote, 8)), 0);
        assert_eq!(refusal_of(&frame(0x2000_0000, true, remote, 8)), 1);
    }
}

#[test]
fn lengths_come_after_identifiers() {
    assert_eq!(refusal_of(&frame(0x123, false, false, 8)), 0);
    assert_eq!(refusal_of(&frame(0x123, false, false, 9)), 2);
    assert_eq!(refusal_of(&frame(0x123, true, true, 255)), 2);
    assert_eq!(refusal_of(&frame(0x800, false, false, 9)), 1);
}

#[test]
fn refused_while_initialising_too() {
    let mut head = Bench::initialising().head;
    assert_eq!(head.receive(&frame(0x800, false, false, 0)), 1);
    assert_eq!(head.receive(&frame(0x000, false, false, 9)), 2);
}

#[test]
fn samples() {
    let mut bench = Bench::pre_operational();
    let before = bench.head;
    assert_eq!(bench.head.sample(1_048_576), 3);
    assert_eq!(bench.head.sample(u32::MAX), 3);
    assert_eq!(bench.head, before);
    assert_eq!(bench.head.sample(1_048_575), 0);
}

fn stand_in() -> Head {
    Head::power_up(1, Identity::UNKNOWN).1
}

#[test]
fn nodes() {
    for node in [0, 128, 255] {
        assert_eq!(Head::power_up(node, IDENTITY), (4, stand_in()));
    }
    for node in [1, 127] {
        let (refusal, mut head) = Head::power_up(node, IDENTITY);
        assert_eq!(refusal, 0);
        let boot_up = head.slot().expect("boot-up");
        assert_eq!(boot_up.identifier, 0x700 + u32::from(node));
    }
}

/// One of the names has this length.
fn identity_with(which: usize, length: u8) -> Identity {
    let mut identity = IDENTITY;
    identity.names[which] = Name {
        bytes: [b'x'; 32],
        length,
    };
    identity
}

#[test]
fn lengths_of_names() {
    for which in 0..3 {
        for length in 0..=255 {
            let (refusal, head) = Head::power_up(7, identity_with(which, length));
            if (1..=32).contains(&length) {
                assert_eq!((refusal, head.node()), (0, 7));
            } else {
                assert_eq!((refusal, head), (5, stand_in()));
            }
        }
    }
}

#[test]
fn a_name_comes_after_the_node() {
    for node in [0, 128] {
        let refused = Head::power_up(node, identity_with(2, 33));
        assert_eq!(refused, (4, stand_in()));
    }
}

#[test]
fn a_refused_head_has_numbers_0_and_a_name_each() {
    for (node, length) in [(0, 1), (0, 0), (9, 0)] {
        let (_, head) = Head::power_up(node, identity_with(0, length));
        let mut bench = Bench { head };
        bench.drain();
        for sub in 1..=4 {
            assert_eq!(bench.read(0x1018, sub), Ok(0));
        }
        for index in [0x1008, 0x1009, 0x100A] {
            assert_eq!(bench.upload(index), b"?");
        }
    }
}

#[test]
fn frames_not_meant_for_the_head() {
    let request = [0x40, 0, 0x10, 0, 0, 0, 0, 0];
    let mut remote_request = data(0x601, &request);
    remote_request.remote = true;
    let mut extended_request = data(0x601, &request);
    extended_request.extended = true;
    let mut remote_command = data(0x000, &[0x01, 0]);
    remote_command.remote = true;
    let frames = [
        data(0x602, &request),
        data(0x601, &request[..7]),
        data(0x581, &request),
        remote_request,
        extended_request,
        remote_command,
        data(0x000, &[0x01]),
        data(0x000, &[0x01, 0, 0]),
        data(0x000, &[0x01, 2]),
        data(0x000, &[0x03, 1]),
        data(0x001, &[0x01, 0]),
    ];
    for frame in frames {
        assert_eq!(refusal_of(&frame), 0, "{frame:?}");
    }
}
