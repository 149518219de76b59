//! Makes each call of the head from Rust, with the declarations of host/README.md (crate `head`), and exits otherwise than with 0 if
//! an answer is not as it should be. With `--cfg by_pointer` it makes the calls by the exports of an archive of host/cross.
use head::*;
use std::mem::MaybeUninit;

#[cfg(not(by_pointer))]
use head::{
    haybleater_goes_if_missing as goes_if_missing, haybleater_good as good, haybleater_missing as missing, haybleater_position as position,
    haybleater_power_up as power_up, haybleater_receive as receive, haybleater_sample as sample, haybleater_slot as slot,
    haybleater_state as state, haybleater_tick as tick, haybleater_waits as waits,
};

#[cfg(by_pointer)]
use by_pointer::*;

#[cfg(by_pointer)]
mod by_pointer {
    use super::*;

    pub use head::{haybleater_at_missing as missing, haybleater_at_tick as tick};

    /// What a call answers at the place that it is given.
    unsafe fn answer<T>(call: impl FnOnce(*mut T)) -> T {
        let mut place = MaybeUninit::uninit();
        call(place.as_mut_ptr());
        place.assume_init()
    }

    pub unsafe fn power_up(head: *mut Head, setup: Setup) -> u8 { answer(|refusal| haybleater_at_power_up(head, &setup, refusal)) }
    pub unsafe fn receive(head: *mut Head, frame: Received) -> u8 { answer(|refusal| haybleater_at_receive(head, &frame, refusal)) }
    pub unsafe fn sample(head: *mut Head, raw: u32) -> u8 { answer(|refusal| haybleater_at_sample(head, &raw, refusal)) }
    pub unsafe fn slot(head: *mut Head) -> Outgoing { answer(|outgoing| haybleater_at_slot(head, outgoing)) }
    pub unsafe fn state(head: *const Head) -> u8 { answer(|state| haybleater_at_state(head, state)) }
    pub unsafe fn good(head: *const Head) -> bool { answer(|good| haybleater_at_good(head, good)) }
    pub unsafe fn position(head: *const Head) -> Located { answer(|located| haybleater_at_position(head, located)) }
    pub unsafe fn waits(head: *const Head) -> bool { answer(|waits| haybleater_at_waits(head, waits)) }
    pub unsafe fn goes_if_missing(head: *const Head) -> bool { answer(|goes| haybleater_at_goes_if_missing(head, goes)) }
}

const NODE: u8 = 5;
const RAW: u32 = 69637;
const POSITION: [u8; 8] = [0x05, 0x10, 0x01, 0x00, 0, 0, 0, 0];
const PRE_OPERATIONAL: u8 = 0x7F;
const START: Received = Received { bytes: [0x01, NODE, 0, 0, 0, 0, 0, 0], identifier: 0x000, extended: false, remote: false, length: 2 };
const SYNC: Received = Received { bytes: [0; 8], identifier: 0x080, extended: false, remote: false, length: 0 };
const READ_POSITION: [u8; 8] = [0x40, 0x04, 0x60, 0x00, 0, 0, 0, 0];
const SERIAL: u32 = 0x1234_5678;
const READ_SERIAL: [u8; 8] = [0x40, 0x18, 0x10, 0x04, 0, 0, 0, 0];
const NAME: Name = name_of("Haybleater");
const READ_NAME: [u8; 8] = [0x40, 0x08, 0x10, 0x00, 0, 0, 0, 0];

fn request(bytes: [u8; 8], length: u8) -> Received {
    Received { bytes, identifier: 0x600 + u32::from(NODE), extended: false, remote: false, length }
}

/// The identifier, the length and the bytes of the next frame, if one waits.
unsafe fn next_frame(head: *mut Head) -> Option<(u32, u8, [u8; 8])> {
    let Outgoing { waited, frame } = slot(head);
    waited.then_some((frame.identifier, frame.length, frame.bytes))
}

/// The bytes of the reply to a request.
unsafe fn reply(head: *mut Head, bytes: [u8; 8]) -> Option<[u8; 8]> {
    assert_eq!(receive(head, request(bytes, 8)), 0);
    next_frame(head).map(|(identifier, length, bytes)| {
        assert_eq!((identifier, length), (0x585, 8));
        bytes
    })
}

fn main() {
    let mut place = MaybeUninit::<Head>::uninit();
    let head = place.as_mut_ptr();
    unsafe {
        let identity = Identity { vendor: 1, product: 2, revision: 3, serial: SERIAL, name: NAME, hardware: name_of("1"), software: name_of("1") };
        let [empty, long] = ["", "a name that does not fit 32 bytes"].map(|text| Identity { software: name_of(text), ..identity });
        assert_eq!((power_up(head, Setup { node: 0, identity }), power_up(head, Setup { node: 0, identity: empty })), (4, 4));
        assert_eq!((power_up(head, Setup { node: NODE, identity: empty }), power_up(head, Setup { node: NODE, identity: long })), (5, 5));
        assert_eq!(power_up(head, Setup { node: NODE, identity }), 0);
        assert_eq!((sample(head, RAW), sample(head, 1 << 20)), (0, 3));
        assert_eq!(next_frame(head), Some((0x705, 1, [0; 8])));
        assert_eq!((state(head), good(head), waits(head)), (PRE_OPERATIONAL, true, false));
        assert_eq!((receive(head, request(READ_POSITION, 9)), receive(head, request(READ_POSITION, 8))), (2, 0));
        assert_eq!(next_frame(head), Some((0x585, 8, [0x43, 0x04, 0x60, 0x00, 0x05, 0x10, 0x01, 0x00])));
        assert_eq!(reply(head, READ_SERIAL), Some([0x43, 0x18, 0x10, 0x04, 0x78, 0x56, 0x34, 0x12]));
        assert_eq!(reply(head, READ_NAME), Some([0x41, 0x08, 0x10, 0x00, NAME.length, 0, 0, 0]));
        assert_eq!(reply(head, [0x60, 0, 0, 0, 0, 0, 0, 0]), Some(*b"\x00Hayblea"));
        assert_eq!(reply(head, [0x70, 0, 0, 0, 0, 0, 0, 0]), Some(*b"\x19ter\0\0\0\0"));
        let Located { known, position: at } = position(head);
        assert_eq!((known, at), (true, RAW));
        tick(head);
        assert_eq!((receive(head, START), waits(head), goes_if_missing(head)), (0, true, true));
        assert_eq!(next_frame(head), Some((0x185, 4, POSITION)));
        assert_eq!((receive(head, SYNC), waits(head), goes_if_missing(head)), (0, true, false));
        missing(head);
        assert_eq!((position(head).known, good(head), waits(head)), (false, false, true));
        assert_eq!(next_frame(head), Some((0x285, 4, POSITION)));
        assert_eq!(next_frame(head), Some((0x085, 8, [0x00, 0x50, 0x01, 0, 0, 0, 0, 0])));
        assert!(is_position(0x180 + u32::from(NODE)) && !is_position(0x580 + u32::from(NODE)));
        assert_eq!(next_frame(head), None);
    }
}
