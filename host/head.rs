#[repr(C)] pub struct Head([u32; 74]); // private; made by haybleater_power_up alone
#[repr(C)] #[derive(Clone, Copy)] pub struct Name { pub bytes: [u8; 32], pub length: u8 } // bytes from `length` on are ignored
#[repr(C)] #[derive(Clone, Copy)] pub struct Identity {
    pub vendor: u32, pub product: u32, pub revision: u32, pub serial: u32, // 1018h
    pub name: Name, pub hardware: Name, pub software: Name, // 1008h, 1009h, 100Ah
}
#[repr(C)] #[derive(Clone, Copy)] pub struct Setup { pub node: u8, pub identity: Identity }
#[repr(C)] #[derive(Clone, Copy)] pub struct Received { pub bytes: [u8; 8], pub identifier: u32, pub extended: bool, pub remote: bool, pub length: u8 }
#[repr(C)] #[derive(Clone, Copy)] pub struct Frame { pub identifier: u32, pub length: u8, pub bytes: [u8; 8] }
#[repr(C)] #[derive(Clone, Copy)] pub struct Outgoing { pub waited: bool, pub frame: Frame }
#[repr(C)] #[derive(Clone, Copy)] pub struct Located { pub known: bool, pub position: u32 }

extern "C" { // the archive of host/build; in edition 2024: unsafe extern "C"
    pub fn haybleater_power_up(head: *mut Head, setup: Setup) -> u8;
    pub fn haybleater_receive(head: *mut Head, frame: Received) -> u8;
    pub fn haybleater_tick(head: *mut Head);
    pub fn haybleater_sample(head: *mut Head, raw: u32) -> u8;
    pub fn haybleater_missing(head: *mut Head);
    pub fn haybleater_slot(head: *mut Head) -> Outgoing;
    pub fn haybleater_state(head: *const Head) -> u8;
    pub fn haybleater_good(head: *const Head) -> bool;
    pub fn haybleater_position(head: *const Head) -> Located;
    pub fn haybleater_waits(head: *const Head) -> bool;
    pub fn haybleater_goes_if_missing(head: *const Head) -> bool;
}

extern "C" { // archives of host/cross: each pointer is to a whole object, and no two overlap
    pub fn haybleater_at_power_up(head: *mut Head, setup: *const Setup, refusal: *mut u8);
    pub fn haybleater_at_receive(head: *mut Head, frame: *const Received, refusal: *mut u8);
    pub fn haybleater_at_tick(head: *mut Head);
    pub fn haybleater_at_sample(head: *mut Head, raw: *const u32, refusal: *mut u8);
    pub fn haybleater_at_missing(head: *mut Head);
    pub fn haybleater_at_slot(head: *mut Head, outgoing: *mut Outgoing);
    pub fn haybleater_at_state(head: *const Head, state: *mut u8);
    pub fn haybleater_at_good(head: *const Head, good: *mut bool);
    pub fn haybleater_at_position(head: *const Head, located: *mut Located);
    pub fn haybleater_at_waits(head: *const Head, waits: *mut bool);
    pub fn haybleater_at_goes_if_missing(head: *const Head, goes: *mut bool);
}

/// The name that a string spells. Power-up refuses an empty one and one of more than 32 bytes; none is cut.
pub const fn name_of(text: &str) -> Name {
    let mut name = Name { bytes: [0; 32], length: if text.len() > 32 { 33 } else { text.len() as u8 } };
    let mut at = 0;
    while at < text.len() && at < 32 { name.bytes[at] = text.as_bytes()[at]; at += 1; }
    name
}

/// Whether a frame of the head is a position frame.
pub fn is_position(identifier: u32) -> bool { (0x181..=0x57F).contains(&identifier) }
