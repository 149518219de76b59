//! The SDO server: requests, expedited reads and writes. 01, "Service requests".

use super::entry::Entry;
use super::frame::Identity;
use super::head::{Head, State};
use super::line::Kind;
use super::settings::{
    Settings, Which, EMERGENCY, INVERTED, MOST_SYNCS, OFF, ON_CHANGE_MAKER, ON_CHANGE_PROFILE,
    RAW_STEP, SCALED_RANGE, SCALING,
};
use super::upload::Transfer;

/// Abort codes.
pub mod abort {
    pub const TOGGLE: u32 = 0x0503_0000;
    pub const COMMAND: u32 = 0x0504_0001;
    pub const READ_ONLY: u32 = 0x0601_0002;
    pub const NO_INDEX: u32 = 0x0602_0000;
    pub const TOO_LONG: u32 = 0x0607_0012;
    pub const TOO_SHORT: u32 = 0x0607_0013;
    pub const NO_SUB_INDEX: u32 = 0x0609_0011;
    pub const VALUE: u32 = 0x0609_0030;
    pub const SIGNATURE: u32 = 0x0800_0020;
    pub const STATE: u32 = 0x0800_0022;
    pub const BLANK: u32 = 0x0800_0024;
}

/// Top three bits of a request's first byte.
const WRITE: u8 = 1;
const READ: u8 = 2;
const SEGMENT: u8 = 3;
const CLIENT_ABORT: u8 = 4;

const EXPEDITED: u8 = 0x02;
const SIZE_GIVEN: u8 = 0x01;

const ANSWER_READ_1: u8 = 0x4F;
const ANSWER_READ_2: u8 = 0x4B;
const ANSWER_READ_4: u8 = 0x43;
const ANSWER_READ_NAME: u8 = 0x41;
const ANSWER_WRITE: u8 = 0x60;
const ANSWER_ABORT: u8 = 0x80;

const SIGNATURE_SAVE: u32 = 0x6576_6173;
const SIGNATURE_LOAD: u32 = 0x6461_6F6C;

const PDO_ZERO_BITS: u32 = 0x7FFF_F800;
const LOWEST_PDO: u32 = 0x181;
const HIGHEST_PDO: u32 = 0x57F;
const LOWEST_RANGE: u32 = 1_000;
const HIGHEST_STEP: u32 = 1_000_000;
const STATUS_OPERATIONAL: u32 = 0x8000;

enum Request {
    Read(Entry),
    Write(Entry, u32),
}

impl Request {
    /// Takes a request apart, or tells why it is to be aborted.
    fn decode(bytes: &[u8; 8]) -> Result<Request, u32> {
        let [command, low, high, sub, data @ ..] = *bytes;
        let is_read = command >> 5 == READ;
        let is_write = command >> 5 == WRITE && command & EXPEDITED != 0;
        if !is_read && !is_write {
            return Err(abort::COMMAND);
        }
        let entry = Entry::find(u16::from_le_bytes([low, high]), sub)?;
        if is_read {
            return Ok(Request::Read(entry));
        }
        if !entry.is_writable() {
            return Err(abort::READ_ONLY);
        }
        check_length(command, entry.width())?;
        Ok(Request::Write(entry, value_of(data, entry.width())))
    }
}

fn check_length(command: u8, width: u8) -> Result<(), u32> {
    if command & SIZE_GIVEN == 0 {
        return Ok(());
    }
    let length = 4 - (command >> 2 & 0x03);
    if length > width {
        Err(abort::TOO_LONG)
    } else if length < width {
        Err(abort::TOO_SHORT)
    } else {
        Ok(())
    }
}

/// The first `width` bytes, low byte first.
fn value_of(data: [u8; 4], width: u8) -> u32 {
    let value = u32::from_le_bytes(data);
    match width {
        1 => value & 0xFF,
        2 => value & 0xFFFF,
        _ => value,
    }
}

/// `request` names the entry.
fn reply(first: u8, request: &[u8; 8], value: u32) -> [u8; 8] {
    let [a, b, c, d] = value.to_le_bytes();
    [first, request[1], request[2], request[3], a, b, c, d]
}

pub(super) fn abort_reply(request: &[u8; 8], code: u32) -> [u8; 8] {
    reply(ANSWER_ABORT, request, code)
}

fn answer_to_read(entry: Entry) -> u8 {
    match (entry, entry.width()) {
        (Entry::Name(_), _) => ANSWER_READ_NAME,
        (_, 1) => ANSWER_READ_1,
        (_, 2) => ANSWER_READ_2,
        _ => ANSWER_READ_4,
    }
}

fn member(identity: &Identity, sub: u8) -> u32 {
    match sub {
        1 => identity.vendor,
        2 => identity.product,
        3 => identity.revision,
        _ => identity.serial,
    }
}

fn is_pdo_identifier(value: u32) -> bool {
    value & PDO_ZERO_BITS == 0 && (value & OFF != 0 || (LOWEST_PDO..=HIGHEST_PDO).contains(&value))
}

fn is_pdo_type(value: u32) -> bool {
    let on_change = [u32::from(ON_CHANGE_MAKER), u32::from(ON_CHANGE_PROFILE)];
    (1..=u32::from(MOST_SYNCS)).contains(&value) || on_change.contains(&value)
}

fn unless(permitted: bool, code: u32) -> Result<(), u32> {
    if permitted {
        Ok(())
    } else {
        Err(code)
    }
}

impl Head {
    pub(super) fn request(&mut self, bytes: &[u8; 8]) {
        let serves = matches!(self.state, State::PreOperational | State::Operational);
        if !serves || self.line.holds(Kind::Reply) {
            return;
        }
        // Every request ends the transfer; the segment due takes it up again.
        let running = self.transfer.take();
        let served = match bytes[0] >> 5 {
            CLIENT_ABORT => return,
            SEGMENT => self.segment(bytes, running),
            _ => self.serve(bytes),
        };
        self.reply = served.unwrap_or_else(|code| abort_reply(bytes, code));
        self.line.join(Kind::Reply);
    }

    fn serve(&mut self, bytes: &[u8; 8]) -> Result<[u8; 8], u32> {
        match Request::decode(bytes)? {
            Request::Read(entry) => {
                let value = self.read(entry).ok_or(abort::BLANK)?;
                if let Entry::Name(index) = entry {
                    self.transfer = Some(Transfer::start(index));
                }
                Ok(reply(answer_to_read(entry), bytes, value))
            }
            Request::Write(entry, value) => {
                self.check_value(entry, value)?;
                self.check_state(entry, value)?;
                self.write(entry, value);
                Ok(reply(ANSWER_WRITE, bytes, 0))
            }
        }
    }

    /// None if the entry is blank; of a name its size.
    fn read(&self, entry: Entry) -> Option<u32> {
        let communication = &self.settings.communication;
        let profile = &self.settings.profile;
        Some(match entry {
            Entry::Fixed(_, value) => value,
            Entry::ErrorRegister | Entry::Alarms => u32::from(!self.reading_good()),
            Entry::ErrorCount => u32::from(self.errors),
            Entry::Error(place) if place > self.errors => return None,
            Entry::Error(_) => 0x5000,
            Entry::Save | Entry::Load => 1,
            Entry::Emergency => communication.emergency,
            Entry::Inhibit => u32::from(communication.inhibit),
            Entry::Heartbeat => u32::from(communication.heartbeat),
            Entry::Identity(sub) => member(&self.identity, sub),
            Entry::Name(index) => u32::from(self.identity.name(index).length),
            Entry::PdoIdentifier(which) => communication.pdo(which).identifier,
            Entry::PdoType(which) => u32::from(communication.pdo(which).transmission),
            Entry::PdoTimer(which) => u32::from(communication.pdo(which).timer),
            Entry::Operating => u32::from(profile.operating),
            Entry::Range => profile.range,
            Entry::Preset => profile.preset,
            Entry::Position => return self.position(),
            Entry::Step => profile.step,
            Entry::Status => self.status(),
            Entry::Offset => profile.offset as u32,
        })
    }

    fn status(&self) -> u32 {
        let operating = u32::from(self.settings.profile.operating);
        if self.state == State::Operational {
            operating | STATUS_OPERATIONAL
        } else {
            operating
        }
    }

    fn check_value(&self, entry: Entry, value: u32) -> Result<(), u32> {
        let accepted = match entry {
            Entry::Save => return unless(value == SIGNATURE_SAVE, abort::SIGNATURE),
            Entry::Load => return unless(value == SIGNATURE_LOAD, abort::SIGNATURE),
            Entry::ErrorCount => value == 0,
            Entry::Emergency => value & !OFF == EMERGENCY + u32::from(self.node),
            Entry::PdoIdentifier(_) => is_pdo_identifier(value),
            Entry::PdoType(_) => is_pdo_type(value),
            Entry::Operating => value & !u32::from(SCALING | INVERTED) == 0,
            Entry::Range => (LOWEST_RANGE..=SCALED_RANGE).contains(&value),
            Entry::Preset => value < self.settings.profile.range,
            Entry::Step => (RAW_STEP..=HIGHEST_STEP).contains(&value),
            _ => true,
        };
        unless(accepted, abort::VALUE)
    }

    fn check_state(&self, entry: Entry, value: u32) -> Result<(), u32> {
        let communication = &self.settings.communication;
        let permitted = match entry {
            Entry::Range | Entry::Step => self.settings.profile.is_scaled(),
            Entry::Preset => self.reading_good(),
            Entry::PdoIdentifier(which) => {
                let pdo = communication.pdo(which);
                !pdo.is_on() || value & OFF != 0 || value == pdo.identifier
            }
            Entry::PdoType(which) => !communication.pdo(which).is_on(),
            _ => true,
        };
        unless(permitted, abort::STATE)
    }

    /// The value is accepted: it fits the entry's width.
    fn write(&mut self, entry: Entry, value: u32) {
        let profile = &mut self.settings.profile;
        match entry {
            Entry::ErrorCount => self.errors = 0,
            Entry::Save => self.saved = self.settings,
            Entry::Load => self.saved = Settings::factory(self.node),
            Entry::Operating => profile.set_operating(value as u16),
            Entry::Range => profile.set_range(value),
            Entry::Step => profile.set_step(value),
            Entry::Preset => {
                if let Some(raw) = self.reading {
                    profile.preset_at(value, raw);
                }
            }
            _ => self.write_communication(entry, value),
        }
    }

    fn write_communication(&mut self, entry: Entry, value: u32) {
        let communication = &mut self.settings.communication;
        match entry {
            Entry::Emergency => {
                communication.emergency = value;
                self.review_emergency();
            }
            Entry::Inhibit => communication.inhibit = value as u16,
            Entry::Heartbeat => self.write_heartbeat(value as u16),
            Entry::PdoIdentifier(which) => self.write_pdo_identifier(which, value),
            Entry::PdoType(which) => communication.pdo_mut(which).transmission = value as u8,
            Entry::PdoTimer(which) => {
                communication.pdo_mut(which).timer = value as u16;
                self.restart_pdo_timer(which);
            }
            _ => {}
        }
    }

    fn write_heartbeat(&mut self, time: u16) {
        self.settings.communication.heartbeat = time;
        self.restart_heartbeat();
        if time == 0 {
            self.line.withdraw(Kind::Heartbeat);
        }
    }

    fn write_pdo_identifier(&mut self, which: Which, value: u32) {
        let pdo = self.settings.communication.pdo_mut(which);
        let was_on = pdo.is_on();
        pdo.identifier = value;
        let is_on = pdo.is_on();
        if is_on && !was_on {
            self.restart_pdo_syncs(which);
            self.restart_pdo_timer(which);
        } else if !is_on {
            self.line.withdraw(which.kind());
        }
    }
}
