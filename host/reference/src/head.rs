//! The head: states, timers, waiting line. 01, "States" and "The waiting line".

use super::frame::{refusal, Frame, Identity, Name, Received};
use super::line::{Kind, Line};
use super::settings::{Settings, Which, EMERGENCY, OFF};
use super::upload::Transfer;

const NMT: u32 = 0x000;
const SYNC: u32 = 0x080;
const SDO_REQUEST: u32 = 0x600;
const SDO_REPLY: u32 = 0x580;
const HEARTBEAT: u32 = 0x700;

const ALL_NODES: u8 = 0;
const HIGHEST_SAMPLE: u32 = 1_048_575;
const MOST_ERRORS: u8 = 4;

const EMERGENCY_MISSING: [u8; 8] = [0x00, 0x50, 0x01, 0, 0, 0, 0, 0];
const EMERGENCY_GOOD: [u8; 8] = [0; 8];

/// NMT states with their heartbeat codes.
#[derive(Clone, Copy, PartialEq, Eq, Debug)]
#[repr(u8)]
pub enum State {
    Initialising = 0x00,
    Stopped = 0x04,
    Operational = 0x05,
    PreOperational = 0x7F,
}

/// Steps left to a due moment; stands still at 0.
#[derive(Clone, Copy, PartialEq, Eq, Debug)]
struct Countdown(u16);

impl Countdown {
    const IDLE: Countdown = Countdown(0);

    fn is_running(self) -> bool {
        self.0 != 0
    }

    /// One step; true if it was the last.
    fn ends(&mut self) -> bool {
        let was = self.0;
        self.0 = was.saturating_sub(1);
        was == 1
    }
}

/// What a PDO waits for, by timer or by SYNC.
#[derive(Clone, Copy, PartialEq, Eq, Debug)]
struct Due {
    ticks: Countdown,
    syncs: Countdown,
    /// The position at the last due SYNC that found a good reading.
    fixed: u32,
}

impl Due {
    const IDLE: Due = Due {
        ticks: Countdown::IDLE,
        syncs: Countdown::IDLE,
        fixed: 0,
    };
}

/// One encoder head. It comes from [`Head::power_up`] and is altered by calls only.
#[derive(Clone, Copy, PartialEq, Eq, Debug)]
pub struct Head {
    pub(super) node: u8,
    pub(super) identity: Identity,
    pub(super) state: State,
    pub(super) settings: Settings,
    pub(super) saved: Settings,
    /// The raw sample; none while missing.
    pub(super) reading: Option<u32>,
    /// All errors in the list are the same one, so their count is the list.
    pub(super) errors: u8,
    announced_good: bool,
    inhibit: Countdown,
    heartbeat: Countdown,
    due1: Due,
    due2: Due,
    pub(super) line: Line,
    pub(super) reply: [u8; 8],
    /// None if no name is being read.
    pub(super) transfer: Option<Transfer>,
}

impl Head {
    /// The refusal number or 0, and the head in Initialising.
    pub fn power_up(node: u8, identity: Identity) -> (u8, Head) {
        let refused = match node {
            1..=127 if identity.names.iter().all(Name::is_valid) => refusal::NONE,
            1..=127 => refusal::NAME,
            _ => refusal::NODE,
        };
        match refused {
            refusal::NONE => (refused, Head::new(node, identity)),
            _ => (refused, Head::new(1, Identity::UNKNOWN)),
        }
    }

    fn new(node: u8, identity: Identity) -> Head {
        let factory = Settings::factory(node);
        Head {
            node,
            identity,
            state: State::Initialising,
            settings: factory,
            saved: factory,
            reading: None,
            errors: 0,
            announced_good: true,
            inhibit: Countdown::IDLE,
            heartbeat: Countdown::IDLE,
            due1: Due::IDLE,
            due2: Due::IDLE,
            line: Line::EMPTY,
            reply: [0; 8],
            transfer: None,
        }
    }

    /// A frame came in. The refusal number or 0.
    pub fn receive(&mut self, frame: &Received) -> u8 {
        let refused = frame.refusal();
        if refused == refusal::NONE && frame.is_plain_data() && self.state != State::Initialising {
            self.take(frame);
        }
        refused
    }

    fn take(&mut self, frame: &Received) {
        let request = SDO_REQUEST + u32::from(self.node);
        match (frame.identifier, frame.length) {
            (NMT, 2) => self.command(frame.bytes[0], frame.bytes[1]),
            (SYNC, 0 | 1) => self.sync(),
            (identifier, 8) if identifier == request => self.request(&frame.bytes),
            _ => {}
        }
    }

    /// A millisecond passed.
    pub fn tick(&mut self) {
        if self.state == State::Initialising {
            return;
        }
        if self.inhibit.ends() {
            self.review_emergency();
        }
        if self.heartbeat.ends() {
            self.line.join(Kind::Heartbeat);
            self.restart_heartbeat();
        }
        if self.state == State::Operational {
            self.tick_pdo(Which::One);
            self.tick_pdo(Which::Two);
        }
    }

    /// A raw position was read. The refusal number or 0.
    pub fn sample(&mut self, raw: u32) -> u8 {
        if raw > HIGHEST_SAMPLE {
            return refusal::SAMPLE;
        }
        self.reading = Some(raw);
        self.review_emergency();
        refusal::NONE
    }

    /// No position could be read.
    pub fn missing(&mut self) {
        if self.reading.is_some() {
            self.errors = (self.errors + 1).min(MOST_ERRORS);
        }
        self.reading = None;
        self.withdraw_timed(Which::One);
        self.withdraw_timed(Which::Two);
        self.review_emergency();
    }

    /// The bus is free: the frame to be sent, none exactly if none waits.
    pub fn slot(&mut self) -> Option<Frame> {
        if self.state == State::Initialising {
            return Some(self.boot_up());
        }
        match self.line.take_first()? {
            Kind::Emergency => Some(self.announce()),
            Kind::Reply => Some(Frame::of_eight(self.based(SDO_REPLY), self.reply)),
            Kind::Heartbeat => Some(Frame::of_one(self.based(HEARTBEAT), self.nmt_state())),
            Kind::Tpdo1 => self.position_frame(Which::One),
            Kind::Tpdo2 => self.position_frame(Which::Two),
        }
    }

    /// The heartbeat code; Initialising is 00h.
    pub fn nmt_state(&self) -> u8 {
        self.state as u8
    }

    pub fn reading_good(&self) -> bool {
        self.reading.is_some()
    }

    /// None while missing.
    pub fn position(&self) -> Option<u32> {
        self.reading.map(|raw| self.settings.profile.position(raw))
    }

    pub fn anything_waits(&self) -> bool {
        self.state == State::Initialising || self.line.first().is_some()
    }

    /// Whether this kind is in the waiting line.
    pub fn waits(&self, kind: Kind) -> bool {
        self.line.holds(kind)
    }

    /// What the next slot takes from the waiting line.
    pub fn first_waiting(&self) -> Option<Kind> {
        self.line.first()
    }

    /// How many kinds wait, not counting the boot-up frame.
    pub fn count_waiting(&self) -> usize {
        self.line.count()
    }

    pub fn is_inhibited(&self) -> bool {
        self.inhibit.is_running()
    }

    /// The upload that is under way.
    pub fn transfer(&self) -> Option<Transfer> {
        self.transfer
    }

    pub fn node(&self) -> u8 {
        self.node
    }

    fn based(&self, function: u32) -> u32 {
        function + u32::from(self.node)
    }
}

/// NMT.
impl Head {
    fn command(&mut self, command: u8, node: u8) {
        if node != ALL_NODES && node != self.node {
            return;
        }
        match command {
            0x01 => self.enter(State::Operational),
            0x02 => self.enter(State::Stopped),
            0x80 => self.enter(State::PreOperational),
            0x81 => self.reset(self.saved),
            0x82 => self.reset(Settings {
                communication: self.saved.communication,
                ..self.settings
            }),
            _ => {}
        }
    }

    fn enter(&mut self, state: State) {
        if state == self.state {
            return;
        }
        self.state = state;
        if state == State::Stopped {
            self.line.withdraw(Kind::Reply);
            self.transfer = None;
        }
        self.review_emergency();
        if state == State::Operational {
            self.start_pdo(Which::One);
            self.start_pdo(Which::Two);
        } else {
            self.line.withdraw(Kind::Tpdo1);
            self.line.withdraw(Kind::Tpdo2);
        }
    }

    fn reset(&mut self, settings: Settings) {
        self.settings = settings;
        self.state = State::Initialising;
        self.transfer = None;
        self.line = Line::EMPTY;
        self.inhibit = Countdown::IDLE;
        self.announced_good = true;
    }

    fn boot_up(&mut self) -> Frame {
        let frame = Frame::of_one(self.based(HEARTBEAT), self.nmt_state());
        self.state = State::PreOperational;
        self.restart_heartbeat();
        self.review_emergency();
        frame
    }

    /// Counting starts anew with the present 1017h.
    pub(super) fn restart_heartbeat(&mut self) {
        self.heartbeat = Countdown(self.settings.communication.heartbeat);
    }
}

/// Emergency.
impl Head {
    fn emergency_is_due(&self) -> bool {
        matches!(self.state, State::PreOperational | State::Operational)
            && self.settings.communication.emergency & OFF == 0
            && !self.inhibit.is_running()
            && self.announced_good != self.reading_good()
    }

    /// Needed after every change of what the emergency depends on.
    pub(super) fn review_emergency(&mut self) {
        if self.emergency_is_due() {
            self.line.join(Kind::Emergency);
        } else {
            self.line.withdraw(Kind::Emergency);
        }
    }

    fn announce(&mut self) -> Frame {
        self.announced_good = self.reading_good();
        self.inhibit = Countdown(self.settings.communication.inhibit_ticks());
        let bytes = if self.announced_good {
            EMERGENCY_GOOD
        } else {
            EMERGENCY_MISSING
        };
        Frame::of_eight(self.based(EMERGENCY), bytes)
    }
}

/// Transmit PDOs.
impl Head {
    fn due(&self, which: Which) -> &Due {
        match which {
            Which::One => &self.due1,
            Which::Two => &self.due2,
        }
    }

    fn due_mut(&mut self, which: Which) -> &mut Due {
        match which {
            Which::One => &mut self.due1,
            Which::Two => &mut self.due2,
        }
    }

    /// Entry to Operational.
    fn start_pdo(&mut self, which: Which) {
        self.restart_pdo_syncs(which);
        self.restart_pdo_timer(which);
        if self.settings.communication.pdo(which).is_timed() {
            self.join_pdo(which);
        }
    }

    pub(super) fn restart_pdo_syncs(&mut self, which: Which) {
        let syncs = u16::from(self.settings.communication.pdo(which).transmission);
        self.due_mut(which).syncs = Countdown(syncs);
    }

    pub(super) fn restart_pdo_timer(&mut self, which: Which) {
        let ticks = self.settings.communication.pdo(which).timer;
        self.due_mut(which).ticks = Countdown(ticks);
    }

    fn tick_pdo(&mut self, which: Which) {
        let timed = self.settings.communication.pdo(which).is_timed();
        if timed && self.due_mut(which).ticks.ends() {
            self.restart_pdo_timer(which);
            self.join_pdo(which);
        }
    }

    fn sync(&mut self) {
        if self.state == State::Operational {
            self.sync_pdo(Which::One);
            self.sync_pdo(Which::Two);
        }
    }

    fn sync_pdo(&mut self, which: Which) {
        let timed = self.settings.communication.pdo(which).is_timed();
        if !timed && self.due_mut(which).syncs.ends() {
            self.restart_pdo_syncs(which);
            self.fix_position(which);
            self.join_pdo(which);
        }
    }

    /// While missing, a frame that waits keeps the position it has.
    fn fix_position(&mut self, which: Which) {
        if let Some(position) = self.position() {
            self.due_mut(which).fixed = position;
        }
    }

    /// A due moment; passed over while the PDO is off or the reading is missing.
    fn join_pdo(&mut self, which: Which) {
        if self.settings.communication.pdo(which).is_on() && self.reading_good() {
            self.line.join(which.kind());
        }
    }

    /// Takes a frame of types 254 and 255: its position would be that at the slot.
    fn withdraw_timed(&mut self, which: Which) {
        if self.settings.communication.pdo(which).is_timed() {
            self.line.withdraw(which.kind());
        }
    }

    fn position_frame(&self, which: Which) -> Option<Frame> {
        let pdo = self.settings.communication.pdo(which);
        let position = if pdo.is_timed() {
            self.position()?
        } else {
            self.due(which).fixed
        };
        Some(Frame::of_four(pdo.frame_identifier(), position))
    }
}
