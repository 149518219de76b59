//! Random calls, planned as short scenarios so that they reach rare states.

use std::collections::VecDeque;

use reference::wire::Call;
use reference::{Head, Kind, Received, State};

use crate::dictionary::{nmt, places, read, segment};
use crate::rng::Rng;
use crate::scenarios;

#[derive(Clone, Copy)]
pub enum Step {
    Call(Call),
    /// Slots until no reply waits.
    Settle,
    /// Slots until nothing waits.
    Drain,
    /// To Pre-operational or Operational.
    Awake,
    /// A segment request with these bytes; with bit 4 the toggle is not the one due.
    Segment([u8; 8]),
    /// Segments until no transfer runs, and slots until no reply waits.
    Upload,
}

pub struct Generator {
    pub rng: Rng,
    steps: VecDeque<Step>,
    /// How often a call is preceded by a slot.
    slot_percent: u32,
    until_change_of_pace: u32,
    until_dictionary: u32,
    until_long_wait: u32,
    /// Valid nodes are taken in turn, so that all are met.
    last_node: u8,
    in_dictionary: bool,
    places: Vec<(u16, u8)>,
}

const FIRST_LONG_WAIT: u32 = 150_000;
const BETWEEN_LONG_WAITS: u32 = 450_000;

impl Generator {
    pub fn new(seed: u64) -> Generator {
        let rng = Rng::new(seed);
        let last_node = rng.between(1, 127) as u8;
        let mut generator = Generator {
            rng,
            steps: VecDeque::new(),
            // No slot before the first power-up.
            slot_percent: 0,
            until_change_of_pace: 0,
            until_dictionary: 20,
            until_long_wait: FIRST_LONG_WAIT,
            last_node,
            in_dictionary: false,
            places: places(),
        };
        scenarios::power_up(&mut generator);
        generator
    }

    pub fn is_in_dictionary(&self) -> bool {
        self.in_dictionary
    }

    /// The next call for a head that is now as given.
    pub fn next(&mut self, head: &Head) -> Call {
        loop {
            let Some(step) = self.steps.pop_front() else {
                self.plan(head);
                continue;
            };
            if let Some(call) = self.expand(step, head) {
                self.in_dictionary = match call {
                    Call::Keep => true,
                    Call::Restore => false,
                    _ => self.in_dictionary,
                };
                return call;
            }
        }
    }

    /// The step's next call, if it has one still; the step stays as long as it has more.
    fn expand(&mut self, step: Step, head: &Head) -> Option<Call> {
        let call = match step {
            Step::Call(call) if self.slot_comes_first(&call) => {
                self.steps.push_front(Step::Call(call));
                return Some(Call::Slot);
            }
            Step::Call(call) => return Some(call),
            Step::Segment(bytes) => {
                let toggle = due_toggle(head) != (bytes[0] & 0x10 != 0);
                return Some(Call::Receive(segment(head.node(), toggle, bytes)));
            }
            Step::Upload if head.waits(Kind::Reply) => Call::Slot,
            Step::Upload if head.transfer().is_some() => {
                Call::Receive(segment(head.node(), due_toggle(head), [0; 8]))
            }
            Step::Settle if head.waits(Kind::Reply) => Call::Slot,
            Step::Drain if head.anything_waits() => Call::Slot,
            Step::Awake => wake(head)?,
            Step::Settle | Step::Drain | Step::Upload => return None,
        };
        self.steps.push_front(step);
        Some(call)
    }

    fn slot_comes_first(&mut self, call: &Call) -> bool {
        if self.in_dictionary {
            return false;
        }
        let among = if *call == Call::Tick { 800 } else { 100 };
        self.rng.between(1, among) <= self.slot_percent
    }

    fn plan(&mut self, head: &Head) {
        if elapsed(&mut self.until_change_of_pace) {
            self.until_change_of_pace = self.rng.between(5, 60);
            self.slot_percent = self.rng.pick(&[0, 0, 2, 5, 10, 30, 50, 70]);
        }
        if elapsed(&mut self.until_dictionary) {
            self.until_dictionary = self.rng.between(5, 50);
            self.plan_dictionary(head.node());
        } else if self.until_long_wait == 0 {
            self.until_long_wait = BETWEEN_LONG_WAITS;
            scenarios::long_wait(self);
        } else {
            scenarios::choose(self, head);
        }
    }

    /// Counts a call of the random part, for the rare scenarios.
    pub fn count(&mut self) {
        self.until_long_wait = self.until_long_wait.saturating_sub(1);
    }

    /// Reads all there is, twice: as it is, and as a reset makes it, which shows the saved set.
    fn plan_dictionary(&mut self, node: u8) {
        self.call(Call::Keep);
        self.steps.extend([Step::Awake, Step::Drain]);
        self.read_all(node);
        self.frame(nmt(0x81, node));
        self.steps.push_back(Step::Drain);
        self.read_all(node);
        self.call(Call::Restore);
    }

    /// The segment request shows whether a transfer runs.
    fn read_all(&mut self, node: u8) {
        self.steps.extend([Step::Segment([0; 8]), Step::Upload]);
        for &(index, sub) in &self.places {
            let request = Call::Receive(read(node, index, sub));
            self.steps.extend([Step::Call(request), Step::Upload]);
        }
    }

    pub fn call(&mut self, call: Call) {
        self.steps.push_back(Step::Call(call));
    }

    pub fn frame(&mut self, frame: Received) {
        self.call(Call::Receive(frame));
    }

    pub fn ticks(&mut self, count: u32) {
        for _ in 0..count {
            self.call(Call::Tick);
        }
    }

    pub fn settle(&mut self) {
        self.steps.push_back(Step::Settle);
    }

    pub fn segment(&mut self, bytes: [u8; 8]) {
        self.steps.push_back(Step::Segment(bytes));
    }

    pub fn upload(&mut self) {
        self.steps.push_back(Step::Upload);
    }

    pub fn drain(&mut self) {
        self.steps.push_back(Step::Drain);
    }

    pub fn next_node(&mut self) -> u8 {
        self.last_node = self.last_node % 127 + 1;
        self.last_node
    }
}

fn elapsed(left: &mut u32) -> bool {
    *left = left.saturating_sub(1);
    *left == 0
}

/// 0 if no transfer runs.
fn due_toggle(head: &Head) -> bool {
    head.transfer().is_some_and(|transfer| transfer.toggle)
}

fn wake(head: &Head) -> Option<Call> {
    match head.nmt_state() {
        state if state == State::Initialising as u8 => Some(Call::Slot),
        state if state == State::Stopped as u8 => Some(Call::Receive(nmt(0x80, 0))),
        _ => None,
    }
}
