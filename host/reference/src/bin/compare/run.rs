//! A run: sends the same random calls to the reference and to the driver.

use std::io;

use reference::wire::{Answer, Call, Packet, Server};

use crate::coverage::Coverage;
use crate::driver::Driver;
use crate::generator::Generator;

const BATCH: usize = 2000;

pub struct Run {
    reference: Server,
    generator: Generator,
    pub coverage: Coverage,
    /// From a power-up on; the answers are the reference's.
    history: Vec<(Call, Packet)>,
    /// How much of the history is compared already.
    compared: usize,
    /// Calls compared, those of the dictionaries too.
    pub total: u64,
    pub dictionaries: u64,
}

/// The calls from a power-up to the one answered differently.
pub struct Difference {
    pub calls: Vec<Call>,
    pub number: u64,
    pub report: String,
}

impl Run {
    pub fn new(seed: u64) -> Run {
        Run {
            reference: Server::new(),
            generator: Generator::new(seed),
            coverage: Coverage::new(),
            history: Vec::new(),
            compared: 0,
            total: 0,
            dictionaries: 0,
        }
    }

    /// Compares `calls` calls, not counting those of the dictionaries.
    pub fn compare(&mut self, calls: u64, driver: &mut Driver) -> io::Result<Option<Difference>> {
        let mut left = calls;
        while left > 0 || self.generator.is_in_dictionary() {
            if self.step() {
                left = left.saturating_sub(1);
            }
            if self.history.len() - self.compared == BATCH {
                let difference = self.compare_batch(driver)?;
                if difference.is_some() {
                    return Ok(difference);
                }
            }
        }
        self.compare_batch(driver)
    }

    /// One call on the reference; false if it belongs to a dictionary.
    fn step(&mut self) -> bool {
        let before = self.reference.head;
        let call = self.generator.next(&before);
        let answer = self.reference.answer(&call);
        self.coverage
            .observe(&before, &call, &answer, &self.reference.head);
        self.history.push((call, answer.encode()));
        if call == Call::Restore {
            self.dictionaries += 1;
        }
        let counts = !self.generator.is_in_dictionary() && call != Call::Restore;
        if counts {
            self.generator.count();
        }
        counts
    }

    fn compare_batch(&mut self, driver: &mut Driver) -> io::Result<Option<Difference>> {
        let batch = &self.history[self.compared..];
        let calls: Vec<Call> = batch.iter().map(|(call, _)| *call).collect();
        let answers = driver.answers(&calls)?;
        if let Some(at) = first_difference(batch, &answers) {
            return Ok(Some(self.difference(at, &answers)));
        }
        self.total += batch.len() as u64;
        self.compared = self.history.len();
        self.forget_before_power_up();
        Ok(None)
    }

    fn forget_before_power_up(&mut self) {
        let last = self.history.iter().rposition(|(call, _)| is_power_up(call));
        let gone = last.unwrap_or(0);
        self.history.drain(..gone);
        self.compared -= gone;
    }

    fn difference(&self, at_in_batch: usize, answers: &[Packet]) -> Difference {
        let at = self.compared + at_in_batch;
        let upto = &self.history[..=at];
        let from = upto.iter().rposition(|(call, _)| is_power_up(call));
        let calls = upto[from.unwrap_or(0)..].iter().map(|(call, _)| *call);
        Difference {
            calls: calls.collect(),
            number: self.total + at_in_batch as u64 + 1,
            report: self.report(at, at_in_batch, answers),
        }
    }

    /// The last calls; the driver answered those of earlier batches as the reference did.
    fn report(&self, at: usize, at_in_batch: usize, answers: &[Packet]) -> String {
        const SHOWN: usize = 40;
        let mut report = String::new();
        for place in at.saturating_sub(SHOWN - 1)..=at {
            let (call, due) = &self.history[place];
            report += &format!("  {call}\n      due {}\n", Answer::decode(call, due));
            let got = match (place + at_in_batch).checked_sub(at) {
                Some(place_in_batch) => answers.get(place_in_batch),
                None => Some(due),
            };
            report += &format!("      got {}\n", shown(call, due, got));
        }
        report
    }
}

fn shown(call: &Call, due: &Packet, got: Option<&Packet>) -> String {
    match got {
        None => "no answer: the driver ended".to_string(),
        Some(got) if got == due => "the same".to_string(),
        Some(got) => format!("{}\n      bytes {got:02X?}", Answer::decode(call, got)),
    }
}

fn is_power_up(call: &Call) -> bool {
    matches!(call, Call::PowerUp(..))
}

/// Where the answers begin to differ, or to be missing.
pub fn first_difference(due: &[(Call, Packet)], got: &[Packet]) -> Option<usize> {
    (0..due.len()).find(|&at| got.get(at) != Some(&due[at].1))
}
