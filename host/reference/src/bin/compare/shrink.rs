//! Shortens a sequence of calls on which the two heads differ.

use std::io;

use reference::wire::{Call, Packet, Server};

use crate::driver::Driver;
use crate::run::first_difference;

/// Calls sent to the driver in all before giving up on getting shorter.
const MOST_WORK: usize = 30_000_000;

pub struct Shrinker<'a> {
    driver: &'a mut Driver,
    work: usize,
}

impl Shrinker<'_> {
    pub fn new(driver: &mut Driver) -> Shrinker<'_> {
        Shrinker { driver, work: 0 }
    }

    /// The first call is a power-up and stays.
    pub fn shrink(&mut self, calls: Vec<Call>) -> io::Result<Vec<Call>> {
        let without = without_copies(&calls);
        let mut calls = self.cut(&without)?.unwrap_or(calls);
        loop {
            let length = calls.len();
            let mut chunk = length / 2;
            while chunk > 0 {
                calls = self.drop_chunks(calls, chunk)?;
                chunk /= 2;
            }
            if calls.len() == length || self.work > MOST_WORK {
                return Ok(calls);
            }
        }
    }

    fn drop_chunks(&mut self, mut calls: Vec<Call>, chunk: usize) -> io::Result<Vec<Call>> {
        let mut at = 1;
        while at < calls.len() && self.work <= MOST_WORK {
            let end = (at + chunk).min(calls.len());
            let shorter = [&calls[..at], &calls[end..]].concat();
            match self.cut(&shorter)? {
                Some(differing) => calls = differing,
                None => at += chunk,
            }
        }
        Ok(calls)
    }

    /// The calls up to the first answer that differs, if one does.
    fn cut(&mut self, calls: &[Call]) -> io::Result<Option<Vec<Call>>> {
        if takes_back_nothing(calls) {
            return Ok(None);
        }
        self.work += calls.len();
        let got = self.driver.answers(calls)?;
        let differs = first_difference(&due(calls), &got);
        Ok(differs.map(|at| calls[..=at].to_vec()))
    }
}

/// The reference's answers.
pub fn due(calls: &[Call]) -> Vec<(Call, Packet)> {
    let mut server = Server::new();
    let answers = calls
        .iter()
        .map(|call| (*call, server.answer(call).encode()));
    answers.collect()
}

/// A copy taken back before one is kept would be one from before the power-up.
fn takes_back_nothing(calls: &[Call]) -> bool {
    let kept = calls.iter().position(|call| *call == Call::Keep);
    let back = calls.iter().position(|call| *call == Call::Restore);
    back.is_some_and(|back| kept.is_none_or(|kept| back < kept))
}

/// What lies between keeping and taking back leaves no trace, unless the copies are wrong.
fn without_copies(calls: &[Call]) -> Vec<Call> {
    let mut rest: Vec<Call> = Vec::new();
    let mut kept = 0;
    for call in calls {
        match call {
            Call::Keep => kept = rest.len(),
            Call::Restore => rest.truncate(kept),
            _ => rest.push(*call),
        }
    }
    rest
}
