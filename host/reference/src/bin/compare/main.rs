//! Compares another implementation of the head with the reference.
//!
//!     compare [--seed N] [--seeds K] [--calls N] [--store DIR] --driver CMD ARG..
//!     compare --cases DIR [--driver CMD ARG..]

mod cases;
mod coverage;
mod dictionary;
mod driver;
mod fixed;
mod generator;
mod rng;
mod rounding;
mod run;
mod scenarios;
mod shrink;
mod values;

use std::path::{Path, PathBuf};
use std::process::ExitCode;
use std::time::{SystemTime, UNIX_EPOCH};
use std::{env, fs, io};

use driver::Driver;
use run::{Difference, Run};
use shrink::Shrinker;

const USAGE: &str = "\
compare [--seed N] [--seeds K] [--calls N] [--store DIR] --driver CMD ARG..
compare --cases DIR [--driver CMD ARG..]";

/// From so many calls on, each item of the coverage must be met.
const CALLS_FOR_COVERAGE: u64 = 1_000_000;

struct Options {
    seed: u64,
    seeds: u64,
    calls: u64,
    store: PathBuf,
    cases: Option<PathBuf>,
    driver: Vec<String>,
}

fn main() -> ExitCode {
    let Some(options) = parse(env::args().skip(1)) else {
        eprintln!("{USAGE}");
        return ExitCode::FAILURE;
    };
    let result = match &options.cases {
        Some(directory) => run_cases(directory, &options.driver),
        None => run_seeds(&options),
    };
    match result {
        Ok(true) => ExitCode::SUCCESS,
        Ok(false) => ExitCode::FAILURE,
        Err(error) => {
            eprintln!("compare: {error}");
            ExitCode::FAILURE
        }
    }
}

fn parse(mut words: impl Iterator<Item = String>) -> Option<Options> {
    let mut options = Options {
        seed: seed_of_the_clock(),
        seeds: 1,
        calls: CALLS_FOR_COVERAGE,
        store: PathBuf::from("."),
        cases: None,
        driver: Vec::new(),
    };
    while let Some(word) = words.next() {
        match word.as_str() {
            "--seed" => options.seed = words.next()?.parse().ok()?,
            "--seeds" => options.seeds = words.next()?.parse().ok()?,
            "--calls" => options.calls = words.next()?.parse().ok()?,
            "--store" => options.store = words.next()?.into(),
            "--cases" => options.cases = Some(words.next()?.into()),
            "--driver" => options.driver = words.by_ref().collect(),
            _ => return None,
        }
    }
    let complete = options.cases.is_some() || !options.driver.is_empty();
    complete.then_some(options)
}

fn seed_of_the_clock() -> u64 {
    let since = SystemTime::now().duration_since(UNIX_EPOCH);
    since.map_or(0, |time| time.as_micros() as u64)
}

fn run_cases(directory: &Path, command: &[String]) -> io::Result<bool> {
    let driver = (!command.is_empty()).then(|| Driver::new(command));
    let complaints = cases::run_all(directory, driver)?;
    for complaint in &complaints {
        println!("{complaint}");
    }
    Ok(complaints.is_empty())
}

fn run_seeds(options: &Options) -> io::Result<bool> {
    let mut driver = Driver::new(&options.driver);
    for at in 0..options.seeds {
        if !run_seed(options, options.seed.wrapping_add(at), &mut driver)? {
            return Ok(false);
        }
    }
    Ok(true)
}

fn run_seed(options: &Options, seed: u64, driver: &mut Driver) -> io::Result<bool> {
    println!("seed {seed}, {} calls", options.calls);
    let mut run = Run::new(seed);
    if let Some(difference) = run.compare(options.calls, driver)? {
        report(&difference, seed, driver, &options.store)?;
        return Ok(false);
    }
    println!("reached:{}", run.coverage);
    let (calls, dictionaries) = (run.total, run.dictionaries);
    println!("compared {calls} calls, {dictionaries} dictionaries: equal");
    if options.calls < CALLS_FOR_COVERAGE {
        return Ok(true);
    }
    let complaints = run.coverage.complaints();
    for complaint in &complaints {
        println!("{complaint}");
    }
    Ok(complaints.is_empty())
}

fn report(found: &Difference, seed: u64, driver: &mut Driver, store: &Path) -> io::Result<()> {
    println!("{}", found.report);
    println!("seed {seed}, call {}: DIFFERENT", found.number);
    let short = Shrinker::new(driver).shrink(found.calls.clone())?;
    let path = store.join(format!("found-{seed}.case"));
    let remark = format!("Found with seed {seed}; the last answer differed.");
    fs::write(&path, cases::text_of(&short, &remark))?;
    println!("{} calls stored in {}", short.len(), path.display());
    Ok(())
}
