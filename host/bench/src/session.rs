//! Measures how many lines of input a session program takes per second.

use std::io::Write;
use std::process::{Command, Stdio};
use std::time::Instant;

use crate::measure::median;

const ROUND: &str = "S 69637\nT 1\nF 601 8 40 04 60 00 00 00 00 00\n?\n";
const ROUNDS: usize = 50_000;
const REPETITIONS: usize = 5;

pub fn lines_per_second(program: &str) -> Result<f64, String> {
    let input = ROUND.repeat(ROUNDS);
    let lines = ROUND.lines().count() * ROUNDS;
    let runs = (0..REPETITIONS).map(|_| seconds(program, input.as_bytes()));
    let seconds = runs.collect::<Result<Vec<_>, _>>()?;
    Ok(lines as f64 / median(seconds))
}

/// The time of a run, from the first byte of the input to the end of the run.
fn seconds(program: &str, input: &[u8]) -> Result<f64, String> {
    let say = |error: std::io::Error| format!("{program}: {error}");
    let mut child = Command::new(program)
        .stdin(Stdio::piped())
        .stdout(Stdio::null())
        .spawn()
        .map_err(say)?;
    let start = Instant::now();
    let mut pipe = child.stdin.take().expect("the standard input is piped");
    pipe.write_all(input).map_err(say)?;
    drop(pipe);
    let status = child.wait().map_err(say)?;
    if !status.success() {
        return Err(format!("{program}: {status}"));
    }
    Ok(start.elapsed().as_secs_f64())
}
