//! Compares the proved head with the reference, call by call.
//!
//!     bench times                 one line for each call: name, target of the ratio, nanoseconds of both heads
//!     bench count NAME HEAD N     makes the call to N heads; HEAD is `proved` or `reference`
//!     bench sizes                 the bytes of a proved head and of a reference
//!     bench session PROGRAM       how many lines per second a session program takes

mod cases;
mod head;
mod measure;
mod plain;
mod proved;
mod session;

use std::env;
use std::process::ExitCode;

use cases::Case;
use proved::LARGEST;

fn main() -> ExitCode {
    let words: Vec<String> = env::args().skip(1).collect();
    let words: Vec<&str> = words.iter().map(String::as_str).collect();
    match answer(&words) {
        Ok(()) => ExitCode::SUCCESS,
        Err(why) => {
            eprintln!("bench: {why}");
            ExitCode::FAILURE
        }
    }
}

fn answer(words: &[&str]) -> Result<(), String> {
    if proved::size() > LARGEST {
        return Err(format!("a proved head takes more than {LARGEST} bytes"));
    }
    match words {
        ["times"] => times()?,
        ["count", name, head, calls] => count(name, head, calls)?,
        ["sizes"] => println!("{}\t{}", proved::size(), size_of::<reference::Head>()),
        ["session", program] => println!("{:.0}", session::lines_per_second(program)?),
        _ => return Err("times | count NAME HEAD N | sizes | session PROGRAM".into()),
    }
    Ok(())
}

fn times() -> Result<(), String> {
    let cases = cases::all();
    for case in &cases {
        checked(case)?;
    }
    for case in &cases {
        let (proved, plain) = measure::times::<proved::Head, reference::Head>(case);
        println!("{}\t{}\t{proved:.2}\t{plain:.2}", case.name, case.target);
    }
    Ok(())
}

/// Checks that both heads send what the case says: otherwise the figures would be about something else.
fn checked(case: &Case) -> Result<(), String> {
    let wrong = match (
        case.holds::<proved::Head>(),
        case.holds::<reference::Head>(),
    ) {
        (true, true) => return Ok(()),
        (false, _) => "proved head",
        (true, false) => "reference",
    };
    Err(format!("{}: the {wrong} sends something else", case.name))
}

fn count(name: &str, head: &str, calls: &str) -> Result<(), String> {
    let cases = cases::all();
    let case = cases.iter().find(|case| case.name == name);
    let case = case.ok_or(format!("no call {name}"))?;
    let calls = calls.parse().map_err(|_| format!("no number: {calls}"))?;
    let made = match head {
        "proved" => measure::count::<proved::Head>(case, calls),
        "reference" => measure::count::<reference::Head>(case, calls),
        _ => return Err(format!("no head {head}")),
    };
    made.then_some(()).ok_or(format!("too many calls: {calls}"))
}
