//! Stored cases: text files, each line a call and the answer due.

use std::fs;
use std::io;
use std::path::{Path, PathBuf};

use reference::wire::{Answer, Call, Packet, NAMES};
use reference::{Identity, Name, Received};

use crate::driver::Driver;
use crate::shrink::due;

struct Line {
    number: usize,
    /// One call, or as many ticks as the line says.
    calls: Vec<Call>,
    /// As in [`reference::wire::Outcome`]'s text.
    outcome: Option<String>,
    /// As in [`reference::wire::View`]'s text.
    view: Option<String>,
}

/// Runs every case; the complaints, none if all is well.
pub fn run_all(directory: &Path, mut driver: Option<Driver>) -> io::Result<Vec<String>> {
    let mut complaints = Vec::new();
    let paths = case_files(directory)?;
    if paths.is_empty() {
        complaints.push("no cases".to_string());
    }
    for path in &paths {
        let name = path.file_name().unwrap_or_default().to_string_lossy();
        let found = match parse(&fs::read_to_string(path)?) {
            Ok(lines) => run(&lines, driver.as_mut())?,
            Err(complaint) => vec![complaint],
        };
        complaints.extend(found.iter().map(|text| format!("{name}: {text}")));
    }
    println!("{} cases", paths.len());
    Ok(complaints)
}

fn case_files(directory: &Path) -> io::Result<Vec<PathBuf>> {
    let mut paths = Vec::new();
    for entry in fs::read_dir(directory)? {
        let path = entry?.path();
        if path
            .extension()
            .is_some_and(|extension| extension == "case")
        {
            paths.push(path);
        }
    }
    paths.sort();
    Ok(paths)
}

fn run(lines: &[Line], driver: Option<&mut Driver>) -> io::Result<Vec<String>> {
    let calls: Vec<Call> = lines.iter().flat_map(|line| line.calls.clone()).collect();
    let due: Vec<Packet> = due(&calls).into_iter().map(|(_, answer)| answer).collect();
    let mut complaints = check("reference", lines, &due);
    if let Some(driver) = driver {
        let got = driver.answers(&calls)?;
        complaints.extend(check("driver", lines, &got));
        complaints.extend(check_equal(lines, &due, &got));
    }
    Ok(complaints)
}

/// Against what is stored; the answer to a line is that to its last call.
fn check(who: &str, lines: &[Line], answers: &[Packet]) -> Vec<String> {
    let mut complaints = Vec::new();
    let mut end = 0;
    for line in lines {
        end += line.calls.len();
        let (Some(call), Some(packet)) = (line.calls.last(), answers.get(end - 1)) else {
            complaints.push(format!("line {}: {who} gives no answer", line.number));
            break;
        };
        let answer = Answer::decode(call, packet);
        let given = [answer.outcome.to_string(), answer.view.to_string()];
        for (stored, given) in [&line.outcome, &line.view].into_iter().zip(given) {
            if stored.as_ref().is_some_and(|stored| *stored != given) {
                let stored = stored.as_deref().unwrap_or_default();
                complaints.push(format!(
                    "line {}: due `{stored}`, {who} gives `{given}`",
                    line.number
                ));
            }
        }
    }
    complaints
}

/// Beyond what is stored the two must agree all the same.
fn check_equal(lines: &[Line], due: &[Packet], got: &[Packet]) -> Option<String> {
    let numbers = lines
        .iter()
        .flat_map(|line| vec![line.number; line.calls.len()]);
    let mut answers = due.iter().zip(got).zip(numbers);
    let ((due, got), number) = answers.find(|((due, got), _)| due != got)?;
    Some(format!(
        "line {number}: bytes {due:02X?} of the reference, {got:02X?} of the driver"
    ))
}

fn parse(text: &str) -> Result<Vec<Line>, String> {
    let mut lines = Vec::new();
    for (at, line) in text.lines().enumerate() {
        let line = line.split('#').next().unwrap_or_default().trim();
        if !line.is_empty() {
            let parsed = parse_line(at + 1, line);
            lines.push(parsed.ok_or_else(|| format!("line {}: not of the form", at + 1))?);
        }
    }
    let starts = lines.first().and_then(|line: &Line| line.calls.first());
    match starts {
        Some(Call::PowerUp(..)) => Ok(lines),
        _ => Err("line 1: the first call must be a power-up".to_string()),
    }
}

fn parse_line(number: usize, line: &str) -> Option<Line> {
    let (line, view) = match line.split_once('|') {
        Some((line, view)) => (line, Some(words(view).join(" "))),
        None => (line, None),
    };
    let (call, outcome) = match line.split_once("->") {
        Some((call, outcome)) => (call, Some(words(outcome).join(" "))),
        None => (line, None),
    };
    Some(Line {
        number,
        calls: parse_calls(&words(call))?,
        outcome,
        view,
    })
}

fn words(text: &str) -> Vec<&str> {
    text.split_whitespace().collect()
}

fn parse_calls(words: &[&str]) -> Option<Vec<Call>> {
    let call = match *words {
        ["?"] => Call::Slot,
        ["KEEP"] => Call::Keep,
        ["BACK"] => Call::Restore,
        ["S", "-"] => Call::Missing,
        ["S", raw] => Call::Sample(raw.parse().ok()?),
        ["T", count] => return Some(vec![Call::Tick; count.parse().ok()?]),
        ["P", node, ref identity @ ..] => {
            Call::PowerUp(node.parse().ok()?, parse_identity(identity)?)
        }
        [letter, identifier, length, ref bytes @ ..] => {
            Call::Receive(parse_frame(letter, identifier, length, bytes)?)
        }
        _ => return None,
    };
    Some(vec![call])
}

fn parse_identity(words: &[&str]) -> Option<Identity> {
    let [vendor, product, revision, serial, ref names @ ..] = *words else {
        return None;
    };
    let names = match *names {
        [] => NAMES,
        [device, hardware, software] => [
            parse_name(device)?,
            parse_name(hardware)?,
            parse_name(software)?,
        ],
        _ => return None,
    };
    Some(Identity {
        vendor: vendor.parse().ok()?,
        product: product.parse().ok()?,
        revision: revision.parse().ok()?,
        serial: serial.parse().ok()?,
        names,
    })
}

/// The length, a stroke, and the bytes.
fn parse_name(word: &str) -> Option<Name> {
    let (length, pairs) = word.split_once('/')?;
    let mut name = Name::of(&[]);
    name.length = length.parse().ok()?;
    if pairs.len() % 2 != 0 || pairs.len() > 2 * name.bytes.len() {
        return None;
    }
    for (at, byte) in name.bytes.iter_mut().enumerate().take(pairs.len() / 2) {
        *byte = u8::from_str_radix(pairs.get(2 * at..2 * at + 2)?, 16).ok()?;
    }
    Some(name)
}

fn parse_frame(letter: &str, identifier: &str, length: &str, words: &[&str]) -> Option<Received> {
    let (extended, remote) = match letter {
        "F" => (false, false),
        "X" => (true, false),
        "R" => (false, true),
        "XR" => (true, true),
        _ => return None,
    };
    let mut bytes = [0; 8];
    if words.len() > bytes.len() {
        return None;
    }
    for (byte, word) in bytes.iter_mut().zip(words) {
        *byte = u8::from_str_radix(word, 16).ok()?;
    }
    Some(Received {
        identifier: u32::from_str_radix(identifier, 16).ok()?,
        extended,
        remote,
        length: length.parse().ok()?,
        bytes,
    })
}

/// A case of these calls, with the reference's answers.
pub fn text_of(calls: &[Call], remark: &str) -> String {
    let mut text = format!("# {remark}\n");
    let answered = due(calls);
    let mut ticks = 0;
    for (at, (call, packet)) in answered.iter().enumerate() {
        let answer = Answer::decode(call, packet);
        let next = answered.get(at + 1).map(|(call, _)| call);
        match call {
            Call::Tick => ticks += 1,
            _ => text += &format!("{call} -> {answer}\n"),
        }
        if ticks > 0 && next != Some(&Call::Tick) {
            text += &format!("T {ticks} -> {answer}\n");
            ticks = 0;
        }
    }
    text
}
