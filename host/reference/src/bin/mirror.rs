//! Serves the calls of `compare` with the reference itself, or with a copy of it
//! that has a deliberate mistake: `mirror [--wrong NUMBER]`, `mirror --list`.

use std::env;
use std::io::{self, Read, Write};
use std::process::ExitCode;

use reference::wire::{Packet, SIZE};

type Responder = Box<dyn FnMut(&Packet) -> Option<Packet>>;

macro_rules! responder {
    ($head:ident) => {{
        let mut server = $head::wire::Server::new();
        Box::new(move |packet: &Packet| server.respond(packet))
    }};
}

include!(concat!(env!("OUT_DIR"), "/mistakes.rs"));

fn main() -> ExitCode {
    let arguments: Vec<String> = env::args().skip(1).collect();
    let words: Vec<&str> = arguments.iter().map(String::as_str).collect();
    let responder = match words[..] {
        [] => Some(responder!(reference) as Responder),
        ["--wrong", number] => number.parse().ok().and_then(wrong),
        ["--list"] => return list(),
        _ => None,
    };
    let Some(responder) = responder else {
        eprintln!("mirror [--wrong 1..{}] | --list", MISTAKES.len());
        return ExitCode::FAILURE;
    };
    match serve(responder) {
        Ok(()) => ExitCode::SUCCESS,
        Err(_) => ExitCode::FAILURE,
    }
}

fn list() -> ExitCode {
    for (at, name) in MISTAKES.iter().enumerate() {
        println!("{:2} {name}", at + 1);
    }
    ExitCode::SUCCESS
}

/// Answers whatever whole calls have come before waiting for more.
fn serve(mut responder: Responder) -> io::Result<()> {
    let mut input = io::stdin().lock();
    let mut output = io::stdout().lock();
    let mut chunk = vec![0; 2048 * SIZE];
    let mut filled = 0;
    loop {
        let got = input.read(&mut chunk[filled..])?;
        if got == 0 {
            return Ok(());
        }
        filled += got;
        let whole = filled - filled % SIZE;
        output.write_all(&answers(&mut responder, &chunk[..whole])?)?;
        output.flush()?;
        chunk.copy_within(whole..filled, 0);
        filled -= whole;
    }
}

fn answers(responder: &mut Responder, calls: &[u8]) -> io::Result<Vec<u8>> {
    let mut answers = Vec::with_capacity(calls.len());
    for call in calls.chunks_exact(SIZE) {
        let mut packet = [0; SIZE];
        packet.copy_from_slice(call);
        let answer = responder(&packet).ok_or(io::ErrorKind::InvalidData)?;
        answers.extend_from_slice(&answer);
    }
    Ok(answers)
}
