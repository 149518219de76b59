//! Runs the program under test and talks to it through two pipes.

use std::io::{self, Read, Write};
use std::process::{Child, ChildStdout, Command, Stdio};
use std::sync::mpsc::{channel, Sender};
use std::thread;

use reference::wire::{Call, Packet, SIZE};

const BATCH: usize = 2048;

pub struct Driver {
    command: Vec<String>,
    link: Option<Link>,
}

struct Link {
    child: Child,
    /// A thread of its own writes, so neither side waits for the other to read.
    calls: Sender<Vec<u8>>,
    answers: ChildStdout,
}

impl Driver {
    pub fn new(command: &[String]) -> Driver {
        Driver {
            command: command.to_vec(),
            link: None,
        }
    }

    /// The answers to the calls; fewer than calls if the driver ended.
    pub fn answers(&mut self, calls: &[Call]) -> io::Result<Vec<Packet>> {
        let mut answers = Vec::with_capacity(calls.len());
        for batch in calls.chunks(BATCH) {
            let got = self.exchange(batch)?;
            answers.extend_from_slice(&got);
            if got.len() < batch.len() {
                self.end();
                break;
            }
        }
        Ok(answers)
    }

    fn exchange(&mut self, batch: &[Call]) -> io::Result<Vec<Packet>> {
        let link = match &mut self.link {
            Some(link) => link,
            none => none.insert(Link::start(&self.command)?),
        };
        let bytes: Vec<u8> = batch.iter().flat_map(Call::packets).flatten().collect();
        let wanted = bytes.len();
        // A writer that is gone shows as missing answers.
        let _ = link.calls.send(bytes);
        let mut got = Vec::with_capacity(wanted);
        (&mut link.answers)
            .take(wanted as u64)
            .read_to_end(&mut got)?;
        // The answer to a call is that to its last packet.
        let mut answers = got.chunks_exact(SIZE);
        let own = |call: &Call| answers.nth(call.packets().count() - 1).map(packet);
        Ok(batch.iter().map_while(own).collect())
    }

    fn end(&mut self) {
        if let Some(mut link) = self.link.take() {
            drop(link.calls);
            let _ = link.child.kill();
            let _ = link.child.wait();
        }
    }
}

impl Drop for Driver {
    fn drop(&mut self) {
        self.end();
    }
}

impl Link {
    fn start(command: &[String]) -> io::Result<Link> {
        let (program, arguments) = command.split_first().ok_or(io::ErrorKind::InvalidInput)?;
        let mut child = Command::new(program)
            .args(arguments)
            .stdin(Stdio::piped())
            .stdout(Stdio::piped())
            .spawn()?;
        let mut input = child.stdin.take().ok_or(io::ErrorKind::BrokenPipe)?;
        let answers = child.stdout.take().ok_or(io::ErrorKind::BrokenPipe)?;
        let (calls, waiting) = channel::<Vec<u8>>();
        thread::spawn(move || {
            for bytes in waiting {
                let written = input.write_all(&bytes).and_then(|()| input.flush());
                if written.is_err() {
                    return;
                }
            }
        });
        Ok(Link {
            child,
            calls,
            answers,
        })
    }
}

fn packet(bytes: &[u8]) -> Packet {
    let mut packet = [0; SIZE];
    packet.copy_from_slice(bytes);
    packet
}
