//! The calls and answers that go through a pipe: 24 bytes each, numbers low byte first.

use core::fmt;

use super::frame::{Frame, Identity, Name, Received};
use super::head::Head;

pub const SIZE: usize = 24;
pub type Packet = [u8; SIZE];

/// A power-up's names, unless others are given.
pub const NAMES: [Name; 3] = [Name::of(b"HEAD"), Name::of(b"1"), Name::of(b"1")];

/// Bytes of a name that one packet gives.
const HALF: usize = 16;

#[derive(Clone, Copy, PartialEq, Eq, Debug)]
pub enum Call {
    PowerUp(u8, Identity),
    Receive(Received),
    Tick,
    Sample(u32),
    Missing,
    Slot,
    /// Keeps a copy of the head aside.
    Keep,
    /// Takes the kept copy back.
    Restore,
}

impl Call {
    /// The call's own packet is the last; a power-up's names go before it.
    pub fn packets(&self) -> impl Iterator<Item = Packet> {
        let names = match self {
            Call::PowerUp(_, identity) => Some(encode_names(&identity.names)),
            _ => None,
        };
        let own = core::iter::once(self.encode());
        names.into_iter().flatten().chain(own)
    }

    fn encode(&self) -> Packet {
        let mut packet = [0; SIZE];
        match self {
            Call::PowerUp(node, identity) => {
                packet[0] = b'P';
                packet[1] = *node;
                put(&mut packet, 4, identity.vendor);
                put(&mut packet, 8, identity.product);
                put(&mut packet, 12, identity.revision);
                put(&mut packet, 16, identity.serial);
            }
            Call::Receive(frame) => {
                packet[..4].copy_from_slice(&[
                    b'F',
                    u8::from(frame.extended),
                    u8::from(frame.remote),
                    frame.length,
                ]);
                put(&mut packet, 4, frame.identifier);
                packet[8..16].copy_from_slice(&frame.bytes);
            }
            Call::Sample(raw) => {
                packet[0] = b'S';
                put(&mut packet, 4, *raw);
            }
            Call::Tick => packet[0] = b'T',
            Call::Missing => packet[0] = b'M',
            Call::Slot => packet[0] = b'?',
            Call::Keep => packet[0] = b'K',
            Call::Restore => packet[0] = b'R',
        }
        packet
    }

    /// None if the first byte names no call. The names are those of a power-up.
    fn decode(packet: &Packet, names: &[Name; 3]) -> Option<Call> {
        Some(match packet[0] {
            b'P' => {
                let identity = Identity {
                    vendor: get(packet, 4),
                    product: get(packet, 8),
                    revision: get(packet, 12),
                    serial: get(packet, 16),
                    names: *names,
                };
                Call::PowerUp(packet[1], identity)
            }
            b'F' => Call::Receive(Received {
                identifier: get(packet, 4),
                extended: packet[1] != 0,
                remote: packet[2] != 0,
                length: packet[3],
                bytes: eight(packet),
            }),
            b'T' => Call::Tick,
            b'S' => Call::Sample(get(packet, 4)),
            b'M' => Call::Missing,
            b'?' => Call::Slot,
            b'K' => Call::Keep,
            b'R' => Call::Restore,
            _ => return None,
        })
    }
}

/// Each name in two halves.
fn encode_names(names: &[Name; 3]) -> [Packet; 6] {
    let mut packets = [[0; SIZE]; 6];
    for (at, packet) in packets.iter_mut().enumerate() {
        let (which, half) = (at / 2, at % 2);
        let name = &names[which];
        packet[..4].copy_from_slice(&[b'N', which as u8, half as u8, name.length]);
        packet[8..].copy_from_slice(&name.bytes[half * HALF..][..HALF]);
    }
    packets
}

/// None if there is no such name or half.
fn decode_name(packet: &Packet, names: &mut [Name; 3]) -> Option<()> {
    let name = names.get_mut(usize::from(packet[1]))?;
    let mut halves = name.bytes.chunks_exact_mut(HALF);
    let half = halves.nth(usize::from(packet[2]))?;
    half.copy_from_slice(&packet[8..]);
    name.length = packet[3];
    Some(())
}

#[derive(Clone, Copy, PartialEq, Eq, Debug)]
pub enum Outcome {
    /// The refusal number of any call but a slot, 0 if none.
    Number(u8),
    /// A slot's frame.
    Sent(Frame),
    /// A slot with nothing to send.
    Silent,
}

#[derive(Clone, Copy, PartialEq, Eq, Debug)]
pub struct Answer {
    pub outcome: Outcome,
    /// What shows of the head after the call.
    pub view: View,
}

#[derive(Clone, Copy, PartialEq, Eq, Debug)]
pub struct View {
    pub state: u8,
    pub waits: bool,
    pub good: bool,
    /// 0 while missing.
    pub position: u32,
}

const GOOD: u8 = 0x01;
const WAITS: u8 = 0x02;

impl Answer {
    pub fn encode(&self) -> Packet {
        let mut packet = [0; SIZE];
        match self.outcome {
            Outcome::Number(number) => packet[0] = number,
            Outcome::Sent(frame) => {
                packet[0] = 1;
                packet[1] = frame.length;
                put(&mut packet, 4, frame.identifier);
                packet[8..16].copy_from_slice(&frame.bytes);
            }
            Outcome::Silent => {}
        }
        packet[2] = self.view.state;
        packet[3] = u8::from(self.view.good) * GOOD + u8::from(self.view.waits) * WAITS;
        put(&mut packet, 16, self.view.position);
        packet
    }

    /// The answer to `call`; fields no answer uses are left out.
    pub fn decode(call: &Call, packet: &Packet) -> Answer {
        let frame = Frame {
            identifier: get(packet, 4),
            length: packet[1],
            bytes: eight(packet),
        };
        let outcome = match (call, packet[0]) {
            (Call::Slot, 0) => Outcome::Silent,
            (Call::Slot, _) => Outcome::Sent(frame),
            (_, number) => Outcome::Number(number),
        };
        let view = View {
            state: packet[2],
            good: packet[3] & GOOD != 0,
            waits: packet[3] & WAITS != 0,
            position: get(packet, 16),
        };
        Answer { outcome, view }
    }
}

fn put(packet: &mut Packet, at: usize, value: u32) {
    packet[at..at + 4].copy_from_slice(&value.to_le_bytes());
}

fn get(packet: &Packet, at: usize) -> u32 {
    u32::from_le_bytes([packet[at], packet[at + 1], packet[at + 2], packet[at + 3]])
}

fn eight(packet: &Packet) -> [u8; 8] {
    let mut bytes = [0; 8];
    bytes.copy_from_slice(&packet[8..16]);
    bytes
}

/// A head and the copy kept aside.
#[derive(Clone, Copy)]
pub struct Server {
    pub head: Head,
    kept: Head,
    /// Of power-ups that come as packets.
    names: [Name; 3],
}

impl Server {
    pub fn new() -> Server {
        let (_, head) = Head::power_up(1, Identity::UNKNOWN);
        Server {
            head,
            kept: head,
            names: NAMES,
        }
    }

    pub fn answer(&mut self, call: &Call) -> Answer {
        let outcome = self.outcome(call);
        let view = self.view();
        Answer { outcome, view }
    }

    /// The answer to a packet; none if it is of no call.
    pub fn respond(&mut self, packet: &Packet) -> Option<Packet> {
        let answer = if packet[0] == b'N' {
            decode_name(packet, &mut self.names)?;
            Answer {
                outcome: Outcome::Number(0),
                view: self.view(),
            }
        } else {
            self.answer(&Call::decode(packet, &self.names)?)
        };
        Some(answer.encode())
    }

    fn view(&self) -> View {
        View {
            state: self.head.nmt_state(),
            waits: self.head.anything_waits(),
            good: self.head.reading_good(),
            position: self.head.position().unwrap_or(0),
        }
    }

    fn outcome(&mut self, call: &Call) -> Outcome {
        let mut refusal = 0;
        match call {
            Call::PowerUp(node, identity) => {
                (refusal, self.head) = Head::power_up(*node, *identity)
            }
            Call::Receive(frame) => refusal = self.head.receive(frame),
            Call::Tick => self.head.tick(),
            Call::Sample(raw) => refusal = self.head.sample(*raw),
            Call::Missing => self.head.missing(),
            Call::Slot => return self.head.slot().map_or(Outcome::Silent, Outcome::Sent),
            Call::Keep => self.kept = self.head,
            Call::Restore => self.head = self.kept,
        }
        Outcome::Number(refusal)
    }
}

impl Default for Server {
    fn default() -> Server {
        Server::new()
    }
}

/// As in a stored case.
impl fmt::Display for Call {
    fn fmt(&self, out: &mut fmt::Formatter) -> fmt::Result {
        match self {
            Call::PowerUp(node, identity) => write_power_up(out, *node, identity),
            Call::Receive(frame) => write_received(out, frame),
            Call::Tick => write!(out, "T 1"),
            Call::Sample(raw) => write!(out, "S {raw}"),
            Call::Missing => write!(out, "S -"),
            Call::Slot => write!(out, "?"),
            Call::Keep => write!(out, "KEEP"),
            Call::Restore => write!(out, "BACK"),
        }
    }
}

fn write_power_up(out: &mut fmt::Formatter, node: u8, identity: &Identity) -> fmt::Result {
    let Identity {
        vendor,
        product,
        revision,
        serial,
        names,
    } = identity;
    write!(out, "P {node} {vendor} {product} {revision} {serial}")?;
    if *names == NAMES {
        return Ok(());
    }
    for name in names {
        write!(out, " {}/", name.length)?;
        for byte in &name.bytes[..shown(&name.bytes)] {
            write!(out, "{byte:02X}")?;
        }
    }
    Ok(())
}

/// Up to the last byte that isn't 0.
fn shown(bytes: &[u8]) -> usize {
    let seen = bytes.iter().rposition(|byte| *byte != 0);
    seen.map_or(0, |last| last + 1)
}

fn write_received(out: &mut fmt::Formatter, frame: &Received) -> fmt::Result {
    let letter = match (frame.extended, frame.remote) {
        (false, false) => "F",
        (true, false) => "X",
        (false, true) => "R",
        (true, true) => "XR",
    };
    write!(out, "{letter} {:03X} {}", frame.identifier, frame.length)?;
    // Bytes past the length are shown only if there is something to see.
    let count = shown(&frame.bytes).max(usize::from(frame.length));
    write_bytes(out, &frame.bytes, count)
}

fn write_bytes(out: &mut fmt::Formatter, bytes: &[u8; 8], count: usize) -> fmt::Result {
    for byte in bytes.iter().take(count) {
        write!(out, " {byte:02X}")?;
    }
    Ok(())
}

impl fmt::Display for Outcome {
    fn fmt(&self, out: &mut fmt::Formatter) -> fmt::Result {
        match self {
            Outcome::Number(number) => write!(out, "{number}"),
            Outcome::Sent(frame) => {
                write!(out, "{:03X} {}", frame.identifier, frame.length)?;
                write_bytes(out, &frame.bytes, usize::from(frame.length))
            }
            Outcome::Silent => write!(out, "-"),
        }
    }
}

impl fmt::Display for View {
    fn fmt(&self, out: &mut fmt::Formatter) -> fmt::Result {
        let waits = if self.waits { "waits" } else { "idle" };
        if self.good {
            write!(out, "{:02X} {waits} {}", self.state, self.position)
        } else {
            write!(out, "{:02X} {waits} missing", self.state)
        }
    }
}

impl fmt::Display for Answer {
    fn fmt(&self, out: &mut fmt::Formatter) -> fmt::Result {
        write!(out, "{} | {}", self.outcome, self.view)
    }
}
