//! The scenarios from which the generator makes random calls.

use reference::wire::{Call, NAMES as USUAL_NAMES};
use reference::{Head, Identity, Name, Received, State};

use crate::dictionary::{data_frame, nmt, peek, read, request, Entry, ENTRIES, NAMES};
use crate::generator::Generator;
use crate::rng::Rng;
use crate::values::{
    edge_value, sample_near_half, sample_near_range, some_step, valid_value, HIGHEST_SAMPLE,
    WIDE_SAMPLES,
};

type Scenario = fn(&mut Generator, &Head);

const SCENARIOS: &[(u32, Scenario)] = &[
    (8, some_slots),
    (10, some_ticks),
    (8, sample),
    (4, missing),
    (6, flicker),
    (9, command),
    (8, syncs),
    (8, read_one),
    (12, write_valid),
    (10, write_edge),
    (8, odd_request),
    (4, write_of_any_length),
    (6, pdo_setup),
    (3, repeat_pdo),
    (4, toggle_pdo),
    (4, heartbeat_setup),
    (4, emergency_setup),
    (2, emergency_switch),
    (3, crowd),
    (5, fixed_frames),
    (6, scaling_setup),
    (5, halves),
    (4, store),
    (6, malformed),
    (3, flood),
    (4, upload),
    (12, disturbed_upload),
    (3, noise),
    (3, renew),
];

pub fn choose(generator: &mut Generator, head: &Head) {
    let state = head.nmt_state();
    if state == State::Initialising as u8 && generator.rng.chance(60) {
        generator.call(Call::Slot);
    } else if state == State::Stopped as u8 && generator.rng.chance(15) {
        command(generator, head);
    } else {
        generator.rng.weighted(SCENARIOS)(generator, head);
    }
}

/// A new head, mostly brought to life.
pub fn power_up(generator: &mut Generator) {
    let rng = &generator.rng;
    let word = || rng.pick(&[0, 1, 2, u32::MAX, rng.word()]);
    let identity = Identity {
        vendor: word(),
        product: word(),
        revision: word(),
        serial: word(),
        names: some_names(rng),
    };
    let node = if rng.chance(8) {
        rng.pick(&[0, 128, 129, 255, rng.byte() | 0x80])
    } else {
        generator.next_node()
    };
    generator.call(Call::PowerUp(node, identity));
    if generator.rng.chance(85) {
        generator.call(Call::Slot);
    }
    if generator.rng.chance(50) {
        good_sample(generator);
        generator.frame(nmt(0x01, 0));
    }
}

fn some_names(rng: &Rng) -> [Name; 3] {
    if rng.chance(15) {
        return USUAL_NAMES;
    }
    [(); 3].map(|()| some_name(rng))
}

/// Mostly of a length in range; there are bytes past the length too.
fn some_name(rng: &Rng) -> Name {
    let whole_segments = 7 * rng.between(1, 4);
    let any = rng.between(1, 32);
    let mut length = rng.pick(&[1, 4, 8, 32, whole_segments, any, any]);
    if rng.chance(8) {
        length = rng.pick(&[0, 0, 33, 255, rng.between(33, 40)]);
    }
    let mut name = Name::of(&[]);
    name.length = length as u8;
    for byte in &mut name.bytes {
        *byte = rng.pick(&[0, b'?', rng.byte(), rng.byte()]);
    }
    name
}

fn renew(generator: &mut Generator, _: &Head) {
    power_up(generator);
}

fn some_slots(generator: &mut Generator, _: &Head) {
    for _ in 0..generator.rng.between(1, 7) {
        generator.call(Call::Slot);
    }
}

fn some_ticks(generator: &mut Generator, _: &Head) {
    let longest = generator.rng.pick(&[1, 3, 12, 40, 110, 240]);
    let count = generator.rng.between(1, longest);
    generator.ticks(count);
}

fn good_sample(generator: &mut Generator) {
    let rng = &generator.rng;
    let any = rng.between(0, HIGHEST_SAMPLE);
    let low = rng.between(0, 2_000);
    let raw = rng.pick(&[
        0, 1, 1_048_574, 1_048_575, 999_999, 1_000_000, low, any, any,
    ]);
    generator.call(Call::Sample(raw));
}

fn sample(generator: &mut Generator, _: &Head) {
    if generator.rng.chance(88) {
        good_sample(generator);
    } else {
        let any = generator.rng.word();
        let raw = generator
            .rng
            .pick(&[1_048_576, 1_048_577, 2_097_152, u32::MAX, any]);
        generator.call(Call::Sample(raw));
    }
}

fn missing(generator: &mut Generator, _: &Head) {
    generator.call(Call::Missing);
}

/// Readings that come and go, for emergencies and the error list.
fn flicker(generator: &mut Generator, _: &Head) {
    for _ in 0..generator.rng.between(1, 6) {
        match generator.rng.between(0, 4) {
            0 | 1 => generator.call(Call::Missing),
            2 | 3 => good_sample(generator),
            _ => generator.call(Call::Slot),
        }
        let ticks = generator.rng.pick(&[0, 0, 1, 2, 8]);
        generator.ticks(ticks);
    }
    good_sample(generator);
}

fn command(generator: &mut Generator, head: &Head) {
    const COMMANDS: &[(u32, u8)] = &[(50, 0x01), (18, 0x02), (24, 0x80), (4, 0x81), (4, 0x82)];
    let rng = &generator.rng;
    let mut command = rng.weighted(COMMANDS);
    if rng.chance(4) {
        command = rng.byte();
    }
    let other = rng.byte();
    let node = rng.weighted(&[(45, 0), (45, head.node()), (10, other)]);
    generator.frame(nmt(command, node));
}

fn sync_frame(generator: &mut Generator) -> Received {
    let counter = generator.rng.byte();
    match generator.rng.between(0, 19) {
        0 => data_frame(0x080, &[counter, 0]),
        1..=6 => data_frame(0x080, &[counter]),
        _ => data_frame(0x080, &[]),
    }
}

/// A train of SYNCs with this and that in between.
fn syncs(generator: &mut Generator, _: &Head) {
    let longest = generator.rng.pick(&[1, 3, 8, 20, 245]);
    for _ in 0..generator.rng.between(1, longest) {
        let frame = sync_frame(generator);
        generator.frame(frame);
        match generator.rng.between(0, 59) {
            0 => generator.call(Call::Missing),
            1 | 2 => good_sample(generator),
            3 => generator.ticks(1),
            4..=8 => generator.call(Call::Slot),
            _ => {}
        }
    }
}

fn some_entry(generator: &mut Generator) -> &'static Entry {
    &ENTRIES[generator.rng.between(0, ENTRIES.len() as u32 - 1) as usize]
}

fn some_writable(generator: &mut Generator) -> &'static Entry {
    loop {
        let entry = some_entry(generator);
        if entry.writable {
            return entry;
        }
    }
}

/// Mostly the reply is fetched, so that the next request is served.
fn often_settle(generator: &mut Generator) {
    if generator.rng.chance(85) {
        generator.settle();
    }
}

fn read_one(generator: &mut Generator, head: &Head) {
    let entry = some_entry(generator);
    let mut frame = read(head.node(), entry.index, entry.sub);
    if generator.rng.chance(20) {
        frame.bytes[0] |= generator.rng.byte() & 0x1F;
        frame.bytes[4..].copy_from_slice(&generator.rng.word().to_le_bytes());
    }
    generator.frame(frame);
    often_settle(generator);
}

/// First bytes of a write that fits the width.
fn fitting_command(generator: &mut Generator, width: u8) -> u8 {
    let sized = match width {
        1 => 0x2F,
        2 => 0x2B,
        _ => 0x23,
    };
    let unsized_one = 0x22 | generator.rng.byte() & 0x1C;
    let reserved = generator.rng.weighted(&[(5, 0x00), (1, 0x10)]);
    generator
        .rng
        .weighted(&[(4, sized | reserved), (1, unsized_one)])
}

/// The value in its width; what follows is left over from elsewhere now and then.
fn data_of(generator: &mut Generator, value: u32, width: u8) -> [u8; 4] {
    let mut data = value.to_le_bytes();
    if generator.rng.chance(30) {
        for byte in data.iter_mut().skip(usize::from(width)) {
            *byte = generator.rng.byte();
        }
    }
    data
}

pub fn write(generator: &mut Generator, node: u8, entry: &Entry, value: u32) {
    let command = fitting_command(generator, entry.width);
    let data = data_of(generator, value, entry.width);
    generator.frame(request(node, command, (entry.index, entry.sub), data));
}

fn write_to(generator: &mut Generator, node: u8, place: (u16, u8), value: u32) {
    let found = ENTRIES
        .iter()
        .find(|entry| (entry.index, entry.sub) == place);
    if let Some(entry) = found {
        write(generator, node, entry, value);
        generator.settle();
    }
}

fn write_valid(generator: &mut Generator, head: &Head) {
    let entry = some_writable(generator);
    let value = valid_value(&generator.rng, entry, head);
    write(generator, head.node(), entry, value);
    often_settle(generator);
}

fn write_edge(generator: &mut Generator, head: &Head) {
    let entry = some_writable(generator);
    let value = edge_value(&generator.rng, entry, head);
    write(generator, head.node(), entry, value);
    often_settle(generator);
}

fn write_of_any_length(generator: &mut Generator, head: &Head) {
    let entry = some_writable(generator);
    let value = valid_value(&generator.rng, entry, head);
    let command = 0x23 | generator.rng.byte() & 0x1C;
    let place = (entry.index, entry.sub);
    generator.frame(request(head.node(), command, place, value.to_le_bytes()));
    often_settle(generator);
}

/// A request with something wrong in it.
fn odd_request(generator: &mut Generator, head: &Head) {
    let entry = some_entry(generator);
    let value = if entry.writable {
        valid_value(&generator.rng, entry, head)
    } else {
        generator.rng.word()
    };
    let rng = &generator.rng;
    let (mut index, mut sub) = (entry.index, entry.sub);
    let mut command = rng.pick(&[0x40, 0x23, 0x27, 0x2B, 0x2F, 0x22]);
    match rng.between(0, 5) {
        0 => command = rng.byte(),
        1 => command = rng.pick(&[0x20, 0x21, 0x2D, 0x00, 0x60, 0x80, 0xA0, 0xC0, 0xE0]),
        2 => index = rng.pick(&[index + 1, index - 1, index ^ 0x8000, index.swap_bytes()]),
        3 => sub = rng.pick(&[sub + 1, sub + 2, 0xFF, rng.byte()]),
        4 => index = rng.word() as u16,
        _ => {}
    }
    let data = value.to_le_bytes();
    generator.frame(request(head.node(), command, (index, sub), data));
    often_settle(generator);
}

/// A PDO is switched off, altered and switched on again, and given cause to be sent.
fn pdo_setup(generator: &mut Generator, head: &Head) {
    let node = head.node();
    let index = generator.rng.pick(&[0x1800, 0x1801]);
    let kind = generator
        .rng
        .pick(&[1, 1, 2, 3, 7, 20, 240, 254, 254, 255, 255]);
    let timer = generator.rng.pick(&[0, 1, 2, 5, 9, 30, 100]);
    alter_pdo(generator, node, index, (kind, timer));
    good_sample(generator);
    generator.frame(nmt(0x01, node));
    if kind > 240 {
        let ticks = generator.rng.between(1, 3 * timer + 3);
        generator.ticks(ticks);
    } else {
        for _ in 0..generator.rng.between(1, 2 * kind + 1) {
            generator.frame(data_frame(0x080, &[]));
        }
        good_sample(generator);
    }
}

fn alter_pdo(generator: &mut Generator, node: u8, index: u16, (kind, timer): (u32, u32)) {
    let identifier = generator.rng.between(0x181, 0x57F);
    write_to(generator, node, (index, 1), 0x8000_0000 | identifier);
    write_to(generator, node, (index, 2), kind);
    write_to(generator, node, (index, 5), timer);
    write_to(generator, node, (index, 1), identifier);
}

/// A write to a PDO that is on: its own identifier, its timer.
fn repeat_pdo(generator: &mut Generator, head: &Head) {
    let index = generator.rng.pick(&[0x1800, 0x1801]);
    let sub = generator.rng.pick(&[1, 1, 5]);
    if let Some(held) = peek(head, index, sub) {
        let bit_31 = generator.rng.pick(&[0, 0, 0x8000_0000]);
        let value = if sub == 1 { held ^ bit_31 } else { held };
        generator.settle();
        write_to(generator, head.node(), (index, sub), value);
    }
    some_ticks(generator, head);
}

/// Off and on with nothing altered, in the midst of its counts.
fn toggle_pdo(generator: &mut Generator, head: &Head) {
    let node = head.node();
    let index = generator.rng.pick(&[0x1800, 0x1801]);
    let identifier = generator.rng.between(0x181, 0x57F);
    for value in [0x8000_0000 | identifier, identifier] {
        let before = generator.rng.between(0, 8);
        generator.ticks(before);
        for _ in 0..generator.rng.between(0, 3) {
            generator.frame(data_frame(0x080, &[]));
        }
        write_to(generator, node, (index, 1), value);
    }
    some_ticks(generator, head);
    for _ in 0..generator.rng.between(0, 4) {
        generator.frame(data_frame(0x080, &[]));
    }
}

fn heartbeat_setup(generator: &mut Generator, head: &Head) {
    let time = generator.rng.pick(&[0, 1, 2, 3, 10, 25, 60]);
    write_to(generator, head.node(), (0x1017, 0), time);
    let ticks = generator.rng.between(0, 3 * time + 1);
    generator.ticks(ticks);
    if generator.rng.chance(40) {
        command(generator, head);
        generator.ticks(ticks / 2);
    }
    if generator.rng.chance(30) {
        let again = generator.rng.pick(&[0, time, time + 1]);
        write_to(generator, head.node(), (0x1017, 0), again);
    }
}

fn emergency_setup(generator: &mut Generator, head: &Head) {
    let time = generator.rng.pick(&[0, 1, 9, 10, 11, 20, 21, 55, 100, 400]);
    write_to(generator, head.node(), (0x1015, 0), time);
    generator.call(Call::Missing);
    generator.drain();
    good_sample(generator);
    if generator.rng.chance(40) {
        generator.call(Call::Missing);
        generator.call(Call::Sample(7));
    }
    if generator.rng.chance(30) {
        command(generator, head);
    }
    if generator.rng.chance(20) {
        write_to(generator, head.node(), (0x1015, 0), 0);
    }
    let ticks = generator.rng.between(0, time / 10 + 3);
    generator.ticks(ticks);
}

/// Off, and on again when something is to be told.
fn emergency_switch(generator: &mut Generator, head: &Head) {
    let emergency = 0x80 + u32::from(head.node());
    write_to(generator, head.node(), (0x1014, 0), 0x8000_0000 | emergency);
    flicker(generator, head);
    if generator.rng.chance(50) {
        generator.call(Call::Missing);
    }
    write_to(generator, head.node(), (0x1014, 0), emergency);
    if generator.rng.chance(30) {
        generator.call(Call::Missing);
        write_to(generator, head.node(), (0x1014, 0), 0x8000_0000 | emergency);
    }
}

/// All kinds at once, and then something that takes some of them.
fn crowd(generator: &mut Generator, head: &Head) {
    let node = head.node();
    let time = generator.rng.between(1, 6);
    let settings = [
        ((0x1015, 0), 0),
        ((0x1017, 0), time),
        ((0x1800, 1), 0x8000_0181),
        ((0x1800, 2), 254),
        ((0x1800, 5), generator.rng.between(1, 6)),
        ((0x1800, 1), 0x181),
        ((0x1801, 1), 0x8000_0182),
        ((0x1801, 2), generator.rng.pick(&[1, 1, 255])),
        ((0x1801, 5), time),
        ((0x1801, 1), 0x182),
    ];
    for (place, value) in settings {
        write_to(generator, node, place, value);
    }
    generator.frame(nmt(0x01, node));
    generator.call(Call::Missing);
    generator.drain();
    good_sample(generator);
    for _ in 0..generator.rng.between(2, 9) {
        match generator.rng.between(0, 2) {
            0 => generator.frame(data_frame(0x080, &[])),
            1 => generator.ticks(2),
            _ => generator.frame(read(node, 0x6004, 0)),
        }
    }
    match generator.rng.between(0, 3) {
        0 => command(generator, head),
        1 => generator.call(Call::Missing),
        2 => repeat_pdo(generator, head),
        _ => take_back(generator, node),
    }
}

/// Frames of SYNC types wait, while samples, gaps, SYNCs and writes come and go.
fn fixed_frames(generator: &mut Generator, head: &Head) {
    const MEANWHILE: &[(u32, Scenario)] = &[
        (10, |generator, _| generator.frame(data_frame(0x080, &[]))),
        (6, |generator, _| good_sample(generator)),
        (4, missing),
        (3, write_of_position),
        (2, |generator, _| generator.ticks(2)),
        (2, |generator, _| generator.call(Call::Slot)),
        (1, read_one),
    ];
    let node = head.node();
    generator.frame(nmt(0x80, node));
    let operating = generator.rng.pick(&[0x0, 0x4, 0x4, 0xC]);
    write_to(generator, node, (0x6000, 0), operating);
    for index in [0x1800, 0x1801] {
        let kind = generator.rng.pick(&[1, 1, 2, 3, 5, 254, 255]);
        let timer = generator.rng.pick(&[0, 1, 2, 5, 9]);
        alter_pdo(generator, node, index, (kind, timer));
    }
    good_sample(generator);
    generator.frame(nmt(0x01, node));
    for _ in 0..generator.rng.between(4, 24) {
        generator.rng.weighted(MEANWHILE)(generator, head);
    }
    if generator.rng.chance(40) {
        generator.call(Call::Missing);
    }
    take_back(generator, node);
}

/// A reset, leaving Operational or switching off; or else slots.
fn take_back(generator: &mut Generator, node: u8) {
    let command = generator.rng.pick(&[0x02, 0x80, 0x81, 0x82]);
    let index = generator.rng.pick(&[0x1800, 0x1801]);
    match generator.rng.between(0, 3) {
        0 => generator.drain(),
        1 => write_to(generator, node, (index, 1), 0x8000_0181),
        _ => generator.frame(nmt(command, node)),
    }
}

/// The position changes with it, mostly; the reply is left waiting.
fn write_of_position(generator: &mut Generator, head: &Head) {
    let index = generator.rng.pick(&[0x6000, 0x6002, 0x6003, 0x6005]);
    let named = |entry: &&Entry| entry.index == index && entry.writable;
    if let Some(entry) = ENTRIES.iter().find(named) {
        let value = valid_value(&generator.rng, entry, head);
        write(generator, head.node(), entry, value);
    }
}

fn scaling_setup(generator: &mut Generator, head: &Head) {
    let node = head.node();
    let operating = generator.rng.pick(&[0x0, 0x4, 0x4, 0x8, 0xC, 0xC]);
    write_to(generator, node, (0x6000, 0), operating);
    let step = some_step(&generator.rng);
    write_to(generator, node, (0x6005, 1), step);
    let range = generator.rng.between(1_000, 1_000_000);
    let range = generator
        .rng
        .pick(&[1_000, 1_001, 999_999, 1_000_000, range]);
    write_to(generator, node, (0x6002, 0), range);
    good_sample(generator);
    let preset = generator.rng.between(0, range - 1);
    let preset = generator.rng.pick(&[0, range - 1, preset]);
    write_to(generator, node, (0x6003, 0), preset);
    good_sample(generator);
    generator.frame(read(node, 0x6004, 0));
    generator.settle();
}

/// Samples at halves of the step and beside them, which are read, sent and preset.
fn halves(generator: &mut Generator, head: &Head) {
    let node = head.node();
    generator.settle();
    if generator.rng.chance(50) {
        generator.frame(nmt(0x01, node));
    }
    let operating = generator.rng.pick(&[0x4, 0x4, 0xC]);
    let step = some_step(&generator.rng);
    let any = generator.rng.between(1_000, 1_000_000);
    let range = generator.rng.pick(&[1_000, 1_001, 524_288, 1_000_000, any]);
    let settings = [
        ((0x6000, 0), operating),
        ((0x6005, 1), step),
        ((0x6002, 0), range),
    ];
    for (place, value) in settings {
        write_to(generator, node, place, value);
    }
    for _ in 0..generator.rng.between(1, 6) {
        let near_half = sample_near_half(&generator.rng, step);
        let near_range = sample_near_range(&generator.rng, step, range);
        let wide = generator.rng.pick(&WIDE_SAMPLES);
        let raw = generator
            .rng
            .pick(&[near_half, near_half, near_range, wide]);
        sample_beside(generator, raw);
        show_position(generator, node, range);
    }
    if generator.rng.chance(20) {
        write_to(generator, node, (0x6000, 0), operating & 0x8);
        good_sample(generator);
    }
}

/// The sample itself, mostly.
fn sample_beside(generator: &mut Generator, raw: u32) {
    let above = (raw + 1).min(HIGHEST_SAMPLE);
    let beside = generator
        .rng
        .pick(&[raw, raw, raw, raw.saturating_sub(1), above]);
    generator.call(Call::Sample(beside));
}

/// One of the ways in which a position is seen.
fn show_position(generator: &mut Generator, node: u8, range: u32) {
    let preset = generator.rng.between(0, range - 1);
    let preset = generator.rng.pick(&[0, range - 1, preset]);
    match generator.rng.between(0, 4) {
        0 => {
            write_to(generator, node, (0x6003, 0), preset);
            generator.frame(read(node, 0x6509, 0));
            generator.settle();
        }
        1 => {
            generator.frame(read(node, 0x6004, 0));
            generator.settle();
        }
        2 => generator.frame(data_frame(0x080, &[])),
        3 => generator.ticks(3),
        _ => generator.call(Call::Slot),
    }
}

fn store(generator: &mut Generator, head: &Head) {
    let node = head.node();
    if generator.rng.chance(70) {
        write_to(generator, node, (0x1010, 1), 0x6576_6173);
    } else {
        write_to(generator, node, (0x1011, 1), 0x6461_6F6C);
    }
    if generator.rng.chance(40) {
        write_valid(generator, head);
        let reset = generator.rng.pick(&[0x81, 0x82]);
        generator.frame(nmt(reset, node));
        generator.call(Call::Slot);
    }
}

/// A frame that would mean something, but for one thing.
fn malformed(generator: &mut Generator, head: &Head) {
    let entry = some_entry(generator);
    let sync = sync_frame(generator);
    let rng = &generator.rng;
    let reset = nmt(rng.pick(&[0x01, 0x02, 0x80, 0x81]), 0);
    let mut frame = rng.pick(&[reset, sync, read(head.node(), entry.index, entry.sub)]);
    match rng.between(0, 6) {
        0 => frame.extended = true,
        1 => frame.remote = true,
        2 => frame.length = rng.pick(&[0, 1, 2, 3, 7, 8, 9, 10, 255, rng.byte()]),
        3 => {
            frame.identifier = frame
                .identifier
                .wrapping_add(rng.pick(&[1, u32::MAX, 0x800]))
        }
        4 => frame.identifier = rng.pick(&[0x7FF, 0x800, 0x1FFF_FFFF, 0x2000_0000, rng.word()]),
        5 => {
            frame.extended = true;
            frame.identifier |= rng.pick(&[0x2000_0000, 0x1FFF_F800, 0x8000_0000]);
        }
        _ => {
            frame.identifier |= 0x800 << rng.between(0, 20);
            frame.length = rng.pick(&[8, 9, 200]);
            frame.extended = rng.chance(50);
            frame.remote = rng.chance(50);
        }
    }
    generator.frame(frame);
}

/// Requests without a slot in between.
fn flood(generator: &mut Generator, head: &Head) {
    for _ in 0..generator.rng.between(2, 10) {
        let entry = some_entry(generator);
        generator.frame(read(head.node(), entry.index, entry.sub));
        let ticks = generator.rng.pick(&[0, 0, 1, 3]);
        generator.ticks(ticks);
    }
}

fn read_name(generator: &mut Generator, head: &Head) {
    let (index, _) = generator.rng.pick(&NAMES);
    generator.frame(read(head.node(), index, 0));
}

fn upload(generator: &mut Generator, head: &Head) {
    read_name(generator, head);
    generator.upload();
}

/// A name is read, and much else comes in between.
fn disturbed_upload(generator: &mut Generator, head: &Head) {
    read_name(generator, head);
    for _ in 0..generator.rng.between(1, 9) {
        if generator.rng.chance(70) {
            generator.settle();
        }
        if generator.rng.chance(50) {
            some_segment(generator, 0x00);
        } else {
            disturb(generator, head);
        }
    }
    if generator.rng.chance(50) {
        generator.upload();
    }
}

/// With anything in the bits and bytes that say nothing; 10h for the wrong toggle.
fn some_segment(generator: &mut Generator, wrong: u8) {
    let mut bytes = generator.rng.next().to_le_bytes();
    bytes[0] = bytes[0] & 0x0F | wrong;
    generator.segment(bytes);
}

fn disturb(generator: &mut Generator, head: &Head) {
    const DISTURBANCES: &[(u32, Scenario)] = &[
        (4, |generator, _| some_segment(generator, 0x10)),
        (4, client_abort),
        (3, read_name),
        (2, read_one),
        (2, write_valid),
        (2, write_name),
        (2, odd_request),
        (3, other_request),
        (2, reset),
        (2, |generator, _| generator.frame(nmt(0x02, 0))),
        (3, |generator, _| generator.frame(nmt(0x80, 0))),
        (3, |generator, _| generator.frame(nmt(0x01, 0))),
        (2, flicker),
        (2, some_ticks),
        (1, syncs),
        (1, malformed),
    ];
    generator.rng.weighted(DISTURBANCES)(generator, head);
}

fn client_abort(generator: &mut Generator, head: &Head) {
    let mut bytes = generator.rng.next().to_le_bytes();
    bytes[0] = 0x80 | generator.rng.pick(&[0, bytes[0] & 0x1F]);
    generator.frame(data_frame(0x600 + u32::from(head.node()), &bytes));
}

/// With top bits that ask for nothing.
fn other_request(generator: &mut Generator, head: &Head) {
    let mut bytes = generator.rng.next().to_le_bytes();
    bytes[0] = bytes[0] & 0x1F | generator.rng.pick(&[0x00, 0xA0, 0xC0, 0xE0]);
    generator.frame(data_frame(0x600 + u32::from(head.node()), &bytes));
}

fn write_name(generator: &mut Generator, head: &Head) {
    let (index, _) = generator.rng.pick(&NAMES);
    let command = 0x22 | generator.rng.byte() & 0x1F;
    let data = generator.rng.word().to_le_bytes();
    generator.frame(request(head.node(), command, (index, 0), data));
}

/// Mostly the head is brought to life again.
fn reset(generator: &mut Generator, _: &Head) {
    let command = generator.rng.pick(&[0x81, 0x82]);
    generator.frame(nmt(command, 0));
    if generator.rng.chance(80) {
        generator.call(Call::Slot);
    }
}

/// Any bytes, often to where they may be heard.
fn noise(generator: &mut Generator, head: &Head) {
    let rng = &generator.rng;
    let node = u32::from(head.node());
    let identifier = rng.pick(&[0x000, 0x080, 0x600 + node, 0x600 + node, rng.word()]);
    let frame = Received {
        identifier,
        extended: rng.chance(10),
        remote: rng.chance(10),
        length: rng.pick(&[0, 1, 2, 8, 8, rng.byte()]),
        bytes: rng.next().to_le_bytes(),
    };
    generator.frame(frame);
}

/// The longest times there are, all at once.
pub fn long_wait(generator: &mut Generator) {
    let node = generator.next_node();
    generator.call(Call::PowerUp(node, Identity::UNKNOWN));
    generator.drain();
    write_to(generator, node, (0x1801, 1), 0x8000_0181);
    write_to(generator, node, (0x1801, 2), 255);
    write_to(generator, node, (0x1801, 1), 0x181);
    for place in [(0x1015, 0), (0x1800, 5), (0x1801, 5), (0x1017, 0)] {
        write_to(generator, node, place, 65_535);
    }
    generator.call(Call::Sample(123));
    generator.drain();
    generator.frame(nmt(0x01, node));
    generator.drain();
    generator.call(Call::Missing);
    generator.ticks(10_000);
    generator.drain();
    generator.call(Call::Sample(456));
    generator.ticks(55_534);
    generator.drain();
    generator.ticks(3);
    generator.drain();
}
