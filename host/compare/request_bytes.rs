//! The parts of a run that read and write requests.

use crate::compare::Run;
use crate::inputs::{Random, LIMITS};
use crate::requests::{append_number, arguments_of, form, Argument, Request};

/// Room for the numbers of every request, past their limits too, and some bytes behind them.
const ROOM: usize = 96;

/// All inputs of no, one, two and three bytes.
pub fn all_short(run: &mut Run) -> Result<(), String> {
    (run.part, run.round) = ("short requests", 0);
    run.read_request(&[])?;
    for first in 0..=255 {
        run.read_request(&[first])?;
        for second in 0..=255 {
            run.read_request(&[first, second])?;
            for third in 0..=255 {
                run.read_request(&[first, second, third])?;
            }
        }
    }
    Ok(())
}

/// Each argument of each kind, and the kind, at and past each limit and on both sides of each power of 2, of which every seventh is one of
/// 128, where a number gets longer.
pub fn at_limits(run: &mut Run) -> Result<(), String> {
    (run.part, run.round) = ("requests at limits", 0);
    let mut random = Random::new(run.seed, run.part, 0);
    let sides_of_powers = (0..64).flat_map(|bit| [(1 << bit) - 1, 1 << bit]);
    let values: Vec<u64> = LIMITS.iter().copied().chain(sides_of_powers).collect();
    for value in values {
        for kind in 1..=7 {
            let right = right_request(&mut random, kind);
            for place in 0..9 {
                let mut request = right;
                request.arguments[place] = value;
                in_every_room(run, &mut random, &request)?;
            }
            in_every_room(run, &mut random, &Request { kind: value, ..right })?;
        }
    }
    Ok(())
}

/// Reads the request's numbers, whatever they are, and writes it into every room around what they need.
fn in_every_room(run: &mut Run, random: &mut Random, request: &Request) -> Result<(), String> {
    let bytes = numbers(request);
    run.read_request(&bytes)?;
    for room in bytes.len().saturating_sub(2)..bytes.len() + 2 {
        run.write_request(request, &random.bytes(ROOM), room)?;
    }
    Ok(())
}

/// A kind and its arguments one after another, as many as the kind has, or two where there is no such kind.
fn numbers(request: &Request) -> Vec<u8> {
    let mut bytes = Vec::new();
    let count = arguments_of(request.kind).map_or(2, |arguments| arguments.len());
    append_number(&mut bytes, request.kind);
    request.arguments[..count].iter().for_each(|value| append_number(&mut bytes, *value));
    bytes
}

/// Requests read and written, right ones and damaged ones.
pub fn round(run: &mut Run, round: u64) -> Result<(), String> {
    (run.part, run.round) = ("requests", round);
    let mut random = Random::new(run.seed, run.part, round);
    for _ in 0..100 {
        let request = request(&mut random);
        let bytes = damaged_form(&mut random, &request);
        run.read_request(&bytes)?;
        let cut = random.below(bytes.len() as u64 + 1) as usize;
        run.read_request(&bytes[..cut])?;
        let length = random.below(24) as usize;
        let mut any = random.bytes(length);
        if let Some(kind) = any.first_mut().filter(|_| random.chance(80)) {
            *kind = *kind % 7 + 1;
        }
        run.read_request(&any)?;
        write(run, &mut random, &request)?;
    }
    every_cut(run, &mut random)
}

/// A right request cut off at every place, and written into every room that is too short or just enough.
fn every_cut(run: &mut Run, random: &mut Random) -> Result<(), String> {
    let kind = random.one_to(7);
    let request = right_request(random, kind);
    let bytes = numbers(&request);
    for length in 0..=bytes.len() {
        run.read_request(&bytes[..length])?;
        run.write_request(&request, &random.bytes(ROOM), length)?;
    }
    Ok(())
}

/// A request whose arguments are all within their limits.
fn right_request(random: &mut Random, kind: u64) -> Request {
    let mut request = Request { kind, arguments: [0; 9] };
    for (place, argument) in arguments_of(kind).unwrap_or_default().iter().enumerate() {
        request.arguments[place] = right_value(random, *argument);
    }
    request
}

fn right_value(random: &mut Random, argument: Argument) -> u64 {
    let any = random.number() >> random.below(64);
    match argument {
        Argument::ContentId | Argument::EntryNumber if random.chance(20) => random.pick(&[1, 127, 128, 998, 999]),
        Argument::ContentId | Argument::EntryNumber => random.one_to(999),
        Argument::Cci => random.pick(&[0, 2, 3]),
        Argument::Trigger => random.below(2),
        Argument::Rights | Argument::Permits => random.below(16),
        Argument::Key => any % (1 << 56),
        Argument::Hash | Argument::Filler => any,
    }
}

/// A request that is often right; else a kind or some arguments are at or past a limit.
fn request(random: &mut Random) -> Request {
    let kind = random.one_to(7);
    let mut request = right_request(random, kind);
    if random.chance(4) {
        request.kind = random.pick(LIMITS);
    }
    for _ in 0..random.pick(&[0, 0, 1, 1, 2]) {
        request.arguments[random.below(9) as usize] = random.pick(LIMITS);
    }
    request
}

/// The request's numbers one after another, some of them not in the form that the paper asks for, then cut off, made
/// longer, or with a bit changed.
fn damaged_form(random: &mut Random, request: &Request) -> Vec<u8> {
    let mut bytes = Vec::new();
    let count = arguments_of(request.kind).map_or(2, |arguments| arguments.len());
    let wrong = random.below(30) as usize;
    for (place, value) in [request.kind].iter().chain(&request.arguments[..count]).enumerate() {
        if place == wrong { append_wrong_number(random, &mut bytes, *value) } else { append_number(&mut bytes, *value) }
    }
    if random.chance(40) {
        let more = random.below(12) as usize;
        bytes.extend(random.bytes(more));
    }
    if random.chance(15) {
        bytes.truncate(random.below(bytes.len() as u64 + 1) as usize);
    }
    if random.chance(15) && !bytes.is_empty() {
        let place = random.below(bytes.len() as u64) as usize;
        bytes[place] ^= 1 << random.below(8);
    }
    bytes
}

/// A number that is too long, too large, or goes on.
fn append_wrong_number(random: &mut Random, bytes: &mut Vec<u8>, value: u64) {
    append_number(bytes, value);
    let last = bytes.len() - 1;
    match random.below(4) {
        // Zeros after the number: not its shortest form.
        0 => {
            bytes[last] |= 128;
            (0..random.below(9)).for_each(|_| bytes.push(128));
            bytes.push(0);
        }
        // Nine bytes that go on, and any tenth.
        1 => {
            bytes.truncate(last);
            (0..9).for_each(|_| bytes.push(128 + random.below(128) as u8));
            let any = random.number() as u8;
            bytes.push(random.pick(&[0, 1, 2, 3, 0x7f, 0x80, 0x81, 0xff, any]));
        }
        // It goes on where the next number should be.
        2 => bytes[last] |= 128,
        _ => (0..random.below(12)).for_each(|_| bytes.push(255)),
    }
}

/// Writes the request into room around what it needs. Behind a kind's own arguments stands anything: it is not looked at.
fn write(run: &mut Run, random: &mut Random, request: &Request) -> Result<(), String> {
    let mut request = *request;
    let count = arguments_of(request.kind).map_or(0, |arguments| arguments.len());
    request.arguments[count..].iter_mut().for_each(|argument| *argument = random.number());
    let needed = form(&request).map_or(10, |bytes| bytes.len());
    let near = (needed + random.below(6) as usize).saturating_sub(3);
    let room = if random.chance(70) { near } else { random.below(ROOM as u64) as usize };
    run.write_request(&request, &random.bytes(ROOM), room)
}
