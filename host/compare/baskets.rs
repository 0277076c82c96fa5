//! The parts of a run that preview baskets of requests and commit them.

use std::array;

use crate::calls::{Call, Operation, KINDS, OPERATIONS};
use crate::compare::{Run, Sides};
use crate::history::Counts;
use crate::inputs::{self, Named, Random};
use crate::preview::{self, Basket, Previewed, BASKET_SIZE};
use crate::requests::Request;
use crate::tables::{Pair, Tables};

/// Kinds that are none, of which some would be one if their upper bits were cut off.
const NO_KINDS: [u64; 10] =
    [0, 8, 9, 255, 256 + 1, 65_536 + 2, (1 << 32) + 3, (1 << 32) + 7, (1 << 63) + 1, u64::MAX];

/// Counts above the places of a basket, of which some would fit if their upper bits were cut off.
const TOO_MANY: [u64; 14] = [
    17, 18, 31, 32, 255, 256, 256 + 3, 65_536 + 3, 1 << 32, (1 << 32) + 3, (1 << 32) + 16, 1 << 63, (1 << 63) + 1, u64::MAX,
];

/// A basket of so many requests.
fn basket(random: &mut Random, sides: &Sides, named: &Named, count: u64) -> Basket {
    let operations: [Operation; KINDS] = array::from_fn(|number| OPERATIONS[number].0);
    let mut left = sides.library.clone();
    let mut places = [(); BASKET_SIZE].map(|()| {
        // mostly one that may be done after those before it, else one that may be done alone
        let tables = if random.chance(85) { &left } else { &sides.library };
        let request = request(random, tables, named, &operations);
        preview::perform(sides.pair, &request, &mut left);
        request
    });
    // Behind the last request stand others, which would change something too, or anything.
    if random.chance(50) {
        places.iter_mut().skip(count as usize).for_each(|place| *place = any_numbers(random));
    }
    Basket { places, count }
}

fn request(random: &mut Random, tables: &Tables, named: &Named, operations: &[Operation]) -> Request {
    let mut call = inputs::fitting_call(random, tables, named, operations);
    if random.chance(5) {
        call = inputs::with_argument_at_limit(random, &call);
    }
    let anything = any_numbers(random);
    let mut request = preview::request_of(&call, random.number()).unwrap_or(anything);
    if random.chance(4) {
        request.kind = random.pick(&NO_KINDS);
    }
    request
}

fn any_numbers(random: &mut Random) -> Request {
    Request { kind: random.number(), arguments: [(); 9].map(|()| random.number()) }
}

/// What a preview writes to, full of numbers for it to write over: scratch buffers of these lengths, and places for answers.
fn lent(random: &mut Random, lengths: [usize; 3]) -> Previewed {
    let [ledger, titles, rules] = lengths.map(|length| random.bytes(length));
    Previewed { scratch: Tables { ledger, titles, rules }, answers: [(); BASKET_SIZE].map(|()| random.number()) }
}

/// The basket with scratch buffers of the right lengths.
fn previewed(run: &mut Run, random: &mut Random, sides: &Sides, basket: &Basket) -> Result<Previewed, String> {
    let mut written = lent(random, sides.library.lengths());
    sides.preview(run, basket, &mut written)?;
    Ok(written)
}

/// Carries the basket's requests out, one after another. They are answered what the preview told, and leave what it left in the
/// scratch buffers.
fn commit(run: &mut Run, sides: &mut Sides, basket: &Basket, told: &Previewed) -> Result<(), String> {
    for (place, request) in basket.requests().iter().enumerate() {
        let answer = sides.perform(run, request)?;
        if answer != told.answers[place] {
            return Err(run.found(format!("place {place} of {basket:x?}: {answer}, and not as told {:?}", told.answers)));
        }
    }
    if sides.library == told.scratch { Ok(()) } else { Err(run.found(format!("{basket:x?} leaves what was not told"))) }
}

/// A basket of any count, mostly one that is done, and committed in one of four cases. Answers what was committed.
fn any(run: &mut Run, random: &mut Random, sides: &mut Sides, named: &Named) -> Result<Vec<(Request, u64)>, String> {
    let count = if random.chance(95) { random.below(BASKET_SIZE as u64 + 1) } else { random.pick(&TOO_MANY) };
    let basket = basket(random, sides, named, count);
    let written = previewed(run, random, sides, &basket)?;
    if count > BASKET_SIZE as u64 || !random.chance(25) {
        return Ok(Vec::new());
    }
    commit(run, sides, &basket, &written)?;
    Ok(basket.requests().iter().copied().zip(written.answers).collect())
}

/// A preview between the calls of a history, where it is no call. Those that are committed are.
pub fn in_history(
    run: &mut Run, random: &mut Random, sides: &mut Sides, named: &Named, counts: &mut Counts,
) -> Result<(), String> {
    for (request, answer) in any(run, random, sides, named)? {
        if let Ok(call) = preview::call_of(&request) {
            counts.note(&call, answer).map_err(|what| run.found(what))?;
        }
    }
    Ok(())
}

/// A preview on tables of which anything may be wrong: then it is done too, and the requests have the refusals.
pub fn on_varied(run: &mut Run, random: &mut Random, sides: &mut Sides, named: &Named) -> Result<(), String> {
    any(run, random, sides, named).map(|_| ())
}

/// Previews those of the calls that can be requests, in as many baskets as they need.
pub fn of_calls(run: &mut Run, random: &mut Random, sides: &Sides, calls: &[Call]) -> Result<(), String> {
    let requests = calls.iter().filter_map(|call| preview::request_of(call, u64::MAX));
    for requests in requests.collect::<Vec<_>>().chunks(BASKET_SIZE) {
        let mut places = [(); BASKET_SIZE].map(|()| any_numbers(random));
        places[..requests.len()].copy_from_slice(requests);
        previewed(run, random, sides, &Basket { places, count: requests.len() as u64 })?;
    }
    Ok(())
}

/// Lengths of scratch buffers of which at least one is wrong: alone in every way that `inputs` has, and with others one less,
/// one more, none at all, or traded with them.
fn wrong_lengths(right: [usize; 3]) -> Vec<[usize; 3]> {
    let mut all = Vec::new();
    for which in 0..3 {
        for length in inputs::wrong_lengths(right[which]) {
            let mut lengths = right;
            lengths[which] = length;
            all.push(lengths);
        }
    }
    for set in 1..8 {
        let changed = |change: fn(usize) -> usize| {
            array::from_fn(|which| if set >> which & 1 == 1 { change(right[which]) } else { right[which] })
        };
        all.extend([changed(|length| length.saturating_sub(1)), changed(|length| length + 1), changed(|_| 0)]);
    }
    let [ledger, titles, rules] = right;
    all.extend([[titles, rules, ledger], [rules, ledger, titles], [titles, ledger, rules], [ledger, rules, titles]]);
    // In sum these are as long as the originals.
    all.extend([[ledger.saturating_sub(1), titles + 1, rules], [ledger, titles.saturating_sub(1), rules + 1]]);
    all.into_iter().filter(|lengths| *lengths != right).collect()
}

/// Every count of requests, and counts above it, with every wrong length: 17 comes before 18, and both before any request,
/// whether it is right or not.
pub fn counts_and_lengths(run: &mut Run, pair: Pair) -> Result<(), String> {
    (run.part, run.round) = ("counts and lengths", pair as u64);
    let mut random = Random::new(run.seed, run.part, run.round);
    for count in (0..=BASKET_SIZE as u64).chain(TOO_MANY) {
        let (tables, named) = inputs::varied_tables(&mut random, pair);
        let mut sides = Sides::new(pair, &tables);
        let basket = basket(&mut random, &sides, &named, count);
        let of_anything = Basket { places: [(); BASKET_SIZE].map(|()| any_numbers(&mut random)), count };
        for lengths in wrong_lengths(tables.lengths()) {
            for basket in [&basket, &of_anything] {
                sides.preview(run, basket, &mut lent(&mut random, lengths))?;
            }
        }
        previewed(run, &mut random, &sides, &of_anything)?;
        let written = previewed(run, &mut random, &sides, &basket)?;
        if count <= BASKET_SIZE as u64 {
            commit(run, &mut sides, &basket, &written)?;
        }
    }
    Ok(())
}
