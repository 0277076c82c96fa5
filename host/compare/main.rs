//! Compares the library with an implementation of its own of document 01, of requests W1 to W7 of document 02 and of the inspection of
//! music_counter.h, by fields and structures, on many inputs, with tables of either pair.
//!
//! compare calls COUNT SEED: at least so many calls. compare seconds N SEED: round after round, each with a seed of its
//! own, until the time is over. Its exit code is 1 where anything differs, which is then printed, or where an answer that
//! the paper allows never came up.

mod baskets;
mod calls;
mod compare;
mod history;
mod inputs;
mod inspections;
mod parts;
mod preview;
mod request_bytes;
mod requests;
mod sheet;
mod tables;
mod till;

use std::time::{Duration, Instant};

use compare::Run;
use inputs::Random;
use tables::PAIRS;

/// Calls of a round in a run by time.
const CALLS_OF_ROUND: u64 = 2_000_000;

/// What goes through all values and does not get better by repeating.
fn all_values(run: &mut Run) -> Result<(), String> {
    request_bytes::all_short(run)?;
    request_bytes::at_limits(run)?;
    PAIRS.into_iter().try_for_each(|pair| parts::every_byte(run, pair))?;
    PAIRS.into_iter().try_for_each(|pair| parts::full_card(run, pair))?;
    PAIRS.into_iter().try_for_each(|pair| parts::every_first_copy(run, pair))?;
    PAIRS.into_iter().try_for_each(|pair| inspections::every_first_vacant(run, pair))?;
    PAIRS.into_iter().try_for_each(|pair| inspections::every_number_of_holders(run, pair))?;
    PAIRS.into_iter().try_for_each(|pair| baskets::counts_and_lengths(run, pair))?;
    (0..10).try_for_each(|round| parts::arguments_at_limits(run, round))?;
    (0..6).try_for_each(|round| parts::formats(run, round))
}

/// Histories and varied tables with previews, and requests, until there were so many calls.
fn random_values(run: &mut Run, calls: u64) -> Result<(), String> {
    let mut round = 0;
    while run.calls < calls {
        parts::history(run, round)?;
        (16 * round..16 * (round + 1)).try_for_each(|tables| parts::varied(run, tables))?;
        request_bytes::round(run, round)?;
        round += 1;
    }
    Ok(())
}

fn by_calls(run: &mut Run, calls: u64) -> Result<(), String> {
    all_values(run)?;
    random_values(run, calls)
}

fn by_seconds(run: &mut Run, seconds: u64) -> Result<(), String> {
    let (start, mut seeds) = (Instant::now(), Random::new(run.seed, "seeds", 0));
    all_values(run)?;
    while start.elapsed() < Duration::from_secs(seconds) {
        run.seed = seeds.number();
        println!("seed {}, from call {}", run.seed, run.calls);
        random_values(run, run.calls + CALLS_OF_ROUND)?;
    }
    Ok(())
}

fn main() {
    let arguments: Vec<String> = std::env::args().skip(1).collect();
    let numbers: Vec<u64> = arguments.iter().skip(1).filter_map(|text| text.parse().ok()).collect();
    let (Some(how), [amount, seed]) = (arguments.first(), &numbers[..]) else { usage() };
    let mut run = Run::new(*seed);
    let compared = match how.as_str() {
        "calls" => by_calls(&mut run, *amount),
        "seconds" => by_seconds(&mut run, *amount),
        _ => usage(),
    };
    run.print();
    if let Err(what) = compared.and_then(|()| run.complete()) {
        println!("{what}");
        std::process::exit(1);
    }
}

fn usage() -> ! {
    eprintln!("compare calls COUNT SEED, or compare seconds N SEED");
    std::process::exit(2);
}
