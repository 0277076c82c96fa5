//! Inspections: what came up in them, and the parts of a run that hold them to a list of calls and to vacant entries.

use crate::calls::{Call, Numbers, Operation};
use crate::compare::{print_line, PerEntry, Run, Sides};
use crate::history::{Counts, Titles};
use crate::inputs::{self, Named, Random};
use crate::tables::{EntryKind, Facts, Pair, Row, RowState, RuleHalf, Tables, TitleHalf, LAST_ENTRY, VACANT};

/// A row and every entry of a card.
const MOST_HOLDERS: u64 = 1 + LAST_ENTRY;

/// What done inspections told.
#[derive(Clone, Copy, Default)]
pub struct Inspected {
    /// Entries by their kinds and rows by their states, and those of them whose bytes have facts that are not told.
    kinds: [u64; 5],
    kinds_hiding: [u64; 5],
    states: [u64; 5],
    states_hiding: [u64; 5],
    /// Entries with a content ID above 999 in their title half, beside flag 0 and flag 1.
    ids_above: [u64; 2],
    /// Titles with no holder, one, and more; and with no copy, one, and more. And the most holders of one title.
    holders: [u64; 3],
    copies: [u64; 3],
    most_holders: u64,
    /// How often each entry was the first vacant one, and 0 that there is none.
    vacant: PerEntry,
}

impl Inspected {
    /// Takes a call that was done on these tables, and what it told.
    pub fn note(&mut self, call: &Call, tables: &Tables, told: &Numbers) {
        match *call {
            Call::InspectEntry { entry } => {
                let (found, kind) = (tables.entry(entry), told.kind as usize);
                self.kinds[kind] += 1;
                self.kinds_hiding[kind] += u64::from(found.is_some_and(|found| hides(found.facts(), told)));
                if let Some(found) = found.filter(|found| found.content_id() > 999) {
                    self.ids_above[usize::from(found.title.place.flag)] += 1;
                }
            }
            Call::InspectRow { content } => {
                let (found, state) = (tables.row(content), told.state as usize);
                self.states[state] += 1;
                self.states_hiding[state] += u64::from(found.is_some_and(|found| hides(found.facts, told)));
            }
            Call::InspectTitle { .. } => {
                self.holders[told.holders.min(2) as usize] += 1;
                self.copies[told.copies.min(2) as usize] += 1;
                self.most_holders = self.most_holders.max(told.holders);
            }
            Call::FirstVacant { .. } => self.vacant.0[told.vacant as usize] += 1,
            _ => (),
        }
    }

    /// Each kind and state came up, also with facts that are not told, but for those that tell all; each sort of ID above 999 and of
    /// counts; and each entry as the first vacant one, and none.
    pub fn complete(&self, pair: Pair) -> Result<(), String> {
        let (mut kinds_hiding, mut states_hiding) = (self.kinds_hiding, self.states_hiding);
        // of these two there is nothing to hide
        kinds_hiding[EntryKind::Full as usize] += 1;
        states_hiding[RowState::Here as usize] += 1;
        for (what, counts) in [
            ("an entry of kind", &self.kinds[..]),
            ("facts that are not told in an entry of kind", &kinds_hiding),
            ("a row in state", &self.states),
            ("facts that are not told in a row in state", &states_hiding),
            ("a content ID above 999 beside flag", &self.ids_above),
            ("holders, 2 for more than 1:", &self.holders),
            ("copies, 2 for more than 1:", &self.copies),
            ("the first vacant entry, 0 for none:", &self.vacant.0),
        ] {
            if let Some(number) = counts.iter().position(|count| *count == 0) {
                return Err(format!("{pair:?} inspection: never {what} {number}"));
            }
        }
        match self.most_holders {
            MOST_HOLDERS => Ok(()),
            most => Err(format!("{pair:?} inspection: never more than {most} holders")),
        }
    }

    pub fn print(&self, pair: Pair) {
        print_line(&format!("{pair:?} entries by kind"), &self.kinds);
        print_line(&format!("{pair:?} entries with facts not told"), &self.kinds_hiding);
        print_line(&format!("{pair:?} rows by state"), &self.states);
        print_line(&format!("{pair:?} rows with facts not told"), &self.states_hiding);
        print_line(&format!("{pair:?} IDs above 999 by flag"), &self.ids_above);
        print_line(&format!("{pair:?} titles by holders, up to 2"), &self.holders);
        print_line(&format!("{pair:?} titles by copies, up to 2"), &self.copies);
        let [none, found @ ..] = &self.vacant.0;
        let (least, sum) = (found.iter().min().copied().unwrap_or(0), found.iter().sum::<u64>());
        println!("{pair:?}: a vacant entry was found {sum} times, each at least {least} times, and none {none} times");
    }
}

/// Whether facts in the bytes are not told.
fn hides(in_bytes: Facts, told: &Numbers) -> bool {
    in_bytes.listed() != told.facts
}

/// After a list of calls, on a ledger and card of one application: each title granted is told as the calls and their answers say.
pub fn of_titles(run: &mut Run, sides: &mut Sides, counts: &Counts, tested: &mut Titles) -> Result<(), String> {
    for (content, expected) in counts.holders_and_copies() {
        let answer = sides.call(run, &Call::InspectTitle { content })?;
        let Numbers { holders, copies, .. } = sides.told();
        if (answer, [holders, copies]) != (0, expected) {
            let told = format!("answers {answer}, with {holders} holders and {copies} copies");
            return Err(run.found(format!("title {content}: its inspection {told}, expected {expected:?}")));
        }
        tested.inspected[if holders == 0 { 0 } else { 1 + copies.min(1) as usize }] += 1;
    }
    Ok(())
}

/// The first vacant entry from an entry on is the first at which a record, check-out or move in is not answered 10, on a ledger and
/// card of one application. Where one of these is done, the tables are then set back.
pub fn of_vacant(run: &mut Run, random: &mut Random, sides: &mut Sides, contents: &[u64]) -> Result<(), String> {
    let from = if random.chance(70) { 1 } else { random.one_to(LAST_ENTRY) };
    sides.call(run, &Call::FirstVacant { from })?;
    let (before, vacant) = (sides.library.clone(), sides.told().vacant);
    for entry in from..=if vacant == 0 { LAST_ENTRY } else { vacant } {
        let named = Named { contents: contents.to_vec(), entries: vec![entry] };
        put_in(run, random, sides, &before, &named, entry == vacant)?;
    }
    Ok(())
}

/// The calls that put a title in an entry, each on these tables, which are set back where it is done.
fn put_in(
    run: &mut Run, random: &mut Random, sides: &mut Sides, before: &Tables, named: &Named, vacant: bool,
) -> Result<(), String> {
    for operation in [Operation::Record, Operation::CheckOut, Operation::MoveIn] {
        let call = inputs::likely_call(random, before, named, operation);
        let answer = sides.call(run, &call)?;
        if (answer == 10) == vacant {
            return Err(run.found(format!("{call:?} answers {answer}; whether it is the first vacant entry: {vacant}")));
        }
        if answer == 0 {
            sides.set(before);
        }
    }
    Ok(())
}

/// Each entry as the only vacant one up to it, and then as one of which nothing before it is asked.
pub fn every_first_vacant(run: &mut Run, pair: Pair) -> Result<(), String> {
    (run.part, run.round) = ("first vacant", pair as u64);
    let mut random = Random::new(run.seed, run.part, run.round);
    let named = inputs::named(&mut random, 5);
    let mut taken = inputs::fresh_tables([pair; 2], 5, 1, 1);
    (1..=LAST_ENTRY).for_each(|entry| put_entry(&mut random, &mut taken, &named, entry, false));
    let mut sides = Sides::new(pair, &taken);
    for vacant in 1..=LAST_ENTRY {
        let mut tables = taken.clone();
        put_entry(&mut random, &mut tables, &named, vacant, true);
        if random.chance(50) {
            let behind = vacant + random.below(LAST_ENTRY + 1 - vacant);
            put_entry(&mut random, &mut tables, &named, behind, true);
        }
        sides.set(&tables);
        let any = random.one_to(vacant);
        let from = [1, any, vacant, (vacant + 1).min(LAST_ENTRY)];
        from.into_iter().try_for_each(|from| sides.call(run, &Call::FirstVacant { from }).map(|_| ()))?;
    }
    Ok(())
}

/// Every number of holders of one title, from its row alone to the row and every entry.
pub fn every_number_of_holders(run: &mut Run, pair: Pair) -> Result<(), String> {
    (run.part, run.round) = ("holders", pair as u64);
    let mut random = Random::new(run.seed, run.part, run.round);
    let (content, facts) = (random.one_to(5), inputs::facts(&mut random));
    let mut tables = inputs::fresh_tables([pair; 2], 5, 1, 1);
    tables.put_row(content, &Row::here(facts));
    let mut sides = Sides::new(pair, &tables);
    for entry in 1..=LAST_ENTRY {
        sides.call(run, &Call::InspectTitle { content })?;
        tables.put_title_half(entry, &TitleHalf::written(&facts, content));
        tables.put_rule_half(entry, &RuleHalf::written(&facts, content, random.number()));
        sides.set(&tables);
    }
    sides.call(run, &Call::InspectTitle { content }).map(|_| ())
}

/// Halves at random of a vacant entry, or of one that is not.
fn put_entry(random: &mut Random, tables: &mut Tables, named: &Named, entry: u64, vacant: bool) {
    let is_vacant = |tables: &Tables| tables.entry(entry).is_some_and(|found| VACANT.contains(&found.kind()));
    inputs::put_random_entry(random, tables, named, entry);
    while is_vacant(tables) != vacant {
        inputs::put_random_entry(random, tables, named, entry);
    }
}
