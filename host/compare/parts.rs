//! The parts of a run that make calls: histories, varied tables, every value of every byte, arguments at their limits, and
//! formatting.

use crate::baskets;
use crate::calls::{self, Call, Operation, Results, FORMATTING, INSPECTIONS, OPERATIONS};
use crate::compare::{Run, Sides};
use crate::history::{Counts, Titles};
use crate::inputs::{self, Named, Random, CUT_OFF, LIMITS};
use crate::inspections;
use crate::sheet::MOST_TEXT;
use crate::tables::{Facts, Pair, Row, RuleHalf, Tables, TitleHalf, LAST_ENTRY, PAIRS, UNLIMITED};
use crate::tables::{ROW_SIZE, RULE_HALF_SIZE, RULE_TABLE_SIZE, TITLE_HALF_SIZE, TITLE_TABLE_SIZE};

/// How often each operation comes in a history. Deletes come apart, since titles are to be lent and moved before they go.
const OFTEN: [(Operation, usize); 12] = [
    (Operation::Register, 2),
    (Operation::Record, 2),
    (Operation::CheckOut, 5),
    (Operation::CheckIn, 4),
    (Operation::MoveOut, 4),
    (Operation::MoveIn, 4),
    (Operation::Tally, 1),
    (Operation::InspectEntry, 1),
    (Operation::InspectRow, 1),
    (Operation::InspectTitle, 1),
    (Operation::FirstVacant, 1),
    (Operation::Sheet, 1),
];

/// The sheet, with room for any.
const SHEET: Call = Call::Sheet { room: MOST_TEXT as u64 };

/// In one of so many histories the sheet is written after each call. It takes longer than the call.
const SHEETS_IN_ONE_OF: u64 = 4;

/// One of so many calls of a history is made as a request, and one of so many has a preview before it.
const AS_REQUEST_ONE_OF: u64 = 8;
const PREVIEW_ONE_OF: u64 = 150;

/// And so many of the varied tables have a preview.
const PREVIEW_VARIED_ONE_OF: u64 = 8;

/// A list of calls from a freshly formatted ledger and card, and what demand 3 counts in it.
pub fn history(run: &mut Run, round: u64) -> Result<(), String> {
    (run.part, run.round) = ("histories", round);
    let mut random = Random::new(run.seed, run.part, round);
    let rows = inputs::number_of_rows(&mut random);
    let named = if random.chance(10) { all(rows) } else { inputs::named(&mut random, rows) };
    let application = random.number() as u16;
    let other = random.pick(&[application ^ 1, application ^ 256, application.swap_bytes(), 0]);
    let card_application = if random.chance(97) { application } else { other };
    let pair = random.pick(&PAIRS);
    let mut sides = formatted(run, &mut random, pair, rows, [application, card_application])?;
    let mut counts = Counts::default();
    let often: Vec<Operation> = OFTEN.iter().flat_map(|(operation, times)| vec![*operation; *times]).collect();
    let deletes = random.pick(&[0, 1, 3, 8]);
    for number in 1..=random.pick(&[20, 50, 100, 200, 400, 1000]) {
        if random.below(PREVIEW_ONE_OF) == 0 {
            baskets::in_history(run, &mut random, &mut sides, &named, &mut counts)?;
        }
        let mut call = if random.chance(deletes) {
            inputs::likely_call(&mut random, &sides.library, &named, Operation::Delete)
        } else {
            inputs::fitting_call(&mut random, &sides.library, &named, &often)
        };
        if random.chance(3) {
            call = inputs::with_argument_at_limit(&mut random, &call);
        }
        sides.as_requests = number % AS_REQUEST_ONE_OF == 0;
        noted_call(run, &mut sides, &mut counts, &call)?;
        if round % SHEETS_IN_ONE_OF == 0 {
            sides.call(run, &SHEET)?;
        }
        if number % 100 == 0 || random.chance(1) {
            check(run, &mut random, &mut sides, &counts, &named)?;
        }
    }
    check(run, &mut random, &mut sides, &counts, &named)
}

fn noted_call(run: &mut Run, sides: &mut Sides, counts: &mut Counts, call: &Call) -> Result<(), String> {
    let answer = sides.call(run, call)?;
    counts.note(call, answer).map_err(|what| run.found(what))
}

/// Demand 3 on the bytes and, where ledger and card are of one application, on their sheet and by inspection.
fn check(
    run: &mut Run, random: &mut Random, sides: &mut Sides, counts: &Counts, named: &Named,
) -> Result<(), String> {
    let mut titles = Titles::default();
    let of_one_application = sides.call(run, &SHEET)? == 0;
    counts.check(&sides.library, sides.sheet(), &mut titles).map_err(|what| run.found(what))?;
    if of_one_application {
        inspections::of_titles(run, sides, counts, &mut titles)?;
        inspections::of_vacant(run, random, sides, &named.contents)?;
    }
    run.note_titles(sides.pair, titles);
    Ok(())
}

/// One title lent to every entry of the card, and each copy taken back or deleted.
pub fn full_card(run: &mut Run, pair: Pair) -> Result<(), String> {
    (run.part, run.round) = ("full card", pair as u64);
    let mut random = Random::new(run.seed, run.part, run.round);
    let content = random.one_to(5);
    let facts = Facts { permits: UNLIMITED, ..inputs::facts(&mut random) };
    let mut sides = formatted(run, &mut random, pair, 5, [1, 1])?;
    let mut counts = Counts::default();
    let grant = Call::Register { content, facts };
    let lend = (1..=LAST_ENTRY).map(|entry| Call::CheckOut { content, entry });
    let move_in = Call::MoveIn { content, entry: random.one_to(LAST_ENTRY), hash: 0 };
    let looks = [Call::Tally { content }, Call::InspectTitle { content }, Call::FirstVacant { from: 1 }, SHEET];
    for call in [grant].into_iter().chain(lend).chain([move_in]) {
        noted_call(run, &mut sides, &mut counts, &call)?;
        looks.iter().try_for_each(|look| sides.call(run, look).map(|_| ()))?;
    }
    check(run, &mut random, &mut sides, &counts, &all(5))?;
    for entry in 1..=LAST_ENTRY {
        let fillers = [(); 4].map(|()| random.number());
        let delete = Call::Delete { entry, fillers };
        let back = if random.chance(50) { delete } else { Call::CheckIn { entry, f1: fillers[0] } };
        noted_call(run, &mut sides, &mut counts, &back)?;
        looks.iter().try_for_each(|look| sides.call(run, look).map(|_| ()))?;
    }
    check(run, &mut random, &mut sides, &counts, &all(5))
}

/// A move in, in a free entry or a spent one, with the first copy in each entry. Before it are entries that have been copies of the
/// title, or are copies of another; behind it are copies of it.
pub fn every_first_copy(run: &mut Run, pair: Pair) -> Result<(), String> {
    (run.part, run.round) = ("first copies", pair as u64);
    let mut random = Random::new(run.seed, run.part, run.round);
    let facts = Facts { trigger: 0, rights: UNLIMITED, ..inputs::facts(&mut random) };
    let copy = TitleHalf::written(&facts, CONTENT);
    let mut wiped = copy;
    wiped.wipe(random.number());
    let before = [wiped, TitleHalf::written(&facts, CONTENT + 1)];
    let mut tables = inputs::fresh_tables([pair; 2], ROWS, 1, 1);
    tables.put_row(CONTENT, &Row::here(facts));
    let mut sides = Sides::new(pair, &tables);
    for first in 1..=LAST_ENTRY {
        // any entry but the first copy's
        let entry = 1 + (first - 1 + random.one_to(LAST_ENTRY - 1)) % LAST_ENTRY;
        let mut lent = tables.clone();
        if random.chance(50) {
            lent.put_title_half(entry, &wiped);
        }
        for other in (1..=LAST_ENTRY).filter(|other| *other != entry) {
            if other == first || random.chance(10) {
                lent.put_title_half(other, &if other < first { random.pick(&before) } else { copy });
            }
        }
        each_call(run, &mut sides, &lent, &[Call::MoveIn { content: CONTENT, entry, hash: random.number() }])?;
    }
    Ok(())
}

fn all(rows: u64) -> Named {
    Named { contents: (1..=rows).collect(), entries: (1..=999).collect() }
}

/// A ledger and a card formatted over random bytes, each with its application number.
fn formatted(
    run: &mut Run, random: &mut Random, pair: Pair, rows: u64, applications: [u16; 2],
) -> Result<Sides, String> {
    let tables = Tables {
        ledger: random.bytes(ROW_SIZE * (rows as usize + 1)),
        titles: random.bytes(TITLE_TABLE_SIZE),
        rules: random.bytes(RULE_TABLE_SIZE),
    };
    let mut sides = Sides::new(pair, &tables);
    sides.call(run, &Call::FormatLedger { rows, application: applications[0] })?;
    sides.call(run, &Call::FormatCard { application: applications[1] })?;
    Ok(sides)
}

/// A few calls, of either pair, on tables of which anything may be wrong, also that they are of the other pair.
pub fn varied(run: &mut Run, round: u64) -> Result<(), String> {
    (run.part, run.round) = ("varied tables", round);
    let mut random = Random::new(run.seed, run.part, round);
    let pair = random.pick(&PAIRS);
    let (tables, named) = inputs::varied_tables(&mut random, pair);
    let mut sides = Sides::new(pair, &tables);
    if round % PREVIEW_VARIED_ONE_OF == 0 {
        baskets::on_varied(run, &mut random, &mut sides, &named)?;
    }
    for number in 0..25 {
        sides.pair = if random.chance(95) { pair } else { pair.other() };
        sides.as_requests = random.below(AS_REQUEST_ONE_OF) == 0;
        // A sheet of many rows takes long, so there is one. Formatting leaves nothing of what was varied, so it comes last.
        let operation = match number {
            0 => Operation::Sheet,
            1..=22 => random.pick(&OPERATIONS[..Operation::Sheet as usize]).0,
            _ => random.pick(&OPERATIONS[FORMATTING..]).0,
        };
        let mut call = inputs::likely_call(&mut random, &sides.library, &named, operation);
        let at_limits = random.pick(&[0, 0, 0, 0, 0, 0, 0, 0, 1, 2]);
        (0..at_limits).for_each(|_| call = inputs::with_argument_at_limit(&mut random, &call));
        sides.call(run, &call)?;
    }
    Ok(())
}

/// The title of the situations below, in a ledger with rows on both sides of its own.
const CONTENT: u64 = 3;
const ROWS: u64 = 5;

/// Tables in which some calls are done, and those calls, with inspections behind them. One title and one entry are in them; another
/// title was, where the entry is spent.
struct Situation {
    pair: Pair,
    tables: Tables,
    entry: u64,
    calls: Vec<Call>,
}

/// What stands at the entry; nothing stands in a half that is free.
type Halves = (Option<TitleHalf>, Option<RuleHalf>);

fn situation(random: &mut Random, pair: Pair, row: Row, halves: Halves, operations: &[Operation]) -> Situation {
    let (entry, application) = (random.one_to(LAST_ENTRY), random.number() as u16);
    let mut tables = inputs::fresh_tables([pair; 2], ROWS, application, application);
    tables.put_row(CONTENT, &row);
    halves.0.iter().for_each(|half| tables.put_title_half(entry, half));
    halves.1.iter().for_each(|half| tables.put_rule_half(entry, half));
    let named = Named { contents: vec![CONTENT], entries: vec![entry] };
    let operations = operations.iter().chain(&INSPECTIONS);
    let calls = operations.map(|operation| done_call(random, pair, &tables, &named, *operation)).collect();
    Situation { pair, tables, entry, calls }
}

/// A call that is done here, as some of a thousand likely ones surely is.
fn done_call(random: &mut Random, pair: Pair, tables: &Tables, named: &Named, operation: Operation) -> Call {
    let mut call = inputs::likely_call(random, tables, named, operation);
    for _ in 0..1000 {
        if calls::perform(pair, &call, &mut tables.clone(), &mut Results::before(&call, 0)) == 0 {
            break;
        }
        call = inputs::likely_call(random, tables, named, operation);
    }
    call
}

/// What a move out or delete of title 999 leaves. Another low byte makes its ID 1000, or 1023.
fn spent_halves(random: &mut Random) -> Halves {
    let facts = inputs::facts(random);
    let (mut title, mut rule) = (TitleHalf::written(&facts, 999), RuleHalf::written(&facts, 999, random.number()));
    title.wipe(random.number());
    rule.wipe(random.number(), random.number(), random.number());
    (Some(title), Some(rule))
}

/// A title not granted, here, lent, and away, with the calls that are done then. Where the call is to put it in an entry, that one is
/// free or spent.
fn situations(random: &mut Random, pair: Pair) -> Vec<Situation> {
    use Operation::{CheckIn, CheckOut, Delete, MoveIn, MoveOut, Record, Register, Sheet, Tally};
    let (rights, permits) = (random.one_to(15), random.one_to(13));
    let facts = Facts { trigger: 0, rights, permits, ..inputs::facts(random) };
    let here = Row::here(facts);
    let title = Some(TitleHalf::written(&facts, CONTENT));
    let rule = Some(RuleHalf::written(&facts, CONTENT, random.number()));
    let spent = spent_halves(random);
    let mut lent = situation(random, pair, here, (title, None), &[CheckIn, Delete, Tally, Sheet]);
    // With a copy out, a move in to another entry is refused.
    lent.calls.push(Call::MoveIn { content: CONTENT, entry: 1 + lent.entry % LAST_ENTRY, hash: random.number() });
    vec![
        situation(random, pair, Row::empty(), (None, None), &[Register, Record, Tally, Sheet]),
        situation(random, pair, Row::empty(), spent, &[Record, Sheet]),
        situation(random, pair, here, (None, None), &[CheckOut, MoveIn, Tally, Sheet]),
        situation(random, pair, here, spent, &[CheckOut, MoveIn, Sheet]),
        lent,
        situation(random, pair, Row::away(), (title, rule), &[MoveOut, Delete, Tally, Sheet]),
    ]
}

/// Makes each call on the tables as they are here.
fn each_call(run: &mut Run, sides: &mut Sides, tables: &Tables, calls: &[Call]) -> Result<(), String> {
    let mut changed = true;
    for call in calls {
        if changed {
            sides.set(tables);
        }
        changed = sides.call(run, call)? == 0 && !call.only_reads();
    }
    Ok(())
}

/// Every value of every byte of the heads, of a row and of an entry's two halves, and wrong lengths, one at a time.
pub fn every_byte(run: &mut Run, pair: Pair) -> Result<(), String> {
    (run.part, run.round) = ("every byte", pair as u64);
    let mut random = Random::new(run.seed, run.part, run.round);
    for situation in situations(&mut random, pair) {
        let Situation { pair, mut tables, entry, calls } = situation;
        let mut sides = Sides::new(pair, &tables);
        for (number, size, place) in [(0, ROW_SIZE, CONTENT), (1, TITLE_HALF_SIZE, entry), (2, RULE_HALF_SIZE, entry)] {
            let part = size * place as usize;
            for byte in (0..size).chain(part..part + size) {
                let before = tables.buffer(number)[byte];
                for value in 0..=255 {
                    tables.buffer(number)[byte] = value;
                    each_call(run, &mut sides, &tables, &calls)?;
                }
                tables.buffer(number)[byte] = before;
            }
            for length in inputs::wrong_lengths(tables.buffer(number).len()) {
                let mut resized = tables.clone();
                resized.buffer(number).resize(length, 0);
                each_call(run, &mut sides, &resized, &calls)?;
            }
        }
    }
    Ok(())
}

/// Each argument of calls that would be done, at and past each limit. In every other round for a pair they are requests in
/// numbers, which are previewed too.
pub fn arguments_at_limits(run: &mut Run, round: u64) -> Result<(), String> {
    (run.part, run.round) = ("arguments at limits", round);
    let mut random = Random::new(run.seed, run.part, round);
    let pair = PAIRS[round as usize % 2];
    for situation in situations(&mut random, pair) {
        let mut sides = Sides::new(situation.pair, &situation.tables);
        sides.as_requests = round / 2 % 2 == 1;
        for call in &situation.calls {
            let arguments = call.arguments();
            for place in 0..arguments.len() {
                let cut_off = CUT_OFF.iter().map(|more| arguments[place].wrapping_add(*more));
                let changed = LIMITS.iter().copied().chain(cut_off).map(|value| {
                    let mut arguments = arguments.clone();
                    arguments[place] = value;
                    call.with(&arguments)
                });
                let changed: Vec<Call> = changed.collect();
                each_call(run, &mut sides, &situation.tables, &changed)?;
                sides.set(&situation.tables);
                if sides.as_requests {
                    baskets::of_calls(run, &mut random, &sides, &changed)?;
                }
            }
        }
    }
    Ok(())
}

/// Numbers of rows, and such for which 24 × (R + 1) in 64 bits is the size of a small ledger or 0.
fn rows_to_format(random: &mut Random) -> Vec<u64> {
    let overflowing = (1..=8).map(|k: u64| (k << 61).wrapping_add(random.below(1000)).wrapping_sub(1));
    let mut rows: Vec<u64> = overflowing.chain((1..=8).map(|k: u64| (k << 61).wrapping_sub(1))).collect();
    rows.extend(LIMITS);
    rows.extend((0..20).map(|_| random.one_to(999)));
    rows
}

/// Both formattings onto random bytes, with lengths at and beside the right ones.
pub fn formats(run: &mut Run, round: u64) -> Result<(), String> {
    (run.part, run.round) = ("formatting", round);
    let mut random = Random::new(run.seed, run.part, round);
    let pair = PAIRS[round as usize % 2];
    for rows in rows_to_format(&mut random) {
        let right = rows.wrapping_add(1).wrapping_mul(24).min(48_000) as usize;
        for length in [vec![right, 24_000, 24_024], inputs::wrong_lengths(right)].concat() {
            let application = application(&mut random);
            let tables = Tables { ledger: random.bytes(length), titles: random.bytes(32), rules: random.bytes(32) };
            Sides::new(pair, &tables).call(run, &Call::FormatLedger { rows, application })?;
        }
    }
    let titles = [vec![TITLE_TABLE_SIZE; 20], inputs::wrong_lengths(TITLE_TABLE_SIZE)].concat();
    let rules = [vec![RULE_TABLE_SIZE; 20], inputs::wrong_lengths(RULE_TABLE_SIZE)].concat();
    for titles in titles {
        let rules = random.pick(&rules);
        for rules in [rules, RULE_TABLE_SIZE] {
            let tables = Tables { ledger: random.bytes(48), titles: random.bytes(titles), rules: random.bytes(rules) };
            let application = application(&mut random);
            Sides::new(pair, &tables).call(run, &Call::FormatCard { application })?;
        }
    }
    Ok(())
}

fn application(random: &mut Random) -> u16 {
    let any = random.number() as u16;
    random.pick(&[0, 1, 255, 256, 0x7fff, 0x8000, 0xffff, any])
}
