//! The fifteen operations that a call names, by document 01 and requests W1 to W5 and W7 of document 02, and by what music_counter.h
//! says of inspection, on tables of either pair: each tests its conditions in their order, and changes the tables, or what it writes
//! beside them, only when none of them refuses. What carries such calls out as requests, and previews them, is in `preview`.

use crate::sheet::{self, MOST_TEXT};
use crate::tables::{CardHead, Entry, EntryKind, Facts, LedgerHead, Pair, Row, RowState, RuleHalf, Tables, TitleHalf};
use crate::tables::{KEY_LIMIT, LAST_ENTRY, MOST_ROWS, ROW_SIZE, RULE_TABLE_SIZE, TITLE_TABLE_SIZE, UNLIMITED, VACANT};

#[derive(Clone, Copy, Debug, PartialEq)]
pub enum Call {
    Register { content: u64, facts: Facts },
    Record { content: u64, entry: u64, facts: Facts, hash: u64 },
    CheckOut { content: u64, entry: u64 },
    CheckIn { entry: u64, f1: u64 },
    MoveOut { entry: u64, hash: u64, fillers: [u64; 4] },
    MoveIn { content: u64, entry: u64, hash: u64 },
    Delete { entry: u64, fillers: [u64; 4] },
    Tally { content: u64 },
    InspectEntry { entry: u64 },
    InspectRow { content: u64 },
    InspectTitle { content: u64 },
    FirstVacant { from: u64 },
    /// The sheet, into the first `room` bytes of a text.
    Sheet { room: u64 },
    FormatLedger { rows: u64, application: u16 },
    FormatCard { application: u16 },
}

#[derive(Clone, Copy, Debug, PartialEq)]
pub enum Operation {
    Register,
    Record,
    CheckOut,
    CheckIn,
    MoveOut,
    MoveIn,
    Delete,
    Tally,
    InspectEntry,
    InspectRow,
    InspectTitle,
    FirstVacant,
    Sheet,
    FormatLedger,
    FormatCard,
}

/// The operations in their order, their names, and the answers that the paper allows them. The first seven are the kinds of
/// requests, 1 to 7. The last two, from `FORMATTING` on, look at no bytes.
pub const OPERATIONS: [(Operation, &str, &[u64]); 15] = [
    (Operation::Register, "register", &[0, 4, 6, 7, 11]),
    (Operation::Record, "record", &[0, 4, 5, 6, 7, 8, 9, 10, 11]),
    (Operation::CheckOut, "check-out", &[0, 4, 5, 7, 8, 9, 10, 11, 12]),
    (Operation::CheckIn, "check-in", &[0, 5, 7, 8, 9, 10, 11, 15, 16]),
    (Operation::MoveOut, "move out", &[0, 5, 7, 8, 9, 10, 11, 12, 13, 16]),
    (Operation::MoveIn, "move in", &[0, 4, 5, 7, 8, 9, 10, 11, 12, 14]),
    (Operation::Delete, "delete", &[0, 5, 7, 8, 9, 10, 11, 16]),
    (Operation::Tally, "tally", &[0, 4, 8, 9]),
    (Operation::InspectEntry, "inspect entry", &[0, 5, 8, 9]),
    (Operation::InspectRow, "inspect row", &[0, 4, 7, 11]),
    (Operation::InspectTitle, "inspect title", &[0, 4, 7, 8, 9, 11]),
    (Operation::FirstVacant, "first vacant", &[0, 5, 8, 9]),
    (Operation::Sheet, "sheet", &[0, 1, 7, 8, 9]),
    (Operation::FormatLedger, "format ledger", &[0, 4, 7]),
    (Operation::FormatCard, "format card", &[0, 8, 9]),
];
pub const KINDS: usize = Operation::Delete as usize + 1;
pub const INSPECTIONS: [Operation; 4] =
    [Operation::InspectEntry, Operation::InspectRow, Operation::InspectTitle, Operation::FirstVacant];
pub const FORMATTING: usize = Operation::FormatLedger as usize;

impl Call {
    pub fn operation(&self) -> Operation {
        match self {
            Call::Register { .. } => Operation::Register,
            Call::Record { .. } => Operation::Record,
            Call::CheckOut { .. } => Operation::CheckOut,
            Call::CheckIn { .. } => Operation::CheckIn,
            Call::MoveOut { .. } => Operation::MoveOut,
            Call::MoveIn { .. } => Operation::MoveIn,
            Call::Delete { .. } => Operation::Delete,
            Call::Tally { .. } => Operation::Tally,
            Call::InspectEntry { .. } => Operation::InspectEntry,
            Call::InspectRow { .. } => Operation::InspectRow,
            Call::InspectTitle { .. } => Operation::InspectTitle,
            Call::FirstVacant { .. } => Operation::FirstVacant,
            Call::Sheet { .. } => Operation::Sheet,
            Call::FormatLedger { .. } => Operation::FormatLedger,
            Call::FormatCard { .. } => Operation::FormatCard,
        }
    }

    /// Whether it changes no table, whatever it answers.
    pub fn only_reads(&self) -> bool {
        (Operation::Tally as usize..FORMATTING).contains(&(self.operation() as usize))
    }

    /// The arguments in the paper's order.
    pub fn arguments(&self) -> Vec<u64> {
        match self {
            Call::Register { content, facts } => [&[*content], &facts.listed()[..]].concat(),
            Call::Record { content, entry, facts, hash } => [&[*content, *entry], &facts.listed()[..], &[*hash]].concat(),
            Call::CheckOut { content, entry } => vec![*content, *entry],
            Call::CheckIn { entry, f1 } => vec![*entry, *f1],
            Call::MoveOut { entry, hash, fillers } => [&[*entry, *hash], &fillers[..]].concat(),
            Call::MoveIn { content, entry, hash } => vec![*content, *entry, *hash],
            Call::Delete { entry, fillers } => [&[*entry], &fillers[..]].concat(),
            Call::Tally { content } | Call::InspectRow { content } | Call::InspectTitle { content } => vec![*content],
            Call::InspectEntry { entry } => vec![*entry],
            Call::FirstVacant { from } => vec![*from],
            Call::Sheet { room } => vec![*room],
            Call::FormatLedger { rows, application } => vec![*rows, u64::from(*application)],
            Call::FormatCard { application } => vec![u64::from(*application)],
        }
    }

    /// A call of this operation with these arguments, of which there are as many as `arguments` lists.
    pub fn new(operation: Operation, a: &[u64]) -> Call {
        let facts =
            |a: &[u64]| Facts { cci: a[0], trigger: a[1], rights: a[2], permits: a[3], title_key: a[4], sti_key: a[5] };
        let fillers = |a: &[u64]| [a[0], a[1], a[2], a[3]];
        match operation {
            Operation::Register => Call::Register { content: a[0], facts: facts(&a[1..]) },
            Operation::Record => Call::Record { content: a[0], entry: a[1], facts: facts(&a[2..]), hash: a[8] },
            Operation::CheckOut => Call::CheckOut { content: a[0], entry: a[1] },
            Operation::CheckIn => Call::CheckIn { entry: a[0], f1: a[1] },
            Operation::MoveOut => Call::MoveOut { entry: a[0], hash: a[1], fillers: fillers(&a[2..]) },
            Operation::MoveIn => Call::MoveIn { content: a[0], entry: a[1], hash: a[2] },
            Operation::Delete => Call::Delete { entry: a[0], fillers: fillers(&a[1..]) },
            Operation::Tally => Call::Tally { content: a[0] },
            Operation::InspectEntry => Call::InspectEntry { entry: a[0] },
            Operation::InspectRow => Call::InspectRow { content: a[0] },
            Operation::InspectTitle => Call::InspectTitle { content: a[0] },
            Operation::FirstVacant => Call::FirstVacant { from: a[0] },
            Operation::Sheet => Call::Sheet { room: a[0] },
            Operation::FormatLedger => Call::FormatLedger { rows: a[0], application: a[1] as u16 },
            Operation::FormatCard => Call::FormatCard { application: a[0] as u16 },
        }
    }

    /// The same operation with other arguments.
    pub fn with(&self, arguments: &[u64]) -> Call {
        Call::new(self.operation(), arguments)
    }
}

/// Whether the fillers of this call would leave the STI key, and not the title key, of the full entry that it is to wipe.
pub fn leaves_sti_key_alone(call: &Call, tables: &Tables) -> bool {
    match *call {
        Call::MoveOut { entry, fillers, .. } | Call::Delete { entry, fillers } => {
            let full = tables.entry(entry).filter(|found| found.kind() == EntryKind::Full);
            full.is_some_and(|found| {
                fillers[1] % KEY_LIMIT == found.rule.sti_key && fillers[0] % KEY_LIMIT != found.title.title_key
            })
        }
        _ => false,
    }
}

/// The entry in which the call is to put a title, as it is before.
pub fn entry_to_fill(call: &Call, tables: &Tables) -> Option<Entry> {
    match *call {
        Call::Record { entry, .. } | Call::CheckOut { entry, .. } | Call::MoveIn { entry, .. } => tables.entry(entry),
        _ => None,
    }
}

/// What is written beside the tables: numbers, and by a sheet its text and how many bytes of it are used.
#[derive(Clone, Debug, PartialEq)]
pub struct Results {
    pub numbers: Numbers,
    pub text: Vec<u8>,
    pub used: usize,
}

/// By a move in how many entries it read; by a tally the copies; and what an inspection tells of an entry, a row or a title, or which
/// entry is the first vacant one. In memory they stand in this order, so that a number written beside its place is found in another.
#[derive(Clone, Copy, Debug, PartialEq)]
#[repr(C)]
pub struct Numbers {
    pub entries_read: u64,
    pub copies: u64,
    pub holders: u64,
    pub kind: u64,
    pub content: u64,
    pub state: u64,
    pub facts: [u64; 6],
    pub vacant: u64,
}

impl Numbers {
    /// All of them one number.
    pub fn all(number: u64) -> Self {
        Numbers {
            entries_read: number,
            copies: number,
            holders: number,
            kind: number,
            content: number,
            state: number,
            facts: [number; 6],
            vacant: number,
        }
    }
}

impl Results {
    /// Before a call: values that no call writes, others for each number, so that it shows what the call leaves as it was.
    /// Only a sheet has a text, which goes on behind every room.
    pub fn before(call: &Call, number: u64) -> Self {
        let length = if matches!(call, Call::Sheet { .. }) { MOST_TEXT + 64 } else { 0 };
        Results {
            numbers: Numbers::all(u64::MAX - number),
            text: vec![number as u8; length],
            used: usize::MAX - number as usize,
        }
    }

    /// The bytes that are lent to a sheet.
    pub fn room(&mut self, room: u64) -> &mut [u8] {
        &mut self.text[..MOST_TEXT.min(room as usize)]
    }
}

/// A refusal by its number.
type Tested<T> = Result<T, u64>;

fn refuse_unless(condition: bool, number: u64) -> Tested<()> {
    if condition { Ok(()) } else { Err(number) }
}

/// Carries the call of this pair out on the tables and answers its number. A tally, inspection or sheet that is done also writes its
/// results, and a move in whether it is done or not.
pub fn perform(pair: Pair, call: &Call, tables: &mut Tables, results: &mut Results) -> u64 {
    let numbers = &mut results.numbers;
    let tested = match *call {
        Call::Register { content, facts } => register(tables, content, facts),
        Call::Record { content, entry, facts, hash } => record(pair, tables, content, entry, facts, hash),
        Call::CheckOut { content, entry } => check_out(pair, tables, content, entry),
        Call::CheckIn { entry, f1 } => check_in(pair, tables, entry, f1),
        Call::MoveOut { entry, hash, fillers } => move_out(pair, tables, entry, hash, fillers),
        Call::MoveIn { content, entry, hash } => move_in(pair, tables, content, entry, hash, &mut numbers.entries_read),
        Call::Delete { entry, fillers } => delete(pair, tables, entry, fillers),
        Call::Tally { content } => tally(pair, tables, content).map(|copies| numbers.copies = copies),
        Call::InspectEntry { entry } => inspect_entry(pair, tables, entry, numbers),
        Call::InspectRow { content } => inspect_row(tables, content, numbers),
        Call::InspectTitle { content } => inspect_title(pair, tables, content, numbers),
        Call::FirstVacant { from } => first_vacant(pair, tables, from).map(|entry| numbers.vacant = entry),
        Call::Sheet { room } => sheet(pair, tables, results.room(room)).map(|used| results.used = used),
        Call::FormatLedger { rows, application } => format_ledger(tables, rows, application),
        Call::FormatCard { application } => format_card(pair, tables, application),
    };
    tested.err().unwrap_or(0)
}

fn test_content(content: u64) -> Tested<()> {
    refuse_unless((1..=999).contains(&content), 4)
}

fn test_entry(entry: u64) -> Tested<()> {
    refuse_unless((1..=LAST_ENTRY).contains(&entry), 5)
}

fn test_facts(facts: &Facts) -> Tested<()> {
    refuse_unless(facts.in_range(), 6)
}

fn test_ledger(tables: &Tables) -> Tested<LedgerHead> {
    tables.ledger_head().ok_or(7)
}

fn test_titles(pair: Pair, tables: &Tables) -> Tested<CardHead> {
    tables.title_head(pair).ok_or(8)
}

fn test_rules(pair: Pair, tables: &Tables) -> Tested<CardHead> {
    tables.rule_head(pair).ok_or(9)
}

/// 8 and 9 of a call that takes a card and no ledger, so that the application number is not asked.
fn test_card(pair: Pair, tables: &Tables) -> Tested<()> {
    test_titles(pair, tables)?;
    test_rules(pair, tables).map(|_| ())
}

/// 7, 8 and 9 of a call that takes ledger and card.
fn test_tables(pair: Pair, tables: &Tables) -> Tested<()> {
    let ledger = test_ledger(tables)?;
    test_titles(pair, tables)?;
    let rules = test_rules(pair, tables)?;
    refuse_unless(rules.application == ledger.application, 9)
}

fn entry_of_kind(tables: &Tables, entry: u64, kinds: &[EntryKind]) -> Tested<Entry> {
    tables.entry(entry).filter(|found| kinds.contains(&found.kind())).ok_or(10)
}

/// A row above R is in no state, since the ledger ends before it.
fn row_in_state(tables: &Tables, content: u64, state: RowState) -> Tested<Row> {
    tables.row(content).filter(|row| row.state() == state).ok_or(11)
}

fn test_move(facts: &Facts) -> Tested<()> {
    refuse_unless(facts.trigger == 0 && facts.rights != 0, 12)
}

fn one_less(count: u64) -> u64 {
    if count == UNLIMITED { UNLIMITED } else { count - 1 }
}

fn one_more(count: u64) -> u64 {
    if count == UNLIMITED { UNLIMITED } else { count + 1 }
}

/// The CCI that a copy of a title of this CCI has: "CCI 3 where the row has 2; 0 and 3 pass through".
fn copy_cci(cci: u64) -> u64 {
    if cci == 2 { 3 } else { cci }
}

/// What a title's facts are after a move.
fn moved(facts: Facts) -> Facts {
    Facts { rights: one_less(facts.rights), ..facts }
}

fn put_full(tables: &mut Tables, content: u64, entry: u64, facts: &Facts, hash: u64) {
    tables.put_title_half(entry, &TitleHalf::written(facts, content));
    tables.put_rule_half(entry, &RuleHalf::written(facts, content, hash));
}

fn wipe_title_half(tables: &mut Tables, entry: u64, found: Entry, f1: u64) {
    let mut title = found.title;
    title.wipe(f1);
    tables.put_title_half(entry, &title);
}

fn wipe_both_halves(tables: &mut Tables, entry: u64, found: Entry, fillers: [u64; 4]) {
    wipe_title_half(tables, entry, found, fillers[0]);
    let mut rule = found.rule;
    rule.wipe(fillers[1], fillers[2], fillers[3]);
    tables.put_rule_half(entry, &rule);
}

fn test_title_filler(found: &Entry, f1: u64) -> Tested<()> {
    refuse_unless(f1 % KEY_LIMIT != found.title.title_key, 16)
}

/// "In picture calls condition 16 looks at f1 only."
fn test_fillers_of_full(pair: Pair, found: &Entry, fillers: [u64; 4]) -> Tested<()> {
    test_title_filler(found, fillers[0])?;
    refuse_unless(pair == Pair::Picture || fillers[1] % KEY_LIMIT != found.rule.sti_key, 16)
}

fn register(tables: &mut Tables, content: u64, facts: Facts) -> Tested<()> {
    test_content(content)?;
    test_facts(&facts)?;
    test_ledger(tables)?;
    row_in_state(tables, content, RowState::Empty)?;
    tables.put_row(content, &Row::here(facts));
    Ok(())
}

fn record(pair: Pair, tables: &mut Tables, content: u64, entry: u64, facts: Facts, hash: u64) -> Tested<()> {
    test_content(content)?;
    test_entry(entry)?;
    test_facts(&facts)?;
    test_tables(pair, tables)?;
    entry_of_kind(tables, entry, &VACANT)?;
    row_in_state(tables, content, RowState::Empty)?;
    put_full(tables, content, entry, &facts, hash);
    tables.put_row(content, &Row::away());
    Ok(())
}

fn check_out(pair: Pair, tables: &mut Tables, content: u64, entry: u64) -> Tested<()> {
    test_content(content)?;
    test_entry(entry)?;
    test_tables(pair, tables)?;
    entry_of_kind(tables, entry, &VACANT)?;
    let mut row = row_in_state(tables, content, RowState::Here)?;
    refuse_unless(row.facts.permits != 0, 12)?;
    let lent = Facts { cci: copy_cci(row.facts.cci), ..row.facts };
    tables.put_title_half(entry, &TitleHalf::written(&lent, content));
    row.facts.permits = one_less(row.facts.permits);
    tables.put_row(content, &row);
    Ok(())
}

fn check_in(pair: Pair, tables: &mut Tables, entry: u64, f1: u64) -> Tested<()> {
    test_entry(entry)?;
    test_tables(pair, tables)?;
    let found = entry_of_kind(tables, entry, &[EntryKind::Copy])?;
    let mut row = row_in_state(tables, found.content_id(), RowState::Here)?;
    refuse_unless(row.facts.permits != 14, 15)?;
    test_title_filler(&found, f1)?;
    wipe_title_half(tables, entry, found, f1);
    row.facts.permits = one_more(row.facts.permits);
    tables.put_row(found.content_id(), &row);
    Ok(())
}

fn move_out(pair: Pair, tables: &mut Tables, entry: u64, hash: u64, fillers: [u64; 4]) -> Tested<()> {
    test_entry(entry)?;
    test_tables(pair, tables)?;
    let found = entry_of_kind(tables, entry, &[EntryKind::Full])?;
    row_in_state(tables, found.content_id(), RowState::Away)?;
    test_move(&found.facts())?;
    refuse_unless(hash == found.rule.hash, 13)?;
    test_fillers_of_full(pair, &found, fillers)?;
    tables.put_row(found.content_id(), &Row::here(moved(found.facts())));
    wipe_both_halves(tables, entry, found, fillers);
    Ok(())
}

/// "If an earlier check refuses, the report is 0."
fn move_in(
    pair: Pair, tables: &mut Tables, content: u64, entry: u64, hash: u64, entries_read: &mut u64,
) -> Tested<()> {
    *entries_read = 0;
    test_content(content)?;
    test_entry(entry)?;
    test_tables(pair, tables)?;
    entry_of_kind(tables, entry, &VACANT)?;
    let row = row_in_state(tables, content, RowState::Here)?;
    test_move(&row.facts)?;
    let copy = tables.first_copy(content);
    *entries_read = copy.unwrap_or(LAST_ENTRY);
    refuse_unless(copy.is_none(), 14)?;
    put_full(tables, content, entry, &moved(row.facts), hash);
    tables.put_row(content, &Row::away());
    Ok(())
}

fn delete(pair: Pair, tables: &mut Tables, entry: u64, fillers: [u64; 4]) -> Tested<()> {
    test_entry(entry)?;
    test_tables(pair, tables)?;
    let found = entry_of_kind(tables, entry, &[EntryKind::Copy, EntryKind::Full])?;
    if found.kind() == EntryKind::Copy {
        test_title_filler(&found, fillers[0])?;
        wipe_title_half(tables, entry, found, fillers[0]);
        return Ok(());
    }
    row_in_state(tables, found.content_id(), RowState::Away)?;
    test_fillers_of_full(pair, &found, fillers)?;
    wipe_both_halves(tables, entry, found, fillers);
    tables.put_row(found.content_id(), &Row::gone());
    Ok(())
}

fn tally(pair: Pair, tables: &Tables, content: u64) -> Tested<u64> {
    test_content(content)?;
    test_card(pair, tables)?;
    Ok(tables.copies(content))
}

/// Of a copy its own two facts: the others are its row's, and its rule half, which is not usable, says nothing.
fn inspect_entry(pair: Pair, tables: &Tables, entry: u64, numbers: &mut Numbers) -> Tested<()> {
    use EntryKind::{Copy, Free, Full, Spent, Torn};
    test_entry(entry)?;
    test_card(pair, tables)?;
    let found = tables.entry(entry).ok_or(5u64)?;
    let facts = match found.kind() {
        Full => found.facts(),
        Copy => Facts { cci: found.title.cci, title_key: found.title.title_key, ..Facts::NONE },
        Free | Torn | Spent => Facts::NONE,
    };
    numbers.kind = found.kind() as u64;
    numbers.content = if matches!(found.kind(), Copy | Full | Spent) { found.content_id() } else { 0 };
    numbers.facts = facts.listed();
    Ok(())
}

fn inspect_row(tables: &Tables, content: u64, numbers: &mut Numbers) -> Tested<()> {
    test_content(content)?;
    test_ledger(tables)?;
    let row = tables.row(content).ok_or(11u64)?;
    numbers.state = row.state() as u64;
    numbers.facts = if row.state() == RowState::Here { row.facts.listed() } else { [0; 6] };
    Ok(())
}

fn inspect_title(pair: Pair, tables: &Tables, content: u64, numbers: &mut Numbers) -> Tested<()> {
    test_content(content)?;
    test_tables(pair, tables)?;
    tables.row(content).ok_or(11u64)?;
    (numbers.holders, numbers.copies) = (tables.holders(content), tables.copies(content));
    Ok(())
}

/// "0 where there is none from there on"
fn first_vacant(pair: Pair, tables: &Tables, from: u64) -> Tested<u64> {
    test_entry(from)?;
    test_card(pair, tables)?;
    Ok(tables.first_vacant(from).unwrap_or(0))
}

fn sheet(pair: Pair, tables: &Tables, text: &mut [u8]) -> Tested<usize> {
    test_tables(pair, tables)?;
    let sheet = sheet::text(tables);
    text.get_mut(..sheet.len()).ok_or(1u64)?.copy_from_slice(sheet.as_bytes());
    Ok(sheet.len())
}

fn format_ledger(tables: &mut Tables, rows: u64, application: u16) -> Tested<()> {
    refuse_unless((1..=MOST_ROWS).contains(&rows), 4)?;
    refuse_unless(tables.ledger.len() as u64 == 24 * (rows + 1), 7)?;
    LedgerHead::fresh(rows, application).write(&mut tables.ledger[..ROW_SIZE]);
    (1..=rows).for_each(|content| tables.put_row(content, &Row::empty()));
    Ok(())
}

fn format_card(pair: Pair, tables: &mut Tables, application: u16) -> Tested<()> {
    refuse_unless(tables.titles.len() == TITLE_TABLE_SIZE, 8)?;
    refuse_unless(tables.rules.len() == RULE_TABLE_SIZE, 9)?;
    tables.titles.fill(0);
    tables.rules.fill(0);
    CardHead::fresh_titles(pair).write(&mut tables.titles[..16]);
    CardHead::fresh_rules(pair, application).write(&mut tables.rules[..32]);
    Ok(())
}
