//! What demand 3 counts: numbers of calls that were done, from the list of calls and answers alone, against holders and
//! copies in the bytes, each with its CCI, and against the lines of the closing sheet. And what the list says of each entry, which may
//! be spent.

use std::collections::HashMap;
use std::fmt::Debug;

use crate::calls::Call;
use crate::sheet::{self, Line, Sheet, Totals};
use crate::tables::{EntryKind, Facts, RowState, Tables, LAST_ENTRY, UNLIMITED};

/// What the last done call at an entry was: of which title it put a copy or the holder there, or took what was there.
#[derive(Clone, Copy)]
enum LastDone {
    Copy(u64),
    Holder(u64),
    Taken(u64),
}

/// A title's done calls.
#[derive(Default)]
struct Title {
    grants: u64,
    granted: Option<Facts>,
    check_outs: u64,
    check_ins: u64,
    moves: u64,
    copies_deleted: u64,
    holders_deleted: u64,
}

#[derive(Default)]
pub struct Counts {
    titles: HashMap<u64, Title>,
    last_done: HashMap<u64, LastDone>,
}

/// How many granted titles were tested: those that must have a holder, and those whose holder was deleted. How many copies were held
/// to their title's CCI, by that CCI. How many lines of sheets were held to a grant of at most 14 permits, and of these how many
/// after copies of the title were deleted. How many entries were spent. And how many titles were inspected: those deleted, those with a
/// holder and no copy, and those with copies.
#[derive(Clone, Copy, Default)]
pub struct Titles {
    pub with_holder: u64,
    pub deleted: u64,
    pub copies: [u64; 4],
    pub lines: u64,
    pub lines_after_deletes: u64,
    pub spent: u64,
    pub inspected: [u64; 3],
}

impl Titles {
    pub fn add(&mut self, more: Titles) {
        self.with_holder += more.with_holder;
        self.deleted += more.deleted;
        self.copies.iter_mut().zip(more.copies).for_each(|(sum, copies)| *sum += copies);
        self.lines += more.lines;
        self.lines_after_deletes += more.lines_after_deletes;
        self.spent += more.spent;
        self.inspected.iter_mut().zip(more.inspected).for_each(|(sum, titles)| *sum += titles);
    }
}

/// What the bytes say of a title.
struct Standing {
    holders: Vec<Facts>,
    /// The CCI of each copy.
    copies: Vec<u64>,
}

impl Counts {
    /// Takes the next call of the list and its answer.
    pub fn note(&mut self, call: &Call, answer: u64) -> Result<(), String> {
        if answer != 0 {
            return Ok(());
        }
        match *call {
            Call::Register { content, facts } => self.grant(content, facts),
            Call::Record { content, entry, facts, .. } => {
                self.grant(content, facts);
                self.last_done.insert(entry, LastDone::Holder(content));
            }
            Call::CheckOut { content, entry } => {
                self.title(content).check_outs += 1;
                self.last_done.insert(entry, LastDone::Copy(content));
            }
            Call::MoveIn { content, entry, .. } => {
                self.title(content).moves += 1;
                self.last_done.insert(entry, LastDone::Holder(content));
            }
            Call::CheckIn { entry, .. } => self.title_taken_from(entry)?.check_ins += 1,
            Call::MoveOut { entry, .. } => self.title_taken_from(entry)?.moves += 1,
            Call::Delete { entry, .. } => match self.last_done.get(&entry) {
                Some(LastDone::Copy(_)) => self.title_taken_from(entry)?.copies_deleted += 1,
                _ => self.title_taken_from(entry)?.holders_deleted += 1,
            },
            Call::Tally { .. } | Call::InspectEntry { .. } | Call::InspectRow { .. } | Call::InspectTitle { .. } => (),
            Call::FirstVacant { .. } | Call::Sheet { .. } | Call::FormatLedger { .. } | Call::FormatCard { .. } => (),
        }
        Ok(())
    }

    fn title(&mut self, content: u64) -> &mut Title {
        self.titles.entry(content).or_default()
    }

    fn grant(&mut self, content: u64, facts: Facts) {
        let title = self.title(content);
        title.grants += 1;
        title.granted = Some(facts);
    }

    /// The title of which a check-in, move out or delete took what was put at this entry.
    fn title_taken_from(&mut self, entry: u64) -> Result<&mut Title, String> {
        match self.last_done.get(&entry).copied() {
            Some(LastDone::Copy(content) | LastDone::Holder(content)) => {
                self.last_done.insert(entry, LastDone::Taken(content));
                Ok(self.title(content))
            }
            Some(LastDone::Taken(_)) | None => {
                Err(format!("demand 3: a call at entry {entry} was done, where nothing was put"))
            }
        }
    }

    /// Demand 3, and what was put and taken, on the bytes as they stand after the calls noted, and on their sheet where there is one.
    pub fn check(&self, tables: &Tables, sheet: Option<&str>, tested: &mut Titles) -> Result<(), String> {
        let (not_granted, standings) = (Title::default(), standings(tables));
        for (content, standing) in standings.iter().enumerate().skip(1) {
            let title = self.titles.get(&(content as u64)).unwrap_or(&not_granted);
            title.check(standing, tested).map_err(|what| format!("demand 3, title {content}: {what}"))?;
        }
        let deleted = self.titles.values().filter(|title| title.holders_deleted > 0).count() as u64;
        tested.deleted += deleted;
        tested.with_holder += self.titles.len() as u64 - deleted;
        let spent = self.check_entries(tables)?;
        tested.spent += spent;
        sheet.map_or(Ok(()), |text| self.check_sheet(&standings, spent, text, tested))
    }

    /// How many holders and how many copies each title granted has, by the calls and their answers alone; the lowest title first.
    pub fn holders_and_copies(&self) -> Vec<(u64, [u64; 2])> {
        let mut all: Vec<_> = self.titles.iter().map(|(content, title)| (*content, title.holders_and_copies())).collect();
        all.sort();
        all
    }

    /// "Customers want to see which entry once had which loan": every entry has the kind and content ID that the list of calls says
    /// it has. Answers how many are spent.
    fn check_entries(&self, tables: &Tables) -> Result<u64, String> {
        let mut spent = 0;
        for entry in 1..=LAST_ENTRY {
            let found = tables.entry(entry).ok_or("a card has 999 entries")?;
            let expected = match self.last_done.get(&entry) {
                None => (EntryKind::Free, 0),
                Some(LastDone::Copy(content)) => (EntryKind::Copy, *content),
                Some(LastDone::Holder(content)) => (EntryKind::Full, *content),
                Some(LastDone::Taken(content)) => (EntryKind::Spent, *content),
            };
            equal("kind and content ID", (found.kind(), found.content_id()), expected)
                .map_err(|what| format!("entry {entry}: {what}"))?;
            spent += u64::from(found.kind() == EntryKind::Spent);
        }
        Ok(spent)
    }

    /// What a manager can tell from the sheet: it has a line for each title granted and no other, each agrees with the calls, and
    /// "the sums must equal the records".
    fn check_sheet(&self, standings: &[Standing], spent: u64, text: &str, tested: &mut Titles) -> Result<(), String> {
        let Sheet { lines, totals, spent: on_sheet } = sheet::read(text).ok_or("not a sheet")?;
        equal("lines of the sheet", lines.len(), self.titles.len())?;
        for line in &lines {
            let title = self.titles.get(&line.row).ok_or("a line of a title not granted")?;
            equal("copies on the sheet", line.copies, standings[line.row as usize].copies.len() as u64)?;
            title.check_line(line, tested).map_err(|what| format!("{line:?} of the sheet: {what}"))?;
        }
        let permits = standings.iter().flat_map(|standing| &standing.holders).map(|facts| facts.permits);
        let permits = permits.filter(|permits| *permits != UNLIMITED).sum();
        let copies = standings.iter().map(|standing| standing.copies.len() as u64).sum();
        equal("totals of the sheet", totals, Totals { permits, copies })?;
        let taken = self.last_done.values().filter(|last| matches!(last, LastDone::Taken(_))).count() as u64;
        equal("spent entries on the sheet, by the bytes", on_sheet, spent)?;
        equal("spent entries on the sheet, by the calls", on_sheet, taken)
    }
}

impl Title {
    fn check(&self, standing: &Standing, tested: &mut Titles) -> Result<(), String> {
        let copies = standing.copies.len() as u64;
        let Some(granted) = self.granted else {
            let calls = self.check_outs + self.check_ins + self.moves + self.copies_deleted + self.holders_deleted;
            equal("done calls of a title not granted", calls, 0)?;
            equal("holders of a title not granted", standing.holders.len(), 0)?;
            return equal("copies of a title not granted", copies, 0);
        };
        equal("grants", self.grants, 1)?;
        if self.holders_deleted > 0 {
            equal("holders after the holder was deleted", standing.holders.len(), 0)?;
            return equal("copies after the holder was deleted", copies, 0);
        }
        equal("holders", standing.holders.len(), 1)?;
        let facts = standing.holders[0];
        equal("title key", facts.title_key, granted.title_key)?;
        equal("STI key", facts.sti_key, granted.sti_key)?;
        equal("CCI", facts.cci, granted.cci)?;
        // Said here once more, since it is the claim and not what a check-out does.
        let of_copies = if granted.cci == 2 { 3 } else { granted.cci };
        standing.copies.iter().try_for_each(|cci| equal("CCI of a copy", *cci, of_copies))?;
        tested.copies[granted.cci as usize] += copies;
        let accounted = copies + self.check_ins + self.copies_deleted;
        equal("copies, check-ins and copies deleted", accounted, self.check_outs)?;
        account("permits", granted.permits, facts.permits, copies + self.copies_deleted)?;
        account("move rights", granted.rights, facts.rights, self.moves)
    }

    fn holders_and_copies(&self) -> [u64; 2] {
        if self.holders_deleted > 0 { [0, 0] } else { [1, self.check_outs - self.check_ins - self.copies_deleted] }
    }

    fn check_line(&self, line: &Line, tested: &mut Titles) -> Result<(), String> {
        let granted = self.granted.ok_or("not granted")?;
        if self.holders_deleted > 0 {
            return equal("a gone title", line, &Line { row: line.row, state: 3, permits: 0, rights: 0, copies: 0 });
        }
        equal("here or away", matches!(line.state, 1 | 2), true)?;
        tested.lines += u64::from(granted.permits != UNLIMITED);
        tested.lines_after_deletes += u64::from(granted.permits != UNLIMITED && self.copies_deleted > 0);
        account("permits", granted.permits, line.permits, line.copies + self.copies_deleted)?;
        account("move rights", granted.rights, line.rights, self.moves)
    }
}

/// What was granted is left or used, and 15 stays 15.
fn account(what: &str, granted: u64, left: u64, used: u64) -> Result<(), String> {
    if granted == UNLIMITED { equal(what, left, UNLIMITED) } else { equal(what, left + used, granted) }
}

fn equal<T: PartialEq + Debug>(what: &str, found: T, expected: T) -> Result<(), String> {
    if found == expected { Ok(()) } else { Err(format!("{what}: {found:?}, expected {expected:?}")) }
}

/// Holders and copies of every content ID, from the bytes alone; a title with two holders shows by their number.
fn standings(tables: &Tables) -> Vec<Standing> {
    let mut all_on_card = tables.on_card();
    let here = |content| tables.row(content).filter(|row| row.state() == RowState::Here).map(|row| row.facts);
    let mut standing = |content| {
        let on_card = all_on_card.remove(&content).unwrap_or_default();
        Standing { holders: here(content).into_iter().chain(on_card.full).collect(), copies: on_card.copies }
    };
    (0..1024).map(&mut standing).collect()
}
