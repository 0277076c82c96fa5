//! The library under test, by its C interface (include/music_counter.h).

use crate::calls::{Call, Numbers, Results};
use crate::preview::{Basket, Previewed};
use crate::requests::Request;
use crate::tables::{Pair, Tables};

extern "C" {
    fn counter_format_ledger(ledger: *mut u8, ledger_len: usize, rows: u64, application: u16) -> u64;
    fn counter_format_card(
        pair: bool, titles: *mut u8, titles_len: usize, rules: *mut u8, rules_len: usize, application: u16,
    ) -> u64;
    fn counter_register(
        ledger: *mut u8, ledger_len: usize, content: u64, cci: u64, trigger: u64, rights: u64, permits: u64,
        title_key: u64, sti_key: u64,
    ) -> u64;
    fn counter_record(
        pair: bool, ledger: *mut u8, ledger_len: usize, titles: *mut u8, titles_len: usize, rules: *mut u8, rules_len: usize,
        content: u64, entry: u64, cci: u64, trigger: u64, rights: u64, permits: u64, title_key: u64, sti_key: u64,
        hash: u64,
    ) -> u64;
    fn counter_check_out(
        pair: bool, ledger: *mut u8, ledger_len: usize, titles: *mut u8, titles_len: usize, rules: *const u8, rules_len: usize,
        content: u64, entry: u64,
    ) -> u64;
    fn counter_check_in(
        pair: bool, ledger: *mut u8, ledger_len: usize, titles: *mut u8, titles_len: usize, rules: *const u8, rules_len: usize,
        entry: u64, f1: u64,
    ) -> u64;
    fn counter_move_out(
        pair: bool, ledger: *mut u8, ledger_len: usize, titles: *mut u8, titles_len: usize, rules: *mut u8, rules_len: usize,
        entry: u64, hash: u64, f1: u64, f2: u64, f3: u64, f4: u64,
    ) -> u64;
    fn counter_move_in(
        pair: bool, ledger: *mut u8, ledger_len: usize, titles: *mut u8, titles_len: usize, rules: *mut u8, rules_len: usize,
        content: u64, entry: u64, hash: u64, entries_read: *mut u64,
    ) -> u64;
    fn counter_delete(
        pair: bool, ledger: *mut u8, ledger_len: usize, titles: *mut u8, titles_len: usize, rules: *mut u8, rules_len: usize,
        entry: u64, f1: u64, f2: u64, f3: u64, f4: u64,
    ) -> u64;
    fn counter_tally(
        pair: bool, titles: *const u8, titles_len: usize, rules: *const u8, rules_len: usize, content: u64, copies: *mut u64,
    ) -> u64;
    fn counter_inspect_entry(
        pair: bool, titles: *const u8, titles_len: usize, rules: *const u8, rules_len: usize, entry: u64, kind: *mut u64,
        content: *mut u64, facts: *mut u64,
    ) -> u64;
    fn counter_inspect_row(
        ledger: *const u8, ledger_len: usize, content: u64, state: *mut u64, facts: *mut u64,
    ) -> u64;
    fn counter_inspect_title(
        pair: bool, ledger: *const u8, ledger_len: usize, titles: *const u8, titles_len: usize, rules: *const u8,
        rules_len: usize, content: u64, holders: *mut u64, copies: *mut u64,
    ) -> u64;
    fn counter_first_vacant(
        pair: bool, titles: *const u8, titles_len: usize, rules: *const u8, rules_len: usize, from: u64, entry: *mut u64,
    ) -> u64;
    fn counter_sheet(
        pair: bool, ledger: *const u8, ledger_len: usize, titles: *const u8, titles_len: usize, rules: *const u8,
        rules_len: usize, text: *mut u8, text_len: usize, used: *mut usize,
    ) -> u64;
    fn counter_read_request(
        bytes: *const u8, bytes_len: usize, kind: *mut u64, arguments: *mut u64, used: *mut usize,
    ) -> u64;
    fn counter_write_request(
        bytes: *mut u8, bytes_len: usize, kind: u64, arguments: *const u64, used: *mut usize,
    ) -> u64;
    fn counter_perform(
        pair: bool, ledger: *mut u8, ledger_len: usize, titles: *mut u8, titles_len: usize, rules: *mut u8, rules_len: usize,
        request: *const Request,
    ) -> u64;
    fn counter_preview(
        pair: bool, ledger: *const u8, ledger_len: usize, titles: *const u8, titles_len: usize, rules: *const u8,
        rules_len: usize, scratch_ledger: *mut u8, scratch_ledger_len: usize, scratch_titles: *mut u8,
        scratch_titles_len: usize, scratch_rules: *mut u8, scratch_rules_len: usize, basket: *const Request, count: u64,
        answers: *mut u64,
    ) -> u64;
}

/// Carries the call of this pair out on the tables. A move in, a tally, an inspection or a sheet may write its results.
pub fn perform(pair: Pair, call: &Call, tables: &mut Tables, results: &mut Results) -> u64 {
    let pair = pair == Pair::Picture;
    let (ledger, ledger_len) = (tables.ledger.as_mut_ptr(), tables.ledger.len());
    let (titles, titles_len) = (tables.titles.as_mut_ptr(), tables.titles.len());
    let (rules, rules_len) = (tables.rules.as_mut_ptr(), tables.rules.len());
    let numbers = &mut results.numbers;
    // The pointers and lengths are those of three vectors, none of them null, that nobody else uses meanwhile.
    unsafe {
        match *call {
            Call::Register { content, facts: f } => counter_register(
                ledger, ledger_len, content, f.cci, f.trigger, f.rights, f.permits, f.title_key, f.sti_key,
            ),
            Call::Record { content, entry, facts: f, hash } => counter_record(
                pair, ledger, ledger_len, titles, titles_len, rules, rules_len, content, entry, f.cci, f.trigger, f.rights,
                f.permits, f.title_key, f.sti_key, hash,
            ),
            Call::CheckOut { content, entry } => {
                counter_check_out(pair, ledger, ledger_len, titles, titles_len, rules, rules_len, content, entry)
            }
            Call::CheckIn { entry, f1 } => {
                counter_check_in(pair, ledger, ledger_len, titles, titles_len, rules, rules_len, entry, f1)
            }
            Call::MoveOut { entry, hash, fillers: [f1, f2, f3, f4] } => counter_move_out(
                pair, ledger, ledger_len, titles, titles_len, rules, rules_len, entry, hash, f1, f2, f3, f4,
            ),
            Call::MoveIn { content, entry, hash } => counter_move_in(
                pair, ledger, ledger_len, titles, titles_len, rules, rules_len, content, entry, hash,
                &mut numbers.entries_read,
            ),
            Call::Delete { entry, fillers: [f1, f2, f3, f4] } => {
                counter_delete(pair, ledger, ledger_len, titles, titles_len, rules, rules_len, entry, f1, f2, f3, f4)
            }
            Call::Tally { .. } | Call::InspectEntry { .. } | Call::InspectRow { .. } | Call::InspectTitle { .. } => {
                inspect(pair, call, tables, numbers)
            }
            Call::FirstVacant { .. } => inspect(pair, call, tables, numbers),
            Call::Sheet { room } => sheet(pair, tables, results, room),
            Call::FormatLedger { rows, application } => counter_format_ledger(ledger, ledger_len, rows, application),
            Call::FormatCard { application } => counter_format_card(pair, titles, titles_len, rules, rules_len, application),
        }
    }
}

/// What only reads the tables and writes numbers. A refusal leaves these as they are.
fn inspect(pair: bool, call: &Call, tables: &Tables, numbers: &mut Numbers) -> u64 {
    let (ledger, ledger_len) = (tables.ledger.as_ptr(), tables.ledger.len());
    let (titles, titles_len) = (tables.titles.as_ptr(), tables.titles.len());
    let (rules, rules_len) = (tables.rules.as_ptr(), tables.rules.len());
    let Numbers { copies, holders, kind, content: id, state, facts, vacant, .. } = numbers;
    let facts = facts.as_mut_ptr();
    // Three vectors that are only read, and numbers, of which six are facts.
    unsafe {
        match *call {
            Call::Tally { content } => counter_tally(pair, titles, titles_len, rules, rules_len, content, copies),
            Call::InspectEntry { entry } => {
                counter_inspect_entry(pair, titles, titles_len, rules, rules_len, entry, kind, id, facts)
            }
            Call::InspectRow { content } => counter_inspect_row(ledger, ledger_len, content, state, facts),
            Call::InspectTitle { content } => counter_inspect_title(
                pair, ledger, ledger_len, titles, titles_len, rules, rules_len, content, holders, copies,
            ),
            Call::FirstVacant { from } => {
                counter_first_vacant(pair, titles, titles_len, rules, rules_len, from, vacant)
            }
            _ => unreachable!("{call:?} does more"),
        }
    }
}

/// Writes the sheet into that much of the text. A refusal leaves it and `used` as they are.
fn sheet(pair: bool, tables: &Tables, results: &mut Results, room: u64) -> u64 {
    let [ledger, titles, rules] = [&tables.ledger, &tables.titles, &tables.rules].map(|table| (table.as_ptr(), table.len()));
    let text = results.room(room);
    let (text, text_len) = (text.as_mut_ptr(), text.len());
    // Three vectors that are only read, and the bytes of one slice.
    unsafe {
        counter_sheet(
            pair, ledger.0, ledger.1, titles.0, titles.1, rules.0, rules.1, text, text_len, &mut results.used,
        )
    }
}

/// Reads the request at the front of the bytes. A refusal leaves `request` and `used` as they are.
pub fn read_request(bytes: &[u8], request: &mut Request, used: &mut usize) -> u64 {
    let arguments = request.arguments.as_mut_ptr();
    // Nine arguments, and the bytes of one slice.
    unsafe { counter_read_request(bytes.as_ptr(), bytes.len(), &mut request.kind, arguments, used) }
}

/// Writes the request at the front of the bytes. A refusal leaves `used` as it is.
pub fn write_request(bytes: &mut [u8], request: &Request, used: &mut usize) -> u64 {
    let arguments = request.arguments.as_ptr();
    // Nine arguments, and the bytes of one slice.
    unsafe { counter_write_request(bytes.as_mut_ptr(), bytes.len(), request.kind, arguments, used) }
}

/// Carries the request of this pair out on the tables. The library may only read the request; it is lent as if it could write
/// it, so that a caller can see whether it does.
pub fn perform_request(pair: Pair, request: &mut Request, tables: &mut Tables) -> u64 {
    let [ledger, titles, rules] = parts(tables);
    // Three vectors that nobody else uses meanwhile, and one request.
    unsafe { counter_perform(pair == Pair::Picture, ledger.0, ledger.1, titles.0, titles.1, rules.0, rules.1, request) }
}

/// Previews the basket, which is lent like a request above. A refusal leaves scratch buffers and answers as they are.
pub fn preview(pair: Pair, tables: &Tables, basket: &mut Basket, previewed: &mut Previewed) -> u64 {
    let [ledger, titles, rules] = [&tables.ledger, &tables.titles, &tables.rules].map(|table| (table.as_ptr(), table.len()));
    let [to_ledger, to_titles, to_rules] = parts(&mut previewed.scratch);
    let (places, answers) = (basket.places.as_mut_ptr(), previewed.answers.as_mut_ptr());
    // Three vectors that are only read, three that nobody else uses meanwhile, and sixteen places of requests and of answers.
    unsafe {
        counter_preview(
            pair == Pair::Picture, ledger.0, ledger.1, titles.0, titles.1, rules.0, rules.1, to_ledger.0, to_ledger.1,
            to_titles.0, to_titles.1, to_rules.0, to_rules.1, places, basket.count, answers,
        )
    }
}

fn parts(tables: &mut Tables) -> [(*mut u8, usize); 3] {
    [&mut tables.ledger, &mut tables.titles, &mut tables.rules].map(|table| (table.as_mut_ptr(), table.len()))
}
