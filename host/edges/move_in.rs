// What a move in reports: "how many entries that check read: the number of the first copy's entry if there is one, else 999. If an earlier
// check refuses, the report is 0." On a fresh ledger of 4 rows and a fresh card, after requests; and the search alone, on tables of
// which only the front is there.

use crate::numbers::form;
use crate::shop::Shop;
use crate::tables::*;
use crate::{Case, FILL, HASH, KEY, PAIRS, PLAIN, TOP};

// Content ID, entry number, and which of ledger, titles and rules (1, 2, 4, added up) lack their last byte.
#[derive(Clone, Copy)]
struct Call {
    content: u64,
    entry: u64,
    short: u64,
}

fn to(content: u64, entry: u64) -> Call {
    Call { content, entry, short: 0 }
}

fn in_range(n: u64) -> bool {
    (1..=999).contains(&n)
}

// The answer, by the paper's numbers in their order.
fn answer(shop: &Shop, call: &Call) -> u64 {
    if !in_range(call.content) {
        4
    } else if !in_range(call.entry) {
        5
    } else {
        shop.refusal(6, &[call.content, call.entry, 9])
    }
}

fn case(requests: &[u8], call: Call) {
    PAIRS.into_iter().for_each(|pair| case_of(pair, requests, call));
}

fn case_of(pair: Pair, requests: &[u8], call: Call) {
    let mut shop = Shop::fresh(pair);
    shop.serve(requests);
    shop.short = call.short;
    let answer = answer(&shop, &call);
    let read = match answer {
        0 | 14 => shop.first_copy(call.content).unwrap_or(999),
        _ => 0,
    };
    let (word, code) = if pair == Pair::Audio { ("move-in", 0x32) } else { ("picture-in", 0x33) };
    Case::new(word, code, &[call.content, call.entry, call.short], requests)
        .number("answer", answer)
        .number("entries-read", read)
        .end();
}

// Titles 1 and 2, with permits and rights without a limit.
fn two_titles() -> Vec<u8> {
    [register(1, 0, 15), register(2, 0, 15)].concat()
}

fn register(content: u64, trigger: u64, rights: u64) -> Vec<u8> {
    form(1, &[content, 0, trigger, rights, 15, 5, 6])
}

// Copies of a title in these entries.
fn lent(content: u64, entries: &[u64]) -> Vec<u8> {
    entries.iter().flat_map(|entry| form(3, &[content, *entry])).collect()
}

fn returned(entries: &[u64]) -> Vec<u8> {
    entries.iter().flat_map(|entry| form(4, &[*entry, 0xf1])).collect()
}

fn search_cases() {
    let copies: [&[u64]; 14] = [
        &[], &[1], &[2], &[3], &[4], &[5], &[6], &[997], &[998], &[999], &[2, 3], &[3, 1], &[999, 998], &[999, 1],
    ];
    for entries in copies {
        let requests = [two_titles(), lent(1, entries)].concat();
        case(&requests, to(1, 500));
        // before it are entries that have been copies of the title, or are copies of another
        let others = [lent(1, &[11, 12]), returned(&[11, 12]), lent(2, &[13, 996])].concat();
        case_of(Pair::Audio, &[requests, others].concat(), to(1, 500));
    }
    // full entries, as none is a copy
    let full = |content, entry| form(2, &[content, entry, 0, 0, 15, 15, 5, 6, 9]);
    case(&[two_titles(), full(3, 1), full(4, 999)].concat(), to(1, 500));
    // copies that go one by one, and leave their content IDs
    for n in 1..=3 {
        case(&[two_titles(), lent(1, &[7, 8, 9]), returned(&[7, 8, 9][..n])].concat(), to(1, 500));
    }
}

// Each check before the one for copies refuses, with a copy on the card and without. Beside them are calls that come to it.
fn earlier_cases() {
    for copies in [&[][..], &[5]] {
        let requests = [two_titles(), lent(1, copies), lent(2, &[6])].concat();
        for n in [0, 1000, TOP] {
            case(&requests, to(n, 500));
            case(&requests, to(1, n));
        }
        for short in 1..8 {
            case_of(Pair::Audio, &requests, Call { short, ..to(1, 500) });
        }
        // the entry is a copy of another title, or of this one where there is any; the row is empty, above R, away
        case(&requests, to(1, 6));
        case(&requests, to(1, 5));
        for content in [3, 5, 999] {
            case(&requests, to(content, 500));
        }
        case(&[two_titles(), form(6, &[2, 7, 9]), lent(1, copies)].concat(), to(2, 500));
        // a trigger, no rights, and the last right
        for (trigger, rights) in [(1, 15), (0, 0), (0, 1)] {
            case(&[register(1, trigger, rights), lent(1, copies)].concat(), to(1, 500));
        }
    }
}

// The search alone. An entry past the end of a table is none.
fn fronts() {
    let half = |flag: u8, first: u64, id: u64| {
        let mut s = half_form(first, KEY, id);
        s[8] = 128 * flag;
        s
    };
    let spent = half(0, 0, 4);
    let titles = |halves: &[&[u8]]| [&vec![FILL; 16], &halves.concat()[..]].concat();
    let copy = half(1, 2, 4);
    let full = rule_form(PLAIN, HASH, 4);
    for n in 0..7 {
        let halves: Vec<&[u8]> = (0..7).map(|i| if i < n { &spent[..] } else { &copy[..] }).collect();
        search(4, &titles(&halves), &[]);
        // a usable rule half beside the first one, and tables that end inside it
        let mut rules = vec![0; 32 * (n + 1)];
        rules.extend(&full);
        search(4, &titles(&halves), &rules);
        search(4, &titles(&halves[..n + 1]), &rules);
        search(4, &titles(&halves)[..16 * (n + 2) - 1], &[]);
        search(4, &titles(&halves), &rules[..rules.len() - 17]);
    }
    for half in [half(0, 2, 4), half(1, 1, 4), half(1, 2, 5), half(1, 2, 0), half(1, 2, 1000)] {
        search(4, &titles(&[&half, &copy]), &[]);
    }
    for content in [0, 1000, TOP] {
        search(content, &titles(&[&half(1, 2, content)]), &[]);
    }
    search(4, &[], &[]);
}

fn search(content: u64, titles: &[u8], rules: &[u8]) {
    let part = |s: &[u8], at: usize, width: usize| s.get(at..s.len().min(at + width)).unwrap_or(&[]).to_vec();
    let is_copy = |j: &usize| {
        let title = part(titles, 16 * j, 16);
        kind(&title, &part(rules, 32 * j, 32)) == 1 && id(&title) == content
    };
    let first = (1..=999).find(is_copy);
    Case::new("search", 0x23, &[content, titles.len() as u64], &[titles, rules].concat())
        .number("found", u64::from(first.is_some()))
        .number("entries-read", first.unwrap_or(999) as u64)
        .end();
}

pub fn cases() {
    search_cases();
    earlier_cases();
    fronts();
}
