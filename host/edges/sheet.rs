// A row's line on the closing sheet, the totals and the number of spent entries, of ledgers and cards of which only the front is there.

use crate::tables::*;
use crate::{Case, FILL, KEY, MOST, PLAIN, TOP};

// Of three tables in one piece.
struct Tables<'a> {
    ledger: &'a [u8],
    titles: &'a [u8],
    rules: &'a [u8],
}

// The part of `count` bytes that starts at a place, as far as it is there.
fn part(s: &[u8], at: usize, count: usize) -> &[u8] {
    let end = s.len().min(at + count);
    s.get(at..end).unwrap_or(&[])
}

impl Tables<'_> {
    fn rows(&self) -> u64 {
        field(self.ledger, 2, 2)
    }
    // The entries of this kind that have the ID c, by their numbers.
    fn entries(&self, wanted: u64, c: u64) -> Vec<usize> {
        let is = |j: &usize| {
            let title = part(self.titles, 16 * j, 16);
            kind(title, part(self.rules, 32 * j, 32)) == wanted && id(title) == c
        };
        (1..=999).filter(is).collect()
    }
    fn spent(&self) -> u64 {
        let is = |j: &usize| kind(part(self.titles, 16 * j, 16), part(self.rules, 32 * j, 32)) == 4;
        (1..=999).filter(is).count() as u64
    }
    // Row, state, permits, rights, copies. A row in no state shows its byte 0.
    fn line(&self, c: u64) -> [u64; 5] {
        let copies = self.entries(1, c).len() as u64;
        if !(1..=self.rows()).contains(&c) {
            let first = c.checked_mul(24).map_or(0, |at| field(self.ledger, at as usize, 1));
            return [c, first, 0, 0, copies];
        }
        let row = part(self.ledger, 24 * c as usize, 24);
        let (permits, rights) = match row_state(row) {
            1 => (row_facts(row).permits, row_facts(row).rights),
            2 => match self.entries(2, c).first() {
                Some(j) => (permits(part(self.rules, 32 * j, 32)), rights(part(self.rules, 32 * j, 32))),
                None => (0, 0),
            },
            _ => (0, 0),
        };
        [c, field(row, 0, 1), permits, rights, copies]
    }
    // The sums over the rows that are not empty, the spent entries, and how many bytes all lines have.
    fn totals(&self) -> [u64; 4] {
        let empty = |c: &u64| row_state(part(self.ledger, 24 * *c as usize, 24)) == 0;
        let lines: Vec<[u64; 5]> = (1..=self.rows()).filter(|c| !empty(c)).map(|c| self.line(c)).collect();
        let sum = |of: fn(&[u64; 5]) -> u64| lines.iter().map(of).sum::<u64>();
        let permits = sum(|line| if line[2] == 15 { 0 } else { line[2] });
        let copies = sum(|line| line[4]);
        let spent = self.spent();
        let mut text = format!("total {permits} {copies}\nspent {spent}\n");
        for line in &lines {
            text += &(line.map(|n| n.to_string()).join(" ") + "\n");
        }
        [permits, copies, spent, text.len() as u64]
    }
}

fn case(c: u64, ledger: &[u8], titles: &[u8], rules: &[u8]) {
    let tables = Tables { ledger, titles, rules };
    let lengths = [c, ledger.len() as u64, titles.len() as u64];
    let case = Case::new("sheet", 0x31, &lengths, &[ledger, titles, rules].concat());
    let names = ["row", "state", "permits", "rights", "copies"];
    let case = names.iter().zip(tables.line(c)).fold(case, |case, (name, x)| case.number(name, x));
    let sums = ["total-permits", "total-copies", "spent", "length"];
    sums.iter().zip(tables.totals()).fold(case, |case, (name, x)| case.number(name, x)).end();
}

fn row(state: u8, facts: Facts) -> Vec<u8> {
    row_form(state, facts)
}

// A copy where it has no rule half, a full entry where it has.
fn entry(c: u64, facts: Option<Facts>) -> (Vec<u8>, Vec<u8>) {
    let rule = facts.map_or(vec![FILL % 128; 32], |f| rule_form(f, 0, c));
    (half_form(2, KEY, c), rule)
}

// A half with a reserved bit set beside its flag, so often behind a head.
fn halves(flag: u8, id: u64, count: usize) -> Vec<u8> {
    let mut s = half_form(1, KEY, id);
    s[8] = 128 * flag + 1;
    [vec![FILL; 16], s.repeat(count)].concat()
}

// A title that is here, beside this front of a card.
fn of_card(titles: &[u8], rules: &[u8]) {
    case(1, &[&ledger_head(1, 0)[..], &row(1, PLAIN)].concat(), titles, rules);
}

// Entries that are spent and such that are not, beside rule halves that are usable and such that are not, and as many as make their
// number longer.
fn spent_cases() {
    for (flag, id) in [(0, 0), (0, 1), (0, 512), (0, 999), (0, 1000), (0, 1023), (1, 0), (1, 1)] {
        for count in [1, 9, 10] {
            of_card(&halves(flag, id, count), &[]);
        }
        for (rule_flag, rule_id) in [(0, 1), (1, 0), (1, 1), (1, 1000)] {
            let rules = [vec![FILL; 16], halves(rule_flag, rule_id, 1), vec![0; 16]].concat();
            of_card(&halves(flag, id, 2), &rules);
        }
    }
    for count in [99, 100, 998, 999] {
        of_card(&halves(0, 999, count), &[]);
    }
}

// Tables that end inside a half of an entry that is spent, or would be.
fn spent_fronts() {
    let titles = halves(0, 1, 2);
    for length in [0, 16, 31, 32, 33, 47] {
        of_card(&titles[..length], &[]);
    }
    let rules = [vec![FILL; 32], rule_form(PLAIN, 0, 1).repeat(2)].concat();
    for length in [32, 47, 48, 63, 64, 79, 80, 96] {
        of_card(&titles, &rules[..length]);
    }
}

pub fn cases() {
    spent_cases();
    spent_fronts();
    let few = Facts { permits: 3, rights: 5, ..PLAIN };
    let rows = [row(1, PLAIN), row(2, NO_FACTS), row(3, PLAIN), row(1, MOST), row(0, PLAIN), row(2, PLAIN), row(9, PLAIN)];
    let ledger = [&ledger_head(7, 0)[..], &rows.concat()].concat();
    let entries = [entry(2, None), entry(2, Some(few)), entry(2, Some(MOST)), entry(4, None), entry(2, None), entry(3, None)];
    let titles = [vec![FILL; 16], entries.iter().flat_map(|e| e.0.clone()).collect()].concat();
    let rules = [vec![FILL; 32], entries.iter().flat_map(|e| e.1.clone()).collect()].concat();
    for c in [0, 1, 2, 3, 4, 5, 6, 7, 8, 1000, TOP] {
        case(c, &ledger, &titles, &rules);
    }
    // fronts that end inside a row or a half, and a head that promises more rows than are there
    for length in [0, 3, 4, 48, 71, 72, ledger.len() - 1] {
        case(2, &ledger[..length], &titles, &rules);
    }
    for entries in [1, 2, 3] {
        for less in [1, 16] {
            case(2, &ledger, &titles[..16 * (entries + 1) - less], &rules);
            case(2, &ledger, &titles, &rules[..32 * (entries + 1) - less]);
        }
    }
    // the flags, IDs and CCI of the first full entry and of the copies before and behind it
    for (at, value) in [(24, 0), (31, 4), (32, 1), (40, 0), (47, 5), (46, 4), (80, 1), (88, 0)] {
        let mut changed = titles.clone();
        changed[at] = value;
        case(2, &ledger, &changed, &rules);
    }
    for (at, value) in [(72, 0), (79, 3), (81, 0xff), (40, 128)] {
        let mut changed = rules.clone();
        changed[at] = value;
        case(2, &ledger, &titles, &changed);
    }
}
