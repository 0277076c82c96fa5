// A fresh ledger of 4 rows and a fresh card of either pair, and requests on them.

use crate::numbers::parse;
use crate::tables::*;

// Rows and halves by their numbers; place 0 is the head's. And which of ledger, titles and rules (1, 2, 4, added up) lack their last
// byte when a call is lent them.
#[derive(Clone)]
pub struct Shop {
    pub pair: Pair,
    pub rows: Vec<Vec<u8>>,
    pub titles: Vec<Vec<u8>>,
    pub rules: Vec<Vec<u8>>,
    pub short: u64,
}

// "less 1, or 15 unchanged", "plus 1, or 15 unchanged"
fn less(n: u64) -> u64 {
    if n == 15 { 15 } else { n - 1 }
}

fn more(n: u64) -> u64 {
    if n == 15 { 15 } else { n + 1 }
}

// "CCI 3 where the row has 2; 0 and 3 pass through"
fn of_copy(cci: u64) -> u64 {
    if cci == 2 { 3 } else { cci }
}

const EMPTY: u64 = 0;
const HERE: u64 = 1;
const AWAY: u64 = 2;
const FREE: u64 = 0;
const COPY: u64 = 1;
const FULL: u64 = 2;
const SPENT: u64 = 4;

impl Shop {
    pub fn fresh(pair: Pair) -> Shop {
        Shop::of(pair, 0)
    }
    // Tables with the same byte everywhere.
    pub fn of(pair: Pair, byte: u8) -> Shop {
        let (rows, titles, rules) = (vec![vec![byte; 24]; 5], vec![vec![byte; 16]; 1000], vec![vec![byte; 32]; 1000]);
        Shop { pair, rows, titles, rules, short: 0 }
    }
    // The last byte of each of the tables that are named as in `short`.
    pub fn set_last_bytes(&mut self, named: u64, byte: u8) {
        for (i, table) in [&mut self.rows, &mut self.titles, &mut self.rules].into_iter().enumerate() {
            if named >> i & 1 == 1 {
                *table.last_mut().unwrap().last_mut().unwrap() = byte;
            }
        }
    }
    // How many bytes of the tables are this one, which no head has.
    pub fn bytes_that_are(&self, byte: u8) -> u64 {
        let all = [&self.rows, &self.titles, &self.rules];
        all.into_iter().flatten().flatten().filter(|b| **b == byte).count() as u64
    }
    // Rows and entries 1 to 4.
    pub fn shown(&self) -> [Vec<u8>; 3] {
        [&self.rows, &self.titles, &self.rules].map(|table| table[1..5].concat())
    }
    // 0 where no byte is left, or the number that stopped reading, and each request's kind and answer. A refused call stops
    // nothing.
    pub fn serve(&mut self, mut bytes: &[u8]) -> (u64, Vec<(u64, u64)>) {
        let mut lines = Vec::new();
        while !bytes.is_empty() {
            match parse(bytes) {
                Ok((kind, arguments, used)) => {
                    lines.push((kind, self.perform(kind, &arguments)));
                    bytes = &bytes[used..];
                }
                Err(number) => return (number, lines),
            }
        }
        (0, lines)
    }
    fn is(&self, c: u64, state: u64) -> bool {
        1 <= c && c <= 4 && row_state(&self.rows[c as usize]) == state
    }
    fn row_facts(&self, c: u64) -> Facts {
        row_facts(&self.rows[c as usize])
    }
    fn kind(&self, j: u64) -> u64 {
        kind(&self.titles[j as usize], &self.rules[j as usize])
    }
    // The first of the copies with ID c, by its entry's number.
    pub fn first_copy(&self, c: u64) -> Option<u64> {
        (1..=999).find(|j| self.kind(*j) == COPY && id(&self.titles[*j as usize]) == c)
    }
    fn set_row(&mut self, c: u64, state: u8, f: Facts) {
        self.rows[c as usize] = row_form(state, f);
    }
    fn set_title(&mut self, j: u64, c: u64, f: Facts) {
        self.titles[j as usize] = half_form(f.cci, f.title_key, c);
    }
    fn wipe_title(&mut self, j: u64, filler: u64) {
        self.titles[j as usize] = wiped(&self.titles[j as usize], filler);
    }
    fn wipe_both(&mut self, j: u64, f: &[u64]) {
        self.wipe_title(j, f[0]);
        self.rules[j as usize] = wiped_rule(&self.rules[j as usize], [f[0], f[1], f[2], f[3]]);
    }
    // The row away, the entry full.
    fn to_card(&mut self, c: u64, j: u64, f: Facts, hash: u64) {
        self.set_row(c, AWAY as u8, NO_FACTS);
        self.set_title(j, c, f);
        self.rules[j as usize] = rule_form(f, hash, c);
    }
    // The number for heads that are wrong, since a table lacks a byte; or 0. "Register is lent the ledger only."
    fn heads_refusal(&self, call: u64) -> u64 {
        let short = if call == 1 { self.short % 2 } else { self.short };
        if short == 0 { 0 } else { 7 + u64::from(short.trailing_zeros()) }
    }
    // The number of a request: of the conditions that hold, the first. Its arguments are in their limits.
    pub fn refusal(&self, call: u64, a: &[u64]) -> u64 {
        match self.heads_refusal(call) {
            0 => self.state_refusal(call, a),
            number => number,
        }
    }
    fn state_refusal(&self, call: u64, a: &[u64]) -> u64 {
        let j = if call == 1 { 0 } else if matches!(call, 2 | 3 | 6) { a[1] } else { a[0] };
        let (title, rule) = (&self.titles[j as usize], &self.rules[j as usize]);
        let kind = self.kind(j);
        // "Calls that needed a free entry accept free or spent"
        let vacant = kind == FREE || kind == SPENT;
        let c = if matches!(call, 1 | 2 | 3 | 6) { a[0] } else { id(title) };
        let f = match call {
            3 | 4 | 6 if self.is(c, HERE) => self.row_facts(c),
            5 => entry_facts(title, rule),
            _ => NO_FACTS,
        };
        let fillers = &a[if call == 5 { 2 } else { 1 }..];
        let leaves = |k: usize, half: &[u8]| fillers[k] % KEY_LIMIT == key(half);
        // "In picture calls condition 16 looks at f1 only."
        let leaves_sti = || self.pair == Pair::Audio && leaves(1, rule);
        let may_not_move = f.trigger == 1 || f.rights == 0;
        let conditions = match call {
            1 => vec![(11, !self.is(c, EMPTY))],
            2 => vec![(10, !vacant), (11, !self.is(c, EMPTY))],
            3 => vec![(10, !vacant), (11, !self.is(c, HERE)), (12, f.permits == 0)],
            4 => vec![(10, kind != COPY), (11, !self.is(c, HERE)), (15, f.permits == 14), (16, leaves(0, title))],
            5 => vec![
                (10, kind != FULL), (11, !self.is(c, AWAY)), (12, may_not_move), (13, a[1] != hash(rule)),
                (16, leaves(0, title) || leaves_sti()),
            ],
            6 => vec![(10, !vacant), (11, !self.is(c, HERE)), (12, may_not_move), (14, self.first_copy(c).is_some())],
            _ => vec![
                (10, kind != COPY && kind != FULL), (11, kind == FULL && !self.is(c, AWAY)),
                (16, leaves(0, title) || kind == FULL && leaves_sti()),
            ],
        };
        conditions.iter().find(|(_, holds)| *holds).map_or(0, |(number, _)| *number)
    }
    // Carries a request out where it is not refused, and answers its number.
    pub fn perform(&mut self, call: u64, a: &[u64]) -> u64 {
        let number = self.refusal(call, a);
        if number == 0 {
            match call {
                1 => self.set_row(a[0], HERE as u8, Facts::of(&a[1..])),
                2 => self.to_card(a[0], a[1], Facts::of(&a[2..]), a[8]),
                3 => self.check_out(a[0], a[1], self.row_facts(a[0])),
                4 => self.check_in(a[0], a[1]),
                5 => self.move_out(a[0], &a[2..]),
                6 => self.move_in(a[0], a[1], a[2], self.row_facts(a[0])),
                _ => self.delete(a[0], &a[1..]),
            }
        }
        number
    }
    fn check_out(&mut self, c: u64, j: u64, f: Facts) {
        self.set_title(j, c, Facts { cci: of_copy(f.cci), ..f });
        self.rows[c as usize][4] = less(f.permits) as u8;
    }
    fn check_in(&mut self, j: u64, f1: u64) {
        let c = id(&self.titles[j as usize]);
        self.rows[c as usize][4] = more(self.row_facts(c).permits) as u8;
        self.wipe_title(j, f1);
    }
    fn move_out(&mut self, j: u64, fillers: &[u64]) {
        let (title, rule) = (&self.titles[j as usize], &self.rules[j as usize]);
        let (c, f) = (id(title), entry_facts(title, rule));
        self.set_row(c, HERE as u8, Facts { rights: less(f.rights), ..f });
        self.wipe_both(j, fillers);
    }
    fn move_in(&mut self, c: u64, j: u64, h: u64, f: Facts) {
        self.to_card(c, j, Facts { rights: less(f.rights), ..f }, h);
    }
    fn delete(&mut self, j: u64, fillers: &[u64]) {
        if self.kind(j) == COPY {
            self.wipe_title(j, fillers[0]);
        } else {
            let c = id(&self.titles[j as usize]);
            self.wipe_both(j, fillers);
            self.set_row(c, 3, NO_FACTS);
        }
    }
}
