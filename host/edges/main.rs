// Prints the cases of the test program `edges`, or the cases with their answers; those of the closing sheet apart. They are worked
// out from documents 01 and 02 alone; where a part of bytes has another length than the paper gives it, from what docs/DECISIONS.md
// says of such parts.
//
// No code is shared with the library.

mod move_in;
mod numbers;
mod preview;
mod sheet;
mod shop;
mod tables;

use numbers::{decode, encode, form, parse};
use shop::Shop;
use std::collections::BTreeSet;
use std::sync::atomic::{AtomicBool, Ordering};
use std::sync::Mutex;
use tables::*;

// Whether the answers are printed too.
static ANSWERS: AtomicBool = AtomicBool::new(false);

static PRINTED: Mutex<BTreeSet<String>> = Mutex::new(BTreeSet::new());

fn hex(s: &[u8]) -> String {
    s.iter().map(|b| format!("{:02x}", b)).collect()
}

// A case: a word for the reader, what is called, its numbers and its part; the names of what is answered; and the answer.
struct Case {
    line: String,
    names: String,
    answer: String,
}

impl Case {
    // The high digit of a code is the count of its numbers. Words are in small letters, since capitals are digits.
    fn new(word: &str, code: u8, numbers: &[u64], part: &[u8]) -> Case {
        assert_eq!(usize::from(code / 16), numbers.len());
        let mut line = format!("{word} {code:02X}");
        for x in numbers {
            line += &format!(" {x:016X}");
        }
        if !part.is_empty() {
            line += &format!(" {}", hex(part).to_uppercase());
        }
        Case { line, names: String::new(), answer: String::new() }
    }
    fn with(mut self, name: &str, value: String) -> Case {
        self.names += &format!(" {name}");
        self.answer += &format!(" {value}");
        self
    }
    fn number(self, name: &str, x: u64) -> Case {
        self.with(name, x.to_string())
    }
    fn bytes(self, name: &str, s: &[u8]) -> Case {
        self.with(name, format!("[{}]", hex(s)))
    }
    // Numbers, of which there may be none, under one name; and rows and entries.
    fn numbers(mut self, name: &str, numbers: &[u64]) -> Case {
        self.names += &format!(" {name}");
        self.answer += &numbers.iter().map(|x| format!(" {x}")).collect::<String>();
        self
    }
    fn shown(self, name: &str, shop: &Shop) -> Case {
        self.with(name, shop.shown().map(|s| format!("[{}]", hex(&s))).join(" "))
    }
    fn facts(self, f: Facts) -> Case {
        let names = ["cci", "trigger", "rights", "permits", "title-key", "sti-key"];
        names.iter().zip(f.values()).fold(self, |case, (name, x)| case.number(name, x))
    }
    // A case that was there before is not printed again.
    fn end(self) {
        if !PRINTED.lock().unwrap().insert(self.line.clone()) {
            return;
        }
        if ANSWERS.load(Ordering::Relaxed) {
            println!("{}{} ->{}", self.line, self.names, self.answer);
        } else {
            println!("{}{}", self.line, self.names);
        }
    }
}

fn main() {
    let words: Vec<String> = std::env::args().skip(1).collect();
    let words: Vec<&str> = words.iter().map(String::as_str).collect();
    ANSWERS.store(words.contains(&"answers"), Ordering::Relaxed);
    match words[..] {
        ["cases"] | ["answers"] => layer_cases(),
        ["sheet", "cases"] | ["sheet", "answers"] => {
            text_cases();
            sheet::cases();
        }
        _ => {
            eprintln!("usage: edges [sheet] cases | edges [sheet] answers");
            std::process::exit(2);
        }
    }
}

fn layer_cases() {
    number_cases();
    field_cases();
    half_cases();
    half_writers();
    entry_cases();
    head_cases();
    row_cases();
    row_writers();
    remainder_cases();
    streams();
    spent_streams();
    move_in::cases();
    preview::cases();
    no_cases();
}

const FILL: u8 = 0xee;
const KEY: u64 = 0x11223344556677;
const STI: u64 = 0x8899aabbccddee;
const HASH: u64 = 0x0123456789abcdef;
const FILLERS: [u64; 4] = [0xf1a0a1a2a3a4a5a6, 0xf2b0b1b2b3b4b5b6, 0x73c0c1c2c3c4c5c6, 0x74d0d1d2d3d4d5d6];
const TOP: u64 = u64::MAX;

const PLAIN: Facts = Facts { cci: 2, trigger: 0, rights: 7, permits: 14, title_key: KEY, sti_key: STI };
const MOST: Facts = Facts { cci: 3, trigger: 1, rights: 15, permits: 15, title_key: KEY_LIMIT - 1, sti_key: KEY_LIMIT - 1 };
// Past every limit: a writer takes the low bits.
const PAST: Facts = Facts { cci: 0x1fd, trigger: 0x102, rights: 0x11f, permits: 0x2f0, title_key: TOP, sti_key: KEY_LIMIT + 5 };

// One case for each bit of s flipped, byte by byte from the lowest bit.
fn flips(s: &[u8], case: fn(&[u8])) {
    for at in 0..8 * s.len() {
        let mut t = s.to_vec();
        t[at / 8] ^= 1 << (at % 8);
        case(&t);
    }
}

// The front of s in each of these lengths, longer than s by bytes FILL.
fn cuts(s: &[u8], lengths: impl IntoIterator<Item = usize>, case: impl Fn(&[u8])) {
    for n in lengths {
        let mut t = s.to_vec();
        t.resize(n, FILL);
        case(&t);
    }
}

// ---------------------------------------------------------------- numbers

fn number_read(s: &[u8]) {
    let case = Case::new("number", 0x03, &[], s);
    match decode(s) {
        Ok((x, n)) => case.number("done", 0).number("value", x).number("length", n as u64).end(),
        Err(w) => case.number("refused", w).end(),
    }
}

fn number_write(x: u64, room: usize) {
    let mut out = vec![FILL; room];
    let form = encode(x);
    let case = Case::new("write-number", 0x1d, &[x], &out);
    if room < form.len() {
        case.number("refused", 1).bytes("bytes", &out).end();
    } else {
        out[..form.len()].copy_from_slice(&form);
        case.number("done", 0).number("length", form.len() as u64).bytes("bytes", &out).end();
    }
}

// Both sides of each power of 2, of which every seventh is one of 128.
fn sides_of_powers() -> impl Iterator<Item = u64> {
    (0..64).flat_map(|k| [(1 << k) - 1, 1 << k]).chain([TOP])
}

fn number_cases() {
    for x in sides_of_powers() {
        let n = encode(x).len();
        Case::new("length", 0x11, &[x], &[]).number("length", n as u64).end();
        number_write(x, n - 1);
        number_write(x, n);
    }
    for x in [0, 1, 127, 128, 16383, 16384, KEY_LIMIT - 1, KEY_LIMIT, 1 << 63, TOP] {
        let mut form = encode(x);
        let n = form.len();
        for room in [0, n - 1, n, 12] {
            number_write(x, room);
        }
        number_read(&form[..n - 1]);
        form.push(FILL);
        number_read(&form);
    }
    let short: [&[u8]; 7] = [&[0x80], &[0x80, 0], &[0x80, 0x80, 0], &[0xff, 0, 1], &[0], &[0, 0], &[1, 0x80, 0]];
    short.iter().for_each(|s| number_read(s));
    for first in [0xff, 0x80] {
        let nine = vec![first; 9];
        number_read(&nine);
        for tenth in [0x00, 0x01, 0x02, 0x7f, 0x80, 0x81, 0xff] {
            number_read(&[&nine[..], &[tenth]].concat());
            number_read(&[&nine[..], &[tenth, 1, 0]].concat());
        }
    }
}

// Text that is put at a place, where there is room for all of it; else it is left out.
fn text_write_at(word: &str, code: u8, numbers: &[u64], text: &str, room: usize) {
    let place = *numbers.last().unwrap();
    let mut out = vec![FILL; room];
    let case = Case::new(word, code, numbers, &out);
    let mut end = place;
    if place <= room as u64 && text.len() as u64 <= room as u64 - place {
        end += text.len() as u64;
        out[place as usize..end as usize].copy_from_slice(text.as_bytes());
    }
    case.number("end", end).bytes("bytes", &out).end();
}

fn text_cases() {
    for x in [0, 9, 10, 99, 100, 999, 1000, 18432, 9_999_999_999, 10_000_000_000, TOP / 10, TOP] {
        let n = x.to_string().len();
        Case::new("decimal-length", 0x13, &[x], &[]).number("length", n as u64).end();
        for end in [b' ', b'\n'] {
            let text = format!("{x}{}", char::from(end));
            for place in [0, 1, 2, 3, n as u64 + 3, n as u64 + 4, TOP] {
                text_write_at("write-decimal", 0x3a, &[x, u64::from(end), place], &text, n + 3);
            }
            text_write_at("write-decimal", 0x3a, &[x, u64::from(end), 0], &text, 0);
        }
    }
    for place in [0, 1, 2, 3, 8, 9, TOP] {
        text_write_at("write-total", 0x1e, &[place], "total ", 8);
    }
}

fn field_cases() {
    for width in 0..=10 {
        let s: Vec<u8> = (1..=width as u8).map(|i| 0x11 * i).collect();
        Case::new("field", 0x06, &[], &s).number("value", field(&s, 0, 8)).end();
        for x in [HASH, TOP] {
            let out: Vec<u8> = (0..width).rev().map(|i| x.checked_shr(8 * i).unwrap_or(0) as u8).collect();
            Case::new("write-field", 0x1c, &[x], &vec![FILL; width as usize]).bytes("bytes", &out).end();
        }
    }
}

// ---------------------------------------------------------------- halves and entries

fn half(s: &[u8]) {
    Case::new("half", 0x01, &[], s)
        .number("key", key(s))
        .number("flag", flag(s))
        .number("id", id(s))
        .number("usable", usable(s) as u64)
        .number("usable-id", if usable(s) { id(s) } else { 0 })
        .number("cci", cci(s))
        .number("trigger", trigger(s))
        .number("rights", rights(s))
        .number("permits", permits(s))
        .number("hash", hash(s))
        .end();
}

fn flagged(s: &[u8], content: u64) {
    let has = (1..=999).contains(&content) && usable(s) && id(s) == content;
    Case::new("flagged", 0x12, &[content], s).number("flagged", has as u64).end();
}

fn half_cases() {
    let rule = rule_form(PLAIN, HASH, 4);
    flips(&wiped(&[0xff; 16], FILLERS[0]), half);
    flips(&rule, half);
    cuts(&rule, 0..=33, half);
    cuts(&[0xff; 33], 0..=33, half);
    for content in [0, 1, 3, 4, 5, 999, 1000, 1023, 1024 + 4, TOP] {
        for (set, known) in [(1, content), (1, 4), (0, 4), (1, 999), (1, 1000)] {
            let mut s = half_form(2, KEY, known);
            s[8] = 128 * set;
            flagged(&s, content);
        }
        cuts(&half_form(2, KEY, 4), [0, 15, 17, 32], |s| flagged(s, content));
    }
}

// Parts of these lengths before and after a write of `new`, which goes to the front of a part of a length that it takes.
fn writes(word: &str, code: u8, numbers: &[u64], lengths: &[usize], takes: fn(usize) -> bool, new: impl Fn(&[u8]) -> Vec<u8>) {
    cuts(&[0xff; 24], lengths.iter().copied(), |s| {
        let mut out = s.to_vec();
        if takes(s.len()) {
            let new = new(s);
            out[..new.len()].copy_from_slice(&new);
        }
        Case::new(word, code, numbers, s).bytes("bytes", &out).end();
    });
}

fn half_writers() {
    let lengths = [0, 1, 15, 16, 17, 31, 32, 33];
    let fillers = FILLERS;
    writes("wipe-title", 0x18, &fillers[..1], &lengths, |n| n == 16, |s| wiped(s, fillers[0]));
    writes("wipe-half", 0x19, &fillers[..1], &lengths, |n| n >= 16, |s| wiped(s, fillers[0]));
    writes("wipe-rule", 0x48, &fillers, &lengths, |n| n == 32, |s| wiped_rule(s, fillers));
    for (first, key, id) in [(2, KEY, 999), (0, 0, 1), (3, KEY_LIMIT - 1, 512), (0x1fe, TOP, 1024 + 4)] {
        let numbers = [first, key, id];
        writes("write-title", 0x38, &numbers, &lengths, |n| n == 16, |_| half_form(first % 4, key, id));
        writes("write-half", 0x39, &numbers, &lengths, |n| n >= 16, |_| half_form(first, key, id));
    }
    for (facts, hash, id) in [(PLAIN, HASH, 999), (MOST, TOP, 1), (PAST, 0, 0x7ff)] {
        let numbers = [&facts.values()[..], &[hash, id]].concat();
        writes("write-rule", 0x88, &numbers, &lengths, |n| n == 32, |_| rule_form(facts, hash, id));
    }
}

fn entry(title: &[u8], rule: &[u8]) {
    let mut part = title.to_vec();
    part.resize(16, 0);
    part.extend(rule);
    let case = Case::new("entry", 0x22, &[title.len() as u64, rule.len() as u64], &part);
    case.number("kind", kind(title, rule)).facts(entry_facts(title, rule)).end();
}

fn entry_cases() {
    let halves = [(0, 4), (1, 0), (1, 4), (1, 5), (1, 999), (1, 1000), (1, 1023)];
    for (title_flag, title_id) in halves {
        for first in [1, 2, 0xfd] {
            for (rule_flag, rule_id) in halves {
                let mut title = half_form(first, KEY, title_id);
                let mut rule = rule_form(PLAIN, HASH, rule_id);
                title[8] = 128 * title_flag;
                rule[8] = 128 * rule_flag;
                entry(&title, &rule);
            }
        }
    }
    for title_length in [0, 8, 15, 16] {
        cuts(&rule_form(PLAIN, HASH, 4), [0, 15, 16, 17, 18, 26, 31, 32, 33], |rule| {
            entry(&half_form(2, KEY, 4)[..title_length], rule)
        });
    }
    limit_cases();
    short_cases();
    wiped_cases();
}

// IDs at and past the limits of those with which an entry is spent, in halves with either flag. A rule half may end behind its ID.
fn limit_cases() {
    let ids = [0, 1, 999, 1000, 1023];
    let halves: Vec<(u8, u64)> = [0, 1].into_iter().flat_map(|flag| ids.map(|id| (flag, id))).collect();
    for (title_flag, title_id) in &halves {
        for first in [0, 1] {
            for (rule_flag, rule_id) in &halves {
                let mut title = half_form(first, KEY, *title_id);
                let mut rule = half_form(0, STI, *rule_id);
                title[8] = 128 * title_flag;
                rule[8] = 128 * rule_flag;
                entry(&title, &rule);
            }
        }
    }
}

// Title halves with flag 0 that may end inside their ID or before it, beside a rule half that is usable where it is whole.
fn short_cases() {
    for id in [1, 4 + 256, 999] {
        for title_length in [0, 8, 9, 14, 15, 16] {
            for rule_length in [0, 15, 16] {
                entry(&wiped(&half_form(2, KEY, id), FILLERS[0])[..title_length], &half_form(0, STI, 4)[..rule_length]);
            }
        }
    }
}

// What a wipe leaves, and every bit of it behind the key turned.
fn wiped_cases() {
    entry(&wiped(&half_form(2, KEY, 999), FILLERS[0]), &[]);
    for at in 8 * 8..8 * 16 {
        let mut title = wiped(&half_form(2, KEY, 999), FILLERS[0]);
        title[at / 8] ^= 1 << (at % 8);
        entry(&title, &[]);
    }
}

// ---------------------------------------------------------------- heads

const APPLICATION: u64 = 0x12ff;

// A table of this length that has this front and zeros behind it.
fn head(front: &[u8], length: usize, application: u64) {
    let mut table = front.to_vec();
    table.resize(length, 0);
    let case = Case::new("head", 0x21, &[application, length as u64], front)
        .number("ledger", ledger_check(&table))
        .number("application", field(&table, 0, 2))
        .number("rows", field(&table, 2, 2))
        .number("application", field(&table, 8, 2));
    let card = |case: Case, pair: Pair| {
        let rules = rules_check(pair, &table);
        case.number("titles", titles_check(pair, &table))
            .number("rules", rules)
            .number("for", if field(&table, 8, 2) == application { rules } else { 9 })
    };
    PAIRS.into_iter().fold(case, card).end();
}

// A table as it is, with each byte of its head one more, and with each of these versions.
fn changed_heads(front: &[u8], length: usize, versions: &[u8]) {
    head(front, length, APPLICATION);
    for i in 0..front.len() {
        let mut changed = front.to_vec();
        changed[i] = changed[i].wrapping_add(1);
        head(&changed, length, APPLICATION);
    }
    for version in versions {
        let mut changed = front.to_vec();
        changed[3] = *version;
        head(&changed, length, APPLICATION);
    }
}

fn head_cases() {
    changed_heads(&ledger_head(2, APPLICATION), 72, &[]);
    PAIRS.into_iter().for_each(card_head_cases);
    let lengths: [(u64, &[usize]); 6] = [
        (0, &[0, 1, 23, 24, 25, 48]),
        (1, &[0, 1, 23, 24, 47, 48, 49, 72]),
        (2, &[0, 1, 2, 3, 23, 24, 71, 72, 73, 96]),
        (999, &[0, 24, 23976, 23999, 24000, 24001, 24024]),
        (1000, &[24, 24000, 24023, 24024, 24025]),
        (65535, &[0, 24, 24000, 24024]),
    ];
    for (rows, lengths) in lengths {
        lengths.iter().for_each(|n| head(&ledger_head(rows, APPLICATION), *n, APPLICATION));
    }
}

fn card_head_cases(pair: Pair) {
    let (titles, rules) = (titles_head(pair), rules_head(pair, APPLICATION));
    changed_heads(&titles, 16000, &[0x08, 0x09, 0x0a, 0x0b, 0x0c, 0x0d, 0x0e, 0x0f, 0x11, 0x12, 0x90]);
    changed_heads(&rules, 32000, &[0x00, 0x10, 0x12, 0x13, 0x7f, 0x80, 0xff]);
    for length in [0, 1, 9, 13, 14, 16, 24, 15999, 16001, 32000] {
        head(&titles, length, APPLICATION);
    }
    for length in [0, 1, 9, 10, 14, 31, 32, 16000, 31999, 32001] {
        head(&rules, length, APPLICATION);
    }
    for application in [0, 0x12fe, 0x1300, 0xff12, 0xffff, 0x112ff, TOP] {
        head(&rules, 32000, application);
    }
}

// ---------------------------------------------------------------- rows

fn row(s: &[u8]) {
    let case = Case::new("row", 0x02, &[], s);
    match row_state(s) {
        1 => case.number("state", 1).facts(row_facts(s)).end(),
        state => case.number("state", state).end(),
    }
}

fn row_cases() {
    let here = row_form(1, PLAIN);
    for (at, values) in [(0, vec![0, 1, 2, 3, 4, 5, 127, 128, 255]), (1, vec![0, 1, 2, 3, 4, 255]), (2, vec![0, 1, 2, 255])] {
        for value in values {
            let mut s = here.clone();
            s[at] = value;
            row(&s);
        }
    }
    for (at, value) in [(3, 0), (3, 15), (3, 16), (3, 255), (4, 0), (4, 15), (4, 16), (4, 255)] {
        let mut s = here.clone();
        s[at] = value;
        row(&s);
    }
    flips(&here, row);
    for state in [0, 1, 2, 3] {
        cuts(&row_form(state, PLAIN), [0, 1, 5, 22, 23, 25, 48], row);
    }
}

fn row_writers() {
    let lengths = [0, 1, 5, 23, 24, 25, 32];
    for facts in [PLAIN, MOST, PAST] {
        writes("write-here", 0x68, &facts.values(), &lengths, |n| n == 24, |_| row_form(1, facts));
    }
    for state in [0, 1, 2, 3, 0x1ff] {
        writes("write-plain", 0x1a, &[state], &lengths, |n| n == 24, |_| row_form(state as u8, NO_FACTS));
    }
    for permits in [0, 14, 15, 16, 0x1ff] {
        let with = |s: &[u8]| [&s[..4], &[permits as u8], &s[5..]].concat();
        writes("write-permits", 0x1b, &[permits], &lengths, |n| n == 24, with);
    }
}

// ---------------------------------------------------------------- requests

const NAMED: Facts = Facts { cci: 2, trigger: 0, rights: 3, permits: 1, title_key: 5, sti_key: 6 };

// The bytes of a request with these arguments; those of facts, C_HASH and fillers are always the same.
fn request(kind: u64, c: u64, j: u64) -> Vec<u8> {
    let facts = &NAMED.values()[..];
    let (h, f) = (9, [0xf1, 0xf2, 0xf3, 0xf4]);
    match kind {
        1 => form(1, &[&[c], facts].concat()),
        2 => form(2, &[&[c, j], facts, &[h]].concat()),
        3 => form(3, &[c, j]),
        4 => form(4, &[j, f[0]]),
        5 => form(5, &[&[j, h][..], &f].concat()),
        6 => form(6, &[c, j, h]),
        _ => form(7, &[&[j][..], &f].concat()),
    }
}

// What stops the reading: refused with 1 to 6, or no bytes at all.
const FAULTS: [&[u8]; 15] = [
    &[], &[0x80], &[0x80, 0x00], &[0x00], &[0x08], &[0x80, 0x01], &[0x03, 0x00], &[0x03, 0xe8, 0x07], &[0x03, 0x01, 0x00],
    &[0x03, 0x01, 0xe8, 0x07], &[0x03, 0x01, 0x80], &[0x01, 0x02, 0x01], &[0x01, 0x02, 0x02, 0x02], &[0x01, 0x02, 0x02, 0x00, 0x10],
    &[0xff, 0xff, 0xff, 0xff, 0xff, 0xff, 0xff, 0xff, 0xff, 0x02],
];

// "a read request comes with the unread remainder ..; on a refusal the remainder is all of them"
fn remainder(s: &[u8]) {
    let used = parse(s).map_or(0, |(_, _, n)| n);
    Case::new("remainder", 0x04, &[], s).bytes("remainder", &s[used..]).end();
}

// Each argument as long as its limit allows.
fn longest(kind: u64) -> Vec<u8> {
    let facts = &MOST.values()[..];
    match kind {
        1 => form(1, &[&[999], facts].concat()),
        2 => form(2, &[&[999, 999], facts, &[TOP]].concat()),
        3 => form(3, &[999, 999]),
        4 => form(4, &[999, TOP]),
        5 => form(5, &[999, TOP, TOP, TOP, TOP, TOP]),
        6 => form(6, &[999, 999, TOP]),
        _ => form(7, &[999, TOP, TOP, TOP, TOP]),
    }
}

// A request that is read and written again, into room for any and into four bytes.
fn written_again(s: &[u8]) {
    let mut case = Case::new("written-again", 0x08, &[], s);
    match parse(s) {
        Ok((kind, arguments, _)) => {
            for room in [60, 4] {
                let mut out = form(kind, &arguments);
                if out.len() <= room {
                    case = case.number("done", 0).number("length", out.len() as u64);
                    out.resize(room, FILL);
                } else {
                    case = case.number("refused", 1);
                    out = vec![FILL; room];
                }
                case = case.bytes("bytes", &out);
            }
            case.end();
        }
        Err(w) => case.number("refused", w).end(),
    }
}

fn remainder_cases() {
    for kind in 1..=7 {
        written_again(&request(kind, 1, 127));
        written_again(&longest(kind));
        let s = request(kind, 999, 128);
        written_again(&s[..s.len() - 1]);
        remainder(&s[..s.len() - 1]);
        remainder(&s);
        remainder(&[&s[..], &[0]].concat());
        remainder(&[&s[..], &s[..]].concat());
    }
    for fault in FAULTS {
        written_again(fault);
        remainder(fault);
        remainder(&[fault, &[1, 2, 3]].concat());
    }
}

// On a card of audio titles, and on one of pictures.
fn stream(requests: &[u8]) {
    PAIRS.into_iter().for_each(|pair| stream_of(pair, requests));
}

fn stream_of(pair: Pair, requests: &[u8]) {
    let mut shop = Shop::fresh(pair);
    let (stop, lines) = shop.serve(requests);
    let (word, code) = if pair == Pair::Audio { ("stream", 0x05) } else { ("pictures", 0x07) };
    let mut case = Case::new(word, code, &[], requests).number("stop", stop).number("count", lines.len() as u64);
    for i in 0..4 {
        case = case.number("kind", lines.get(i).map_or(99, |line| line.0));
    }
    for i in 0..4 {
        case = case.number("answer", lines.get(i).map_or(99, |line| line.1));
    }
    ["rows", "titles", "rules"].iter().zip(shop.shown()).fold(case, |case, (name, s)| case.bytes(name, &s)).end();
}

// Requests by kind, content ID and entry number.
fn list(calls: &[(u64, u64, u64)]) -> Vec<u8> {
    calls.iter().flat_map(|(kind, c, j)| request(*kind, *c, *j)).collect()
}

fn streams() {
    // The paper's input, with entries that are shown, cut at each byte.
    let paper = [
        0x01, 0x01, 0x02, 0x00, 0x01, 0x01, 0x05, 0x06, 0x03, 0x01, 0x02, 0x03, 0x01, 0x03, 0x06, 0x01, 0x04, 0x00, 0x04, 0x02,
        0x09, 0x06, 0x01, 0x04, 0x00,
    ];
    for n in 0..=paper.len() {
        stream(&paper[..n]);
    }
    // Every call done in one list, and every call refused in one: a refused call stops nothing.
    let done = [
        (1, 1, 0), (2, 2, 1), (3, 1, 2), (4, 0, 2), (6, 1, 2), (5, 0, 2), (5, 0, 1), (3, 2, 3), (6, 1, 4), (7, 0, 3), (7, 0, 4),
    ];
    let refused = [(5, 0, 1), (4, 0, 1), (7, 0, 1), (3, 1, 1), (6, 1, 1), (1, 5, 0), (2, 5, 1), (1, 3, 0)];
    for n in 1..=done.len() {
        stream(&list(&done[..n]));
    }
    stream(&list(&refused));
    // A copy of a title of each CCI: 2 is that of the paper's input.
    for cci in [0, 3] {
        stream(&[&form(1, &[1, cci, 0, 1, 1, 5, 6])[..], &request(3, 1, 2)].concat());
    }
    // Fillers that leave the STI key, of a recorded title that is moved out or deleted.
    let (recorded, key) = (request(2, 2, 1), NAMED.sti_key);
    for f2 in [key, KEY_LIMIT + key, key + 1] {
        stream(&[&recorded[..], &form(5, &[1, 9, 0xf1, f2, 0xf3, 0xf4])].concat());
        stream(&[&recorded[..], &form(7, &[1, 0xf1, f2, 0xf3, 0xf4])].concat());
    }
    // What stops the reading, after a request that is carried out, and with one behind it that is not.
    for fault in FAULTS {
        stream(&[&request(1, 1, 0), fault, &request(3, 1, 1)].concat());
    }
}

// Each call that puts a title to an entry, at one that is spent: by a check-in, move out or delete of another title.
fn spent_streams() {
    let spent: [&[(u64, u64, u64)]; 4] = [
        &[(1, 4, 0), (3, 4, 1), (4, 0, 1)], &[(2, 4, 1), (5, 0, 1)], &[(1, 4, 0), (3, 4, 1), (7, 0, 1)], &[(2, 4, 1), (7, 0, 1)],
    ];
    for before in spent {
        stream(&list(before));
        for put in [&[(2, 3, 1)][..], &[(1, 3, 0), (3, 3, 1)], &[(1, 3, 0), (6, 3, 1)]] {
            stream(&list(&[before, put].concat()));
        }
    }
}

// Lines that are no case: no digits, a code that nothing has, fewer bytes than its numbers have.
fn no_cases() {
    let lines = [
        "", "no digits", "00", "09", "7F", "FF", "1", "11", "12 00", "88 0000000000000000", "29 0000000000000000 0000000000000000",
        "34 0000000000000000 0000000000000000", "36 0000000000000000 0000000000000000 0000000000000000",
    ];
    for line in lines {
        Case { line: line.to_string(), names: String::new(), answer: " ?".to_string() }.end();
    }
}
