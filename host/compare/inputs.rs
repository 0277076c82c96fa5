//! Arguments and tables, chosen by a seeded generator of random numbers.

use crate::calls::{Call, Operation};
use crate::sheet;
use crate::tables::{CardHead, Entry, EntryKind, Facts, LedgerHead, Pair, Row, RowState, RuleHalf, Tables, TitleHalf};
use crate::tables::{KEY_LIMIT, ROW_SIZE, RULE_HALF_SIZE, RULE_TABLE_SIZE, TITLE_HALF_SIZE, TITLE_TABLE_SIZE, VACANT};

/// Random numbers by the splitmix64 rule: the same seed gives the same numbers.
pub struct Random {
    state: u64,
}

impl Random {
    /// Apart for each part and round of a run, so that each can be had alone.
    pub fn new(seed: u64, part: &str, round: u64) -> Self {
        let mut random = Random { state: seed };
        for number in part.bytes().map(u64::from).chain([round]) {
            random.state = random.number() ^ number;
        }
        random
    }

    pub fn number(&mut self) -> u64 {
        self.state = self.state.wrapping_add(0x9e37_79b9_7f4a_7c15);
        let mixed = (self.state ^ self.state >> 30).wrapping_mul(0xbf58_476d_1ce4_e5b9);
        let mixed = (mixed ^ mixed >> 27).wrapping_mul(0x94d0_49bb_1331_11eb);
        mixed ^ mixed >> 31
    }

    pub fn below(&mut self, limit: u64) -> u64 {
        self.number() % limit
    }

    /// From 1 to the last, both included.
    pub fn one_to(&mut self, last: u64) -> u64 {
        1 + self.below(last)
    }

    /// True in so many of a hundred cases.
    pub fn chance(&mut self, percent: u64) -> bool {
        self.below(100) < percent
    }

    pub fn pick<T: Copy>(&mut self, choices: &[T]) -> T {
        choices[self.below(choices.len() as u64) as usize]
    }

    pub fn fill(&mut self, bytes: &mut [u8]) {
        for part in bytes.chunks_mut(8) {
            let number = self.number().to_le_bytes();
            part.copy_from_slice(&number[..part.len()]);
        }
    }

    pub fn bytes(&mut self, length: usize) -> Vec<u8> {
        let mut bytes = vec![0; length];
        self.fill(&mut bytes);
        bytes
    }
}

/// Numbers at and past the limits of arguments, of fields and of machine numbers.
pub const LIMITS: &[u64] = &[
    0, 1, 2, 3, 4, 5, 7, 13, 14, 15, 16, 17, 127, 128, 255, 256, 257, 511, 512, 998, 999, 1000, 1001, 1023, 1024, 1025,
    16_383, 16_384, 32_767, 32_768, 65_535, 65_536, 65_537, 1 << 24, (1 << 32) - 1, 1 << 32, (1 << 32) + 1,
    (1 << 48) - 1, 1 << 48, (1 << 49) - 1, 1 << 49, (1 << 55) - 1, 1 << 55, (1 << 56) - 1, 1 << 56, (1 << 56) + 1, 1 << 57,
    (1 << 63) - 1, 1 << 63, (1 << 63) + 1, u64::MAX - 1, u64::MAX,
];

/// Content IDs at and past the limits of those with which an entry is spent.
pub const STALE_IDS: [u64; 5] = [0, 1, 999, 1000, 1023];

/// Sums with a good argument that would pass if their upper bits were cut off.
pub const CUT_OFF: &[u64] = &[1 << 2, 1 << 4, 1 << 8, 1 << 10, 1 << 16, 1 << 32, 1 << 56, 1 << 63];

/// The call with one argument at or past a limit.
pub fn with_argument_at_limit(random: &mut Random, call: &Call) -> Call {
    let mut arguments = call.arguments();
    let place = random.below(arguments.len() as u64) as usize;
    arguments[place] = match random.below(5) {
        0 => arguments[place].wrapping_add(random.pick(CUT_OFF)),
        _ => random.pick(LIMITS),
    };
    call.with(&arguments)
}

/// The titles and entries that calls on some tables name. Few of them, so that calls meet each other's effects.
pub struct Named {
    pub contents: Vec<u64>,
    pub entries: Vec<u64>,
}

pub fn facts(random: &mut Random) -> Facts {
    Facts {
        cci: random.pick(&[0, 2, 3]),
        trigger: u64::from(random.chance(8)),
        rights: count(random),
        permits: count(random),
        title_key: key(random),
        sti_key: key(random),
    }
}

fn count(random: &mut Random) -> u64 {
    if random.chance(60) { random.pick(&[0, 1, 2, 13, 14, 14, 15, 15]) } else { random.below(16) }
}

/// Some keys come often, so that different titles share them and fillers meet them.
fn key(random: &mut Random) -> u64 {
    if random.chance(30) { random.pick(&[0, 1, 5, KEY_LIMIT - 1]) } else { random.number() % KEY_LIMIT }
}

/// A filler that mostly does, and else is the key, its top byte aside, or the key but for one bit.
fn filler(random: &mut Random, key: u64) -> u64 {
    match random.below(20) {
        0 => key,
        1 => key + KEY_LIMIT * random.below(256),
        2 => key ^ 1 << random.below(64),
        3 => random.pick(LIMITS),
        _ => random.number(),
    }
}

/// A hash that is mostly the stored one, and else has one bit changed, or is any.
fn hash(random: &mut Random, stored: u64) -> u64 {
    match random.below(20) {
        0 => stored ^ 1 << random.below(64),
        1 => random.number(),
        2 => random.pick(LIMITS),
        _ => stored,
    }
}

/// One of the choices that passes, if a few tries find one; now and then any.
fn likely(random: &mut Random, choices: &[u64], passes: impl Fn(u64) -> bool) -> u64 {
    let tries = if random.chance(92) { 12 } else { 1 };
    let mut choice = random.pick(choices);
    for _ in 1..tries {
        if passes(choice) {
            break;
        }
        choice = random.pick(choices);
    }
    choice
}

fn content_in_state(random: &mut Random, tables: &Tables, named: &Named, state: RowState) -> u64 {
    likely(random, &named.contents, |c| tables.row(c).is_some_and(|row| row.state() == state))
}

fn entry_of_kind(random: &mut Random, tables: &Tables, named: &Named, kinds: &[EntryKind]) -> u64 {
    likely(random, &named.entries, |j| tables.entry(j).is_some_and(|entry| kinds.contains(&entry.kind())))
}

fn fillers(random: &mut Random, found: Option<Entry>) -> [u64; 4] {
    let (title_key, sti_key) = found.map_or((0, 0), |entry| (entry.title.title_key, entry.rule.sti_key));
    [filler(random, title_key), filler(random, sti_key), random.number(), random.number()]
}

/// Room in which the sheet of these tables just fits or does not, or any more.
fn room_for_sheet(random: &mut Random, tables: &Tables) -> u64 {
    let needed = sheet::text(tables).len() as u64;
    let (less, more) = (random.below(needed), random.below(sheet::MOST_TEXT as u64));
    random.pick(&[needed, needed, needed - 1, needed + 1, 0, less, needed + more])
}

/// A call of this operation that these tables are likely to allow.
pub fn likely_call(random: &mut Random, tables: &Tables, named: &Named, operation: Operation) -> Call {
    use EntryKind::{Copy, Full};
    let content = match operation {
        Operation::Register | Operation::Record => content_in_state(random, tables, named, RowState::Empty),
        Operation::CheckOut | Operation::MoveIn => content_in_state(random, tables, named, RowState::Here),
        _ => random.pick(&named.contents),
    };
    let entry = match operation {
        Operation::CheckIn => entry_of_kind(random, tables, named, &[Copy]),
        Operation::MoveOut => entry_of_kind(random, tables, named, &[Full]),
        Operation::Delete => entry_of_kind(random, tables, named, &[Copy, Full]),
        Operation::InspectEntry | Operation::FirstVacant => random.pick(&named.entries),
        _ => entry_of_kind(random, tables, named, &VACANT),
    };
    let found = tables.entry(entry);
    let application = random.number() as u16;
    match operation {
        Operation::Register => Call::Register { content, facts: facts(random) },
        Operation::Record => Call::Record { content, entry, facts: facts(random), hash: random.number() },
        Operation::CheckOut => Call::CheckOut { content, entry },
        Operation::CheckIn => Call::CheckIn { entry, f1: fillers(random, found)[0] },
        Operation::MoveOut => {
            let hash = hash(random, found.map_or(0, |entry| entry.rule.hash));
            Call::MoveOut { entry, hash, fillers: fillers(random, found) }
        }
        Operation::MoveIn => Call::MoveIn { content, entry, hash: random.number() },
        Operation::Delete => Call::Delete { entry, fillers: fillers(random, found) },
        Operation::Tally => Call::Tally { content },
        Operation::InspectEntry => Call::InspectEntry { entry },
        Operation::InspectRow => Call::InspectRow { content },
        Operation::InspectTitle => Call::InspectTitle { content },
        Operation::FirstVacant => Call::FirstVacant { from: entry },
        Operation::Sheet => Call::Sheet { room: room_for_sheet(random, tables) },
        Operation::FormatLedger => {
            Call::FormatLedger { rows: (tables.ledger.len() as u64 / 24).saturating_sub(1), application }
        }
        Operation::FormatCard => Call::FormatCard { application },
    }
}

/// Whether row and entry are as the call needs them. Nothing else that may refuse the call is looked at.
fn fits(tables: &Tables, call: &Call) -> bool {
    let row_is = |content, state| tables.row(content).is_some_and(|row| row.state() == state);
    let entry_is = |entry, kinds: &[EntryKind]| tables.entry(entry).is_some_and(|found| kinds.contains(&found.kind()));
    match *call {
        Call::Register { content, .. } => row_is(content, RowState::Empty),
        Call::Record { content, entry, .. } => row_is(content, RowState::Empty) && entry_is(entry, &VACANT),
        Call::CheckOut { content, entry } => row_is(content, RowState::Here) && entry_is(entry, &VACANT),
        Call::CheckIn { entry, .. } => entry_is(entry, &[EntryKind::Copy]),
        Call::MoveOut { entry, .. } => entry_is(entry, &[EntryKind::Full]),
        Call::MoveIn { content, entry, .. } => row_is(content, RowState::Here) && entry_is(entry, &VACANT),
        Call::Delete { entry, .. } => !entry_is(entry, &VACANT),
        Call::Tally { .. } | Call::InspectEntry { .. } | Call::InspectRow { .. } | Call::InspectTitle { .. } => true,
        Call::FirstVacant { .. } | Call::Sheet { .. } | Call::FormatLedger { .. } | Call::FormatCard { .. } => true,
    }
}

/// Often there is no row or entry for an operation. Others are then tried before a call is made that will be refused.
pub fn fitting_call(random: &mut Random, tables: &Tables, named: &Named, often: &[Operation]) -> Call {
    let mut tries = random.pick(&[0, 2, 4, 8]);
    loop {
        let operation = random.pick(often);
        let call = likely_call(random, tables, named, operation);
        if tries == 0 || fits(tables, &call) {
            return call;
        }
        tries -= 1;
    }
}

/// A fresh ledger and card, by structures, with no call made. Title table and rule table have a pair each.
pub fn fresh_tables(pairs: [Pair; 2], rows: u64, application: u16, card_application: u16) -> Tables {
    let mut tables = Tables {
        ledger: vec![0; ROW_SIZE * (rows as usize + 1)],
        titles: vec![0; TITLE_TABLE_SIZE],
        rules: vec![0; RULE_TABLE_SIZE],
    };
    LedgerHead::fresh(rows, application).write(&mut tables.ledger[..ROW_SIZE]);
    CardHead::fresh_titles(pairs[0]).write(&mut tables.titles[..TITLE_HALF_SIZE]);
    CardHead::fresh_rules(pairs[1], card_application).write(&mut tables.rules[..RULE_HALF_SIZE]);
    tables
}

pub fn number_of_rows(random: &mut Random) -> u64 {
    match random.below(10) {
        0 => 999,
        1 => random.one_to(999),
        2 => random.pick(&[1, 2, 255, 256, 998]),
        _ => random.one_to(24),
    }
}

/// A few titles of the first rows, with now and then one above R, and a few entries.
pub fn named(random: &mut Random, rows: u64) -> Named {
    let mut contents: Vec<u64> = (0..random.one_to(10)).map(|_| random.one_to(rows)).collect();
    if random.chance(30) {
        contents.push((rows + random.one_to(3)).min(999));
    }
    let mut entries = vec![random.pick(&[1, 2, 998, 999])];
    for _ in 0..random.one_to(8) {
        entries.push(random.one_to(999));
    }
    Named { contents, entries }
}

/// Tables that no list of calls need have left: rows and entries of all kinds that do not fit each other, ignored and
/// reserved bits set, and sometimes heads, pairs or lengths that are wrong.
pub fn varied_tables(random: &mut Random, pair: Pair) -> (Tables, Named) {
    let rows = number_of_rows(random);
    let application = random.number() as u16;
    let pairs = [(); 2].map(|()| if random.chance(96) { pair } else { pair.other() });
    let mut tables = fresh_tables(pairs, rows, application, application);
    let named = named(random, rows);
    if random.chance(50) {
        vary_heads(random, &mut tables);
    }
    if random.chance(30) {
        fill_behind_heads(random, &mut tables, &named);
    }
    for content in named.contents.iter().filter(|c| **c <= rows) {
        let mut bytes = random_row(random);
        if random.chance(4) {
            random.fill(&mut bytes);
        }
        let start = ROW_SIZE * *content as usize;
        tables.ledger[start..start + ROW_SIZE].copy_from_slice(&bytes);
    }
    for entry in &named.entries {
        put_random_entry(random, &mut tables, &named, *entry);
    }
    let damages = random.pick(&[0, 0, 0, 0, 0, 0, 1, 1, 2, 3]);
    (0..damages).for_each(|_| damage(random, &mut tables));
    (tables, named)
}

/// Ignored bytes of the heads, and the versions that are no error.
fn vary_heads(random: &mut Random, tables: &mut Tables) {
    random.fill(&mut tables.ledger[4..24]);
    random.fill(&mut tables.titles[2..3]);
    tables.titles[3] = random.pick(&[0x09, 0x10]);
    random.fill(&mut tables.titles[14..16]);
    random.fill(&mut tables.rules[2..3]);
    tables.rules[3] = random.pick(&[0x11, 0x12, 0x13, 0x7f, 0x80, 0xff]);
    random.fill(&mut tables.rules[14..32]);
}

/// Every row and entry: of random bytes, or of the kinds that calls meet.
fn fill_behind_heads(random: &mut Random, tables: &mut Tables, named: &Named) {
    if random.chance(50) {
        random.fill(&mut tables.ledger[24..]);
        random.fill(&mut tables.titles[16..]);
        random.fill(&mut tables.rules[32..]);
        return;
    }
    for row in tables.ledger[24..].chunks_mut(ROW_SIZE) {
        row.copy_from_slice(&random_row(random));
    }
    for entry in 1..1000 {
        put_random_entry(random, tables, named, entry);
    }
}

fn random_row(random: &mut Random) -> [u8; ROW_SIZE] {
    let row = match random.below(16) {
        0..=3 => Row::empty(),
        4..=10 => Row::here(facts(random)),
        11..=13 => Row::away(),
        14 => Row::gone(),
        _ => Row { first_byte: random.number() as u8, ..Row::here(facts(random)) },
    };
    let mut bytes = [0; ROW_SIZE];
    row.write(&mut bytes);
    // Bytes that reading ignores.
    if random.chance(30) {
        [5, 6, 7, 15, 23].iter().for_each(|place| bytes[*place] = random.number() as u8);
    }
    // Facts out of range, or facts left behind in a row that is not here.
    if random.chance(10) {
        let place = 1 + random.below(4) as usize;
        bytes[place] = random.pick(LIMITS) as u8;
    }
    bytes
}

/// Halves at this entry, of all kinds, of named titles mostly.
pub fn put_random_entry(random: &mut Random, tables: &mut Tables, named: &Named, entry: u64) {
    let facts = facts(random);
    let content = random.pick(&named.contents);
    let mut title = TitleHalf::written(&facts, content);
    let mut rule = RuleHalf::written(&facts, content, random.number());
    match random.below(13) {
        0 => rule = RuleHalf::read(&[0; RULE_HALF_SIZE]),
        1..=3 => rule.place.flag = false,
        4..=6 => (),
        7 => (title, rule) = (TitleHalf::read(&[0; TITLE_HALF_SIZE]), RuleHalf::read(&[0; RULE_HALF_SIZE])),
        8 => (title.place.flag, rule.place.flag) = (false, false),
        9 => title.place.flag = false,
        10 => rule.place.content_id = random.pick(&named.contents),
        11 => {
            (title.place.flag, title.place.content_id) = (false, random.pick(&STALE_IDS));
            rule.place.flag = random.chance(30);
        }
        _ => (title.place.content_id, rule.place.content_id) = (random.pick(&[0, content]), 0),
    }
    if random.chance(15) {
        title.cci = random.below(4);
        let (around_last, any) = (998 + random.below(26), random.below(1024));
        let id = random.pick(&[0, 1, 512, around_last, around_last, any]);
        (if random.chance(50) { &mut title.place } else { &mut rule.place }).content_id = id;
    }
    if random.chance(30) {
        set_reserved_bits(random, &mut title, &mut rule);
    }
    tables.put_title_half(entry, &title);
    tables.put_rule_half(entry, &rule);
}

fn set_reserved_bits(random: &mut Random, title: &mut TitleHalf, rule: &mut RuleHalf) {
    title.reserved_before_cci = random.number() as u8 / 4;
    rule.reserved_before_key = random.number() as u8;
    rule.reserved_after_trigger = random.number() as u8 / 2;
    rule.reserved_after_hash = random.number() >> 16;
    for place in [&mut title.place, &mut rule.place] {
        place.reserved_after_flag = random.number() as u8 / 2;
        random.fill(&mut place.reserved_bytes);
        place.reserved_before_id = random.number() as u8 / 4;
    }
}

/// A wrong length, random bytes throughout, another version or application number, or any wrong byte in a head.
fn damage(random: &mut Random, tables: &mut Tables) {
    const VERSIONS: [u8; 11] = [0, 1, 8, 9, 0x0a, 0x0f, 0x10, 0x11, 0x12, 0x13, 0xff];
    let which = random.below(3) as usize;
    let buffer = tables.buffer(which);
    let any_place = random.below([ROW_SIZE, TITLE_HALF_SIZE, RULE_HALF_SIZE][which] as u64) as usize;
    let place_of_application = [0, 8, 8][which] + random.below(2) as usize;
    match random.below(8) {
        0 => resize(random, buffer),
        1 => random.fill(buffer),
        2 | 3 => change(buffer, 3, |_| random.pick(&VERSIONS)),
        4 | 5 => change(buffer, place_of_application, |byte| byte ^ 1 << random.below(8)),
        _ => change(buffer, any_place, |_| random.number() as u8),
    }
}

fn resize(random: &mut Random, buffer: &mut Vec<u8>) {
    let length = random.pick(&wrong_lengths(buffer.len()));
    buffer.resize(length, 0);
}

/// Changes a byte, if the buffer is long enough to have it.
fn change(buffer: &mut [u8], place: usize, new: impl FnOnce(u8) -> u8) {
    if let Some(byte) = buffer.get_mut(place) {
        *byte = new(*byte);
    }
}

/// Lengths that are wrong for a buffer of this length.
pub fn wrong_lengths(length: usize) -> Vec<usize> {
    let near = [0, 1, 2, 3, 4, 8, 14, 15, 16, 17, 23, 24, 25, 31, 32, 33, length / 2, length + 1, length + 16, length + 24];
    let below = [1, 16, 24, 32].map(|less| length.saturating_sub(less));
    let all = near.into_iter().chain(below).chain([length + 32, 2 * length]);
    all.filter(|other| *other != length).collect()
}
