//! Ledger, title table and rule table as structures. Every bit has a field, the reserved and the ignored ones too, so that
//! a structure written back gives every byte of its place in the table.

use std::collections::HashMap;

pub const LAST_ENTRY: u64 = 999;
pub const MOST_ROWS: u64 = 999;
pub const TITLE_HALF_SIZE: usize = 16;
pub const RULE_HALF_SIZE: usize = 32;
pub const ROW_SIZE: usize = 24;
pub const TITLE_TABLE_SIZE: usize = 16_000;
pub const RULE_TABLE_SIZE: usize = 32_000;

/// Permits or rights that are not counted down.
pub const UNLIMITED: u64 = 15;
/// Keys are below this.
pub const KEY_LIMIT: u64 = 1 << 56;

/// A field of several bytes, the most significant first.
fn number(bytes: &[u8]) -> u64 {
    bytes.iter().fold(0, |higher, byte| higher << 8 | u64::from(*byte))
}

/// The low bytes of a number, as many as there are places, the most significant first.
fn put_number(bytes: &mut [u8], mut value: u64) {
    for byte in bytes.iter_mut().rev() {
        *byte = value as u8;
        value >>= 8;
    }
}

#[derive(Clone, Copy, Debug, PartialEq)]
pub struct Facts {
    pub cci: u64,
    pub trigger: u64,
    pub rights: u64,
    pub permits: u64,
    pub title_key: u64,
    pub sti_key: u64,
}

impl Facts {
    pub const NONE: Facts = Facts { cci: 0, trigger: 0, rights: 0, permits: 0, title_key: 0, sti_key: 0 };

    /// In the order in which a register takes them.
    pub fn listed(&self) -> [u64; 6] {
        [self.cci, self.trigger, self.rights, self.permits, self.title_key, self.sti_key]
    }

    pub fn in_range(&self) -> bool {
        [0, 2, 3].contains(&self.cci)
            && self.trigger <= 1
            && self.rights <= 15
            && self.permits <= 15
            && self.title_key < KEY_LIMIT
            && self.sti_key < KEY_LIMIT
    }
}

/// Bytes 8 to 15 of a half, the same in both tables.
#[derive(Clone, Copy, Debug, PartialEq)]
pub struct FlagAndContentId {
    pub flag: bool,
    pub reserved_after_flag: u8,
    pub reserved_bytes: [u8; 5],
    pub reserved_before_id: u8,
    pub content_id: u64,
}

impl FlagAndContentId {
    fn read(bytes: &[u8]) -> Self {
        FlagAndContentId {
            flag: bytes[0] >= 128,
            reserved_after_flag: bytes[0] % 128,
            reserved_bytes: bytes[1..6].try_into().unwrap(),
            reserved_before_id: bytes[6] / 4,
            content_id: number(&bytes[6..8]) % 1024,
        }
    }

    fn write(&self, bytes: &mut [u8]) {
        bytes[0] = u8::from(self.flag) * 128 + self.reserved_after_flag;
        bytes[1..6].copy_from_slice(&self.reserved_bytes);
        put_number(&mut bytes[6..8], u64::from(self.reserved_before_id) * 1024 + self.content_id);
    }

    /// Of a written half: flag 1, and all reserved bits 0.
    pub fn written(content_id: u64) -> Self {
        let reserved_bytes = [0; 5];
        FlagAndContentId { flag: true, reserved_after_flag: 0, reserved_bytes, reserved_before_id: 0, content_id }
    }

    pub fn usable(&self) -> bool {
        self.flag && self.content_id != 0
    }

    /// "flag 0 and an ID from 1 to 999", as the title half of a spent entry has them.
    fn stale(&self) -> bool {
        !self.flag && (1..=999).contains(&self.content_id)
    }
}

/// An entry's part of the title table.
#[derive(Clone, Copy, Debug, PartialEq)]
pub struct TitleHalf {
    pub reserved_before_cci: u8,
    pub cci: u64,
    pub title_key: u64,
    pub place: FlagAndContentId,
}

impl TitleHalf {
    pub fn read(bytes: &[u8]) -> Self {
        TitleHalf {
            reserved_before_cci: bytes[0] / 4,
            cci: u64::from(bytes[0] % 4),
            title_key: number(&bytes[1..8]),
            place: FlagAndContentId::read(&bytes[8..16]),
        }
    }

    pub fn write(&self, bytes: &mut [u8]) {
        bytes[0] = self.reserved_before_cci * 4 + self.cci as u8;
        put_number(&mut bytes[1..8], self.title_key);
        self.place.write(&mut bytes[8..16]);
    }

    pub fn written(facts: &Facts, content_id: u64) -> Self {
        let place = FlagAndContentId::written(content_id);
        TitleHalf { reserved_before_cci: 0, cci: facts.cci, title_key: facts.title_key, place }
    }

    /// Bytes 0 to 7 are the filler's, so the reserved bits before the CCI are too.
    pub fn wipe(&mut self, f1: u64) {
        let first_byte = (f1 / KEY_LIMIT) as u8;
        self.reserved_before_cci = first_byte / 4;
        self.cci = u64::from(first_byte % 4);
        self.title_key = f1 % KEY_LIMIT;
        self.place.flag = false;
    }
}

/// An entry's part of the rule table.
#[derive(Clone, Copy, Debug, PartialEq)]
pub struct RuleHalf {
    pub reserved_before_key: u8,
    pub sti_key: u64,
    pub place: FlagAndContentId,
    pub trigger: u64,
    pub reserved_after_trigger: u8,
    pub rights: u64,
    pub permits: u64,
    pub hash: u64,
    pub reserved_after_hash: u64,
}

impl RuleHalf {
    pub fn read(bytes: &[u8]) -> Self {
        RuleHalf {
            reserved_before_key: bytes[0],
            sti_key: number(&bytes[1..8]),
            place: FlagAndContentId::read(&bytes[8..16]),
            trigger: u64::from(bytes[16] / 128),
            reserved_after_trigger: bytes[16] % 128,
            rights: u64::from(bytes[17] / 16),
            permits: u64::from(bytes[17] % 16),
            hash: number(&bytes[18..26]),
            reserved_after_hash: number(&bytes[26..32]),
        }
    }

    pub fn write(&self, bytes: &mut [u8]) {
        bytes[0] = self.reserved_before_key;
        put_number(&mut bytes[1..8], self.sti_key);
        self.place.write(&mut bytes[8..16]);
        bytes[16] = self.trigger as u8 * 128 + self.reserved_after_trigger;
        bytes[17] = self.rights as u8 * 16 + self.permits as u8;
        put_number(&mut bytes[18..26], self.hash);
        put_number(&mut bytes[26..32], self.reserved_after_hash);
    }

    pub fn written(facts: &Facts, content_id: u64, hash: u64) -> Self {
        RuleHalf {
            reserved_before_key: 0,
            sti_key: facts.sti_key,
            place: FlagAndContentId::written(content_id),
            trigger: facts.trigger,
            reserved_after_trigger: 0,
            rights: facts.rights,
            permits: facts.permits,
            hash,
            reserved_after_hash: 0,
        }
    }

    /// The third filler covers the first six bytes of the hash, and the fourth its last two.
    pub fn wipe(&mut self, f2: u64, f3: u64, f4: u64) {
        self.reserved_before_key = (f2 / KEY_LIMIT) as u8;
        self.sti_key = f2 % KEY_LIMIT;
        self.place.flag = false;
        self.trigger = f3 >> 63;
        self.reserved_after_trigger = (f3 >> 56) as u8 % 128;
        self.rights = (f3 >> 52) % 16;
        self.permits = (f3 >> 48) % 16;
        self.hash = f3 << 16 | f4 >> 48;
        self.reserved_after_hash = f4 % (1 << 48);
    }
}

/// The kinds of an entry, with the numbers by which an inspection tells them.
#[derive(Clone, Copy, Debug, PartialEq)]
pub enum EntryKind {
    Free = 0,
    Copy = 1,
    Full = 2,
    Torn = 3,
    Spent = 4,
}

/// "Calls that needed a free entry accept free or spent"
pub const VACANT: [EntryKind; 2] = [EntryKind::Free, EntryKind::Spent];

#[derive(Clone, Copy, Debug, PartialEq)]
pub struct Entry {
    pub title: TitleHalf,
    pub rule: RuleHalf,
}

impl Entry {
    pub fn kind(&self) -> EntryKind {
        let (title, rule) = (&self.title.place, &self.rule.place);
        let wrong_title = title.usable() && (title.content_id > 999 || self.title.cci == 1);
        let wrong_rule = rule.usable() && rule.content_id > 999;
        match (title.usable(), rule.usable()) {
            _ if wrong_title || wrong_rule => EntryKind::Torn,
            (false, false) if title.stale() => EntryKind::Spent,
            (false, false) => EntryKind::Free,
            (true, false) => EntryKind::Copy,
            (true, true) if title.content_id == rule.content_id => EntryKind::Full,
            _ => EntryKind::Torn,
        }
    }

    pub fn content_id(&self) -> u64 {
        self.title.place.content_id
    }

    /// What a full entry says of its title.
    pub fn facts(&self) -> Facts {
        Facts {
            cci: self.title.cci,
            trigger: self.rule.trigger,
            rights: self.rule.rights,
            permits: self.rule.permits,
            title_key: self.title.title_key,
            sti_key: self.rule.sti_key,
        }
    }
}

/// The states of a row, with the numbers by which an inspection tells them.
#[derive(Clone, Copy, Debug, PartialEq)]
pub enum RowState {
    Empty = 0,
    Here = 1,
    Away = 2,
    Gone = 3,
    NoState = 4,
}

/// A row of the ledger, with the bytes that are written as zero and not looked at.
#[derive(Clone, Copy, Debug, PartialEq)]
pub struct Row {
    pub first_byte: u8,
    pub facts: Facts,
    pub zero_after_permits: [u8; 3],
    pub zero_after_title_key: u8,
    pub zero_after_sti_key: u8,
}

impl Row {
    pub fn read(bytes: &[u8]) -> Self {
        Row {
            first_byte: bytes[0],
            facts: Facts {
                cci: u64::from(bytes[1]),
                trigger: u64::from(bytes[2]),
                rights: u64::from(bytes[3]),
                permits: u64::from(bytes[4]),
                title_key: number(&bytes[8..15]),
                sti_key: number(&bytes[16..23]),
            },
            zero_after_permits: bytes[5..8].try_into().unwrap(),
            zero_after_title_key: bytes[15],
            zero_after_sti_key: bytes[23],
        }
    }

    pub fn write(&self, bytes: &mut [u8]) {
        bytes[0] = self.first_byte;
        bytes[1] = self.facts.cci as u8;
        bytes[2] = self.facts.trigger as u8;
        bytes[3] = self.facts.rights as u8;
        bytes[4] = self.facts.permits as u8;
        bytes[5..8].copy_from_slice(&self.zero_after_permits);
        put_number(&mut bytes[8..15], self.facts.title_key);
        bytes[15] = self.zero_after_title_key;
        put_number(&mut bytes[16..23], self.facts.sti_key);
        bytes[23] = self.zero_after_sti_key;
    }

    fn written(first_byte: u8, facts: Facts) -> Self {
        Row { first_byte, facts, zero_after_permits: [0; 3], zero_after_title_key: 0, zero_after_sti_key: 0 }
    }

    pub fn here(facts: Facts) -> Self {
        Row::written(1, facts)
    }

    pub fn empty() -> Self {
        Row::without_facts(0)
    }

    pub fn away() -> Self {
        Row::without_facts(2)
    }

    pub fn gone() -> Self {
        Row::without_facts(3)
    }

    fn without_facts(first_byte: u8) -> Self {
        Row::written(first_byte, Facts::NONE)
    }

    pub fn state(&self) -> RowState {
        match self.first_byte {
            0 => RowState::Empty,
            1 if self.facts.in_range() => RowState::Here,
            2 => RowState::Away,
            3 => RowState::Gone,
            _ => RowState::NoState,
        }
    }
}

#[derive(Clone, Copy, Debug, PartialEq)]
pub struct LedgerHead {
    pub application: u16,
    pub rows: u64,
    pub ignored: [u8; 20],
}

impl LedgerHead {
    pub fn read(bytes: &[u8]) -> Self {
        LedgerHead {
            application: number(&bytes[0..2]) as u16,
            rows: number(&bytes[2..4]),
            ignored: bytes[4..24].try_into().unwrap(),
        }
    }

    pub fn write(&self, bytes: &mut [u8]) {
        put_number(&mut bytes[0..2], u64::from(self.application));
        put_number(&mut bytes[2..4], self.rows);
        bytes[4..24].copy_from_slice(&self.ignored);
    }

    pub fn fresh(rows: u64, application: u16) -> Self {
        LedgerHead { application, rows, ignored: [0; 20] }
    }
}

/// What a card's title table and rule table are for. Only the letters in their heads tell it.
#[derive(Clone, Copy, Debug, PartialEq)]
pub enum Pair {
    Audio,
    Picture,
}

pub const PAIRS: [Pair; 2] = [Pair::Audio, Pair::Picture];

impl Pair {
    pub fn other(self) -> Self {
        match self {
            Pair::Audio => Pair::Picture,
            Pair::Picture => Pair::Audio,
        }
    }

    fn title_letters(self) -> [u8; 2] {
        match self {
            Pair::Audio => *b"A1",
            Pair::Picture => *b"P1",
        }
    }

    fn rule_letters(self) -> [u8; 2] {
        match self {
            Pair::Audio => *b"M1",
            Pair::Picture => *b"P1",
        }
    }
}

/// The two card tables have heads of one plan: letters, version, size, application number (zero in the title table), count
/// of entries, size of an entry, and a last number.
#[derive(Clone, Copy, Debug, PartialEq)]
pub struct CardHead {
    pub letters: [u8; 2],
    pub ignored_before_version: u8,
    pub version: u8,
    pub size: u64,
    pub application: u16,
    pub entries: u64,
    pub entry_size: u8,
    pub last_number: u8,
    pub ignored_bytes: [u8; 18],
}

impl CardHead {
    /// From 16 bytes in the title table, 32 in the rule table.
    pub fn read(bytes: &[u8]) -> Self {
        let mut ignored_bytes = [0; 18];
        ignored_bytes[..bytes.len() - 14].copy_from_slice(&bytes[14..]);
        CardHead {
            letters: [bytes[0], bytes[1]],
            ignored_before_version: bytes[2],
            version: bytes[3],
            size: number(&bytes[4..8]),
            application: number(&bytes[8..10]) as u16,
            entries: number(&bytes[10..12]),
            entry_size: bytes[12],
            last_number: bytes[13],
            ignored_bytes,
        }
    }

    pub fn write(&self, bytes: &mut [u8]) {
        bytes[0..2].copy_from_slice(&self.letters);
        bytes[2] = self.ignored_before_version;
        bytes[3] = self.version;
        put_number(&mut bytes[4..8], self.size);
        put_number(&mut bytes[8..10], u64::from(self.application));
        put_number(&mut bytes[10..12], self.entries);
        bytes[12] = self.entry_size;
        bytes[13] = self.last_number;
        let ignored = bytes.len() - 14;
        bytes[14..].copy_from_slice(&self.ignored_bytes[..ignored]);
    }

    pub fn fresh_titles(pair: Pair) -> Self {
        CardHead {
            letters: pair.title_letters(),
            ignored_before_version: 0,
            version: 0x10,
            size: 16_000,
            application: 0,
            entries: 999,
            entry_size: 16,
            last_number: 1,
            ignored_bytes: [0; 18],
        }
    }

    pub fn fresh_rules(pair: Pair, application: u16) -> Self {
        CardHead {
            letters: pair.rule_letters(),
            ignored_before_version: 0,
            version: 0x11,
            size: 32_000,
            application,
            entries: 999,
            entry_size: 32,
            last_number: 2,
            ignored_bytes: [0; 18],
        }
    }

    pub fn right_for_titles(&self, pair: Pair) -> bool {
        self.letters == pair.title_letters()
            && (self.version == 0x09 || self.version == 0x10)
            && self.size == 16_000
            && self.application == 0
            && self.entries == 999
            && self.entry_size == 16
            && self.last_number == 1
    }

    /// All but the application number, which only a call with a ledger can test.
    pub fn right_for_rules(&self, pair: Pair) -> bool {
        self.letters == pair.rule_letters()
            && self.version >= 0x11
            && self.size == 32_000
            && self.entries == 999
            && self.entry_size == 32
            && self.last_number == 2
    }
}

/// What a card has of one content ID: the CCI of each copy, and what its full entries say, in their order.
#[derive(Clone, Default)]
pub struct OnCard {
    pub copies: Vec<u64>,
    pub full: Vec<Facts>,
}

/// The three buffers of a call.
#[derive(Clone, Debug, PartialEq)]
pub struct Tables {
    pub ledger: Vec<u8>,
    pub titles: Vec<u8>,
    pub rules: Vec<u8>,
}

impl Tables {
    /// Ledger, title table and rule table by number, from 0.
    pub fn buffer(&mut self, number: usize) -> &mut Vec<u8> {
        [&mut self.ledger, &mut self.titles, &mut self.rules][number]
    }

    pub fn lengths(&self) -> [usize; 3] {
        [&self.ledger, &self.titles, &self.rules].map(Vec::len)
    }

    /// The head of a ledger whose length and head are right.
    pub fn ledger_head(&self) -> Option<LedgerHead> {
        let head = LedgerHead::read(self.ledger.get(..ROW_SIZE)?);
        let right = (1..=MOST_ROWS).contains(&head.rows) && self.ledger.len() as u64 == 24 * (head.rows + 1);
        right.then_some(head)
    }

    pub fn title_head(&self, pair: Pair) -> Option<CardHead> {
        let head = CardHead::read(self.titles.get(..TITLE_HALF_SIZE)?);
        (self.titles.len() == TITLE_TABLE_SIZE && head.right_for_titles(pair)).then_some(head)
    }

    pub fn rule_head(&self, pair: Pair) -> Option<CardHead> {
        let head = CardHead::read(self.rules.get(..RULE_HALF_SIZE)?);
        (self.rules.len() == RULE_TABLE_SIZE && head.right_for_rules(pair)).then_some(head)
    }

    /// Row c, where the ledger has one.
    pub fn row(&self, content_id: u64) -> Option<Row> {
        let start = ROW_SIZE * usize::try_from(content_id).ok().filter(|c| (1..=999).contains(c))?;
        self.ledger.get(start..start + ROW_SIZE).map(Row::read)
    }

    pub fn put_row(&mut self, content_id: u64, row: &Row) {
        let start = ROW_SIZE * content_id as usize;
        row.write(&mut self.ledger[start..start + ROW_SIZE]);
    }

    /// Entry j, where both tables have its part.
    pub fn entry(&self, entry: u64) -> Option<Entry> {
        let place = usize::try_from(entry).ok().filter(|j| (1..=999).contains(j))?;
        let title = self.titles.get(place * TITLE_HALF_SIZE..(place + 1) * TITLE_HALF_SIZE)?;
        let rule = self.rules.get(place * RULE_HALF_SIZE..(place + 1) * RULE_HALF_SIZE)?;
        Some(Entry { title: TitleHalf::read(title), rule: RuleHalf::read(rule) })
    }

    pub fn put_title_half(&mut self, entry: u64, half: &TitleHalf) {
        let start = TITLE_HALF_SIZE * entry as usize;
        half.write(&mut self.titles[start..start + TITLE_HALF_SIZE]);
    }

    pub fn put_rule_half(&mut self, entry: u64, half: &RuleHalf) {
        let start = RULE_HALF_SIZE * entry as usize;
        half.write(&mut self.rules[start..start + RULE_HALF_SIZE]);
    }

    /// The entries whose title half passes this, by their numbers and in their order. The others, mostly most of a card, need not be
    /// read.
    fn entries_by_title(&self, passes: fn(&FlagAndContentId) -> bool) -> impl Iterator<Item = (u64, Entry)> + '_ {
        let halves = self.titles.chunks_exact(TITLE_HALF_SIZE).zip(0..);
        let passing = halves.filter(move |(half, _)| passes(&FlagAndContentId::read(&half[8..])));
        passing.filter_map(|(_, j)| Some((j, self.entry(j)?)))
    }

    /// Without a usable title half an entry is no copy and not full.
    fn entries_with_title(&self) -> impl Iterator<Item = (u64, Entry)> + '_ {
        self.entries_by_title(FlagAndContentId::usable)
    }

    /// The numbers of the entries that are copies with this content ID, in their order.
    fn copies_of(&self, content_id: u64) -> impl Iterator<Item = u64> + '_ {
        let copies = self.entries_with_title().filter(|(_, entry)| entry.kind() == EntryKind::Copy);
        copies.filter(move |(_, entry)| entry.content_id() == content_id).map(|(j, _)| j)
    }

    /// The number of copies with this content ID.
    pub fn copies(&self, content_id: u64) -> u64 {
        self.copies_of(content_id).count() as u64
    }

    /// The first entry that is a copy with this content ID.
    pub fn first_copy(&self, content_id: u64) -> Option<u64> {
        self.copies_of(content_id).next()
    }

    /// The number of holders of this content ID: its row, where it is here, and its full entries.
    pub fn holders(&self, content_id: u64) -> u64 {
        let here = self.row(content_id).is_some_and(|row| row.state() == RowState::Here);
        let full = self.entries_with_title().filter(|(_, entry)| entry.kind() == EntryKind::Full);
        u64::from(here) + full.filter(|(_, entry)| entry.content_id() == content_id).count() as u64
    }

    /// The first entry, from this one on, that is free or spent.
    pub fn first_vacant(&self, from: u64) -> Option<u64> {
        (from..=LAST_ENTRY).find(|j| self.entry(*j).is_some_and(|entry| VACANT.contains(&entry.kind())))
    }

    /// The number of spent entries.
    pub fn spent(&self) -> u64 {
        let with_title = self.entries_by_title(FlagAndContentId::stale);
        with_title.filter(|(_, entry)| entry.kind() == EntryKind::Spent).count() as u64
    }

    /// What the card has of each content ID that it has anything of, by one pass over its entries.
    pub fn on_card(&self) -> HashMap<u64, OnCard> {
        let mut on_card: HashMap<u64, OnCard> = HashMap::new();
        for (_, entry) in self.entries_with_title() {
            match entry.kind() {
                EntryKind::Copy => on_card.entry(entry.content_id()).or_default().copies.push(entry.title.cci),
                EntryKind::Full => on_card.entry(entry.content_id()).or_default().full.push(entry.facts()),
                EntryKind::Free | EntryKind::Torn | EntryKind::Spent => (),
            }
        }
        on_card
    }
}
