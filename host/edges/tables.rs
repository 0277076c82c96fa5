// Rows, halves and heads: what they are by their bytes, and the bytes that writing makes of them.
//
// A part may have any length. A missing byte reads as 0 and a field ends where its bytes end, but a half of fewer than 16
// bytes is neither usable nor that of a spent entry, and a row of another length than 24 is in no state.

pub const KEY_LIMIT: u64 = 1 << 56;

// Bytes as a number, the most significant first.
pub fn field(s: &[u8], at: usize, count: usize) -> u64 {
    s.iter().skip(at).take(count).fold(0, |x, b| x * 256 + u64::from(*b))
}

fn byte(s: &[u8], at: usize) -> u64 {
    field(s, at, 1)
}

#[derive(Clone, Copy)]
pub struct Facts {
    pub cci: u64,
    pub trigger: u64,
    pub rights: u64,
    pub permits: u64,
    pub title_key: u64,
    pub sti_key: u64,
}

pub const NO_FACTS: Facts = Facts { cci: 0, trigger: 0, rights: 0, permits: 0, title_key: 0, sti_key: 0 };

impl Facts {
    pub fn values(&self) -> [u64; 6] {
        [self.cci, self.trigger, self.rights, self.permits, self.title_key, self.sti_key]
    }
    pub fn of(v: &[u64]) -> Facts {
        Facts { cci: v[0], trigger: v[1], rights: v[2], permits: v[3], title_key: v[4], sti_key: v[5] }
    }
}

// ---------------------------------------------------------------- halves

pub fn cci(s: &[u8]) -> u64 {
    byte(s, 0) % 4
}

pub fn key(s: &[u8]) -> u64 {
    field(s, 1, 7)
}

pub fn flag(s: &[u8]) -> u64 {
    byte(s, 8) / 128
}

pub fn id(s: &[u8]) -> u64 {
    byte(s, 14) % 4 * 256 + byte(s, 15)
}

pub fn usable(s: &[u8]) -> bool {
    s.len() >= 16 && flag(s) == 1 && id(s) != 0
}

pub fn trigger(s: &[u8]) -> u64 {
    byte(s, 16) / 128
}

pub fn rights(s: &[u8]) -> u64 {
    byte(s, 17) / 16
}

pub fn permits(s: &[u8]) -> u64 {
    byte(s, 17) % 16
}

pub fn hash(s: &[u8]) -> u64 {
    field(s, 18, 8)
}

// What both halves have in common, with all reserved bits 0. Of each number the bits for which there is room.
pub fn half_form(first: u64, key: u64, id: u64) -> Vec<u8> {
    let mut out = vec![first as u8];
    out.extend(&key.to_be_bytes()[1..]);
    out.extend([128, 0, 0, 0, 0, 0]);
    out.extend(((id % 1024) as u16).to_be_bytes());
    out
}

pub fn rule_form(f: Facts, hash: u64, id: u64) -> Vec<u8> {
    let mut out = half_form(0, f.sti_key, id);
    out.push([0x00, 0x80][f.trigger as usize % 2]);
    out.push((f.rights % 16 * 16 + f.permits % 16) as u8);
    out.extend(hash.to_be_bytes());
    out.extend([0; 6]);
    out
}

pub fn wiped(s: &[u8], filler: u64) -> Vec<u8> {
    let mut out = s.to_vec();
    out[..8].copy_from_slice(&filler.to_be_bytes());
    out[8] %= 128;
    out
}

pub fn wiped_rule(s: &[u8], fillers: [u64; 4]) -> Vec<u8> {
    let mut out = wiped(s, fillers[1]);
    out[16..24].copy_from_slice(&fillers[2].to_be_bytes());
    out[24..].copy_from_slice(&fillers[3].to_be_bytes());
    out
}

// "a title half with flag 0 and an ID from 1 to 999"
fn stale(s: &[u8]) -> bool {
    s.len() >= 16 && flag(s) == 0 && (1..=999).contains(&id(s))
}

// 0 free, 1 copy, 2 full, 3 torn, 4 spent.
pub fn kind(title: &[u8], rule: &[u8]) -> u64 {
    let stray = |s: &[u8]| usable(s) && id(s) > 999;
    if stray(title) || stray(rule) || (usable(title) && cci(title) == 1) {
        return 3;
    }
    match (usable(title), usable(rule)) {
        (false, false) if stale(title) => 4,
        (false, false) => 0,
        (true, false) => 1,
        (true, true) if id(title) == id(rule) => 2,
        _ => 3,
    }
}

pub fn entry_facts(title: &[u8], rule: &[u8]) -> Facts {
    Facts {
        cci: cci(title),
        trigger: trigger(rule),
        rights: rights(rule),
        permits: permits(rule),
        title_key: key(title),
        sti_key: key(rule),
    }
}

// ---------------------------------------------------------------- rows

// The bytes of a row with this byte 0.
pub fn row_form(state: u8, f: Facts) -> Vec<u8> {
    let mut out = vec![state, f.cci as u8, f.trigger as u8, f.rights as u8, f.permits as u8, 0, 0, 0];
    out.extend(&f.title_key.to_be_bytes()[1..]);
    out.push(0);
    out.extend(&f.sti_key.to_be_bytes()[1..]);
    out.push(0);
    out
}

pub fn row_facts(s: &[u8]) -> Facts {
    Facts {
        cci: byte(s, 1),
        trigger: byte(s, 2),
        rights: byte(s, 3),
        permits: byte(s, 4),
        title_key: field(s, 8, 7),
        sti_key: field(s, 16, 7),
    }
}

// 0 empty, 1 here, 2 away, 3 gone, 4 none of these.
pub fn row_state(s: &[u8]) -> u64 {
    let f = row_facts(s);
    let sound = [0, 2, 3].contains(&f.cci) && f.trigger <= 1 && f.rights <= 15 && f.permits <= 15;
    match byte(s, 0) {
        _ if s.len() != 24 => 4,
        1 if !sound => 4,
        first => first.min(4),
    }
}

// ---------------------------------------------------------------- heads

pub fn ledger_head(rows: u64, application: u64) -> Vec<u8> {
    let mut out = (application as u16).to_be_bytes().to_vec();
    out.extend((rows as u16).to_be_bytes());
    out.resize(24, 0);
    out
}

// Audio or picture: the tables of a card make a pair of one of these.
#[derive(Clone, Copy, PartialEq)]
pub enum Pair {
    Audio,
    Picture,
}

pub const PAIRS: [Pair; 2] = [Pair::Audio, Pair::Picture];

pub fn titles_head(pair: Pair) -> Vec<u8> {
    let identifier = if pair == Pair::Audio { b"A1" } else { b"P1" };
    [&identifier[..], b"\x00\x10\x00\x00\x3e\x80\x00\x00\x03\xe7\x10\x01\x00\x00"].concat()
}

pub fn rules_head(pair: Pair, application: u64) -> Vec<u8> {
    let mut out = if pair == Pair::Audio { b"M1" } else { b"P1" }.to_vec();
    out.extend(b"\x00\x11\x00\x00\x7d\x00");
    out.extend((application as u16).to_be_bytes());
    out.extend(b"\x03\xe7\x20\x02");
    out.resize(32, 0);
    out
}

pub fn ledger_check(s: &[u8]) -> u64 {
    let rows = field(s, 2, 2);
    if (1..=999).contains(&rows) && s.len() as u64 == 24 * (rows + 1) { 0 } else { 7 }
}

// The bytes of s at these places are right.
fn like(s: &[u8], right: &[u8], tested: &[usize]) -> bool {
    tested.iter().all(|i| s[*i] == right[*i])
}

pub fn titles_check(pair: Pair, s: &[u8]) -> u64 {
    let tested = [0, 1, 4, 5, 6, 7, 8, 9, 10, 11, 12, 13];
    if s.len() == 16000 && [0x09, 0x10].contains(&s[3]) && like(s, &titles_head(pair), &tested) { 0 } else { 8 }
}

pub fn rules_check(pair: Pair, s: &[u8]) -> u64 {
    let tested = [0, 1, 4, 5, 6, 7, 10, 11, 12, 13];
    if s.len() == 32000 && s[3] >= 0x11 && like(s, &rules_head(pair, 0), &tested) { 0 } else { 9 }
}
