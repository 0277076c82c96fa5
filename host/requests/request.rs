//! The seven requests of document 01: their arguments in the paper's order, the limits of these, and their bytes.

use crate::answers::{CONTENT_ID, ENTRY_NUMBER, FACTS, KIND};
use crate::number::{append_number, read_number};
use Argument::*;

#[derive(Clone, Copy, PartialEq)]
pub enum Argument {
    ContentId,
    EntryNumber,
    Cci,
    Trigger,
    Rights,
    Permits,
    TitleKey,
    StiKey,
    Hash,
    F1,
    F2,
    F3,
    F4,
}

/// What an argument may be, in words, and the number with which any other value is refused.
pub struct Limit {
    pub words: &'static str,
    pub refusal: u64,
}

impl Argument {
    pub fn name(self) -> &'static str {
        match self {
            ContentId => "content ID",
            EntryNumber => "entry number",
            Cci => "cci",
            Trigger => "trigger",
            Rights => "rights",
            Permits => "permits",
            TitleKey => "title-key",
            StiKey => "sti-key",
            Hash => "hash",
            F1 => "f1",
            F2 => "f2",
            F3 => "f3",
            F4 => "f4",
        }
    }

    /// A content ID and an entry number stand in a line by their place, all others by their name.
    pub fn is_named(self) -> bool {
        !matches!(self, ContentId | EntryNumber)
    }

    /// Keys, hashes and fillers are patterns of bits; all others count, choose or name a place.
    pub fn is_pattern(self) -> bool {
        matches!(self, TitleKey | StiKey | Hash | F1 | F2 | F3 | F4)
    }

    /// The limit that a value is past.
    pub fn limit_passed(self, value: u64) -> Option<Limit> {
        let (within, words, refusal) = match self {
            ContentId => ((1..=999).contains(&value), "1 to 999", CONTENT_ID),
            EntryNumber => ((1..=999).contains(&value), "1 to 999", ENTRY_NUMBER),
            Cci => ([0, 2, 3].contains(&value), "0, 2 or 3", FACTS),
            Trigger => (value <= 1, "0 or 1", FACTS),
            Rights | Permits => (value <= 15, "0 to 15", FACTS),
            TitleKey | StiKey => (value < 1 << 56, "below 2^56", FACTS),
            Hash | F1 | F2 | F3 | F4 => return None,
        };
        (!within).then_some(Limit { words, refusal })
    }
}

/// A kind of request: the word for it in a line, and its arguments in the paper's order.
pub struct Form {
    pub kind: u64,
    pub word: &'static str,
    pub arguments: &'static [Argument],
}

const fn form(kind: u64, word: &'static str, arguments: &'static [Argument]) -> Form {
    Form { kind, word, arguments }
}

pub static FORMS: [Form; 7] = [
    form(1, "register", &[ContentId, Cci, Trigger, Rights, Permits, TitleKey, StiKey]),
    form(2, "record", &[ContentId, EntryNumber, Cci, Trigger, Rights, Permits, TitleKey, StiKey, Hash]),
    form(3, "check-out", &[ContentId, EntryNumber]),
    form(4, "check-in", &[EntryNumber, F1]),
    form(5, "move-out", &[EntryNumber, Hash, F1, F2, F3, F4]),
    form(6, "move-in", &[ContentId, EntryNumber, Hash]),
    form(7, "delete", &[EntryNumber, F1, F2, F3, F4]),
];

/// A request: its form, and a value for each of the form's arguments.
pub struct Request {
    pub form: &'static Form,
    pub values: Vec<u64>,
}

impl Request {
    /// The request's numbers, also where one is past its limit.
    pub fn append_bytes(&self, bytes: &mut Vec<u8>) {
        append_number(bytes, self.form.kind);
        self.values.iter().for_each(|value| append_number(bytes, *value));
    }
}

/// The number that stopped reading: where its first byte is or would be, what it was to be, and its refusal.
pub struct Fault {
    pub offset: usize,
    pub place: String,
    pub refusal: u64,
}

/// Every request up to the end of the bytes or to the first fault.
pub fn read_requests(bytes: &[u8]) -> (Vec<Request>, Option<Fault>) {
    let (mut requests, mut offset) = (Vec::new(), 0);
    while offset < bytes.len() {
        match read_request(bytes, &mut offset) {
            Ok(request) => requests.push(request),
            Err(fault) => return (requests, Some(fault)),
        }
    }
    (requests, None)
}

/// The request that starts at the offset. Each number is tested for its own limit before the next is read.
fn read_request(bytes: &[u8], offset: &mut usize) -> Result<Request, Fault> {
    let start = *offset;
    let fault = |offset, refusal| Fault { offset, refusal, place: "kind".into() };
    let kind = next_number(bytes, offset).map_err(|refusal| fault(start, refusal))?;
    let form = FORMS.iter().find(|form| form.kind == kind).ok_or_else(|| fault(start, KIND))?;
    let mut values = Vec::new();
    for argument in form.arguments {
        let start = *offset;
        let fault = |refusal| Fault { offset: start, refusal, place: format!("{}, {}", form.word, argument.name()) };
        let value = next_number(bytes, offset).map_err(fault)?;
        if let Some(limit) = argument.limit_passed(value) {
            return Err(fault(limit.refusal));
        }
        values.push(value);
    }
    Ok(Request { form, values })
}

fn next_number(bytes: &[u8], offset: &mut usize) -> Result<u64, u64> {
    let (number, length) = read_number(&bytes[*offset..])?;
    *offset += length;
    Ok(number)
}
