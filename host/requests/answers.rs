//! What the counter answers: the numbers by name, and their texts, which are those of include/music_counter.h.

pub const TOO_SHORT: u64 = 1;
pub const NUMBER: u64 = 2;
pub const KIND: u64 = 3;
pub const CONTENT_ID: u64 = 4;
pub const ENTRY_NUMBER: u64 = 5;
pub const FACTS: u64 = 6;

const HEADER: &str = include_str!("../../include/music_counter.h");

/// An answer in words, where the counter has such an answer: `COUNTER_NAME = N,` has its name, and `case COUNTER_NAME: return
/// "text";` the text.
pub fn known_text(answer: u64) -> Option<&'static str> {
    let number = answer.to_string();
    let name = HEADER.lines().find_map(|line| {
        let (name, value) = line.trim().split_once(" = ")?;
        let digits = value.split(|c: char| !c.is_ascii_digit()).next()?;
        (name.starts_with("COUNTER_") && digits == number).then_some(name)
    })?;
    let case = format!("case {name}: return \"");
    HEADER.lines().find_map(|line| line.trim().strip_prefix(&case)?.strip_suffix("\";"))
}

pub fn text(answer: u64) -> &'static str {
    known_text(answer).unwrap_or("no answer of the counter")
}
