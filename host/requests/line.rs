//! Requests as readable lines: a word, the content ID and entry number that it takes, then the named arguments.

use crate::request::{Argument, Form, Request, FORMS};

/// A line of a file that has a request: its number from 1, and its words without the comment.
pub struct Line {
    pub number: usize,
    pub words: String,
    pub request: Request,
}

/// The requests of a file, or what is wrong, one message for each line at fault.
pub fn read_lines(file: &str, bytes: &[u8], past_limits: bool) -> Result<Vec<Line>, Vec<String>> {
    let (mut lines, mut faults) = (Vec::new(), Vec::new());
    for (place, text) in String::from_utf8_lossy(bytes).lines().enumerate() {
        let number = place + 1;
        let words: Vec<&str> = text.split('#').next().unwrap_or_default().split_ascii_whitespace().collect();
        match read_words(&words, past_limits) {
            None => {}
            Some(Ok(request)) => lines.push(Line { number, words: words.join(" "), request }),
            Some(Err(what)) => faults.push(format!("{file}:{number}: {what}")),
        }
    }
    if faults.is_empty() { Ok(lines) } else { Err(faults) }
}

/// The request of a line's words, if there are any.
fn read_words(words: &[&str], past_limits: bool) -> Option<Result<Request, String>> {
    let (word, arguments) = words.split_first()?;
    let Some(form) = FORMS.iter().find(|form| form.word == *word) else {
        let all: Vec<&str> = FORMS.iter().map(|form| form.word).collect();
        return Some(Err(format!("{word} is none of the seven: {}", all.join(", "))));
    };
    let request = read_arguments(form, arguments);
    Some(if past_limits { request } else { request.and_then(within_limits) })
}

fn read_arguments(form: &'static Form, words: &[&str]) -> Result<Request, String> {
    let by_place: Vec<Argument> = form.arguments.iter().copied().filter(|argument| !argument.is_named()).collect();
    let count = words.iter().take_while(|word| !word.contains('=')).count();
    let (placed, named) = words.split_at(count);
    if count != by_place.len() || named.iter().any(|word| !word.contains('=')) {
        return Err(format!("{} takes {}", form.word, arguments_in_words(form)));
    }
    let mut given: Vec<(Argument, u64)> = Vec::new();
    for (argument, word) in by_place.into_iter().zip(placed) {
        given.push((argument, number(word, &format!("{} {word}", argument.name()))?));
    }
    for word in named {
        let (argument, value) = read_named(form, word)?;
        if given.iter().any(|(earlier, _)| *earlier == argument) {
            return Err(format!("{} has {}= twice", form.word, argument.name()));
        }
        given.push((argument, value));
    }
    in_order(form, &given)
}

/// An argument such as cci=2.
fn read_named(form: &Form, word: &str) -> Result<(Argument, u64), String> {
    let (name, value) = word.split_once('=').unwrap_or((word, ""));
    let named = form.arguments.iter().find(|argument| argument.is_named() && argument.name() == name);
    let argument = named.ok_or_else(|| format!("{} takes no {name}=, but {}", form.word, arguments_in_words(form)))?;
    Ok((*argument, number(value, word)?))
}

/// The values in the paper's order, whatever the order in the line.
fn in_order(form: &'static Form, given: &[(Argument, u64)]) -> Result<Request, String> {
    let (mut values, mut missing) = (Vec::new(), Vec::new());
    for argument in form.arguments {
        match given.iter().find(|(named, _)| named == argument) {
            Some((_, value)) => values.push(*value),
            None => missing.push(format!("{}=", argument.name())),
        }
    }
    if !missing.is_empty() {
        return Err(format!("{} lacks {}", form.word, missing.join(" ")));
    }
    Ok(Request { form, values })
}

/// A number in decimal, or in hexadecimal with 0x. Neither signs nor separators: Rust's own reader would take a sign.
fn number(digits: &str, shown: &str) -> Result<u64, String> {
    let (digits, base) = digits.strip_prefix("0x").map_or((digits, 10), |hexadecimal| (hexadecimal, 16));
    if digits.is_empty() || !digits.chars().all(|digit| digit.is_digit(base)) {
        return Err(format!("{shown} is not a number in decimal, or in hexadecimal with 0x"));
    }
    u64::from_str_radix(digits, base).map_err(|_| format!("{shown} is above 2^64 - 1"))
}

fn within_limits(request: Request) -> Result<Request, String> {
    for (argument, value) in request.form.arguments.iter().zip(&request.values) {
        if let Some(limit) = argument.limit_passed(*value) {
            let (shown, words, refusal) = (shown(*argument, *value), limit.words, limit.refusal);
            let named = if argument.is_named() { shown } else { format!("{} {shown}", argument.name()) };
            return Err(format!("{named} is not {words} (refusal {refusal}; --past-limits writes it all the same)"));
        }
    }
    Ok(request)
}

/// What a form takes, as in: an entry number, then f1=
fn arguments_in_words(form: &Form) -> String {
    let article = |argument: &Argument| if *argument == Argument::EntryNumber { "an" } else { "a" };
    let by_place = form.arguments.iter().filter(|argument| !argument.is_named());
    let placed: Vec<String> = by_place.map(|argument| format!("{} {}", article(argument), argument.name())).collect();
    let by_name = form.arguments.iter().filter(|argument| argument.is_named());
    let named: Vec<String> = by_name.map(|argument| format!("{}=", argument.name())).collect();
    let placed = placed.join(" and ");
    if named.is_empty() { placed } else { format!("{placed}, then {}", named.join(" ")) }
}

/// A request as a line: the form that read_lines takes, with the arguments in the paper's order.
pub fn line_of(request: &Request) -> String {
    let arguments = request.form.arguments.iter().zip(&request.values);
    let shown: Vec<String> = arguments.map(|(argument, value)| shown(*argument, *value)).collect();
    format!("{} {}", request.form.word, shown.join(" "))
}

/// Long patterns of bits are easier to compare in hexadecimal; everything else is in decimal.
fn shown(argument: Argument, value: u64) -> String {
    let number = if argument.is_pattern() && value >= 1000 { format!("{value:#x}") } else { value.to_string() };
    if argument.is_named() { format!("{}={number}", argument.name()) } else { number }
}
