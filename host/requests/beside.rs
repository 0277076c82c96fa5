//! Lines with what `counter` answered beside them.

use crate::answers::{known_text, text, TOO_SHORT};
use crate::line::Line;
use crate::request::read_requests;

/// The program `counter` reads no more bytes than these.
const COUNTER_READS: usize = 4096;

/// A line that `counter` printed for a request.
struct Answer {
    kind: u64,
    answer: u64,
}

/// What `counter` printed: an answer for each request that it read, and what ended reading.
struct Printed {
    answers: Vec<Answer>,
    end: u64,
}

/// What `counter` reads of the lines: how many requests, the number that must stand after `end`, and whether that is because
/// it reads no more bytes.
struct Reading {
    requests: usize,
    end: u64,
    cut: bool,
}

/// A file's name, for messages, and its contents.
pub struct File<'a, Contents> {
    pub name: &'a str,
    pub contents: Contents,
}

/// Each line with its answer, as a table, or where the two files do not fit together.
pub fn beside(lines: &File<Vec<Line>>, answers: &File<String>) -> Result<String, String> {
    let printed = read_printed(answers)?;
    let reading = reading_of(&lines.contents);
    compare(lines, answers.name, &printed, &reading)?;
    Ok(table(&lines.contents, &printed, &reading))
}

fn read_printed(file: &File<String>) -> Result<Printed, String> {
    let mut lines: Vec<&str> = file.contents.lines().collect();
    let Some(end) = lines.pop().and_then(|last| last.strip_prefix("end ")).and_then(decimal) else {
        return Err(format!("{}: does not end in a line with end and a number", file.name));
    };
    let mut answers = Vec::new();
    for (place, line) in lines.iter().enumerate() {
        match read_answer(line) {
            Some(answer) => answers.push(answer),
            None => return Err(format!("{}:{}: {line} is not a kind and an answer", file.name, place + 1)),
        }
    }
    Ok(Printed { answers, end })
}

fn read_answer(line: &str) -> Option<Answer> {
    let (kind, answer) = line.split_once(' ')?;
    let (kind, answer) = (decimal(kind)?, decimal(answer)?);
    known_text(answer).map(|_| Answer { kind, answer })
}

/// A number as `counter` prints it: no sign, and no 0 before it.
fn decimal(digits: &str) -> Option<u64> {
    digits.parse().ok().filter(|number: &u64| number.to_string() == digits)
}

/// A value past its limit, or a request that does not fit into the bytes that are read, ends reading.
fn reading_of(lines: &[Line]) -> Reading {
    let mut bytes = Vec::new();
    lines.iter().for_each(|line| line.request.append_bytes(&mut bytes));
    let more = bytes.len() > COUNTER_READS;
    bytes.truncate(COUNTER_READS);
    let (requests, fault) = read_requests(&bytes);
    let end = fault.map_or(0, |fault| fault.refusal);
    Reading { requests: requests.len(), end, cut: more && [0, TOO_SHORT].contains(&end) }
}

/// Whether there is an answer of the right kind for each request that `counter` reads, and for no other.
fn compare(lines: &File<Vec<Line>>, name: &str, printed: &Printed, reading: &Reading) -> Result<(), String> {
    let answered = printed.answers.len();
    for (place, (answer, line)) in printed.answers.iter().zip(&lines.contents).enumerate() {
        let form = line.request.form;
        if answer.kind != form.kind {
            let here = format!("{}:{} is {}, kind {}", lines.name, line.number, form.word, form.kind);
            return Err(format!("{name}:{}: an answer to kind {}, but {here}", place + 1, answer.kind));
        }
    }
    if answered < reading.requests {
        let line = &lines.contents[answered];
        return Err(format!("{}:{}: {} has no answer in {name}", lines.name, line.number, line.request.form.word));
    }
    if answered > reading.requests {
        return Err(format!("{name}:{}: an answer, but counter reads no more of {}", reading.requests + 1, lines.name));
    }
    if printed.end != reading.end {
        let here = format!("reading {} gives end {}", lines.name, reading.end);
        return Err(format!("{name}:{}: end {}, but {here}", answered + 1, printed.end));
    }
    Ok(())
}

fn table(lines: &[Line], printed: &Printed, reading: &Reading) -> String {
    let width = lines.iter().map(|line| line.words.chars().count()).max().unwrap_or(0);
    let row = |words: &str, number: &str, text: &str| format!("{words:<width$}  {number:>2}  {text}\n");
    let mut rows = String::new();
    for (place, line) in lines.iter().enumerate() {
        rows += &match printed.answers.get(place) {
            Some(Answer { answer, .. }) => row(&line.words, &answer.to_string(), text(*answer)),
            None => row(&line.words, "-", "not read"),
        };
    }
    rows + &row("end", &printed.end.to_string(), &end_in_words(reading))
}

fn end_in_words(reading: &Reading) -> String {
    let end = match reading.end {
        0 => "no byte is left".to_string(),
        refusal => format!("reading stopped: {}", text(refusal)),
    };
    if reading.cut { format!("{end} (counter reads 4,096 bytes at most)") } else { end }
}
