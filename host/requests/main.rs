//! Requests for the bench: readable lines to request bytes and back, and the answers of `counter` beside the lines.
//!
//! Its exit code is 1 where a file is at fault, and 2 where the command is.

mod answers;
mod beside;
mod line;
mod number;
mod request;

use std::io::{Read, Write};
use std::process::ExitCode;

use beside::File;

const USAGE: &str = "\
requests bytes [--past-limits] [FILE]   readable lines to request bytes
requests lines [FILE]                   request bytes to readable lines
requests beside LINES ANSWERS           each line with the answer that counter printed for it

Without FILE, or with -, standard input is read. The lines, with # before a comment:

register 1 cci=2 trigger=0 rights=1 permits=1 title-key=5 sti-key=6
record 1 7 cci=2 trigger=0 rights=1 permits=1 title-key=5 sti-key=6 hash=9
check-out 1 7
check-in 7 f1=9
move-out 7 hash=9 f1=1 f2=2 f3=3 f4=4
move-in 1 9 hash=0
delete 7 f1=1 f2=2 f3=3 f4=4

First the content ID, then the entry number, then the named arguments in any order. Numbers are decimal, or hexadecimal
with 0x. Values past the paper's limits are an error; with --past-limits they are written for the counter to refuse.";

/// What goes to standard output, and the messages for standard error. A command that failed has messages.
struct Outcome {
    output: Vec<u8>,
    messages: Vec<String>,
}

impl Outcome {
    fn failed(messages: Vec<String>) -> Outcome {
        Outcome { output: Vec::new(), messages }
    }
}

fn bytes(file: &str, past_limits: bool) -> Result<Outcome, String> {
    let lines = match line::read_lines(name(file), &contents(file)?, past_limits) {
        Ok(lines) => lines,
        Err(faults) => return Ok(Outcome::failed(faults)),
    };
    let mut output = Vec::new();
    lines.iter().for_each(|line| line.request.append_bytes(&mut output));
    Ok(Outcome { output, messages: Vec::new() })
}

fn lines(file: &str) -> Result<Outcome, String> {
    let (requests, fault) = request::read_requests(&contents(file)?);
    let output: String = requests.iter().map(|request| line::line_of(request) + "\n").collect();
    let message = fault.map(|fault| {
        let (offset, place, refusal) = (fault.offset, fault.place, fault.refusal);
        format!("{}: byte offset {offset} ({place}): refusal {refusal}, {}", name(file), answers::text(refusal))
    });
    Ok(Outcome { output: output.into_bytes(), messages: message.into_iter().collect() })
}

fn beside(lines: &str, answers: &str) -> Result<Outcome, String> {
    // counter has refused what is past a limit, so such lines have their place here
    let read = match line::read_lines(name(lines), &contents(lines)?, true) {
        Ok(read) => read,
        Err(faults) => return Ok(Outcome::failed(faults)),
    };
    let printed = String::from_utf8_lossy(&contents(answers)?).into_owned();
    let lines = File { name: name(lines), contents: read };
    let table = beside::beside(&lines, &File { name: name(answers), contents: printed })?;
    Ok(Outcome { output: table.into_bytes(), messages: Vec::new() })
}

fn name(file: &str) -> &str {
    if file == "-" { "standard input" } else { file }
}

fn contents(file: &str) -> Result<Vec<u8>, String> {
    let mut bytes = Vec::new();
    let read = match file {
        "-" => std::io::stdin().read_to_end(&mut bytes).map(|_| bytes),
        _ => std::fs::read(file),
    };
    read.map_err(|error| format!("{}: {error}", name(file)))
}

/// Carries out a command, if it is one.
fn run(arguments: &[&str]) -> Option<Result<Outcome, String>> {
    let (options, words): (Vec<&str>, Vec<&str>) = arguments.iter().partition(|word| word.starts_with("--"));
    let past_limits = options == ["--past-limits"] && words.first() == Some(&"bytes");
    if !options.is_empty() && !past_limits {
        return None;
    }
    match words[..] {
        ["bytes"] => Some(bytes("-", past_limits)),
        ["bytes", file] => Some(bytes(file, past_limits)),
        ["lines"] => Some(lines("-")),
        ["lines", file] => Some(lines(file)),
        // standard input cannot be both
        ["beside", "-", "-"] => None,
        ["beside", lines, answers] => Some(beside(lines, answers)),
        _ => None,
    }
}

fn main() -> ExitCode {
    let arguments: Vec<String> = std::env::args().skip(1).collect();
    let words: Vec<&str> = arguments.iter().map(String::as_str).collect();
    let Some(result) = run(&words) else {
        eprintln!("{USAGE}");
        return ExitCode::from(2);
    };
    let mut outcome = result.unwrap_or_else(|message| Outcome::failed(vec![message]));
    let mut output = std::io::stdout().lock();
    if let Err(error) = output.write_all(&outcome.output).and_then(|()| output.flush()) {
        outcome.messages.push(format!("standard output: {error}"));
    }
    outcome.messages.iter().for_each(|message| eprintln!("{message}"));
    ExitCode::from(u8::from(!outcome.messages.is_empty()))
}
