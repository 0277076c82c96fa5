//! The closing sheet, by requests W2 and W7 of document 02: a line for each row that is not empty, the totals of the lines, and the
//! number of spent entries. The card is gone over once for all rows together, and once for the spent entries.

use std::fmt::Write;

use crate::tables::{OnCard, Row, RowState, Tables, MOST_ROWS, UNLIMITED};

/// Room for any sheet.
pub const MOST_TEXT: usize = 18_432;

/// "row, state, permits, move rights, copies on the card"
#[derive(Debug, PartialEq)]
pub struct Line {
    pub row: u64,
    pub state: u64,
    pub permits: u64,
    pub rights: u64,
    pub copies: u64,
}

/// "the sums of permits other than 15 and of copies over the printed lines"
#[derive(Debug, PartialEq)]
pub struct Totals {
    pub permits: u64,
    pub copies: u64,
}

/// What a sheet says: its lines, the line of the totals, and the last.
pub struct Sheet {
    pub lines: Vec<Line>,
    pub totals: Totals,
    pub spent: u64,
}

impl Line {
    /// "For an away title permits and rights are those on the card; for a gone one 0."
    fn new(content: u64, row: &Row, on_card: &OnCard) -> Self {
        let facts = match row.state() {
            RowState::Here => Some(&row.facts),
            RowState::Away => on_card.full.first(),
            RowState::Empty | RowState::Gone | RowState::NoState => None,
        };
        let (permits, rights) = facts.map_or((0, 0), |facts| (facts.permits, facts.rights));
        Line { row: content, state: u64::from(row.first_byte), permits, rights, copies: on_card.copies.len() as u64 }
    }
}

impl Totals {
    fn of(lines: &[Line]) -> Self {
        let permits = lines.iter().map(|line| line.permits).filter(|permits| *permits != UNLIMITED).sum();
        Totals { permits, copies: lines.iter().map(|line| line.copies).sum() }
    }
}

fn lines(tables: &Tables) -> Vec<Line> {
    let on_card = tables.on_card();
    let rows = (1..=MOST_ROWS).filter_map(|content| Some((content, tables.row(content)?)));
    let shown = rows.filter(|(_, row)| row.state() != RowState::Empty);
    shown.map(|(content, row)| Line::new(content, &row, on_card.get(&content).unwrap_or(&OnCard::default()))).collect()
}

/// The sheet of a ledger and a card; of wrong ones, that of the rows and entries that they have.
pub fn text(tables: &Tables) -> String {
    let (lines, mut text) = (lines(tables), String::new());
    for Line { row, state, permits, rights, copies } in &lines {
        writeln!(text, "{row} {state} {permits} {rights} {copies}").unwrap();
    }
    let Totals { permits, copies } = Totals::of(&lines);
    writeln!(text, "total {permits} {copies}").unwrap();
    writeln!(text, "spent {}", tables.spent()).unwrap();
    text
}

/// What a text says, where it is a sheet.
pub fn read(text: &str) -> Option<Sheet> {
    let (text, last) = text.strip_suffix('\n')?.rsplit_once("\nspent ")?;
    let (text, totals) = text.rsplit_once("total ")?;
    let lines: Option<Vec<Line>> = text.lines().map(read_line).collect();
    let ([permits, copies], [spent]) = (numbers(totals)?, numbers(last)?);
    Some(Sheet { lines: lines?, totals: Totals { permits, copies }, spent })
}

fn read_line(line: &str) -> Option<Line> {
    let [row, state, permits, rights, copies] = numbers(line)?;
    Some(Line { row, state, permits, rights, copies })
}

fn numbers<const COUNT: usize>(line: &str) -> Option<[u64; COUNT]> {
    let numbers: Option<Vec<u64>> = line.split(' ').map(|number| number.parse().ok()).collect();
    numbers?.try_into().ok()
}
