//! Both implementations side by side: the same call on the same bytes, then answers and all bytes compared. And how often
//! each answer came up.

use std::fmt::Debug;

use crate::calls::{self, Call, Numbers, Operation, Results, FORMATTING, KINDS, OPERATIONS};
use crate::history::Titles;
use crate::inputs::STALE_IDS;
use crate::inspections::Inspected;
use crate::preview::{self, Basket, Previewed};
use crate::requests::{self, Request};
use crate::tables::{EntryKind, Pair, Tables, LAST_ENTRY, PAIRS};
use crate::till;

/// Answers are 0 to 18.
const ANSWERS: usize = 19;

const READING: &[u64] = &[0, 1, 2, 3, 4, 5, 6];
const WRITING: &[u64] = &[0, 1, 3, 4, 5, 6];
const PREVIEWING: &[u64] = &[0, 17, 18];
const OF_NO_KIND: &[u64] = &[3];

/// How often requests gave each answer, by their kinds, with those of no kind in front.
type OfKinds = [[u64; ANSWERS]; 1 + KINDS];

/// What is being compared, for a message that tells how to get there again, and what came up so far.
pub struct Run {
    pub seed: u64,
    pub part: &'static str,
    pub round: u64,
    /// Calls of the other fourteen operations, as requests too, sheets, previews, and requests read and written.
    pub calls: u64,
    pub sheets: u64,
    pub previews: u64,
    pub requests: u64,
    /// What came up for audio titles, and for pictures.
    pairs: [OfPair; 2],
    reading: [u64; ANSWERS],
    kinds_read: [u64; 8],
    writing: [u64; ANSWERS],
}

/// What came up in calls of one pair.
#[derive(Clone, Copy, Default)]
struct OfPair {
    /// Titles that demand 3 was tested of, by their holders and by the lines of sheets.
    titles: Titles,
    operations: [[u64; ANSWERS]; OPERATIONS.len()],
    /// Of these, those answered 8 or 9 for a table that is right for the other pair.
    other_pair: [[u64; ANSWERS]; OPERATIONS.len()],
    /// Those on a ledger and a card that are right, but for their application numbers, which differ.
    other_application: [[u64; ANSWERS]; OPERATIONS.len()],
    /// And those whose fillers would leave the STI key of a full entry, and no other key.
    sti_key_left: [[u64; ANSWERS]; OPERATIONS.len()],
    /// Those that are to put a title in a spent entry.
    at_spent: [[u64; ANSWERS]; OPERATIONS.len()],
    /// And in an entry with flag 0 and one of `STALE_IDS` in its title half, without and with a usable rule half.
    at_stale: [[u64; 2]; STALE_IDS.len()],
    /// Move ins that found a copy, by the entries that they read.
    read_to_copy: PerEntry,
    inspected: Inspected,
    /// Calls that were requests in numbers, and those in baskets that were previewed.
    performed: OfKinds,
    in_baskets: OfKinds,
    previews: [u64; ANSWERS],
}

/// How often each entry number came up, and 0.
#[derive(Clone, Copy)]
pub struct PerEntry(pub [u64; 1 + LAST_ENTRY as usize]);

impl Default for PerEntry {
    fn default() -> Self {
        PerEntry([0; 1 + LAST_ENTRY as usize])
    }
}

impl OfPair {
    /// Each operation that tests heads met a title table, and a rule table, of the other pair, and a card of another application,
    /// which was refused where a ledger is lent too; a move out and a delete that would leave the STI key were answered 16 or, for
    /// pictures, done; each call that puts a title in an entry was done at a spent one; a move in found the first copy in each
    /// entry; inspections told all that they can tell; and demand 3 was tested, on sheets and by inspection too.
    fn complete(&self, pair: Pair) -> Result<(), String> {
        for (operation, name, allowed) in &OPERATIONS[..FORMATTING] {
            let met = |counts: &[[u64; ANSWERS]], answer: usize| counts[*operation as usize][answer] > 0;
            for answer in [8, 9].into_iter().filter(|answer| allowed.contains(answer)) {
                if !met(&self.other_pair, answer as usize) {
                    return Err(format!("{pair:?} {name}: no table of the other pair was answered {answer}"));
                }
            }
            let of_application = if allowed.contains(&7) { 9 } else { 0 };
            if allowed.contains(&9) && !met(&self.other_application, of_application) {
                return Err(format!("{pair:?} {name}: no card of another application was answered {of_application}"));
            }
            let wipes_full = matches!(operation, Operation::MoveOut | Operation::Delete);
            if wipes_full && !met(&self.sti_key_left, if pair == Pair::Audio { 16 } else { 0 }) {
                return Err(format!("{pair:?} {name}: no filler that leaves the STI key"));
            }
            let fills = matches!(operation, Operation::Record | Operation::CheckOut | Operation::MoveIn);
            if fills && !met(&self.at_spent, 0) {
                return Err(format!("{pair:?} {name}: never done at a spent entry"));
            }
        }
        self.inspected.complete(pair)?;
        self.titles_tested(pair)
    }

    fn titles_tested(&self, pair: Pair) -> Result<(), String> {
        if let Some(entry) = (1..=LAST_ENTRY).find(|entry| self.read_to_copy.0[*entry as usize] == 0) {
            return Err(format!("{pair:?} move in: the first copy was never in entry {entry}"));
        }
        if self.titles.with_holder == 0 || self.titles.deleted == 0 {
            return Err(format!("{pair:?}: demand 3 was not tested"));
        }
        if self.titles.inspected.contains(&0) {
            return Err(format!("{pair:?}: titles inspected after lists of calls: {:?}", self.titles.inspected));
        }
        if let Some(cci) = [0, 2, 3].into_iter().find(|cci| self.titles.copies[*cci] == 0) {
            return Err(format!("{pair:?}: no copy of a title granted with CCI {cci} was tested"));
        }
        if self.titles.lines_after_deletes == 0 {
            return Err(format!("{pair:?}: no line of a sheet was held to its title's grant after copies were deleted"));
        }
        if self.titles.spent == 0 {
            return Err(format!("{pair:?}: no entry was spent after a list of calls"));
        }
        match STALE_IDS.iter().zip(self.at_stale).find(|(_, counts)| counts.contains(&0)) {
            Some((id, counts)) => Err(format!("{pair:?}: calls at entries with flag 0 and ID {id}: {counts:?}")),
            None => Ok(()),
        }
    }

    /// How often each of these answers came up, all operations together.
    fn together(counts: &[[u64; ANSWERS]]) -> [u64; ANSWERS] {
        let mut sums = [0; ANSWERS];
        counts.iter().for_each(|of_one| (0..ANSWERS).for_each(|answer| sums[answer] += of_one[answer]));
        sums
    }
}

impl Run {
    pub fn new(seed: u64) -> Self {
        Run {
            seed,
            part: "",
            round: 0,
            calls: 0,
            sheets: 0,
            previews: 0,
            requests: 0,
            pairs: [OfPair::default(); 2],
            reading: [0; ANSWERS],
            kinds_read: [0; 8],
            writing: [0; ANSWERS],
        }
    }

    /// A message that says where in the run something was found.
    pub fn found(&self, what: String) -> String {
        let Run { seed, part, round, calls, sheets, previews, requests, .. } = self;
        let place = format!("call {calls}, sheet {sheets}, preview {previews}, request {requests}");
        format!("seed {seed}, {part}, round {round}, {place}\n{what}")
    }

    /// Notes how many titles demand 3 was tested of.
    pub fn note_titles(&mut self, pair: Pair, tested: Titles) {
        self.pairs[pair as usize].titles.add(tested);
    }

    /// Reads a request by both.
    pub fn read_request(&mut self, bytes: &[u8]) -> Result<(), String> {
        self.requests += 1;
        // Values that no request has show whether a refusal keeps them.
        let kept = Request { kind: u64::MAX - 1, arguments: [u64::MAX - 2; 9] };
        let (mut request, mut used) = (kept, usize::MAX);
        let answer = till::read_request(bytes, &mut request, &mut used);
        let expected = match requests::read(bytes) {
            Ok((request, used)) => (0, request, used),
            Err(number) => (number, kept, usize::MAX),
        };
        if (answer, request, used) != expected {
            let found = (answer, request, used);
            let what = format!("reading {bytes:02x?}\nlibrary: {found:x?}\nexpected: {expected:x?}");
            return Err(self.found(what));
        }
        self.reading[answer as usize] += 1;
        if answer == 0 {
            self.kinds_read[request.kind as usize] += 1;
            self.one_form(&request, &bytes[..used])?;
        }
        Ok(())
    }

    /// "Each request has one written form; reading it back yields that request."
    fn one_form(&self, request: &Request, bytes: &[u8]) -> Result<(), String> {
        let read = requests::read(bytes);
        if requests::form(request).as_deref() == Ok(bytes) && read == Ok((*request, bytes.len())) {
            return Ok(());
        }
        Err(self.found(format!("{request:x?} and {bytes:02x?} do not belong together")))
    }

    /// Writes a request by both into the first `room` of these bytes, and reads what is written.
    pub fn write_request(&mut self, request: &Request, bytes: &[u8], room: usize) -> Result<(), String> {
        self.requests += 1;
        let (mut written, mut used) = (bytes.to_vec(), usize::MAX);
        let answer = till::write_request(&mut written[..room], request, &mut used);
        let mut expected_bytes = bytes.to_vec();
        let expected = match requests::write(&mut expected_bytes[..room], request) {
            Ok(used) => (0, used),
            Err(number) => (number, usize::MAX),
        };
        if (answer, used) != expected || written != expected_bytes {
            let found = (answer, used);
            let what = format!("writing {request:x?} into {room} bytes\nlibrary: {found:?} {written:02x?}");
            return Err(self.found(format!("{what}\nexpected: {expected:?} {expected_bytes:02x?}")));
        }
        self.writing[answer as usize] += 1;
        if answer != 0 {
            return Ok(());
        }
        let count = requests::arguments_of(request.kind).map_or(0, |arguments| arguments.len());
        let mut alone = Request { kind: request.kind, arguments: [0; 9] };
        alone.arguments[..count].copy_from_slice(&request.arguments[..count]);
        self.one_form(&alone, &written[..used])?;
        self.read_request(&written)
    }

    fn tables_of_answers(&self) -> Vec<(String, &'static [u64], &[u64; ANSWERS])> {
        let mut lines = Vec::new();
        for pair in PAIRS {
            for ((_, name, allowed), counts) in OPERATIONS.iter().zip(&self.pairs[pair as usize].operations) {
                lines.push((format!("{pair:?} {name}"), *allowed, counts));
            }
            lines.push((format!("{pair:?} preview"), PREVIEWING, &self.pairs[pair as usize].previews));
        }
        lines.push(("read request".to_string(), READING, &self.reading));
        lines.push(("write request".to_string(), WRITING, &self.writing));
        lines
    }

    /// The same for calls as requests, one by one and in baskets: a kind allows what its operation does.
    fn tables_of_kinds(&self) -> Vec<(String, &'static [u64], &[u64; ANSWERS])> {
        let mut lines = Vec::new();
        for pair in PAIRS {
            let OfPair { performed, in_baskets, .. } = &self.pairs[pair as usize];
            for (how, counts) in [("performed", performed), ("in a basket", in_baskets)] {
                lines.push((format!("{pair:?} of no kind {how}"), OF_NO_KIND, &counts[0]));
                for ((_, name, allowed), counts) in OPERATIONS.iter().zip(&counts[1..]) {
                    lines.push((format!("{pair:?} {name} {how}"), *allowed, counts));
                }
            }
        }
        lines
    }

    /// How often each answer came up, a line for each operation, and one for all requests performed and for all in baskets.
    pub fn print(&self) {
        for (name, _, counts) in self.tables_of_answers() {
            print_line(&name, counts);
        }
        print_line("kinds read", &self.kinds_read);
        for pair in PAIRS {
            let OfPair { titles, other_pair, sti_key_left, at_spent, at_stale, performed, in_baskets, inspected, .. } =
                &self.pairs[pair as usize];
            print_line(&format!("{pair:?} requests performed"), &OfPair::together(performed));
            print_line(&format!("{pair:?} requests in baskets"), &OfPair::together(in_baskets));
            print_line(&format!("{pair:?} on tables of the other pair"), &OfPair::together(other_pair));
            print_line(&format!("{pair:?} with f2 the STI key"), &OfPair::together(sti_key_left));
            print_line(&format!("{pair:?} in a spent entry"), &OfPair::together(at_spent));
            for (rule_half, number) in [("no usable rule half", 0), ("a usable rule half", 1)] {
                let counts = STALE_IDS.iter().zip(at_stale).map(|(id, counts)| format!("{id}: {}", counts[number]));
                println!("{pair:?} in flag 0 beside {rule_half}, by ID  {}", counts.collect::<Vec<_>>().join("  "));
            }
            inspected.print(pair);
            let Titles { with_holder, deleted, copies, lines, lines_after_deletes, spent, inspected } = titles;
            println!("{pair:?}: demand 3 tested of {with_holder} titles with a holder and {deleted} whose holder was deleted");
            print_line(&format!("{pair:?} copies by CCI granted"), copies);
            println!("{pair:?}: {lines} lines of sheets add up to the grant, {lines_after_deletes} of them with copies deleted");
            println!("{pair:?}: {spent} spent entries are those from which the calls took a title");
            let [none, held, lent] = inspected;
            println!("{pair:?}: titles inspected after them: {none} deleted, {held} with a holder alone, {lent} with copies too");
        }
        let Run { calls, sheets, previews, requests, .. } = self;
        println!("{calls} calls, {sheets} sheets, {previews} previews and {requests} requests compared");
    }

    /// Each answer that the paper allows came up, and no other.
    pub fn complete(&self) -> Result<(), String> {
        for (name, allowed, counts) in self.tables_of_answers().into_iter().chain(self.tables_of_kinds()) {
            for (answer, count) in counts.iter().enumerate() {
                let came_up = *count > 0;
                if came_up != allowed.contains(&(answer as u64)) {
                    let how = if came_up { "came up and is not allowed" } else { "never came up" };
                    return Err(format!("{name}: answer {answer} {how}"));
                }
            }
        }
        PAIRS.into_iter().try_for_each(|pair| self.pairs[pair as usize].complete(pair))?;
        match (1..8).find(|kind| self.kinds_read[*kind] == 0) {
            Some(kind) => Err(format!("no request of kind {kind} was read")),
            None => Ok(()),
        }
    }
}

/// How often each number came up.
pub fn print_line(name: &str, counts: &[u64]) {
    print!("{name:21}");
    let came_up = counts.iter().enumerate().filter(|(_, count)| **count > 0);
    came_up.for_each(|(number, count)| print!("  {number}: {count}"));
    println!();
}

/// What is to come up and is rare, of a call and the tables before it.
struct Rare {
    leaves_sti_key: bool,
    to_spent: bool,
    /// Which of `STALE_IDS` the entry's title half has beside flag 0, and whether its rule half is usable.
    to_stale: Option<[usize; 2]>,
}

impl Rare {
    fn of(call: &Call, tables: &Tables) -> Self {
        let entry = calls::entry_to_fill(call, tables);
        let stale = entry.filter(|found| !found.title.place.flag).and_then(|found| {
            let id = STALE_IDS.iter().position(|id| *id == found.content_id())?;
            Some([id, usize::from(found.rule.place.usable())])
        });
        Rare {
            leaves_sti_key: calls::leaves_sti_key_alone(call, tables),
            to_spent: entry.is_some_and(|found| found.kind() == EntryKind::Spent),
            to_stale: stale,
        }
    }
}

/// The same tables twice, the pair that calls on them are of, whether those that can be are made as requests in numbers, and
/// what the last call wrote beside them.
pub struct Sides {
    pub pair: Pair,
    pub as_requests: bool,
    pub library: Tables,
    expected: Tables,
    library_results: Results,
    expected_results: Results,
}

impl Sides {
    pub fn new(pair: Pair, tables: &Tables) -> Self {
        let results = Results { numbers: Numbers::all(0), text: Vec::new(), used: 0 };
        Sides {
            pair,
            as_requests: false,
            library: tables.clone(),
            expected: tables.clone(),
            library_results: results.clone(),
            expected_results: results,
        }
    }

    /// Both sides as they were in these tables.
    pub fn set(&mut self, tables: &Tables) {
        for side in [&mut self.library, &mut self.expected] {
            side.ledger.clone_from(&tables.ledger);
            side.titles.clone_from(&tables.titles);
            side.rules.clone_from(&tables.rules);
        }
    }

    /// Makes the call on both sides and answers its number.
    pub fn call(&mut self, run: &mut Run, call: &Call) -> Result<u64, String> {
        if self.as_requests {
            // Behind the arguments stands what is past every limit, another number for each call.
            if let Some(request) = preview::request_of(call, u64::MAX - run.calls) {
                return self.perform(run, &request);
            }
        }
        match call {
            Call::Sheet { .. } => run.sheets += 1,
            _ => run.calls += 1,
        }
        self.library_results = Results::before(call, run.calls + run.sheets);
        self.expected_results = self.library_results.clone();
        let rare = Rare::of(call, &self.library);
        let answer = till::perform(self.pair, call, &mut self.library, &mut self.library_results);
        let expected = calls::perform(self.pair, call, &mut self.expected, &mut self.expected_results);
        self.same(run, call, [answer, expected], self.first_difference())?;
        self.note(run, call, answer as usize, &rare);
        Ok(answer)
    }

    /// Carries the request out on both sides and answers its number.
    pub fn perform(&mut self, run: &mut Run, request: &Request) -> Result<u64, String> {
        run.calls += 1;
        let mut lent = *request;
        let answer = till::perform_request(self.pair, &mut lent, &mut self.library);
        let expected = preview::perform(self.pair, request, &mut self.expected);
        let written_to = (lent != *request).then(|| format!("the request is now {lent:?}"));
        self.same(run, request, [answer, expected], written_to.or_else(|| self.first_difference()))?;
        run.pairs[self.pair as usize].performed[kind_or_none(request)][answer as usize] += 1;
        Ok(answer)
    }

    /// Previews the basket on both sides, into buffers as lent, and answers its number. `lent` is then what the library wrote.
    pub fn preview(&self, run: &mut Run, basket: &Basket, lent: &mut Previewed) -> Result<u64, String> {
        run.previews += 1;
        let (mut wanted, mut lent_basket) = (lent.clone(), basket.clone());
        let answer = till::preview(self.pair, &self.library, &mut lent_basket, lent);
        let expected = preview::preview(self.pair, &self.expected, basket, &mut wanted);
        let written_to = (lent_basket != *basket).then(|| format!("the basket is now {lent_basket:?}"));
        let difference = written_to.or_else(|| self.first_difference()).or_else(|| previewed_difference(lent, &wanted));
        self.same(run, basket, [answer, expected], difference)?;
        let came_up = &mut run.pairs[self.pair as usize];
        came_up.previews[answer as usize] += 1;
        if answer == 0 {
            for (request, answer) in basket.requests().iter().zip(lent.answers) {
                came_up.in_baskets[kind_or_none(request)][answer as usize] += 1;
            }
        }
        Ok(answer)
    }

    /// Both answered the same, and there is no difference.
    fn same(&self, run: &Run, what: &dyn Debug, answers: [u64; 2], difference: Option<String>) -> Result<(), String> {
        let [answer, expected] = answers;
        if answer == expected && difference.is_none() {
            return Ok(());
        }
        let what = format!("{:?} {what:?}\nlibrary answers {answer}, expected {expected}", self.pair);
        Err(run.found(format!("{what}\n{}", difference.unwrap_or_default())))
    }

    /// The sheet, where the last call wrote one. A refusal leaves more bytes used than there are.
    pub fn sheet(&self) -> Option<&str> {
        let Results { text, used, .. } = &self.library_results;
        std::str::from_utf8(text.get(..*used)?).ok()
    }

    /// The numbers that the last call wrote, where it was no request.
    pub fn told(&self) -> Numbers {
        self.library_results.numbers
    }

    fn note(&self, run: &mut Run, call: &Call, answer: usize, rare: &Rare) {
        let came_up = &mut run.pairs[self.pair as usize];
        let operation = call.operation() as usize;
        came_up.operations[operation][answer] += 1;
        let other = self.pair.other();
        let of_other = (answer == 8 && self.library.title_head(other).is_some())
            || (answer == 9 && self.library.rule_head(other).is_some());
        came_up.other_pair[operation][answer] += u64::from(of_other);
        came_up.other_application[operation][answer] += u64::from(self.of_two_applications());
        came_up.sti_key_left[operation][answer] += u64::from(rare.leaves_sti_key);
        came_up.at_spent[operation][answer] += u64::from(rare.to_spent);
        if let Some([id, rule_half]) = rare.to_stale {
            came_up.at_stale[id][rule_half] += 1;
        }
        if answer == 14 {
            came_up.read_to_copy.0[self.told().entries_read as usize] += 1;
        }
        if answer == 0 {
            came_up.inspected.note(call, &self.library, &self.told());
        }
    }

    /// Whether nothing is wrong with ledger and card but that they do not belong together.
    fn of_two_applications(&self) -> bool {
        let heads = (self.library.ledger_head(), self.library.title_head(self.pair), self.library.rule_head(self.pair));
        matches!(heads, (Some(ledger), Some(_), Some(rules)) if ledger.application != rules.application)
    }

    fn first_difference(&self) -> Option<String> {
        let (written, wanted) = (&self.library_results, &self.expected_results);
        value_difference("numbers", &written.numbers, &wanted.numbers)
            .or_else(|| value_difference("used", &written.used, &wanted.used))
            .or_else(|| difference("text", &written.text, &wanted.text))
            .or_else(|| tables_difference(&self.library, &self.expected))
    }
}

fn kind_or_none(request: &Request) -> usize {
    if (1..=KINDS as u64).contains(&request.kind) { request.kind as usize } else { 0 }
}

fn tables_difference(library: &Tables, expected: &Tables) -> Option<String> {
    difference("ledger", &library.ledger, &expected.ledger)
        .or_else(|| difference("title table", &library.titles, &expected.titles))
        .or_else(|| difference("rule table", &library.rules, &expected.rules))
}

fn previewed_difference(library: &Previewed, expected: &Previewed) -> Option<String> {
    let of_scratch = || tables_difference(&library.scratch, &expected.scratch).map(|what| format!("scratch {what}"));
    value_difference("answers", &library.answers, &expected.answers).or_else(of_scratch)
}

fn value_difference<T: PartialEq + Debug>(what: &str, library: &T, expected: &T) -> Option<String> {
    (library != expected).then(|| format!("{what}: {library:?} in the library, expected {expected:?}"))
}

fn difference(buffer: &str, library: &[u8], expected: &[u8]) -> Option<String> {
    // Comparing whole buffers first is quick, and nearly always enough.
    if library == expected {
        return None;
    }
    let place = library.iter().zip(expected).position(|(a, b)| a != b)?;
    Some(format!("{buffer}, byte {place}: {:02x} in the library, expected {:02x}", library[place], expected[place]))
}
