//! What a stream of cases meets, and the comparison with another program.

use crate::calls;
use crate::cases::{answer_text, answered, readable, Answered, Call, Case, CALLS};
use crate::description;
use crate::making::Maker;
use crate::relations::{converse, ALL};
use crate::table::Table;
use std::collections::HashSet;
use std::io::{Read, Write};
use std::process::{Command, Stdio};

/// The cases in one batch of a comparison.
const BATCH: usize = 1_000;

/// The numbers that have a column each in a tally; one more column is for `input`.
const NUMBERS: [u32; 14] = [0, 1, 2, 3, 4, 5, 6, 7, 8, 9, 10, 11, 19, 20];

/// How often each call gave each number (the last column: input), at how many places, and what else was met.
#[derive(Default)]
pub struct Tally {
    cases: usize,
    numbers: [[usize; NUMBERS.len() + 1]; CALLS.len()],
    /// The places told with each number.
    places: [HashSet<u32>; NUMBERS.len() + 1],
    found_after_tries: usize,
    none_after_tries: usize,
    many_boards: usize,
    not_full: usize,
    not_symmetric: usize,
    with_empty_cell: usize,
    opened_above_15: usize,
    opened_unchanged: usize,
    contradictory_above_15: usize,
    contradictory_refused_with_6: usize,
    rooms_just_enough: usize,
    rooms_one_too_small: usize,
    deepest_text: usize,
}

impl Tally {
    /// Counts a case and its answer.
    pub fn count(&mut self, case: &Case, answered: &Answered) {
        self.cases += 1;
        let number =
            if case.call == Call::Site { number_printed(&answered.printed) } else { Some(answered.answer.number) };
        self.numbers[case.call as usize][column(number)] += 1;
        if tells_place(case.call, answered.answer.number) {
            self.places[column(number)].insert(answered.answer.count);
        }
        if case.call == Call::Search && answered.answer.count > 0 {
            self.found_after_tries += (answered.answer.number == 0) as usize;
            self.none_after_tries += (answered.answer.number == 8) as usize;
        }
        let boards = boards_of(case);
        self.many_boards += (boards >= 12) as usize;
        match case.call {
            Call::Open => self.count_opening(boards, case, answered),
            Call::Close | Call::Search | Call::Check => self.count_table(boards, &case.cells),
            Call::Typed | Call::Texted => self.count_text(case, answered),
            Call::Read | Call::Site => {}
        }
    }

    /// Counts an opening over a cell above 15, taken or refused with 7, one that is taken and changes nothing, and one
    /// that is refused with 6 though its description is contradictory as well.
    fn count_opening(&mut self, boards: usize, case: &Case, answered: &Answered) {
        let above_15 = case.cells.iter().any(|&cell| cell > ALL);
        let kept = answered.cells == case.cells;
        match answered.answer.number {
            0 => {
                self.opened_above_15 += above_15 as usize;
                self.opened_unchanged += kept as usize;
            }
            6 => {
                let contradictory = calls::open(&case.words, &mut Table::full(boards).cells).number == 7;
                self.contradictory_refused_with_6 += contradictory as usize;
            }
            7 => self.contradictory_above_15 += (above_15 && kept) as usize,
            _ => {}
        }
    }

    /// Counts a lent room that is just long enough or one too small, and how deep a good text nests.
    fn count_text(&mut self, case: &Case, answered: &Answered) {
        let room = case.number as usize;
        let enough = answered.answer.number == 0;
        self.rooms_just_enough += (enough && answered.answer.count as usize == room) as usize;
        self.rooms_one_too_small += (answered.answer.number == 19 && length_needed(case) == Some(room + 1)) as usize;
        if enough {
            self.deepest_text = self.deepest_text.max(deepest_parentheses(&case.bytes));
        }
    }

    /// Counts a well-formed lent table.
    fn count_table(&mut self, boards: usize, cells: &[u8]) {
        if boards == 0 || cells.len() != boards * boards || cells.iter().any(|&cell| cell > ALL) {
            return;
        }
        let symmetric = (0..cells.len()).all(|at| cells[boards * (at % boards) + at / boards] == converse(cells[at]));
        self.not_full += cells.iter().any(|&cell| cell != ALL) as usize;
        self.not_symmetric += !symmetric as usize;
        self.with_empty_cell += cells.contains(&0) as usize;
    }

    /// The table of what was met.
    pub fn text(&self) -> String {
        let mut text = String::from("number ");
        for number in NUMBERS {
            text.push_str(&format!("{number:>8}"));
        }
        text.push_str("   input\n");
        for call in CALLS {
            text.push_str(&row_text(call.name(), &self.numbers[call as usize]));
        }
        let places: Vec<usize> = self.places.iter().map(HashSet::len).collect();
        text.push_str(&row_text("places", &places));
        let rest = [
            ("cases", self.cases),
            ("searches that found after tries", self.found_after_tries),
            ("searches with tries and none", self.none_after_tries),
            ("cases of 12 or more boards", self.many_boards),
            ("lent tables not full", self.not_full),
            ("lent tables not symmetric", self.not_symmetric),
            ("lent tables with an empty cell", self.with_empty_cell),
            ("openings taken over a cell above 15", self.opened_above_15),
            ("openings taken that change nothing", self.opened_unchanged),
            ("openings refused with 7 that leave a cell above 15", self.contradictory_above_15),
            ("openings refused with 6 that are contradictory too", self.contradictory_refused_with_6),
            ("lent rooms just long enough", self.rooms_just_enough),
            ("lent rooms one too small", self.rooms_one_too_small),
            ("deepest parentheses read", self.deepest_text),
        ];
        rest.iter().for_each(|(name, count)| text.push_str(&format!("{name}: {count}\n")));
        text
    }
}

/// A row of the table.
fn row_text(name: &str, counts: &[usize]) -> String {
    let columns: String = counts.iter().map(|count| format!("{count:>8}")).collect();
    format!("{name:<7}{columns}\n")
}

/// Whether the count of an answer to the call with this number is a place in the words.
fn tells_place(call: Call, number: u32) -> bool {
    call != Call::Site && matches!(number, 1..=5 | 11)
}

/// The column of a number; the last is for all that have none of their own, and for no number.
fn column(number: Option<u32>) -> usize {
    NUMBERS.iter().position(|&known| Some(known) == number).unwrap_or(NUMBERS.len())
}

/// The number that the program printed: 0 or a refusal; none for `input`.
fn number_printed(printed: &str) -> Option<u32> {
    match printed.strip_prefix("refused ") {
        Some(number) => number.trim().parse().ok(),
        None => printed.starts_with("boards").then_some(0),
    }
}

/// The boards of a good description; else 0.
fn boards_of(case: &Case) -> usize {
    description::read(&case.description_words()).map_or(0, |description| description.boards)
}

/// The length of the room that a good text or description needs.
fn length_needed(case: &Case) -> Option<usize> {
    match case.call {
        Call::Typed => calls::words_of_text(&case.bytes).ok().map(|words| words.len()),
        _ => calls::text_of_words(&case.words).ok().map(|text| text.len()),
    }
}

/// The most parentheses open at once in a text.
fn deepest_parentheses(text: &[u8]) -> usize {
    let (mut open, mut most) = (0usize, 0);
    for byte in text {
        match byte {
            b'(' => open += 1,
            b')' => open = open.saturating_sub(1),
            _ => {}
        }
        most = most.max(open);
    }
    most
}

/// Another program that answers a stream of cases.
pub struct Other<'a> {
    pub program: &'a str,
    pub arguments: &'a [String],
}

impl Other<'_> {
    /// Runs the program on the stream: what it printed, and how it ended if not well.
    fn run(&self, stream: Vec<u8>) -> Result<(Vec<u8>, Option<String>), String> {
        let mut command = Command::new(self.program);
        command.args(self.arguments).stdin(Stdio::piped()).stdout(Stdio::piped());
        let mut child = command.spawn().map_err(|error| format!("{} cannot be run: {error}", self.program))?;
        let stdin = child.stdin.take();
        let writer = std::thread::spawn(move || {
            if let Some(mut stdin) = stdin {
                // A program that ends early is met as a missing answer.
                let _ = stdin.write_all(&stream);
            }
        });
        let mut printed = Vec::new();
        if let Some(mut stdout) = child.stdout.take() {
            stdout.read_to_end(&mut printed).map_err(|error| error.to_string())?;
        }
        let _ = writer.join();
        let status = child.wait().map_err(|error| error.to_string())?;
        Ok((printed, (!status.success()).then(|| status.to_string())))
    }
}

/// The answers in what a program printed; each begins with the name of a call.
fn split_answers(printed: &[u8]) -> Vec<String> {
    let mut answers: Vec<String> = Vec::new();
    for line in String::from_utf8_lossy(printed).split_inclusive('\n') {
        let name = line.split([' ', '\n']).next().unwrap_or("");
        let begins = CALLS.iter().any(|call| call.name() == name);
        match answers.last_mut() {
            Some(last) if !begins => last.push_str(line),
            _ => answers.push(line.to_string()),
        }
    }
    answers
}

/// A case on which the two programs differ.
pub struct Difference {
    pub case: Case,
    pub own: String,
    pub other: String,
}

impl Difference {
    /// The difference in readable lines.
    pub fn text(&self) -> String {
        let other: String = self.other.trim_end().lines().map(|line| format!("{}\n", line.escape_debug())).collect();
        format!("difference\n{}own answer:\n{}other answer:\n{other}", readable(&self.case), self.own)
    }
}

/// Compares the other program with own answers on the cases; the first difference, if any.
fn compare(other: &Other, cases: &[Case], own: &[String]) -> Result<Option<Difference>, String> {
    let stream = cases.iter().flat_map(|case| case.stream()).collect();
    let (printed, ended) = other.run(stream)?;
    let answers = split_answers(&printed);
    for (i, case) in cases.iter().enumerate() {
        let answer = answers.get(i).cloned().unwrap_or_default();
        if answer == own[i] {
            continue;
        }
        if i + 1 >= answers.len() && cases.len() > 1 {
            return compare_singly(other, &cases[i..], &own[i..]);
        }
        let other = if answer.is_empty() { missing(&ended) } else { answer };
        return Ok(Some(Difference { case: case.clone(), own: own[i].clone(), other }));
    }
    match (answers.len() > cases.len() || ended.is_some(), cases.last(), own.last()) {
        (true, Some(case), Some(own)) => {
            let note = if ended.is_some() { missing(&ended) } else { "(too many answers)".to_string() };
            let other = answers[cases.len() - 1..].concat() + &note;
            Ok(Some(Difference { case: case.clone(), own: own.clone(), other }))
        }
        _ => Ok(None),
    }
}

/// The program ended early: runs it on each case alone to find the one at fault;
/// if none is, the first case has the blame.
fn compare_singly(other: &Other, cases: &[Case], own: &[String]) -> Result<Option<Difference>, String> {
    for (case, own) in cases.iter().zip(own) {
        let difference = compare(other, std::slice::from_ref(case), std::slice::from_ref(own))?;
        if difference.is_some() {
            return Ok(difference);
        }
    }
    let other = "no whole answer in the batch, but a right one alone".to_string();
    Ok(cases.first().zip(own.first()).map(|(case, own)| Difference { case: case.clone(), own: own.clone(), other }))
}

fn missing(ended: &Option<String>) -> String {
    match ended {
        Some(ended) => format!("(no more answers; the program ended with {ended})"),
        None => "(no more answers)".to_string(),
    }
}

/// How a comparison over many cases ended.
pub enum Compared {
    Same(Box<Tally>),
    Different(Difference),
}

/// Makes so many cases from the seed and compares the other program with own answers on them.
pub fn fuzz(count: usize, seed: u64, other: &Other) -> Result<Compared, String> {
    let mut maker = Maker::from_seed(seed);
    let mut tally = Tally::default();
    let mut left = count;
    while left > 0 {
        let cases: Vec<Case> = (0..left.min(BATCH)).map(|_| maker.next_case()).collect();
        let mut own = Vec::new();
        for case in &cases {
            let answered = answered(case);
            tally.count(case, &answered);
            own.push(answer_text(case, &answered));
        }
        if let Some(difference) = compare(other, &cases, &own)? {
            return Ok(Compared::Different(difference));
        }
        left -= cases.len();
    }
    Ok(Compared::Same(Box::new(tally)))
}
