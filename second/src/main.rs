//! A second, plain program for descriptions of radial sites: answers cases, makes them, compares.

mod arrangement;
mod calls;
mod cases;
mod chance;
mod closing;
mod comparing;
mod description;
mod drafts;
mod forest;
mod infix;
mod inputs;
mod lent_tables;
mod making;
mod named;
mod named_kinds;
mod named_openings;
mod named_places;
mod named_text_places;
mod named_texts;
mod printing;
mod relations;
mod search;
mod sheets;
mod spoiling;
mod stored;
mod stored_openings;
mod stored_places;
mod stored_texts;
mod symbols;
mod table;
mod texts;
mod typed;

use cases::{answer_text, answered, readable, Case, Cases};
use comparing::{fuzz, Compared, Other, Tally};
use making::Maker;
use std::io::{BufWriter, Read, Write};
use std::process::ExitCode;

const USAGE: &str = "usage: second answer < cases | make N SEED | store | inputs FOLDER | site < bytes
     | fuzz N SEED PROGRAM [ARGS...] | show < cases | tally < cases";

/// Exit status 0; 1 for a difference; 2 for bad usage, a bad stream or a failed write.
fn main() -> ExitCode {
    let arguments: Vec<String> = std::env::args_os().skip(1).map(|word| word.to_string_lossy().into_owned()).collect();
    match run(&arguments) {
        Ok(status) => ExitCode::from(status),
        Err(message) => {
            let _ = writeln!(std::io::stderr(), "{message}");
            ExitCode::from(2)
        }
    }
}

fn run(arguments: &[String]) -> Result<u8, String> {
    let words: Vec<&str> = arguments.iter().map(String::as_str).collect();
    match words.as_slice() {
        ["answer"] => each_case(|case| answer_text(case, &answered(case))),
        ["show"] => each_case(|case| format!("{}  answer: {}", readable(case), answer_text(case, &answered(case)))),
        ["tally"] => tally(),
        ["site"] => print(printing::site(&input()?).as_bytes()),
        ["make", count, seed] => make(number(count)?, number(seed)?),
        ["store"] => store(),
        ["inputs", folder] => inputs::write_all(folder).map(|()| 0),
        ["fuzz", count, seed, program, ..] => {
            compare(number(count)?, number(seed)?, &Other { program, arguments: &arguments[4..] })
        }
        _ => Err(USAGE.to_string()),
    }
}

fn number(word: &str) -> Result<u64, String> {
    word.parse().map_err(|_| format!("{word} is no number\n{USAGE}"))
}

/// All of standard input.
fn input() -> Result<Vec<u8>, String> {
    let mut bytes = Vec::new();
    std::io::stdin().lock().read_to_end(&mut bytes).map_err(|error| error.to_string())?;
    Ok(bytes)
}

fn print(bytes: &[u8]) -> Result<u8, String> {
    let mut out = std::io::stdout().lock();
    out.write_all(bytes).and_then(|()| out.flush()).map_err(|error| error.to_string())?;
    Ok(0)
}

/// Prints a text for each case of the stream on standard input.
fn each_case(text: impl Fn(&Case) -> String) -> Result<u8, String> {
    let stream = input()?;
    let mut cases = Cases::of(&stream);
    let mut out = BufWriter::new(std::io::stdout().lock());
    loop {
        let case = cases.take();
        let written = match &case {
            Ok(Some(case)) => out.write_all(text(case).as_bytes()),
            _ => out.flush(),
        };
        written.map_err(|error| error.to_string())?;
        if case?.is_none() {
            return Ok(0);
        }
    }
}

/// Prints what the stream on standard input meets.
fn tally() -> Result<u8, String> {
    let stream = input()?;
    let mut cases = Cases::of(&stream);
    let mut tally = Tally::default();
    while let Some(case) = cases.take()? {
        tally.count(&case, &answered(&case));
    }
    print(tally.text().as_bytes())
}

fn make(count: u64, seed: u64) -> Result<u8, String> {
    let mut maker = Maker::from_seed(seed);
    write_cases((0..count).map(|_| maker.next_case()))
}

fn store() -> Result<u8, String> {
    write_cases(stored::all().into_iter())
}

fn write_cases(cases: impl Iterator<Item = Case>) -> Result<u8, String> {
    let mut out = BufWriter::new(std::io::stdout().lock());
    for case in cases {
        out.write_all(&case.stream()).map_err(|error| error.to_string())?;
    }
    out.flush().map_err(|error| error.to_string())?;
    Ok(0)
}

/// The file that takes the first case on which the programs differ.
const DIFFERENCE: &str = "difference.case";

fn compare(count: u64, seed: u64, other: &Other) -> Result<u8, String> {
    match fuzz(count as usize, seed, other)? {
        Compared::Same(tally) => print(format!("{count} cases, no difference\n{}", tally.text()).as_bytes()),
        Compared::Different(difference) => {
            std::fs::write(DIFFERENCE, difference.case.stream()).map_err(|error| error.to_string())?;
            print(difference.text().as_bytes())?;
            Ok(1)
        }
    }
}
