//! The stored cases of texts: fixed ones first, then made ones. What the fixed ones are to give is worked
//! out by hand; making them checks it.

use crate::calls::{text_of_words, words_of_text, Answer};
use crate::cases::{answered, readable, Call, Case};
use crate::drafts::Draft;
use crate::making::Maker;
use crate::named::{good_drafts, refused_longest, refused_runs};
use crate::named_kinds::longest_disagreeing;
use crate::named_places::refused_places;
use crate::named_text_places::text_places;
use crate::named_texts::{
    expressions, good_texts, longest_text, malformed_first_lines, malformed_lines, refused_texts, text_drafts,
};
use crate::texts::assert_comes_back;
use std::collections::HashSet;

/// The cases made after the fixed ones, their seed, and the most bytes of one.
const MADE: usize = 500;
const SEED: u64 = 65_536;
const MOST_BYTES: usize = 360;

/// A text or description longer than this is stored with few rooms.
const LONG: usize = 700;

/// All stored cases of texts, in order, each once.
pub fn all() -> Vec<Case> {
    assert_depths();
    let mut cases = expression_cases();
    cases.extend(good_text_cases());
    cases.extend(refused_text_cases());
    cases.extend(malformed_line_cases());
    cases.extend(short_expressions());
    cases.extend(near_lines());
    cases.extend(blanks_left_out());
    cases.extend(single_bytes());
    cases.extend(writing_cases());
    cases.extend(made());
    let mut met = HashSet::new();
    cases.retain(|case| met.insert(case.stream()));
    cases.iter().for_each(assert_numbers);
    cases
}

/// No text is refused with 2 or 5; reading and writing give 0 to 5, 11, 19 and 20, and 20 only for reading.
fn assert_numbers(case: &Case) {
    let number = answered(case).answer.number;
    let numbers: &[u32] =
        if case.call == Call::Typed { &[0, 1, 3, 4, 11, 19, 20] } else { &[0, 1, 2, 3, 4, 5, 11, 19] };
    assert!(numbers.contains(&number), "{}gives {number}", readable(case));
}

/// What no case is long enough for: 100,000 pairs of parentheses around a word are good,
/// 100,000 times `not` is refused with 3 at the length.
fn assert_depths() {
    let pairs = format!("boards 2\n0 {}side{} 1", "(".repeat(100_000), ")".repeat(100_000));
    assert!(words_of_text(pairs.as_bytes()).ok() == Some(Draft::of(2).line(0, 1, &[3]).words()));
    let nots = format!("boards 2\n0 {}side 1", "not ".repeat(100_000));
    assert_refused(nots.as_bytes(), 3, 8);
}

/// Checks what a text is refused with.
fn assert_refused(text: &[u8], number: u32, count: u32) {
    let refused = words_of_text(text).err();
    assert!(refused == Some(Answer { number, count }), "{} is refused with {refused:?}", text.escape_ascii());
}

/// Each expression read as typed and as written, and written, in rooms just long enough.
fn expression_cases() -> Vec<Case> {
    let mut cases = Vec::new();
    for (typed, expression, written) in expressions() {
        let words = Draft::of(2).line(0, 1, expression).words();
        let typed = format!("boards 2\n0 {typed} 1\n");
        let written = format!("boards 2\n0 {written} 1\n");
        assert!(words_of_text(typed.as_bytes()).as_ref() == Ok(&words), "{typed} is read as another expression");
        assert!(text_of_words(&words) == Ok(written.clone().into_bytes()), "{written} is written differently");
        cases.extend([Case::typed(typed.as_bytes(), words.len()), Case::texted(&words, written.len())]);
        if written != typed {
            cases.push(Case::typed(written.as_bytes(), words.len()));
        }
    }
    cases
}

/// Each good text in rooms around the length needed, and its description written.
fn good_text_cases() -> Vec<Case> {
    let mut cases = Vec::new();
    for (name, text, draft) in good_texts() {
        let words = draft.words();
        assert!(words_of_text(text.as_bytes()).as_ref() == Ok(&words), "{name} is read as another description");
        let rooms = rooms_around(words.len(), text.len());
        cases.extend(rooms.iter().map(|&room| Case::typed(text.as_bytes(), room)));
        cases.extend(written_and_read(&words));
    }
    cases
}

/// Rooms just long enough, one too small, none, and larger; fewer for what is long.
fn rooms_around(needed: usize, length: usize) -> Vec<usize> {
    if length > LONG {
        vec![needed, needed - 1]
    } else {
        vec![needed, needed - 1, 0, needed + 1, needed + 9]
    }
}

/// A good description written in rooms around the length needed, and read back.
fn written_and_read(words: &[u16]) -> Vec<Case> {
    assert_comes_back(words);
    let text = text_of_words(words).unwrap_or_default();
    let rooms = rooms_around(text.len(), words.len() * 2);
    let mut cases: Vec<Case> = rooms.iter().map(|&room| Case::texted(words, room)).collect();
    cases.push(Case::typed(&text, words.len()));
    cases
}

/// Each refused text with room and without; what is long without alone.
fn refused_text_cases() -> Vec<Case> {
    let mut cases = Vec::new();
    for (_, text, number, count) in refused_texts().into_iter().chain(text_places()) {
        assert_refused(text.as_bytes(), number, count);
        cases.push(Case::typed(text.as_bytes(), 0));
        if text.len() <= LONG {
            cases.push(Case::typed(text.as_bytes(), 40));
        }
    }
    cases
}

/// Each malformed line in its place: the first, or one between good lines, at times the last.
fn malformed_line_cases() -> Vec<Case> {
    let mut cases = Vec::new();
    for line in malformed_first_lines() {
        let text = [line, b"\n0 same 1\n"].concat();
        assert_refused(&text, 20, 1);
        cases.push(Case::typed(&text, 40));
    }
    for (at, line) in malformed_lines().into_iter().enumerate() {
        let text = [b"boards 3\n", line, b"\n0 same 1\n"].concat();
        assert_refused(&text, 20, 2);
        cases.push(Case::typed(&text, 40));
        if at % 4 == 0 {
            let last = [b"boards 3\n0 same 1\n", line].concat();
            assert_refused(&last, 20, 3);
            cases.push(Case::typed(&last, 40));
        }
    }
    cases
}

/// All runs of up to four symbols of an expression, good and malformed.
fn short_expressions() -> Vec<Case> {
    let symbols = ["side", "or", "not", "(", ")"];
    let mut runs = vec![Vec::new()];
    let mut cases = Vec::new();
    for _ in 0..4 {
        runs = runs.iter().flat_map(|run| symbols.map(|symbol| [run.as_slice(), &[symbol]].concat())).collect();
        let texts = runs.iter().map(|run| format!("boards 1\n0 {} 0", run.join(" ")));
        cases.extend(texts.map(|text| Case::typed(text.as_bytes(), 20)));
    }
    cases
}

/// Good lines with one symbol left out, doubled, exchanged with the next, or another in its place.
fn near_lines() -> Vec<Case> {
    let mut cases = Vec::new();
    for line in ["boards 4", "0 not ( same or above ) 1", "0 : 5 ( 1 2 )"] {
        let symbols: Vec<&str> = line.split(' ').collect();
        for at in 0..symbols.len() {
            for changed in near_symbols(&symbols, at) {
                let line = changed.join(" ");
                let text = if symbols[0] == "boards" { line } else { format!("boards 4\n{line}") };
                cases.push(Case::typed(text.as_bytes(), 20));
            }
        }
    }
    cases
}

/// The symbols changed at one place, in all the ways of near lines.
fn near_symbols<'a>(symbols: &[&'a str], at: usize) -> Vec<Vec<&'a str>> {
    let (before, after) = symbols.split_at(at);
    let mut all = vec![[before, &after[1..]].concat(), [before, &after[..1], after].concat()];
    if let [first, second, rest @ ..] = after {
        all.push([before, &[*second, *first], rest].concat());
    }
    for other in ["3", "side", "and", "inv", "(", ")", ":", "boards"] {
        all.push([before, &[other], &after[1..]].concat());
    }
    all
}

/// Lines with every choice of blanks between their symbols left out.
fn blanks_left_out() -> Vec<Case> {
    let mut cases = Vec::new();
    for line in ["0 not ( side ) 1", "0 : 7 ( 1 2 )", "0 side or ( above ) 1"] {
        let symbols: Vec<&str> = line.split(' ').collect();
        for choice in 0..1usize << (symbols.len() - 1) {
            let mut text = String::from("boards 3\n");
            for (at, symbol) in symbols.iter().enumerate() {
                text.push_str(if at > 0 && choice >> (at - 1) & 1 == 1 { " " } else { "" });
                text.push_str(symbol);
            }
            cases.push(Case::typed(text.as_bytes(), 20));
        }
    }
    cases
}

/// Every byte where only a blank may stand, and where a number may.
fn single_bytes() -> Vec<Case> {
    let mut cases = Vec::new();
    for byte in 0..=255u8 {
        let after_a_word = [b"boards 2\n0 not(side".as_slice(), &[byte], b")1"].concat();
        let among_ways = [b"boards 9\n0:7(".as_slice(), &[byte], b")"].concat();
        cases.extend([Case::typed(&after_a_word, 20), Case::typed(&among_ways, 20)]);
    }
    cases
}

/// Descriptions to be written: good ones in several rooms and read back, refused ones with room and without.
fn writing_cases() -> Vec<Case> {
    let mut cases = Vec::new();
    for (name, draft) in text_drafts().into_iter().chain(good_drafts()) {
        let words = draft.words();
        assert!(text_of_words(&words).is_ok(), "{name} is not written");
        if words.len() * 2 <= LONG {
            cases.extend(written_and_read(&words));
        }
    }
    let longest = longest_text().words();
    cases.extend(written_and_read(&longest));
    for (_, words, ..) in refused_runs() {
        cases.extend([Case::texted(&words, 0), Case::texted(&words, 200)]);
    }
    cases.extend(refused_places().iter().map(|(_, words, ..)| Case::texted(words, 200)));
    let last_faults = ["last-way-too-high", "last-code-8", "a-word-more"];
    let refused = refused_longest().into_iter().filter(|(name, ..)| last_faults.contains(name));
    cases.extend(refused.map(|(_, words, ..)| Case::texted(&words, 20_000)));
    cases.push(Case::texted(&longest_disagreeing().words(), 20_000));
    cases
}

/// Small cases by chance.
fn made() -> Vec<Case> {
    let mut maker = Maker::of_texts(SEED);
    let mut cases = Vec::new();
    while cases.len() < MADE {
        let case = maker.next_case();
        if case.stream().len() <= MOST_BYTES {
            cases.push(case);
        }
    }
    cases
}
