//! The stored openings and stages of their own. What is worked out by hand is checked on the way.

use crate::calls::Answer;
use crate::cases::{answered, readable, Answered, Case, MOST_CELLS};
use crate::drafts::Draft;
use crate::making::{opening, stages};
use crate::named::good_drafts;
use crate::named_openings::{CONTRADICTORY, OPENED, STRUCK};
use crate::relations::ALL;
use std::collections::{HashMap, HashSet};

/// All of them, in order, each once.
pub fn all() -> Vec<Case> {
    assert_opened();
    let mut cases = numbers_of_cells();
    cases.extend(boards_out_of_range());
    cases.extend(good_drafts().iter().flat_map(|(_, draft)| line_by_line(draft)));
    let mut met = HashSet::new();
    cases.retain(|case| met.insert(case.stream()));
    cases
}

/// So many cells that hold the bytes 0 to 255 in order, over and over.
pub fn rising(count: usize) -> Vec<u8> {
    (0..count).map(|at| at as u8).collect()
}

/// The opening, which gives this answer.
pub fn opening_with(words: &[u16], cells: &[u8], answer: Answer) -> Case {
    let case = opening(words, cells);
    let given = answered(&case).answer;
    assert!(given == answer, "{}gives {given:?}", readable(&case));
    case
}

/// Checks what opening answers and leaves of the descriptions with names.
fn assert_opened() {
    let drafts: HashMap<&str, Draft> = good_drafts().into_iter().collect();
    let opened = |name: &str| -> Answered {
        let draft = &drafts[name];
        answered(&opening(&draft.words(), &rising(draft.boards * draft.boards)))
    };
    for (name, count) in OPENED.map(|(name, count, _)| (name, count)).into_iter().chain(STRUCK) {
        let answer = opened(name).answer;
        assert!(answer == Answer { number: 0, count }, "{name} is opened with {answer:?}");
    }
    for (name, _, cells) in OPENED {
        assert!(opened(name).cells == cells, "{name} is left as {:?}", opened(name).cells);
    }
    for name in drafts.keys() {
        let number = if CONTRADICTORY.contains(name) { 7 } else { 0 };
        assert!(opened(name).answer.number == number, "{name} is not opened with {number}");
    }
}

/// Each number of boards without lines, with the right and with wrong numbers of cells. Opening strikes three relations
/// of each board to itself, and nothing else.
fn numbers_of_cells() -> Vec<Case> {
    let mut cases = Vec::new();
    for boards in 1..=16 {
        let words = Draft::of(boards).words();
        let right = boards * boards;
        let struck = Answer { number: 0, count: 3 * boards as u32 };
        cases.extend([rising(right), vec![ALL; right]].map(|cells| opening_with(&words, &cells, struck)));
        let numbers = [0, boards, right - 1, right + 1, 2 * right, (boards + 1).pow(2), 256, MOST_CELLS];
        for number in numbers.into_iter().filter(|&number| number != right) {
            cases.push(opening_with(&words, &rising(number), Answer { number: 6, count: 0 }));
        }
    }
    cases
}

/// Numbers of boards that are out of range, with as many cells as these or their low bits come to.
fn boards_out_of_range() -> Vec<Case> {
    let mut cases = Vec::new();
    for boards in [0, 17, 18, 20, 255, 256, 257, 272, 65_535] {
        let words = Draft::of(boards).words();
        for side in [boards, boards % 256] {
            let cells = rising(side.pow(2).min(MOST_CELLS));
            cases.push(opening_with(&words, &cells, Answer { number: 1, count: 0 }));
        }
    }
    cases
}

/// A description in stages: without lines, then under one line more at a time, or a third of them if they are many.
fn line_by_line(draft: &Draft) -> Vec<Case> {
    let relations = draft.relations.len();
    let all = relations + draft.kinds.len();
    let counts = (0..all).step_by(if all > 8 { all / 3 } else { 1 }).chain([all]);
    let lines: Vec<(usize, usize)> =
        counts.map(|count| (count.min(relations), count.saturating_sub(relations))).collect();
    stages(draft, &lines, &rising(draft.boards * draft.boards))
}
