//! The stored cases about places of refusals. What is worked out by hand is checked on the way.

use crate::calls::{self, Answer};
use crate::cases::Case;
use crate::description::meaning;
use crate::drafts::Draft;
use crate::making::opening;
use crate::named::{refused_longest, refused_runs};
use crate::named_places::{between_lines, refused_places};
use crate::relations::ALL;

/// All of them, in order.
pub fn all() -> Vec<Case> {
    assert_places();
    let mut cases = calls_of_places();
    cases.extend(short_expressions());
    cases.extend(changed_words());
    cases.extend(moved_ends());
    cases
}

/// Checks what the named runs are refused with, and where, whether they are read or opened without any cells.
fn assert_places() {
    for (name, words, number, place) in [refused_runs(), refused_places(), refused_longest()].concat() {
        for refused in [calls::read(&words), calls::open(&words, &mut [])] {
            assert!(refused == Answer { number, count: place }, "{name} is refused with {refused:?}");
        }
    }
}

/// Each of the places by the reader and by one more call in turn, with a table that is wrong as well, or that closing
/// would change.
fn calls_of_places() -> Vec<Case> {
    let tables = [vec![16], vec![], vec![ALL, 3, 8, ALL], vec![1; 17]];
    let mut cases = Vec::new();
    for (at, (_, words, ..)) in refused_places().iter().enumerate() {
        let cells = &tables[at / 4 % tables.len()];
        cases.push(Case::read(words));
        cases.push(match at % 4 {
            0 => opening(words, cells),
            1 => Case::close(words, cells),
            2 => Case::search(words, cells, 5),
            _ => Case::check(words, cells),
        });
    }
    cases
}

/// All expressions of up to four words of four codes, between other lines. They fail where counting says so.
fn short_expressions() -> Vec<Case> {
    let mut expressions = vec![vec![]];
    let mut cases = Vec::new();
    for _ in 0..4 {
        let longer = |expression: &Vec<u16>| [0, 4, 6, 8].map(|code| [expression.as_slice(), &[code]].concat());
        expressions = expressions.iter().flat_map(longer).collect();
        for expression in &expressions {
            assert!(meaning(expression).err() == failing_place(expression), "{expression:?} fails elsewhere");
            cases.push(Case::read(&between_lines(expression)));
        }
    }
    cases
}

/// Where an expression fails, by the number of operands still to come; none if it is good.
fn failing_place(expression: &[u16]) -> Option<usize> {
    let mut to_come = 1;
    for (at, code) in expression.iter().enumerate() {
        if to_come == 0 || *code > 7 {
            return Some(at);
        }
        to_come = match code {
            0..=3 => to_come - 1,
            4 | 5 => to_come + 1,
            _ => to_come,
        };
    }
    (to_come > 0).then_some(expression.len())
}

/// A good description with two relation lines and three kind lines, two of them of one code.
fn lines_of_both_sorts() -> Draft {
    Draft::of(4).line(0, 1, &[4, 0, 1]).line(2, 3, &[6, 3]).kind(0, 5, &[1, 2]).kind(3, 6, &[]).kind(2, 5, &[3, 0])
}

/// A good description with each of its words changed to a near one and to limits.
fn changed_words() -> Vec<Case> {
    let words = lines_of_both_sorts().words();
    let mut cases = Vec::new();
    for (at, &old) in words.iter().enumerate() {
        let mut values = vec![0, old.wrapping_sub(1), old + 1, 9, 16, 65_535];
        values.sort();
        values.dedup();
        for value in values.into_iter().filter(|&value| value != old) {
            let mut changed = words.clone();
            changed[at] = value;
            cases.push(Case::read(&changed));
        }
    }
    cases
}

/// A good description that ends at each place before its end, its total right, or whose kind section begins at each.
fn moved_ends() -> Vec<Case> {
    let words = lines_of_both_sorts().words();
    let mut cases = Vec::new();
    for end in 0..words.len() {
        let mut moved = words.clone();
        moved[4] = end as u16;
        cases.push(Case::read(&moved));
        let mut shortened = words.clone();
        (shortened[4], shortened[5]) = (shortened[4].min(end as u16), end as u16);
        cases.push(Case::read(&shortened[..end]));
    }
    cases
}
