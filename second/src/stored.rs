//! The stored cases: fixed ones first, then made ones.

use crate::calls::{self, Answer};
use crate::cases::{little_endian_bytes, Case, MOST_SITE_BYTES};
use crate::drafts::Draft;
use crate::inputs::lengths;
use crate::making::{opening, Maker};
use crate::named::{good_drafts, refused_longest, refused_runs};
use crate::relations::{converse, ALL, SINGLES};
use crate::stored_openings::{self, opening_with, rising};
use crate::stored_places;
use crate::stored_texts;
use crate::table::Table;

/// The cases made after the fixed ones, and their seed.
const MADE: usize = 5_600;
const SEED: u64 = 2_486;

/// A description of more words than this is stored with few calls.
const LONG: usize = 200;

/// All stored cases, in order.
pub fn all() -> Vec<Case> {
    let mut cases = compositions();
    cases.extend(triangles());
    cases.extend(expressions());
    cases.extend(numbers_of_ways());
    cases.extend(short_lists());
    cases.extend(good_drafts().iter().flat_map(|(_, draft)| calls_of_draft(draft)));
    cases.extend(refused_runs().iter().flat_map(|(_, words, ..)| calls_of_refused(words)));
    cases.extend(stored_places::all());
    let inputs = lengths().into_iter().filter(|(_, bytes)| bytes.len() <= MOST_SITE_BYTES);
    cases.extend(inputs.map(|(_, bytes)| Case::site(&bytes)));
    cases.extend(wrong_tables());
    cases.extend(stored_openings::all());
    cases.extend(very_long_runs());
    cases.extend(refused_longest_runs());
    let mut maker = Maker::of_tables(SEED);
    cases.extend((0..MADE).map(|_| maker.next_case()));
    cases.extend(stored_texts::all());
    cases
}

/// Each pair of sets composes in the closing of a table of three boards.
fn compositions() -> Vec<Case> {
    let words = Draft::of(3).words();
    let mut cases = Vec::new();
    for first in 0..=ALL {
        for second in 0..=ALL {
            let cells = [ALL, first, ALL, converse(first), ALL, second, ALL, converse(second), ALL];
            cases.push(Case::close(&words, &cells));
        }
    }
    cases
}

/// Each table of three boards with single relations, E on the diagonal and converses across.
fn triangles() -> Vec<Case> {
    let words = Draft::of(3).words();
    let mut cases = Vec::new();
    for a in SINGLES {
        for b in SINGLES {
            for c in SINGLES {
                cases.push(Case::check(&words, &[1, a, c, converse(a), 1, b, converse(c), converse(b), 1]));
            }
        }
    }
    cases
}

/// All expressions of one, two and three words, good and refused, and some of up to 16 words, opened over old contents
/// in turn, and some of them closed.
fn expressions() -> Vec<Case> {
    let mut all: Vec<Vec<u16>> = (0..=8).map(|code| vec![code]).collect();
    for first in 0..=8 {
        all.extend((0..=8).map(|second| vec![first, second]));
    }
    for first in 4..=7 {
        all.extend((0..81).map(|rest| vec![first, rest / 9, rest % 9]));
    }
    all.push(vec![6, 4, 1, 2]);
    all.push(vec![7, 4, 0, 1]);
    for length in 1..=17 {
        all.push([vec![6; length - 1], vec![1]].concat());
        all.push([vec![7; length - 1], vec![1]].concat());
    }
    for pairs in 1..=8 {
        all.push([vec![4; pairs], vec![1; pairs], vec![3]].concat());
        all.push([[4, 1].repeat(pairs), vec![3]].concat());
        all.push([[5, 6].repeat(pairs), vec![2; pairs + 1]].concat());
    }
    let contents = [[0; 4], [ALL; 4], [255; 4], [1, 3, 5, 1], [16, 0, 2, 8]];
    let mut cases = Vec::new();
    for (at, expression) in all.iter().enumerate() {
        let words = Draft::of(2).line(0, 1, expression).words();
        cases.push(opening(&words, &contents[at % contents.len()]));
        if at % 4 == 0 {
            cases.push(Case::close(&words, &[ALL; 4]));
        }
    }
    cases
}

/// Two kind lines with each pair of numbers of ways, of one code and of codes that differ in a bit.
fn numbers_of_ways() -> Vec<Case> {
    let mut cases = Vec::new();
    for first in 0..=8 {
        for second in 0..=8 {
            for code in [7, 7 ^ 1 << ((9 * first + second) % 16)] {
                let words = Draft::of(2).kind(0, 7, &vec![1; first]).kind(1, code, &vec![0; second]).words();
                let disagree = code == 7 && first != second;
                let (number, count) = if disagree { (11, 11 + first as u32) } else { (0, 0) };
                let answer = calls::read(&words);
                assert!(answer == Answer { number, count }, "{first} and {second} ways give {answer:?}");
                cases.push(Case::read(&words));
            }
        }
    }
    cases
}

/// All lists of up to four kind lines of two codes with no way or one.
fn short_lists() -> Vec<Case> {
    let mut lists = vec![Draft::of(2)];
    let mut cases = Vec::new();
    for _ in 0..4 {
        let lines = [(5, &[][..]), (5, &[1]), (6, &[]), (6, &[1])];
        let longer = |list: &Draft| lines.map(|(code, ways)| list.clone().kind(0, code, ways));
        lists = lists.iter().flat_map(longer).collect();
        cases.extend(lists.iter().map(|list| Case::read(&list.words())));
    }
    cases
}

/// Every call of a good description: a full table, old contents, budgets around the tries, its arrangement and near
/// ones.
fn calls_of_draft(draft: &Draft) -> Vec<Case> {
    let words = draft.words();
    let full = Table::full(draft.boards).cells;
    let mut found = full.clone();
    let answer = calls::search(&words, &mut found, 20_000);
    let mut cases = vec![Case::read(&words), Case::close(&words, &full), Case::site(&little_endian_bytes(&words))];
    let tries = answer.count;
    let mut budgets = if words.len() > LONG { vec![] } else { vec![0, 1, tries + 1, 10_000] };
    budgets.extend([tries.saturating_sub(1), tries]);
    budgets.sort();
    budgets.dedup();
    cases.extend(budgets.into_iter().map(|budget| Case::search(&words, &full, budget)));
    if answer.number != 9 {
        cases.push(Case::search(&words, &full, u32::MAX));
    }
    let mut closed = full.clone();
    calls::close(&words, &mut closed);
    cases.extend(over_old_contents(&words, &closed, &found));
    cases.extend([Case::close(&words, &closed), Case::check(&words, &full), Case::check(&words, &found)]);
    let changes = if words.len() > LONG { 2 } else { 16 };
    for at in 0..found.len().min(changes) {
        let mut changed = found.clone();
        changed[at] = SINGLES[at % 4];
        cases.push(Case::check(&words, &changed));
    }
    cases.extend([Case::search(&words, &found, 0), Case::close(&words, &found)]);
    cases
}

/// A good description opened over old contents of several sorts, among them its closed table and an arrangement, and
/// with one cell too many; a long description over few of them.
fn over_old_contents(words: &[u16], closed: &[u8], found: &[u8]) -> Vec<Case> {
    let right = closed.len();
    let mut contents = vec![rising(right), rising(right + 1), vec![ALL; right], vec![0; right], vec![255; right]];
    contents.extend([closed.to_vec(), found.to_vec()]);
    contents.truncate(if words.len() > LONG { 3 } else { 7 });
    contents.iter().map(|cells| opening(words, cells)).collect()
}

/// Every call of a refused description, with a full table and with one that is malformed too; opened with the right
/// number of cells and with one more.
fn calls_of_refused(words: &[u16]) -> Vec<Case> {
    let boards = words.first().map_or(2, |&v| v.min(20) as usize);
    let full = Table::full(boards).cells;
    let malformed = [16];
    let mut cases = vec![Case::read(words), Case::site(&little_endian_bytes(words))];
    for cells in [&full[..], &malformed[..]] {
        cases.extend([Case::close(words, cells), Case::search(words, cells, 5), Case::check(words, cells)]);
    }
    cases.extend([0, 1].map(|more| opening(words, &rising(full.len() + more))));
    cases
}

/// Tables of a wrong number of cells, with a cell above 15, with an empty cell, not symmetric, and an arrangement,
/// for a loose, a contradictory, a decided and a disagreeing description. Opening takes all that have nine cells.
fn wrong_tables() -> Vec<Case> {
    let loose = Draft::of(3);
    let contradictory = Draft::of(3).kind(0, 5, &[1, 1]);
    let decided = Draft::of(3).kind(0, 5, &[1, 2]);
    let disagreeing = decided.clone().kind(2, 5, &[]);
    let mut tables: Vec<Vec<u8>> = [0, 1, 4, 8, 10, 16, 256, 512].iter().map(|&count| vec![ALL; count]).collect();
    for wrong in [0, 1, 8, 14, 16, 31, 128, 255] {
        for at in [0, 1, 3, 8] {
            let mut cells = vec![ALL; 9];
            cells[at] = wrong;
            tables.push(cells);
        }
    }
    tables.push(vec![0; 9]);
    tables.push(vec![1; 9]);
    tables.push(vec![1, 2, 2, 4, 1, 8, 4, 8, 1]);
    let mut cases = Vec::new();
    for (draft, number, count) in [(loose, 0, 9), (contradictory, 7, 0), (decided, 0, 27), (disagreeing, 11, 13)] {
        let words = draft.words();
        for cells in &tables {
            let wrong_number = cells.len() != 9 && number != 11;
            let answer = if wrong_number { Answer { number: 6, count: 0 } } else { Answer { number, count } };
            cases.push(opening_with(&words, cells, answer));
            cases.extend([Case::close(&words, cells), Case::search(&words, cells, 3), Case::check(&words, cells)]);
        }
    }
    cases
}

/// 65,542 words with a total of 6, which is that number's low 16 bits.
fn very_long_runs() -> Vec<Case> {
    let mut words = Draft::of(1).words();
    words.resize(65_542, 0);
    assert!(calls::read(&words) == Answer { number: 2, count: 5 });
    vec![Case::read(&words), opening_with(&words, &[1], Answer { number: 2, count: 5 })]
}

/// The longest description made wrong, read and opened in turn.
fn refused_longest_runs() -> Vec<Case> {
    let mut cases = Vec::new();
    for (at, (_, words, number, count)) in refused_longest().into_iter().enumerate() {
        let answer = Answer { number, count };
        cases.push(if at % 2 == 0 { Case::read(&words) } else { opening_with(&words, &rising(256), answer) });
    }
    cases
}
