//! Good descriptions by chance, of several sorts.

use crate::chance::Chance;
use crate::drafts::{any_expression, expression_holding, expression_of, set_holding, Draft, Kind, Relation};
use crate::forest::Forest;
use crate::relations::SINGLES;

/// A good description and, if there was one, the hidden arrangement it was taken off.
pub struct Sheet {
    pub draft: Draft,
    pub hidden: Option<Vec<u8>>,
}

/// A description for which the search often fails after tries.
pub fn hard_sheet(chance: &mut Chance) -> Sheet {
    if chance.percent(40) {
        disjunctive(chance)
    } else {
        around_a_core(chance)
    }
}

/// A good description of a sort by chance.
pub fn any_sheet(chance: &mut Chance) -> Sheet {
    match chance.below(100) {
        0..=13 => loose(chance),
        14..=35 => tight(chance),
        36..=47 => disjunctive(chance),
        48..=59 => around_a_core(chance),
        60..=67 => many_kinds(chance),
        68..=77 => twins(chance),
        78..=83 => kinds_by_chance(chance),
        84..=90 => deep_expressions(chance),
        _ => large(chance),
    }
}

/// Mostly few boards.
pub fn few_boards(chance: &mut Chance) -> usize {
    let most = chance.pick(&[3, 4, 5, 6, 8]);
    chance.between(1, most)
}

fn any_board(chance: &mut Chance, boards: usize) -> u16 {
    chance.below(boards) as u16
}

pub fn any_relation(chance: &mut Chance, boards: usize, longest: usize) -> Relation {
    let length = chance.between(1, longest);
    let expression = any_expression(chance, length);
    Relation { p: any_board(chance, boards), q: any_board(chance, boards), expression }
}

/// A kind line about anything, of one of few codes.
pub fn any_kind(chance: &mut Chance, boards: usize) -> Kind {
    let most = chance.pick(&[1, 2, 2, 3, 8]);
    let count = chance.between(0, most);
    let mut others: Vec<u16> = (0..boards as u16).collect();
    chance.shuffle(&mut others);
    let p = if chance.percent(95) { others.pop().unwrap_or(0) } else { 0 };
    let mut ways: Vec<u16> = others.into_iter().take(count).collect();
    if chance.percent(4) && ways.len() < 8 {
        ways.push(any_board(chance, boards));
    }
    Kind { p, code: chance.pick(&[1, 1, 7, 65_535]), ways }
}

/// A kind line with any ways, so that their number and order matter and nothing else does.
pub fn kind_of_any_ways(chance: &mut Chance, boards: usize) -> Kind {
    let most = chance.pick(&[0, 1, 3, 8]);
    let ways = (0..chance.between(0, most)).map(|_| chance.below(boards) as u16).collect();
    let limit = chance.pick(&[1, 10, 100, 1_000, 10_000, 65_536]);
    Kind { p: chance.below(boards) as u16, code: chance.below(limit) as u16, ways }
}

/// Few lines, about anything.
fn loose(chance: &mut Chance) -> Sheet {
    let boards = few_boards(chance);
    let mut draft = Draft::of(boards);
    for _ in 0..chance.below(4) {
        draft.relations.push(any_relation(chance, boards, 7));
    }
    if chance.percent(25) {
        draft.kinds.push(any_kind(chance, boards));
    }
    Sheet { draft, hidden: None }
}

/// Lines on many pairs, all true of a hidden forest.
fn tight(chance: &mut Chance) -> Sheet {
    let boards = few_boards(chance);
    let percent = chance.pick(&[30, 60, 90]);
    from_forest(chance, boards, percent, 20)
}

/// Lines on so many hundredths of the pairs and kind lines on so many of the boards.
fn from_forest(chance: &mut Chance, boards: usize, pairs: usize, panels: usize) -> Sheet {
    let forest = Forest::any(chance, boards);
    let mut draft = Draft::of(boards);
    for p in 0..boards {
        for q in p..boards {
            if draft.relations.len() < 128 && chance.percent(pairs) && (p != q || chance.percent(10)) {
                draft.relations.push(true_line(chance, &forest, p, q));
            }
        }
    }
    add_true_kinds(chance, &forest, &mut draft, panels);
    chance.shuffle(&mut draft.relations);
    chance.shuffle(&mut draft.kinds);
    draft.mend_codes();
    Sheet { draft, hidden: Some(forest.cells()) }
}

/// A line on the pair, turned one way or the other, that is true of the forest.
fn true_line(chance: &mut Chance, forest: &Forest, p: usize, q: usize) -> Relation {
    let (p, q) = if chance.percent(50) { (p, q) } else { (q, p) };
    let relation = forest.relation(p, q);
    let expression = if chance.percent(60) {
        let set = set_holding(chance, relation);
        expression_of(set)
    } else {
        let longest = chance.pick(&[2, 4, 6]);
        expression_holding(chance, relation, longest)
    };
    Relation { p: p as u16, q: q as u16, expression }
}

/// Kind lines true of the forest on so many hundredths of the boards, at most 16 in all.
fn add_true_kinds(chance: &mut Chance, forest: &Forest, draft: &mut Draft, panels: usize) {
    let codes = if chance.percent(70) { vec![5] } else { vec![5, 9, 300] };
    for p in 0..draft.boards {
        if draft.kinds.len() < 16 && chance.percent(panels) {
            draft.kinds.extend(forest.kind(chance, p, &codes));
        }
    }
}

/// Most pairs of 5 or more boards bound to sets of two or three relations, true of nothing in particular.
fn disjunctive(chance: &mut Chance) -> Sheet {
    let boards = chance.between(5, 8);
    let sets =
        chance.pick(&[[6, 12, 10, 6, 12, 10], [6, 6, 6, 12, 10, 14], [6, 12, 10, 11, 13, 9], [6, 14, 7, 11, 13, 10]]);
    let percent = chance.between(60, 100);
    let mut draft = Draft::of(boards);
    for p in 0..boards as u16 {
        for q in p + 1..boards as u16 {
            if chance.percent(percent) {
                draft = draft.within(p, q, chance.pick(&sets));
            }
        }
    }
    if chance.percent(20) {
        draft.kinds.push(any_kind(chance, boards));
    }
    Sheet { draft, hidden: None }
}

/// Five boards without an arrangement, which only failed tries show.
pub fn core_without() -> Draft {
    let draft = Draft::of(5).within(0, 3, 6).within(1, 2, 9).within(1, 3, 12).within(1, 4, 6);
    draft.within(2, 3, 10).within(2, 4, 6).line(3, 4, &[4, 4, 0, 1, 3]).kind(0, 101, &[4])
}

/// Five boards with an arrangement that is found after failed tries.
pub fn core_with() -> Draft {
    let draft = Draft::of(5).within(1, 3, 12).line(1, 4, &[4, 4, 0, 1, 3]);
    draft.within(2, 3, 6).within(2, 4, 6).within(3, 4, 12)
}

/// The core without an arrangement behind so many loose boards: its search makes very many tries.
pub fn behind_loose_boards(loose: u16) -> Draft {
    let names: Vec<u16> = (loose..loose + 5).collect();
    core_without().renamed(loose as usize + 5, &names)
}

/// One of the two cores with its boards renamed, boards added, and lines added, taken away or turned.
fn around_a_core(chance: &mut Chance) -> Sheet {
    let core = if chance.percent(75) { core_without() } else { core_with() };
    let boards = chance.pick(&[5, 5, 5, 6, 6, 7]);
    let mut names: Vec<u16> = (0..boards as u16).collect();
    chance.shuffle(&mut names);
    let mut draft = core.renamed(boards, &names);
    draft.turn_some(chance);
    if chance.percent(20) {
        draft.relations.remove(0);
    }
    for _ in 0..chance.pick(&[0, 0, 1, 1, 2, 3]) {
        let set = chance.pick(&[6, 7, 9, 11, 13, 14]);
        draft = draft.within(any_board(chance, boards), any_board(chance, boards), set);
    }
    if chance.percent(20) {
        draft.kinds.push(any_kind(chance, boards));
    }
    chance.shuffle(&mut draft.relations);
    Sheet { draft, hidden: None }
}

/// Many kind lines off a hidden forest, so that rule 7 matters; some are then spoilt.
fn many_kinds(chance: &mut Chance) -> Sheet {
    let boards = chance.between(2, 9);
    let (pairs, panels) = (chance.pick(&[5, 15, 40]), chance.pick(&[60, 100]));
    let mut sheet = from_forest(chance, boards, pairs, panels);
    for line in sheet.draft.kinds.clone() {
        if sheet.draft.kinds.len() < 16 && chance.percent(15) {
            sheet.draft.kinds.push(line);
        }
    }
    if chance.percent(40) {
        spoil_a_kind(chance, &mut sheet.draft);
    }
    sheet
}

/// Changes one kind line: its code, its panel, or its ways. No lines disagree afterwards.
fn spoil_a_kind(chance: &mut Chance, draft: &mut Draft) {
    let boards = draft.boards;
    let chosen = chance.below(draft.kinds.len());
    let line = match draft.kinds.get_mut(chosen) {
        Some(line) => line,
        None => return,
    };
    match chance.below(5) {
        0 => line.code = line.code.wrapping_add(256),
        1 => line.p = any_board(chance, boards),
        2 => line.ways.reverse(),
        3 => drop(line.ways.pop()),
        _ if line.ways.len() < 8 => line.ways.push(any_board(chance, boards)),
        _ => line.ways.rotate_left(1),
    }
    draft.mend_codes();
}

/// Two panels of one kind with as many ways each, so that rule 7 alone decides. Hidden: the two are
/// one board, with their ways in the same or in another order, or they stand side by side.
fn twins(chance: &mut Chance) -> Sheet {
    let ways = chance.pick(&[1, 2, 2, 2, 3]);
    let boards = 2 + 2 * ways + chance.pick(&[0, 0, 1, 2]);
    let mut names: Vec<u16> = (0..boards as u16).collect();
    if chance.percent(50) {
        chance.shuffle(&mut names);
    }
    let forest = Forest::of_twins(chance, &names, ways);
    let (first, second) = names[2..].split_at(ways);
    let code = chance.pick(&[5, 5, 5, 5, 5, 6]);
    let mut draft = Draft::of(boards).kind(names[0], 5, first).kind(names[1], code, &second[..ways]);
    let (p, q) = (names[0], names[1]);
    for _ in 0..chance.pick(&[0, 1, 1, 2]) {
        let way = chance.below(ways);
        let other = if chance.percent(60) { way } else { chance.below(ways) };
        draft = match chance.below(4) {
            0 => draft.within(p, q, chance.pick(&[1, 1, 9, 3, 7])),
            1 => draft.within(first[way], second[other], chance.pick(&[1, 1, 9, 3])),
            2 => draft.within(second[other], first[way], chance.pick(&[2, 8, 6, 14])),
            _ => draft.line(p, q, &true_line(chance, &forest, p as usize, q as usize).expression),
        };
    }
    Sheet { draft, hidden: Some(forest.cells()) }
}

/// Two to sixteen kind lines about anything, with few codes.
fn kinds_by_chance(chance: &mut Chance) -> Sheet {
    let boards = chance.between(2, 9);
    let mut draft = Draft::of(boards);
    for _ in 0..chance.pick(&[2, 2, 3, 4, 16]) {
        draft.kinds.push(any_kind(chance, boards));
    }
    draft.mend_codes();
    for _ in 0..chance.below(4) {
        draft.relations.push(any_relation(chance, boards, 4));
    }
    Sheet { draft, hidden: None }
}

/// Expressions of up to 15 words.
fn deep_expressions(chance: &mut Chance) -> Sheet {
    let boards = chance.between(1, 5);
    let forest = Forest::any(chance, boards);
    let mut draft = Draft::of(boards);
    for _ in 0..chance.between(1, 6) {
        let (p, q) = (chance.below(boards), chance.below(boards));
        let expression = expression_holding(chance, forest.relation(p, q), 15);
        draft = draft.line(p as u16, q as u16, &expression);
    }
    if chance.percent(30) {
        draft.relations.push(any_relation(chance, boards, 15));
    }
    Sheet { draft, hidden: Some(forest.cells()) }
}

/// 9 to 16 boards, mostly 12 or more.
pub fn large(chance: &mut Chance) -> Sheet {
    let boards = if chance.percent(80) { chance.between(12, 16) } else { chance.between(9, 11) };
    let (pairs, panels) = (chance.pick(&[3, 8, 20, 60]), chance.pick(&[0, 20, 100]));
    let mut sheet = from_forest(chance, boards, pairs, panels);
    if chance.percent(15) {
        spoil_a_kind(chance, &mut sheet.draft);
    }
    if chance.percent(15) {
        let set = chance.pick(&SINGLES);
        sheet.draft = sheet.draft.within(any_board(chance, boards), any_board(chance, boards), set);
    }
    sheet.draft.relations.truncate(128);
    sheet
}
