//! Descriptions that are refused, mostly good ones with something made wrong.

use crate::chance::Chance;
use crate::description::{HEADER, MOST_KIND_LINES, MOST_RELATION_LINES};
use crate::drafts::{any_expression, Draft};
use crate::sheets::{any_kind, any_relation, kind_of_any_ways};

/// Words that are mostly refused: those of the draft with something made wrong, or words by chance.
pub fn mostly_refused(chance: &mut Chance, draft: &Draft) -> Vec<u16> {
    match chance.below(100) {
        0..=64 => spoilt(chance, draft),
        65..=84 => disagreeing(chance, draft),
        _ => words_by_chance(chance),
    }
}

/// The words of the draft with two kind lines that disagree, or that would if their codes did not differ in a bit.
fn disagreeing(chance: &mut Chance, draft: &Draft) -> Vec<u16> {
    let mut draft = draft.clone();
    let changed = disagree(chance, &mut draft);
    if chance.percent(30) {
        draft.kinds[changed].code ^= 1 << chance.below(16);
    }
    draft.words()
}

/// Gives a kind line the code of another and, if need be, a way more or less, so that the two disagree; the place
/// of that line. Lines are added where there are fewer than two or than a few.
pub fn disagree(chance: &mut Chance, draft: &mut Draft) -> usize {
    let boards = draft.boards;
    let least = chance.pick(&[2, 2, 3, 5]);
    while draft.kinds.len() < least {
        draft.kinds.push(any_kind(chance, boards));
    }
    draft.mend_codes();
    let count = draft.kinds.len();
    let first = chance.below(count);
    let second = (first + chance.between(1, count - 1)) % count;
    let (code, ways) = (draft.kinds[first].code, draft.kinds[first].ways.len());
    let line = &mut draft.kinds[second];
    line.code = code;
    match line.ways.len() {
        another if another != ways => {}
        0..=7 if ways == 0 || chance.percent(50) => line.ways.push(chance.below(boards) as u16),
        _ => drop(line.ways.pop()),
    }
    second
}

/// The words of the draft with one thing, at times two, made wrong; at times lines are added before, or kind lines
/// disagree as well.
fn spoilt(chance: &mut Chance, draft: &Draft) -> Vec<u16> {
    let mut draft = draft.clone();
    if chance.percent(40) {
        add_lines(chance, &mut draft);
    }
    if chance.percent(20) {
        disagree(chance, &mut draft);
    }
    let both = chance.percent(25);
    let lines_first = chance.percent(60);
    if both || lines_first {
        for _ in 0..chance.pick(&[1, 1, 2]) {
            spoil_lines(chance, &mut draft);
        }
    }
    let mut words = draft.words();
    if both || !lines_first {
        spoil_words(chance, &draft, &mut words);
    }
    words
}

/// Adds lines of both sorts, as far as there may be more; no lines disagree afterwards.
fn add_lines(chance: &mut Chance, draft: &mut Draft) {
    for _ in 0..chance.between(1, 3) {
        draft.relations.push(any_relation(chance, draft.boards, 15));
        draft.kinds.push(kind_of_any_ways(chance, draft.boards));
    }
    draft.relations.truncate(MOST_RELATION_LINES as usize);
    draft.kinds.truncate(MOST_KIND_LINES as usize);
    draft.mend_codes();
}

/// Makes something in the lines wrong, the header remaining right.
fn spoil_lines(chance: &mut Chance, draft: &mut Draft) {
    match chance.below(10) {
        0..=2 => spoil_expression(chance, draft),
        3..=5 => spoil_board(chance, draft),
        6 => lengthen_expression(chance, draft),
        7 => lengthen_ways(chance, draft),
        _ => {
            let section = chance.below(2);
            let count = chance.between(1, 4);
            draft.left_over[section] = (0..count).map(|_| chance.pick(&[0, 0, 1, 2, 3, 9, 65_535])).collect();
        }
    }
}

/// Codes above 7, words too many or words too few in some expression.
fn spoil_expression(chance: &mut Chance, draft: &mut Draft) {
    let chosen = chance.below(draft.relations.len());
    let expression = match draft.relations.get_mut(chosen) {
        Some(line) if !line.expression.is_empty() => &mut line.expression,
        _ => return,
    };
    let high = chance.pick(&[8, 8, 9, 15, 256, 65_535]);
    let at = chance.below(expression.len());
    match chance.below(10) {
        0..=2 => expression[at] = high,
        3 => expression[at] = chance.between(4, 7) as u16,
        4 => expression.insert(at, chance.below(8) as u16),
        5..=6 => {
            let count = chance.between(1, 4);
            expression.extend((0..count).map(|_| chance.pick(&[0, 1, 2, 3, 4, 6, high])));
        }
        7 => expression.truncate(at.max(1)),
        8 => expression.fill(chance.between(4, 7) as u16),
        _ => drop(expression.pop()),
    }
}

/// A board number of V or more somewhere in a line, at times in several places of it.
fn spoil_board(chance: &mut Chance, draft: &mut Draft) {
    let v = draft.boards as u16;
    let in_kinds = chance.percent(50);
    let chosen = chance.below(if in_kinds { draft.kinds.len() } else { draft.relations.len() });
    for _ in 0..chance.pick(&[1, 1, 2]) {
        let wrong = chance.pick(&[v, v, v + 1, 255, 65_535]);
        if in_kinds {
            if let Some(line) = draft.kinds.get_mut(chosen) {
                let at = chance.below(line.ways.len() + 1);
                *line.ways.get_mut(at).unwrap_or(&mut line.p) = wrong;
            }
        } else if let Some(line) = draft.relations.get_mut(chosen) {
            *(if chance.percent(50) { &mut line.p } else { &mut line.q }) = wrong;
        }
    }
}

/// An expression of no words, of 16 words or of a few more.
fn lengthen_expression(chance: &mut Chance, draft: &mut Draft) {
    let chosen = chance.below(draft.relations.len());
    let length = chance.pick(&[0, 16, 16, 17, 20]);
    if let Some(line) = draft.relations.get_mut(chosen) {
        line.expression = if length == 0 { Vec::new() } else { any_expression(chance, length) };
    }
}

/// A kind line of 9 or more ways.
fn lengthen_ways(chance: &mut Chance, draft: &mut Draft) {
    let chosen = chance.below(draft.kinds.len());
    let length = chance.pick(&[9, 9, 10]);
    let boards = draft.boards;
    if let Some(line) = draft.kinds.get_mut(chosen) {
        line.ways = (0..length).map(|_| chance.below(boards) as u16).collect();
    }
}

/// Makes some word or the number of words wrong; the words are those of the draft.
fn spoil_words(chance: &mut Chance, draft: &Draft, words: &mut Vec<u16>) {
    match chance.below(13) {
        0..=3 => {
            for _ in 0..chance.pick(&[1, 1, 1, 2, 4]) {
                spoil_header(chance, words);
            }
        }
        4 => {
            let kept = chance.below(words.len());
            words.truncate(kept);
            mend_total(chance, words);
        }
        5 => {
            let added = chance.between(1, 5);
            words.extend((0..added).map(|_| chance.below(9) as u16));
            mend_total(chance, words);
        }
        6 => {
            let at = chance.below(words.len());
            words.remove(at);
            mend_total(chance, words);
        }
        7..=8 => shorten_section(chance, words),
        9..=10 => spoil_a_count(chance, draft, words),
        _ => {
            let at = chance.below(words.len());
            words[at] = any_word(chance, words[at]);
        }
    }
}

/// Takes a few words off the end of a section, the header remaining right.
fn shorten_section(chance: &mut Chance, words: &mut Vec<u16>) {
    let kind_offset = words[4] as usize;
    let in_kinds = chance.percent(50);
    let section = if in_kinds { kind_offset..words.len() } else { HEADER..kind_offset };
    let taken = chance.pick(&[1, 1, 2, 3, 4, 9]).min(section.len());
    words.drain(section.end - taken..section.end);
    words[5] -= taken as u16;
    if !in_kinds {
        words[4] -= taken as u16;
    }
}

/// Puts something else in the place of a length or a number of ways, the words after it remaining as they are.
fn spoil_a_count(chance: &mut Chance, draft: &Draft, words: &mut [u16]) {
    let counts = draft.counts();
    if counts.is_empty() {
        return;
    }
    let at = chance.pick(&counts);
    let old = words[at];
    words[at] = chance.pick(&[0, old.wrapping_sub(1), old + 1, old + 2, 8, 9, 15, 16, 256 + old, 65_535]);
}

/// Often sets the total to the number of words, so that the fault is found later.
fn mend_total(chance: &mut Chance, words: &mut [u16]) {
    let total = words.len() as u16;
    if words.len() >= 6 && chance.percent(70) {
        words[5] = total;
    }
}

/// A word near the old one or near some limit.
fn any_word(chance: &mut Chance, old: u16) -> u16 {
    let near = [old.wrapping_add(1), old.wrapping_sub(1), old.wrapping_add(256)];
    let limits = [0, 1, 5, 6, 7, 8, 9, 15, 16, 17, 128, 129, 255, 256, 32_768, 65_535];
    if chance.percent(50) {
        chance.pick(&near)
    } else {
        chance.pick(&limits)
    }
}

/// Puts something else in the place of one of the six header words.
fn spoil_header(chance: &mut Chance, words: &mut [u16]) {
    let at = chance.below(6);
    let old = words[at];
    let (less, more, total) = (old.saturating_sub(1), old.saturating_add(1), words[5]);
    words[at] = match at {
        0 => chance.pick(&[0, 17, 18, 256, 65_535, less]),
        1 => chance.pick(&[129, 255, 256, 65_535, more, less]),
        2 => chance.pick(&[17, 18, 256, 65_535, more, less]),
        3 => chance.pick(&[0, 5, 7, 65_535]),
        4 if chance.percent(40) => chance.between(HEADER, total as usize) as u16,
        4 => chance.pick(&[0, 5, less, more, total.saturating_add(1), total, 65_535]),
        _ => chance.pick(&[0, 5, 6, less, more, 65_535]),
    };
}

/// Words by chance, often under a header that passes.
fn words_by_chance(chance: &mut Chance) -> Vec<u16> {
    let count = chance.between(0, 40);
    let limit = chance.pick(&[4, 9, 20, 65_536]);
    let mut words: Vec<u16> = (0..count).map(|_| chance.below(limit) as u16).collect();
    if count >= 6 && chance.percent(75) {
        let kind_offset = chance.between(6, count);
        let (lines, kinds) = (chance.pick(&[0, 1, 1, 2, 3]), chance.pick(&[0, 0, 1, 2]));
        let boards = chance.between(1, 16);
        for (at, word) in [boards, lines, kinds, 6, kind_offset, count].into_iter().enumerate() {
            words[at] = word as u16;
        }
    }
    words
}
