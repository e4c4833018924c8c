//! Kind lines with names that disagree or nearly do, and what refused ones are refused with and where, worked out by
//! hand.

use crate::drafts::Draft;
use crate::named::{longest, RefusedRun};
use crate::sheets::behind_loose_boards;

/// A line with one way and a line with two, of these codes.
fn one_and_two_ways(first: u16, second: u16) -> Draft {
    Draft::of(5).kind(0, first, &[1]).kind(2, second, &[3, 4])
}

/// Good descriptions whose kind lines nearly disagree.
pub fn agreeing_kinds() -> Vec<(&'static str, Draft)> {
    let other_kinds = one_and_two_ways(5, 6);
    let one_kind = Draft::of(4).kind(0, 5, &[1]).kind(2, 5, &[3]);
    let ways: Vec<u16> = (1..=8).collect();
    let all_numbers = (0..9).fold(Draft::of(9), |draft, count| draft.kind(0, count, &ways[..count as usize]));
    vec![
        ("two-kinds-one-and-two-ways", other_kinds.clone()),
        ("two-kinds-one-and-two-ways-same-panel", other_kinds.clone().line(0, 2, &[0])),
        ("two-kinds-one-and-two-ways-same-or-side", other_kinds.line(0, 2, &[4, 0, 3])),
        ("one-board-two-kinds-one-and-two-ways", Draft::of(3).kind(0, 5, &[1]).kind(0, 6, &[1, 2])),
        ("one-kind-same-or-side", one_kind.line(0, 2, &[4, 0, 3])),
        ("kinds-7-and-263-one-and-two-ways", one_and_two_ways(7, 263)),
        ("kinds-0-and-256-one-and-two-ways", one_and_two_ways(0, 256)),
        ("kinds-65535-and-255-one-and-two-ways", one_and_two_ways(65_535, 255)),
        ("kinds-256-and-257-one-and-two-ways", one_and_two_ways(256, 257)),
        ("kinds-32768-and-0-one-and-two-ways", one_and_two_ways(32_768, 0)),
        ("nine-kinds-of-all-numbers-of-ways", all_numbers),
        ("two-kinds-in-turn", (0..8).fold(Draft::of(5), |draft, _| draft.kind(0, 5, &[1]).kind(2, 6, &[3, 4]))),
        ("one-kind-of-one-way-16-times", (0..16).fold(Draft::of(16), |draft, p| draft.kind(p % 8, 5, &[8 + p % 8]))),
        ("one-kind-of-eight-ways-16-times", (0..16).fold(Draft::of(9), |draft, _| draft.kind(0, 5, &ways))),
    ]
}

/// All refused runs of words that have to do with kind lines of one code.
pub fn refused_kinds() -> Vec<RefusedRun> {
    let disagreeing = [disagreeing_pairs(), disagreeing_lists(), disagreeing_and_more()].concat();
    let mut refused: Vec<RefusedRun> =
        disagreeing.into_iter().map(|(name, draft, place)| (name, draft.words(), 11, place)).collect();
    refused.extend([refused_before_lines(), refused_in_relation_lines(), refused_in_kind_lines()].concat());
    refused
}

/// A description that is refused with 11, and the place.
type Disagreeing = (&'static str, Draft, u32);

/// Refusal 11 for two kind lines.
fn disagreeing_pairs() -> Vec<Disagreeing> {
    let ways: Vec<u16> = (1..=8).collect();
    let counted = |first: usize, second: usize| Draft::of(9).kind(0, 5, &ways[..first]).kind(0, 5, &ways[..second]);
    let panels = one_and_two_ways(5, 5);
    vec![
        ("one-and-two-ways", panels.clone(), 12),
        ("two-ways-and-one", Draft::of(5).kind(2, 5, &[3, 4]).kind(0, 5, &[1]), 13),
        ("no-ways-and-one", Draft::of(3).kind(0, 5, &[]).kind(1, 5, &[2]), 11),
        ("one-way-and-none", Draft::of(3).kind(0, 5, &[1]).kind(2, 5, &[]), 12),
        ("seven-and-eight-ways", counted(7, 8), 18),
        ("eight-and-seven-ways", counted(8, 7), 19),
        ("no-ways-and-eight", counted(0, 8), 11),
        ("eight-ways-and-none", counted(8, 0), 19),
        ("kind-0-one-and-two-ways", one_and_two_ways(0, 0), 12),
        ("kind-0-no-ways-and-one", Draft::of(2).kind(0, 0, &[]).kind(1, 0, &[0]), 11),
        ("kind-0-one-way-and-none", Draft::of(2).kind(0, 0, &[1]).kind(1, 0, &[]), 12),
        ("kind-256-one-and-two-ways", one_and_two_ways(256, 256), 12),
        ("kind-65535-one-and-two-ways", one_and_two_ways(65_535, 65_535), 12),
        ("one-board-two-numbers-of-ways", Draft::of(3).kind(0, 5, &[1]).kind(0, 5, &[1, 2]), 12),
        ("disagreeing-panels-same", panels.clone().line(0, 2, &[0]), 16),
        ("disagreeing-panels-same-or-side", panels.clone().line(0, 2, &[4, 0, 3]), 18),
        ("disagreeing-panels-side", panels.line(0, 2, &[3]), 16),
    ]
}

/// Refusal 11 for lists of three to sixteen kind lines.
fn disagreeing_lists() -> Vec<Disagreeing> {
    let first = Draft::of(4).kind(0, 5, &[1]);
    let same_again = (0..14).fold(first.clone(), |draft, _| draft.kind(0, 5, &[1]));
    let other_kinds = (0..14).fold(first.clone(), |draft, at| draft.kind(0, 6 + at, &[1, 2]));
    let last_15 = (0..15).fold(Draft::of(2).kind(0, 5, &[]), |draft, _| draft.kind(0, 5, &[1]));
    vec![
        ("third-line-disagrees-with-first", first.clone().kind(2, 6, &[1, 3]).kind(2, 5, &[1, 3]), 17),
        ("third-line-disagrees-with-second", first.clone().kind(2, 6, &[1, 3]).kind(0, 6, &[1]), 17),
        ("third-line-disagrees-with-two-that-agree", first.clone().kind(2, 5, &[3]).kind(2, 5, &[1, 3]), 16),
        ("second-line-disagrees-third-agrees-with-first", first.clone().kind(2, 5, &[1, 3]).kind(2, 5, &[3]), 12),
        ("three-numbers-of-ways", first.clone().kind(2, 5, &[1, 3]).kind(2, 5, &[]), 12),
        ("two-kinds-disagree", first.clone().kind(2, 6, &[]).kind(2, 5, &[]).kind(0, 6, &[1]), 15),
        ("two-kinds-disagree-one-after-the-other", first.kind(0, 5, &[]).kind(2, 6, &[]).kind(2, 6, &[3]), 12),
        ("second-of-16-lines-disagrees", last_15, 11),
        ("last-of-16-lines-disagrees", same_again.kind(0, 5, &[]), 68),
        ("last-of-16-lines-disagrees-with-first-alone", other_kinds.kind(0, 5, &[]), 82),
        ("longest-disagreeing", longest_disagreeing(), 2_477),
    ]
}

/// The longest description that is refused with 11, of 2,485 words: its last kind line disagrees with its first,
/// and no other two do.
pub fn longest_disagreeing() -> Draft {
    let mut draft = longest();
    for (at, line) in draft.kinds.iter_mut().enumerate() {
        line.code = at as u16 % 15;
    }
    draft.kinds[15].ways.pop();
    draft
}

/// Refusal 11 for descriptions without an arrangement, and for one whose search takes more tries than any budget here.
fn disagreeing_and_more() -> Vec<Disagreeing> {
    vec![
        ("11-before-an-empty-set", one_and_two_ways(5, 5).line(0, 1, &[5, 0, 1]), 18),
        ("11-before-a-way-listed-twice", Draft::of(4).kind(0, 5, &[1, 1]).kind(2, 5, &[3]), 13),
        ("11-before-a-panel-among-its-ways", Draft::of(2).kind(0, 5, &[0]).kind(1, 5, &[]), 12),
        ("11-before-tries-without-end", behind_loose_boards(4).kind(0, 101, &[]), 56),
    ]
}

/// Refusals 1 and 2 where kind lines disagree as well.
fn refused_before_lines() -> Vec<RefusedRun> {
    let of_boards = |boards: usize| Draft { boards, ..one_and_two_ways(5, 5) }.words();
    let kinds_17 = (0..16).fold(Draft::of(2).kind(0, 5, &[1]), |draft, _| draft.kind(0, 5, &[]));
    let changed = |at: usize, word: u16| {
        let mut words = one_and_two_ways(5, 5).words();
        words[at] = word;
        words
    };
    vec![
        ("1-for-no-boards-before-11", of_boards(0), 1, 0),
        ("1-for-17-boards-before-11", of_boards(17), 1, 0),
        ("1-for-17-kind-lines-before-11", kinds_17.words(), 1, 2),
        ("2-for-the-relation-offset-before-11", changed(3, 7), 2, 3),
        ("2-for-the-kind-offset-before-11", changed(4, 5), 2, 4),
        ("2-for-the-total-before-11", changed(5, 16), 2, 5),
    ]
}

/// Refusals 3, 4 and 5 in relation lines where kind lines disagree as well.
fn refused_in_relation_lines() -> Vec<RefusedRun> {
    let good = one_and_two_ways(5, 5).line(0, 1, &[1]);
    let mut left_over = good.clone();
    left_over.left_over[0] = vec![0];
    vec![
        ("3-in-relation-line-before-11", good.clone().line(0, 1, &[]).words(), 3, 12),
        ("left-over-after-relation-lines-before-11", left_over.words(), 3, 10),
        ("4-in-relation-line-before-11", good.clone().line(0, 5, &[1]).words(), 4, 11),
        ("5-in-relation-line-before-11", good.clone().line(0, 1, &[8]).words(), 5, 13),
        ("5-for-a-missing-operand-before-11", good.line(0, 1, &[4, 0]).words(), 5, 15),
    ]
}

/// Refusals 3 and 4 in kind lines where kind lines disagree as well, or would.
fn refused_in_kind_lines() -> Vec<RefusedRun> {
    let disagreeing = one_and_two_ways(5, 5);
    let left = |draft: Draft, words: &[u16]| Draft { left_over: [vec![], words.to_vec()], ..draft }.words();
    let first = Draft::of(5).kind(0, 5, &[1]);
    let past = |draft: Draft| {
        let mut words = draft.words();
        words.pop();
        words[5] -= 1;
        words
    };
    let mut one_line_more = disagreeing.words();
    one_line_more[2] = 3;
    vec![
        ("left-over-after-kind-lines-before-11", left(disagreeing.clone(), &[0]), 3, 15),
        ("left-over-kind-line-that-would-disagree", left(first.clone(), &[2, 5, 2, 3, 4]), 3, 10),
        ("kind-line-missing-before-11", one_line_more, 3, 15),
        ("later-kind-line-past-its-section-before-11", past(disagreeing.clone().kind(0, 6, &[1])), 3, 18),
        ("disagreeing-line-past-its-section", past(disagreeing.clone()), 3, 14),
        ("nine-ways-in-later-line-before-11", disagreeing.clone().kind(0, 6, &[1; 9]).words(), 3, 17),
        ("nine-ways-in-earlier-line-before-11", Draft::of(5).kind(0, 5, &[1; 9]).kind(0, 5, &[1]).words(), 3, 8),
        ("nine-ways-of-a-kind-used-before", first.clone().kind(2, 5, &[3; 9]).words(), 3, 12),
        ("4-in-later-kind-line-before-11", disagreeing.clone().kind(0, 6, &[5]).words(), 4, 18),
        ("4-for-a-later-panel-before-11", disagreeing.kind(5, 6, &[]).words(), 4, 15),
        ("4-in-earlier-kind-line-before-11", Draft::of(5).kind(0, 5, &[5]).kind(2, 5, &[3, 4]).words(), 4, 9),
        ("4-in-the-disagreeing-line", first.clone().kind(2, 5, &[3, 5]).words(), 4, 14),
        ("4-for-the-disagreeing-panel", first.kind(5, 5, &[3, 4]).words(), 4, 10),
    ]
}
