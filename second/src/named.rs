//! Descriptions with names: those to try, those at the limits, and those refused, with number and place worked out by
//! hand.

use crate::drafts::Draft;
use crate::named_kinds::{agreeing_kinds, refused_kinds};
use crate::sheets::{behind_loose_boards, core_with, core_without};

/// All good descriptions with names.
pub fn good_drafts() -> Vec<(&'static str, Draft)> {
    [sites_to_try(), kinds_of_note(), agreeing_kinds(), lines_of_note(), limits()].concat()
}

/// The sites that the rules name.
fn sites_to_try() -> Vec<(&'static str, Draft)> {
    let above_both = Draft::of(3).line(0, 2, &[1]).line(1, 2, &[1]);
    let second_way = Draft::of(4).line(0, 3, &[1]).line(1, 3, &[3]).kind(0, 5, &[1, 2]);
    vec![
        ("example", Draft::of(3).kind(0, 5, &[1, 2])),
        ("one-board", Draft::of(1)),
        ("two-boards", Draft::of(2)),
        ("three-boards", Draft::of(3)),
        ("at-or-above", Draft::of(2).line(0, 1, &[4, 0, 1])),
        ("at-or-above-both-ways", Draft::of(2).line(0, 1, &[4, 0, 1]).line(1, 0, &[4, 0, 1])),
        ("two-above-one", above_both.clone()),
        ("two-above-one-and-side", above_both.line(0, 1, &[3])),
        ("one-way-listed-twice", Draft::of(2).kind(0, 5, &[1, 1])),
        ("no-ways-but-above", Draft::of(2).line(0, 1, &[1]).kind(0, 5, &[])),
        ("second-way-feeds", second_way),
        ("same-way-same-panel", Draft::of(4).line(1, 3, &[0]).kind(0, 5, &[1]).kind(2, 5, &[3])),
        ("none-after-three-tries", core_without()),
        ("found-after-five-tries", core_with()),
    ]
}

/// Kind lines that are easy to get wrong.
fn kinds_of_note() -> Vec<(&'static str, Draft)> {
    let two = |first: u16, second: u16| Draft::of(4).kind(0, first, &[1]).kind(2, second, &[3]);
    let twins = Draft::of(6).kind(0, 5, &[2, 3]).kind(1, 5, &[4, 5]);
    vec![
        ("panel-among-its-ways", Draft::of(2).kind(0, 5, &[0])),
        ("way-at-one-board", Draft::of(1).kind(0, 5, &[0])),
        ("no-ways", Draft::of(3).kind(1, 5, &[])),
        ("same-panel-same-ways", two(5, 5).line(0, 2, &[0])),
        ("same-panel-other-kind", two(5, 6).line(0, 2, &[0])),
        ("other-kind-without-ways", Draft::of(2).kind(0, 5, &[]).kind(1, 6, &[])),
        ("kind-zero-and-65535", Draft::of(2).kind(0, 0, &[]).kind(1, 65_535, &[])),
        ("kind-differs-in-high-byte", Draft::of(2).line(0, 1, &[0]).kind(0, 5, &[]).kind(1, 261, &[])),
        ("one-board-two-kinds", Draft::of(2).kind(0, 5, &[]).kind(0, 6, &[])),
        ("one-board-same-line-twice", Draft::of(3).kind(0, 5, &[1, 2]).kind(0, 5, &[1, 2])),
        ("one-board-ways-exchanged", Draft::of(3).kind(0, 5, &[1, 2]).kind(0, 5, &[2, 1])),
        ("one-board-two-names-of-a-way", Draft::of(3).kind(0, 5, &[1]).kind(0, 5, &[2])),
        ("one-board-two-names-of-two-ways", Draft::of(5).kind(0, 5, &[1, 2]).kind(0, 5, &[3, 4])),
        ("different-ways-different-panels", two(5, 5).line(1, 3, &[6, 0])),
        ("twins", twins.clone()),
        ("twins-same-panel", twins.clone().line(0, 1, &[0])),
        ("twins-same-panel-ways-crossed", twins.clone().line(0, 1, &[0]).line(2, 5, &[0])),
        ("twins-first-way-same", twins.clone().line(2, 4, &[0])),
        ("twins-second-way-not-same", twins.clone().line(3, 5, &[6, 0])),
        ("ways-in-a-chain", Draft::of(5).kind(0, 5, &[1]).kind(1, 5, &[2]).kind(2, 5, &[3]).kind(3, 5, &[4])),
        ("two-panels-feed-each-other", Draft::of(2).kind(0, 5, &[1]).kind(1, 5, &[0])),
        ("one-way-of-two-panels", Draft::of(3).kind(0, 5, &[2]).kind(1, 5, &[2])),
        ("one-way-of-two-kinds", Draft::of(3).kind(0, 5, &[2]).kind(1, 6, &[2])),
        ("board-beside-all-ways", Draft::of(4).line(0, 3, &[1]).line(3, 1, &[3]).line(3, 2, &[3]).kind(0, 5, &[1, 2])),
        ("board-between-panel-and-way", Draft::of(3).line(0, 2, &[1]).line(2, 1, &[1]).kind(0, 5, &[1])),
        ("board-above-a-way", Draft::of(4).line(3, 1, &[1]).kind(0, 5, &[1, 2])),
        ("board-below-one-of-three-ways", Draft::of(5).line(0, 4, &[1]).line(4, 1, &[3]).kind(0, 5, &[1, 2, 3])),
    ]
}

/// The pairs p < q of so many boards.
fn pairs(boards: u16) -> impl Iterator<Item = (u16, u16)> {
    (0..boards).flat_map(move |p| (p + 1..boards).map(move |q| (p, q)))
}

/// Relation lines that are easy to get wrong.
fn lines_of_note() -> Vec<(&'static str, Draft)> {
    vec![
        ("empty-set", Draft::of(2).line(0, 1, &[5, 0, 1])),
        ("board-above-itself", Draft::of(2).line(1, 1, &[1])),
        ("board-same-as-itself", Draft::of(2).line(1, 1, &[0])),
        ("all-relations", Draft::of(2).line(0, 1, &[4, 0, 6, 0])),
        ("line-on-later-board-first", Draft::of(3).line(2, 0, &[1])),
        ("inverse-of-above", Draft::of(3).line(2, 0, &[7, 1])),
        ("side-of-side", Draft::of(3).line(0, 1, &[3]).line(1, 2, &[3])),
        ("above-in-a-ring", Draft::of(3).line(0, 1, &[1]).line(1, 2, &[1]).line(2, 0, &[1])),
        ("chain-of-six", (0..5).fold(Draft::of(6), |draft, p| draft.line(p, p + 1, &[1]))),
        ("chain-by-closing-many-times", (0..8).rev().fold(Draft::of(9), |draft, p| draft.line(p, p + 1, &[1]))),
        ("all-side", pairs(4).fold(Draft::of(4), |draft, (p, q)| draft.line(p, q, &[3]))),
        ("none-same", pairs(5).fold(Draft::of(5), |draft, (p, q)| draft.line(p, q, &[6, 0]))),
        ("above-or-below-and-not", Draft::of(2).line(0, 1, &[4, 1, 2]).line(1, 0, &[6, 4, 1, 2])),
        ("same-pair-many-lines", (0..4).fold(Draft::of(2), |draft, code| draft.line(0, 1, &[6, code / 2 * 2]))),
        ("core-behind-two-loose-boards", behind_loose_boards(2)),
        ("more-tries-than-the-budget", behind_loose_boards(4)),
        ("none-after-10000-tries", none_after_10000_tries()),
    ]
}

/// Three groups of boards side by side: 2 loose ones, 4 nearly loose ones, and 6 without an arrangement.
/// The six take 10 tries to fail, the four with them 329 + 217 * 10 = 2,499, all 4 * (1 + 2,499) = 10,000.
fn none_after_10000_tries() -> Draft {
    let failing = [(0, 1, 12), (0, 2, 11), (0, 4, 13), (1, 2, 6), (1, 3, 6), (1, 4, 11), (1, 5, 12)];
    let failing_too = [(2, 3, 6), (2, 4, 12), (2, 5, 6), (3, 4, 6), (3, 5, 12), (4, 5, 10)];
    let group = |board: u16| if board < 2 { 0 } else { 1 + board / 6 };
    let mut draft = Draft::of(12).within(3, 5, 14);
    for (p, q) in pairs(12).filter(|&(p, q)| group(p) != group(q)) {
        draft = draft.within(p, q, 8);
    }
    for (p, q, set) in failing.into_iter().chain(failing_too) {
        draft = draft.within(p + 6, q + 6, set);
    }
    draft
}

/// Descriptions at the limits of what is taken.
fn limits() -> Vec<(&'static str, Draft)> {
    let ways: Vec<u16> = (1..=8).collect();
    let fifteen = [4, 4, 4, 4, 4, 4, 4, 0, 1, 2, 3, 0, 1, 2, 3];
    let lines_128 = (0..128).fold(Draft::of(16), |draft, at| draft.line(at % 16, at / 8, &[6, 3]));
    let kinds_16 = (0..16).fold(Draft::of(16), |draft, p| draft.kind(p, 5, &[]));
    vec![
        ("sixteen-boards", Draft::of(16)),
        ("fifteen-expression-words", Draft::of(2).line(0, 1, &[6, 6, 6, 6, 6, 6, 6, 6, 6, 6, 6, 6, 6, 6, 1])),
        ("fifteen-words-of-unions", Draft::of(2).line(0, 1, &fifteen)),
        ("eight-ways", Draft::of(9).kind(0, 5, &ways)),
        ("eight-ways-of-sixteen-boards", Draft::of(16).kind(0, 5, &ways)),
        ("relation-lines-128", lines_128),
        ("kind-lines-16", kinds_16),
        ("longest", longest()),
    ]
}

/// A good description of 2,486 words that has an arrangement.
pub fn longest() -> Draft {
    let ways: Vec<u16> = (1..=8).collect();
    let mut draft = Draft::of(16);
    for at in 0..128 {
        let (p, q) = (at / 8, (at * 5 + 1) % 16);
        draft = draft.line(p, q, &[4, 4, 4, 4, 4, 4, 4, 0, 1, 2, 3, 3, 2, 1, 0]);
    }
    for _ in 0..16 {
        draft = draft.kind(0, 5, &ways);
    }
    draft
}

/// A run of words that is refused, with the number and the place.
pub type RefusedRun = (&'static str, Vec<u16>, u32, u32);

/// All refused runs of words with names, those of each place and the longest apart.
pub fn refused_runs() -> Vec<RefusedRun> {
    [refused_headers(), refused_lines(), refused_orders(), refused_kinds()].concat()
}

/// Refusals 1 and 2.
fn refused_headers() -> Vec<RefusedRun> {
    let lines_129 = (0..129).fold(Draft::of(2), |draft, _| draft.line(0, 1, &[0]));
    let kinds_17 = (0..17).fold(Draft::of(2), |draft, _| draft.kind(0, 5, &[]));
    vec![
        ("no-words", vec![], 1, 0),
        ("one-word", vec![1], 1, 1),
        ("five-words", vec![1, 0, 0, 6, 6], 1, 5),
        ("no-boards", Draft::of(0).words(), 1, 0),
        ("seventeen-boards", Draft::of(17).words(), 1, 0),
        ("boards-65535", vec![65_535, 0, 0, 6, 6, 6], 1, 0),
        ("boards-257", vec![257, 0, 0, 6, 6, 6], 1, 0),
        ("relation-lines-129", lines_129.words(), 1, 1),
        ("relation-lines-65535", vec![1, 65_535, 0, 6, 6, 6], 1, 1),
        ("kind-lines-17", kinds_17.words(), 1, 2),
        ("kind-lines-256", vec![1, 0, 256, 6, 6, 6], 1, 2),
        ("relation-offset-5", vec![1, 0, 0, 5, 6, 6], 2, 3),
        ("relation-offset-7", vec![1, 0, 0, 7, 6, 6], 2, 3),
        ("relation-offset-7-of-7", vec![1, 0, 0, 7, 7, 7, 0], 2, 3),
        ("kind-offset-5", vec![1, 0, 0, 6, 5, 6], 2, 4),
        ("kind-offset-above-total", vec![1, 0, 0, 6, 7, 6], 2, 4),
        ("kind-offset-65535", vec![1, 0, 0, 6, 65_535, 6], 2, 4),
        ("total-too-small", vec![1, 0, 0, 6, 6, 6, 0], 2, 5),
        ("total-too-large", vec![1, 0, 0, 6, 6, 7], 2, 5),
        ("total-5", vec![1, 0, 0, 6, 5, 5], 2, 4),
        ("all-words-zero", vec![0; 6], 1, 0),
        ("all-words-65535", vec![65_535; 6], 1, 0),
    ]
}

/// Refusals 3, 4 and 5, one fault each.
fn refused_lines() -> Vec<RefusedRun> {
    let good = Draft::of(2).line(0, 1, &[1]);
    let left = |section: usize, words: &[u16]| {
        let mut draft = good.clone().kind(0, 5, &[1]);
        draft.left_over[section] = words.to_vec();
        draft.words()
    };
    vec![
        ("relation-line-missing", vec![2, 1, 0, 6, 6, 6], 3, 6),
        ("relation-line-of-two-words", vec![2, 1, 0, 6, 8, 8, 0, 1], 3, 8),
        ("relation-line-without-expression", vec![2, 1, 0, 6, 9, 9, 0, 1, 1], 3, 9),
        ("relation-line-into-kind-lines", vec![2, 1, 1, 6, 9, 13, 0, 1, 1, 0, 5, 1, 1], 3, 9),
        ("length-0", good.clone().line(0, 1, &[]).words(), 3, 12),
        ("expression-words-16", Draft::of(2).line(0, 1, &[[6; 15].as_slice(), &[1]].concat()).words(), 3, 8),
        ("length-65535", vec![2, 1, 0, 6, 10, 10, 0, 1, 65_535, 1], 3, 8),
        ("left-over-after-relation-lines", left(0, &[0]), 3, 10),
        ("left-over-relation-line", left(0, &[0, 1, 1, 0]), 3, 10),
        ("left-over-after-kind-lines", left(1, &[0]), 3, 14),
        ("left-over-kind-line", left(1, &[0, 5, 0]), 3, 14),
        ("kind-line-missing", vec![2, 0, 1, 6, 6, 6], 3, 6),
        ("kind-line-of-two-words", vec![2, 0, 1, 6, 6, 8, 0, 5], 3, 8),
        ("kind-line-past-its-section", vec![2, 0, 1, 6, 6, 9, 0, 5, 1], 3, 9),
        ("nine-ways", Draft::of(16).kind(0, 5, &[1, 2, 3, 4, 5, 6, 7, 8, 9]).words(), 3, 8),
        ("ways-65535", vec![2, 0, 1, 6, 6, 9, 0, 5, 65_535], 3, 8),
        ("first-board-too-high", Draft::of(2).line(2, 1, &[1]).words(), 4, 6),
        ("second-board-too-high", Draft::of(2).line(0, 2, &[1]).words(), 4, 7),
        ("board-65535", Draft::of(2).line(65_535, 0, &[1]).words(), 4, 6),
        ("panel-too-high", Draft::of(2).kind(2, 5, &[1]).words(), 4, 6),
        ("way-too-high", Draft::of(3).kind(0, 5, &[1, 3]).words(), 4, 10),
        ("code-8", Draft::of(2).line(0, 1, &[8]).words(), 5, 9),
        ("code-257", Draft::of(2).line(0, 1, &[257]).words(), 5, 9),
        ("operand-missing", Draft::of(2).line(0, 1, &[4, 0]).words(), 5, 11),
        ("operand-of-not-missing", Draft::of(2).line(0, 1, &[6]).words(), 5, 10),
        ("word-too-many", Draft::of(2).line(0, 1, &[0, 0]).words(), 5, 10),
        ("operand-in-next-line", Draft::of(2).line(0, 1, &[4, 0]).line(0, 1, &[1]).words(), 5, 11),
    ]
}

/// Several faults, of which the first in order decides.
fn refused_orders() -> Vec<RefusedRun> {
    let mut left_over_then_panel = Draft::of(2).line(0, 1, &[1]).kind(2, 5, &[]);
    left_over_then_panel.left_over[0] = vec![0];
    let mut panel_then_left_over = Draft::of(2).kind(2, 5, &[]);
    panel_then_left_over.left_over[1] = vec![0];
    let mut code_then_left_over = Draft::of(2).line(0, 1, &[8]);
    code_then_left_over.left_over[0] = vec![0];
    vec![
        ("1-before-2", vec![17, 0, 0, 7, 5, 9], 1, 0),
        ("2-before-3", vec![2, 1, 0, 6, 6, 7], 2, 5),
        ("3-before-4-and-5-in-a-line", Draft::of(2).line(2, 9, &[8; 16]).words(), 3, 8),
        ("4-before-5-in-a-line", Draft::of(2).line(0, 2, &[8]).words(), 4, 7),
        ("5-in-line-0-before-3-in-line-1", Draft::of(2).line(0, 1, &[8]).line(0, 1, &[]).words(), 5, 9),
        ("5-in-line-0-before-4-in-line-1", Draft::of(2).line(0, 1, &[8]).line(2, 1, &[1]).words(), 5, 9),
        ("4-in-line-0-before-3-in-line-1", Draft::of(2).line(0, 2, &[1]).line(0, 1, &[]).words(), 4, 7),
        ("4-in-line-0-before-5-in-line-1", Draft::of(2).line(0, 2, &[1]).line(0, 1, &[9]).words(), 4, 7),
        ("3-in-line-0-before-4-in-line-1", Draft::of(2).line(0, 1, &[]).line(0, 2, &[1]).words(), 3, 8),
        ("5-before-left-over", code_then_left_over.words(), 5, 9),
        ("left-over-before-4-in-kind-line", left_over_then_panel.words(), 3, 10),
        ("4-in-kind-line-before-left-over", panel_then_left_over.words(), 4, 6),
        ("5-before-3-in-kind-line", Draft::of(2).line(0, 1, &[8]).kind(0, 5, &[1; 9]).words(), 5, 9),
        ("5-before-4-in-kind-line", Draft::of(2).line(0, 1, &[0, 0]).kind(0, 5, &[2]).words(), 5, 10),
        ("3-before-4-in-a-kind-line", Draft::of(2).kind(2, 5, &[3; 9]).words(), 3, 8),
        ("4-in-kind-line-0-before-3-in-1", Draft::of(2).kind(0, 5, &[2]).kind(0, 5, &[1; 9]).words(), 4, 9),
        ("3-in-kind-line-0-before-4-in-1", Draft::of(2).kind(0, 5, &[1; 9]).kind(0, 5, &[2]).words(), 3, 8),
        ("length-16-past-its-section", vec![2, 1, 0, 6, 9, 9, 2, 2, 16], 3, 8),
        ("short-line-with-high-board", vec![2, 1, 0, 6, 8, 8, 9, 9], 3, 8),
        ("short-kind-line-with-high-way", vec![2, 0, 1, 6, 6, 10, 0, 5, 2, 9], 3, 10),
    ]
}

/// The longest description made wrong. Its last relation line stands from 2,292 to 2,309, its last kind line from
/// 2,475 to 2,485.
pub fn refused_longest() -> Vec<RefusedRun> {
    [changed_longest(), ends_of_longest()].concat()
}

/// The words of the longest description, some of them changed.
fn longest_but(changes: &[(usize, u16)]) -> Vec<u16> {
    let mut words = longest().words();
    for &(at, word) in changes {
        words[at] = word;
    }
    words
}

/// Each refusal at its first and last place in the longest description, and several faults, of which the first in
/// order decides.
fn changed_longest() -> Vec<RefusedRun> {
    vec![
        ("seventeen-boards", longest_but(&[(0, 17)]), 1, 0),
        ("kind-lines-17", longest_but(&[(2, 17)]), 1, 2),
        ("relation-offset-7", longest_but(&[(3, 7)]), 2, 3),
        ("total-too-small", longest_but(&[(5, 2_485)]), 2, 5),
        ("first-length-16", longest_but(&[(8, 16)]), 3, 8),
        ("nine-ways-in-last-line", longest_but(&[(2_477, 9)]), 3, 2_477),
        ("last-way-left-over", longest_but(&[(2_477, 7)]), 3, 2_485),
        ("first-board-too-high", longest_but(&[(6, 16)]), 4, 6),
        ("last-way-too-high", longest_but(&[(2_485, 16)]), 4, 2_485),
        ("first-code-8", longest_but(&[(9, 8)]), 5, 9),
        ("last-code-8", longest_but(&[(2_309, 8)]), 5, 2_309),
        ("last-operand-missing", longest_but(&[(2_309, 6)]), 5, 2_310),
        ("last-code-too-many", longest_but(&[(2_301, 6)]), 5, 2_309),
        ("5-in-first-line-before-3-in-last", longest_but(&[(9, 8), (2_477, 9)]), 5, 9),
        ("3-before-4-in-first-line", longest_but(&[(8, 16), (6, 16)]), 3, 8),
        ("4-before-5-in-first-line", longest_but(&[(7, 16), (9, 8)]), 4, 7),
        ("2-before-4-in-first-line", longest_but(&[(5, 2_485), (6, 16)]), 2, 5),
        ("1-before-2", longest_but(&[(0, 17), (5, 2_485)]), 1, 0),
    ]
}

/// The longest description with a word more, or with words taken away or counted in another section or line.
fn ends_of_longest() -> Vec<RefusedRun> {
    let ending_at = |total: usize| {
        let mut words = longest_but(&[(5, total as u16)]);
        words.resize(total, 0);
        words
    };
    let mut short_relation_section = longest_but(&[(4, 2_308), (5, 2_484)]);
    short_relation_section.drain(2_308..2_310);
    vec![
        ("a-word-more", ending_at(2_487), 3, 2_486),
        ("last-way-missing", ending_at(2_485), 3, 2_485),
        ("all-but-one-word-of-last-kind-line-missing", ending_at(2_476), 3, 2_476),
        ("last-kind-line-missing", ending_at(2_475), 3, 2_475),
        ("kind-lines-15", longest_but(&[(2, 15)]), 3, 2_475),
        ("last-panel-too-high", longest_but(&[(2_475, 16)]), 4, 2_475),
        ("first-way-of-first-kind-line-too-high", longest_but(&[(2_313, 65_535)]), 4, 2_313),
        ("kind-offset-one-more", longest_but(&[(4, 2_311)]), 3, 2_310),
        ("kind-offset-one-less", longest_but(&[(4, 2_309)]), 3, 2_309),
        ("two-words-of-last-relation-line-missing", short_relation_section, 3, 2_308),
        ("relation-lines-127", longest_but(&[(1, 127)]), 3, 2_292),
        ("last-length-0", longest_but(&[(2_294, 0)]), 3, 2_294),
        ("last-length-14", longest_but(&[(2_294, 14)]), 5, 2_309),
        ("second-board-of-last-relation-line-too-high", longest_but(&[(2_293, 16)]), 4, 2_293),
    ]
}
