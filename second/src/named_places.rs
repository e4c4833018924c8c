//! Runs of words that are refused at each place where a refusal can be, with number and place worked out by hand.

use crate::drafts::Draft;
use crate::named::RefusedRun;

/// All of them.
pub fn refused_places() -> Vec<RefusedRun> {
    let sections = [short_relation_sections(), lengths(), past_the_end(), short_kind_sections(), left_over()];
    let expressions = [codes_too_high(), words_left_over(), words_missing(), between_other_lines()];
    let rest = [ranges(), offsets(), boards_of_lines(), panels_and_ways(), numbers_of_ways()];
    [sections.concat(), expressions.concat(), rest.concat(), moved_relation_lines(), moved_kind_lines()].concat()
}

/// Refusal 1: fewer than 6 words, whatever they are; then the first of V, R and K that is out of range.
fn ranges() -> Vec<RefusedRun> {
    vec![
        ("one-word-out-of-range", vec![0], 1, 1),
        ("two-words-out-of-range", vec![0, 129], 1, 2),
        ("three-words-out-of-range", vec![17, 129, 17], 1, 3),
        ("four-words", vec![1, 0, 0, 6], 1, 4),
        ("five-words-out-of-range", vec![65_535; 5], 1, 5),
        ("no-boards-and-all-after-wrong", vec![0, 129, 17, 7, 5, 9], 1, 0),
        ("boards-17-and-all-after-wrong", vec![17, 129, 17, 7, 5, 9], 1, 0),
        ("boards-17-before-left-over-words", vec![17, 0, 0, 6, 6, 8, 0, 0], 1, 0),
        ("boards-65535-and-129-relation-lines", vec![65_535, 129, 0, 6, 6, 6], 1, 0),
        ("no-boards-and-17-kind-lines", vec![0, 0, 17, 6, 6, 6], 1, 0),
        ("relation-lines-129-of-16-boards", vec![16, 129, 0, 6, 6, 6], 1, 1),
        ("relation-lines-129-and-all-after-wrong", vec![1, 129, 17, 7, 5, 9], 1, 1),
        ("relation-lines-65535-and-all-after", vec![1, 65_535, 65_535, 65_535, 65_535, 65_535], 1, 1),
        ("kind-lines-17-and-128-relation-lines", vec![16, 128, 17, 6, 6, 6], 1, 2),
        ("kind-lines-17-and-all-after-wrong", vec![1, 0, 17, 7, 5, 9], 1, 2),
        ("kind-lines-65535-and-all-after-zero", vec![16, 128, 65_535, 0, 0, 0], 1, 2),
    ]
}

/// Refusal 2: the first of the relation offset, the kind offset and the total that is wrong.
fn offsets() -> Vec<RefusedRun> {
    vec![
        ("relation-offset-0", vec![1, 0, 0, 0, 6, 6], 2, 3),
        ("relation-offset-65535", vec![1, 0, 0, 65_535, 6, 6], 2, 3),
        ("relation-offset-7-and-all-after-wrong", vec![1, 0, 0, 7, 5, 9], 2, 3),
        ("offsets-and-total-0", vec![1, 0, 0, 0, 0, 0], 2, 3),
        ("kind-offset-0", vec![1, 0, 0, 6, 0, 6], 2, 4),
        ("kind-offset-5-and-total-9", vec![1, 0, 0, 6, 5, 9], 2, 4),
        ("kind-offset-10-and-total-9", vec![1, 0, 0, 6, 10, 9], 2, 4),
        ("kind-offset-above-total-of-5", vec![1, 0, 0, 6, 6, 5], 2, 4),
        ("kind-offset-above-total-of-0", vec![1, 0, 0, 6, 6, 0], 2, 4),
        ("kind-offset-above-total-but-not-the-words", vec![1, 0, 0, 6, 8, 7, 0, 0], 2, 4),
        ("kind-offset-above-total-before-a-line", vec![2, 1, 0, 6, 11, 10, 0, 1, 1, 1], 2, 4),
        ("kind-offset-above-the-words-but-not-total", vec![1, 0, 0, 6, 8, 9], 2, 5),
        ("kind-offset-and-total-9", vec![1, 0, 0, 6, 9, 9], 2, 5),
        ("total-65535", vec![1, 0, 0, 6, 6, 65_535], 2, 5),
        ("total-too-small-by-four", vec![1, 0, 0, 6, 6, 6, 0, 0, 0, 0], 2, 5),
        ("total-too-large-before-a-high-board", vec![2, 1, 0, 6, 10, 11, 2, 1, 1, 1], 2, 5),
    ]
}

/// A run about two boards, with so many lines in each section by its header, and these words in the sections.
fn sections(lines: [u16; 2], relation_words: &[u16], kind_words: &[u16]) -> Vec<u16> {
    let kind_offset = 6 + relation_words.len() as u16;
    let header = [2, lines[0], lines[1], 6, kind_offset, kind_offset + kind_words.len() as u16];
    [&header, relation_words, kind_words].concat()
}

/// Refusal 3: fewer than three words for a relation line, though others follow in the kind section.
fn short_relation_sections() -> Vec<RefusedRun> {
    vec![
        ("no-words-for-128-lines", sections([128, 0], &[], &[]), 3, 6),
        ("no-word-of-first-line-before-kind-line", sections([1, 1], &[], &[0, 1, 1, 1]), 3, 6),
        ("one-word-of-first-line", sections([1, 0], &[0], &[]), 3, 7),
        ("one-word-of-first-line-before-kind-line", sections([1, 1], &[0], &[1, 1, 1, 0]), 3, 7),
        ("two-words-of-first-line-before-kind-line", sections([1, 1], &[0, 1], &[1, 1, 0]), 3, 8),
        ("two-high-words-of-first-line", sections([1, 0], &[65_535, 65_535], &[]), 3, 8),
        ("no-word-of-last-line", sections([2, 0], &[0, 1, 1, 1], &[]), 3, 10),
        ("no-word-of-last-line-before-kind-line", sections([2, 1], &[0, 1, 1, 1], &[0, 1, 1, 1]), 3, 10),
        ("one-word-of-last-line", sections([2, 0], &[0, 1, 1, 1, 0], &[]), 3, 11),
        ("one-word-of-last-line-before-kind-line", sections([2, 1], &[0, 1, 1, 1, 0], &[1, 1, 1, 0]), 3, 11),
        ("two-words-of-last-line", sections([2, 0], &[0, 1, 1, 1, 0, 1], &[]), 3, 12),
        ("two-words-of-last-line-before-kind-line", sections([2, 1], &[0, 1, 1, 1, 0, 1], &[1, 1, 0]), 3, 12),
    ]
}

/// Refusal 3: a length out of range, whether its words are there or not, and whatever the boards.
fn lengths() -> Vec<RefusedRun> {
    let sixteen = [[6; 15].as_slice(), &[1]].concat();
    vec![
        ("length-0-and-nothing-more", sections([1, 0], &[0, 1, 0], &[]), 3, 8),
        ("length-0-in-first-of-two-lines", sections([2, 0], &[0, 1, 0, 0, 1, 1, 1], &[]), 3, 8),
        ("length-0-and-high-boards", sections([1, 0], &[2, 2, 0], &[]), 3, 8),
        ("length-16-and-nothing-more", sections([1, 0], &[0, 1, 16], &[]), 3, 8),
        ("length-17-and-one-word", sections([1, 0], &[0, 1, 17, 1], &[]), 3, 8),
        ("length-256", sections([1, 0], &[0, 1, 256, 1], &[]), 3, 8),
        ("length-257", sections([1, 0], &[0, 1, 257, 1], &[]), 3, 8),
        ("length-65535-and-nothing-more", sections([1, 0], &[0, 1, 65_535], &[]), 3, 8),
        ("length-16-in-last-line", Draft::of(2).line(0, 1, &[1]).line(0, 1, &sixteen).words(), 3, 12),
        ("length-16-past-its-section-in-last-line", sections([2, 0], &[0, 1, 1, 1, 0, 1, 16], &[]), 3, 12),
        ("length-65535-in-last-line", sections([2, 0], &[0, 1, 1, 1, 0, 1, 65_535, 1], &[]), 3, 12),
        ("length-0-in-last-line-and-high-board", sections([2, 0], &[0, 1, 1, 1, 2, 1, 0], &[]), 3, 12),
    ]
}

/// Refusal 3: a length in range, but the relation line runs past its section.
fn past_the_end() -> Vec<RefusedRun> {
    let fourteen_of_15 = [[0, 1, 15].as_slice(), &[6; 14]].concat();
    vec![
        ("past-by-fifteen", sections([1, 0], &[0, 1, 15], &[]), 3, 9),
        ("past-by-one-of-15", sections([1, 0], &fourteen_of_15, &[]), 3, 23),
        ("past-by-one-into-kind-lines", sections([1, 1], &[0, 1, 2, 6], &[0, 5, 0]), 3, 10),
        ("past-by-all-of-the-kind-lines", sections([1, 1], &[0, 1, 4, 6], &[0, 5, 0]), 3, 10),
        ("past-with-high-boards", sections([1, 0], &[2, 2, 1], &[]), 3, 9),
        ("past-with-a-high-code", sections([1, 0], &[0, 1, 2, 8], &[]), 3, 10),
        ("last-line-past-by-one", sections([2, 0], &[0, 1, 1, 1, 0, 1, 2, 6], &[]), 3, 14),
        ("last-line-past-by-nine", sections([2, 0], &[0, 1, 1, 1, 0, 1, 9], &[]), 3, 13),
        ("first-line-past-over-the-second", sections([2, 0], &[0, 1, 6, 1, 0, 1, 1, 1], &[]), 3, 14),
    ]
}

/// Refusal 3 in kind lines: fewer than three words, a number of ways out of range, and the section's end.
fn short_kind_sections() -> Vec<RefusedRun> {
    let line = [0, 1, 1, 1];
    let seven_of_8 = [[0, 5, 8].as_slice(), &[1; 7]].concat();
    let nine_in_last = Draft::of(2).kind(0, 5, &[]).kind(0, 6, &[1; 9]);
    vec![
        ("no-word-of-first-kind-line", sections([1, 1], &line, &[]), 3, 10),
        ("no-word-of-last-kind-line", sections([0, 2], &[], &[0, 5, 0]), 3, 9),
        ("one-word-of-first-kind-line", sections([0, 1], &[], &[0]), 3, 7),
        ("one-word-of-last-kind-line", sections([0, 2], &[], &[0, 5, 0, 1]), 3, 10),
        ("two-words-of-last-kind-line", sections([0, 2], &[], &[0, 5, 0, 1, 6]), 3, 11),
        ("two-words-of-kind-line-after-relation-line", sections([1, 1], &line, &[0, 5]), 3, 12),
        ("nine-ways-and-nothing-more", sections([0, 1], &[], &[0, 5, 9]), 3, 8),
        ("nine-ways-in-last-kind-line", nine_in_last.words(), 3, 11),
        ("ways-256", sections([0, 1], &[], &[0, 5, 256]), 3, 8),
        ("ways-257", sections([0, 1], &[], &[0, 5, 257, 1]), 3, 8),
        ("ways-65535-in-last-kind-line", sections([1, 2], &line, &[0, 5, 0, 1, 6, 65_535, 0]), 3, 15),
        ("past-by-eight-ways", sections([0, 1], &[], &[0, 5, 8]), 3, 9),
        ("past-by-one-of-eight-ways", sections([0, 1], &[], &seven_of_8), 3, 16),
        ("kind-line-past-after-relation-line", sections([1, 1], &line, &[0, 5, 2, 1]), 3, 14),
        ("last-kind-line-past-by-one", sections([0, 2], &[], &[0, 5, 0, 0, 6, 1]), 3, 12),
        ("first-kind-line-past-over-the-second", sections([0, 2], &[], &[0, 5, 4, 1, 6, 0]), 3, 12),
        ("kind-line-past-with-high-panel", sections([0, 1], &[], &[2, 5, 1]), 3, 9),
    ]
}

/// Refusal 3: words left over in a section, with and without lines in it.
fn left_over() -> Vec<RefusedRun> {
    let line = [0, 1, 1, 1];
    vec![
        ("left-over-without-lines", sections([0, 0], &[0], &[]), 3, 6),
        ("left-over-in-kind-section-without-lines", sections([0, 0], &[], &[0]), 3, 6),
        ("left-over-in-both-sections-without-lines", sections([0, 0], &[0], &[0]), 3, 6),
        ("left-over-line-without-lines", sections([0, 0], &line, &[]), 3, 6),
        ("left-over-kind-line-without-lines", sections([0, 0], &[], &[0, 5, 0]), 3, 6),
        ("left-over-before-a-kind-line", sections([0, 1], &[9], &[0, 5, 0]), 3, 6),
        ("left-over-seven-words", sections([1, 0], &[0, 1, 1, 1, 0, 1, 1, 1, 0, 1, 1], &[]), 3, 10),
        ("left-over-in-kind-section-after-a-line", sections([1, 0], &line, &[9, 9]), 3, 10),
        ("left-over-in-both-sections", sections([1, 1], &[0, 1, 1, 1, 9], &[0, 5, 0, 9]), 3, 10),
        ("left-over-after-two-lines", sections([2, 0], &[0, 1, 1, 1, 1, 0, 2, 6, 0, 3], &[]), 3, 15),
        ("left-over-after-two-kind-lines", sections([0, 2], &[], &[0, 5, 0, 1, 6, 1, 0, 9]), 3, 13),
        ("left-over-after-lines-of-both-sorts", sections([1, 1], &line, &[0, 5, 2, 1, 1, 0, 5, 2]), 3, 15),
    ]
}

/// Refusal 4 in relation lines: p, then q.
fn boards_of_lines() -> Vec<RefusedRun> {
    let good = Draft::of(2).line(0, 1, &[1]);
    vec![
        ("both-boards-too-high", Draft::of(2).line(2, 2, &[1]).words(), 4, 6),
        ("second-board-65535", Draft::of(2).line(0, 65_535, &[1]).words(), 4, 7),
        ("first-board-16-of-16", Draft::of(16).line(16, 0, &[1]).words(), 4, 6),
        ("second-board-16-of-16", Draft::of(16).line(15, 16, &[1]).words(), 4, 7),
        ("second-board-256", Draft::of(3).line(2, 256, &[1]).words(), 4, 7),
        ("second-board-and-missing-operand", Draft::of(2).line(0, 2, &[4, 0]).words(), 4, 7),
        ("first-board-in-last-line", good.clone().line(2, 0, &[1]).words(), 4, 10),
        ("second-board-in-last-line", good.clone().line(0, 2, &[1]).words(), 4, 11),
        ("both-boards-in-last-line", good.line(3, 2, &[1]).words(), 4, 10),
        ("second-board-then-first-of-next-line", Draft::of(2).line(0, 2, &[1]).line(2, 0, &[1]).words(), 4, 7),
        ("second-board-then-panel-and-way", Draft::of(2).line(0, 2, &[1]).kind(2, 5, &[2]).words(), 4, 7),
    ]
}

/// Refusal 4 in kind lines: p, then the ways in order.
fn panels_and_ways() -> Vec<RefusedRun> {
    let of_eight = |ways: [u16; 8]| Draft::of(9).kind(0, 5, &ways).words();
    let first = Draft::of(3).kind(0, 5, &[]);
    let line = Draft::of(2).line(0, 1, &[1]);
    vec![
        ("first-way-of-eight", of_eight([9, 1, 2, 3, 4, 5, 6, 7]), 4, 9),
        ("last-way-of-eight", of_eight([1, 2, 3, 4, 5, 6, 7, 9]), 4, 16),
        ("third-and-last-way-of-eight", of_eight([1, 2, 9, 3, 4, 5, 6, 9]), 4, 11),
        ("all-ways-of-eight", of_eight([9; 8]), 4, 9),
        ("panel-and-all-ways", Draft::of(2).kind(2, 5, &[2, 2]).words(), 4, 6),
        ("way-65535-of-kind-65535", Draft::of(2).kind(0, 65_535, &[65_535]).words(), 4, 9),
        ("way-256", Draft::of(2).kind(0, 5, &[1, 256]).words(), 4, 10),
        ("panel-of-last-kind-line", first.clone().kind(3, 6, &[1]).words(), 4, 9),
        ("first-way-of-last-kind-line", first.clone().kind(0, 6, &[3, 1]).words(), 4, 12),
        ("last-way-of-last-kind-line", first.kind(0, 6, &[1, 3]).words(), 4, 13),
        ("last-way-then-panel-of-next-line", Draft::of(2).kind(0, 5, &[1, 2]).kind(2, 6, &[]).words(), 4, 10),
        ("panel-after-relation-line", line.clone().kind(2, 5, &[]).words(), 4, 10),
        ("way-after-relation-line", line.kind(0, 5, &[2]).words(), 4, 13),
    ]
}

/// A good expression of 15 words but for one of them.
fn fifteen_but(at: usize, code: u16) -> Vec<u16> {
    let mut expression = vec![4, 4, 4, 4, 4, 4, 4, 0, 1, 2, 3, 0, 1, 2, 3];
    expression[at] = code;
    expression
}

/// The expression alone: its words are those from 9 on.
fn alone(expression: &[u16]) -> Vec<u16> {
    Draft::of(2).line(0, 1, expression).words()
}

/// Refusal 5: a code above 7 that is met.
fn codes_too_high() -> Vec<RefusedRun> {
    vec![
        ("code-65535", alone(&[65_535]), 5, 9),
        ("first-of-15-codes-8", alone(&fifteen_but(0, 8)), 5, 9),
        ("first-of-15-codes-65535", alone(&fifteen_but(0, 65_535)), 5, 9),
        ("fourth-of-15-codes-8", alone(&fifteen_but(3, 8)), 5, 12),
        ("eighth-of-15-codes-8", alone(&fifteen_but(7, 8)), 5, 16),
        ("eighth-of-15-codes-65535", alone(&fifteen_but(7, 65_535)), 5, 16),
        ("last-of-15-codes-8", alone(&fifteen_but(14, 8)), 5, 23),
        ("last-of-15-codes-65535", alone(&fifteen_but(14, 65_535)), 5, 23),
        ("code-8-under-not", alone(&[6, 8]), 5, 10),
        ("code-256-under-inv", alone(&[7, 256]), 5, 10),
        ("code-8-for-both-operands", alone(&[4, 8, 8]), 5, 10),
        ("code-8-for-second-operand", alone(&[5, 0, 8]), 5, 11),
        ("code-8-before-operands", alone(&[8, 0, 0]), 5, 9),
        ("code-8-before-a-missing-operand", alone(&[4, 4, 8, 0]), 5, 11),
    ]
}

/// Refusal 5: the expression is whole before its length is used; what is left over counts, whatever its codes.
fn words_left_over() -> Vec<RefusedRun> {
    let thirteen_nots = [[6; 13].as_slice(), &[1, 1]].concat();
    let after_inv = [[7, 1].as_slice(), &[2; 13]].concat();
    vec![
        ("fourteen-words-left-over", alone(&[0; 15]), 5, 10),
        ("thirteen-words-left-over", alone(&after_inv), 5, 11),
        ("last-of-15-words-left-over", alone(&thirteen_nots), 5, 23),
        ("code-9-left-over", alone(&[0, 9]), 5, 10),
        ("code-0-and-code-9-left-over", alone(&[0, 0, 9]), 5, 10),
        ("operator-left-over", alone(&[3, 4]), 5, 10),
        ("word-left-over-after-not", alone(&[6, 0, 3]), 5, 11),
        ("word-left-over-after-or", alone(&[4, 0, 1, 2]), 5, 12),
        ("expression-left-over", alone(&[5, 0, 1, 5, 0, 1]), 5, 12),
        ("next-line-left-over", sections([2, 0], &[0, 1, 5, 1, 0, 1, 1, 1], &[]), 5, 10),
    ]
}

/// Refusal 5: the expression is not whole at its end.
fn words_missing() -> Vec<RefusedRun> {
    let seven_of_nine = [[4; 8].as_slice(), &[0; 7]].concat();
    vec![
        ("or-alone", alone(&[4]), 5, 10),
        ("and-alone", alone(&[5]), 5, 10),
        ("inv-alone", alone(&[7]), 5, 10),
        ("inv-not-alone", alone(&[7, 6]), 5, 11),
        ("or-or-with-two-operands", alone(&[4, 4, 0, 0]), 5, 13),
        ("and-with-or-for-both-operands", alone(&[5, 4, 0, 1, 4, 2]), 5, 15),
        ("or-15-times", alone(&[4; 15]), 5, 24),
        ("not-15-times", alone(&[6; 15]), 5, 24),
        ("inv-for-the-last-of-15-words", alone(&fifteen_but(14, 7)), 5, 24),
        ("two-of-nine-operands-missing", alone(&seven_of_nine), 5, 24),
    ]
}

/// The expression in the second of three relation lines, before a kind line: its words are those from 13 on, and
/// those behind it would be operands.
pub fn between_lines(expression: &[u16]) -> Vec<u16> {
    Draft::of(2).line(0, 1, &[1]).line(1, 0, expression).line(0, 1, &[4, 0, 1]).kind(0, 5, &[1]).words()
}

/// Refusal 5 in a line that is not the last.
fn between_other_lines() -> Vec<RefusedRun> {
    vec![
        ("or-alone-between-lines", between_lines(&[4]), 5, 14),
        ("or-with-one-operand-between-lines", between_lines(&[4, 0]), 5, 15),
        ("not-alone-between-lines", between_lines(&[6]), 5, 14),
        ("inv-not-alone-between-lines", between_lines(&[7, 6]), 5, 15),
        ("or-or-with-two-operands-between-lines", between_lines(&[4, 4, 0, 0]), 5, 17),
        ("and-15-times-between-lines", between_lines(&[5; 15]), 5, 28),
        ("code-8-between-lines", between_lines(&[8]), 5, 13),
        ("code-65535-for-second-operand-between-lines", between_lines(&[4, 0, 65_535]), 5, 15),
        ("word-left-over-between-lines", between_lines(&[0, 0]), 5, 14),
        ("code-9-left-over-between-lines", between_lines(&[6, 0, 9]), 5, 15),
    ]
}

/// Refusal 11 behind lines of several lengths.
fn numbers_of_ways() -> Vec<RefusedRun> {
    let ways: Vec<u16> = (1..=8).collect();
    let three = Draft::of(9).kind(0, 1, &[]).kind(0, 2, &ways).kind(0, 3, &ways[..3]);
    let disagreeing = three.clone().kind(0, 2, &ways[..7]);
    let behind_two = disagreeing.clone().line(0, 1, &[1]).line(0, 1, &fifteen_but(0, 5));
    let fifteen = (0..15).fold(Draft::of(9), |draft, at| draft.kind(0, at, &ways[..at as usize % 9]));
    let behind_128 = (0..128).fold(Draft::of(2), |draft, _| draft.line(0, 1, &[1]));
    vec![
        ("fourth-line-disagrees-with-second", disagreeing.clone().words(), 11, 28),
        ("fourth-and-fifth-line-disagree", disagreeing.kind(0, 3, &[]).words(), 11, 28),
        ("fifth-line-disagrees-with-first", three.kind(0, 2, &ways).kind(0, 1, &[1]).words(), 11, 39),
        ("disagreeing-behind-two-relation-lines", behind_two.words(), 11, 50),
        ("line-15-disagrees-with-line-7", fifteen.kind(0, 7, &ways[..6]).words(), 11, 104),
        ("disagreeing-behind-128-relation-lines", behind_128.kind(0, 5, &[]).kind(0, 5, &[1]).words(), 11, 523),
    ]
}

/// A faulty line, with the number and the place counted from its first word.
type FaultyLine = (&'static str, &'static [u16], u32, u32);

/// Good lines, and how many they are.
type Lines = (u16, &'static [u16]);

/// None, one and three good relation lines, and kind lines.
const RELATION_LINES: [Lines; 3] =
    [(0, &[]), (1, &[0, 1, 1, 1]), (3, &[0, 1, 1, 1, 1, 0, 2, 6, 0, 0, 1, 5, 4, 4, 0, 1, 3])];
const KIND_LINES: [Lines; 3] = [(0, &[]), (1, &[0, 7, 0]), (3, &[0, 7, 0, 0, 8, 1, 1, 1, 9, 2, 0, 0])];

/// Faulty relation lines behind none, one and three good ones and before one: the place moves by exactly their words.
fn moved_relation_lines() -> Vec<RefusedRun> {
    let faulty: [FaultyLine; 8] = [
        ("moved-first-board", &[2, 1, 1, 1], 4, 0),
        ("moved-second-board", &[0, 2, 1, 1], 4, 1),
        ("moved-length-0", &[0, 1, 0], 3, 2),
        ("moved-length-16", &[0, 1, 16, 6, 6, 6, 6, 6, 6, 6, 6, 6, 6, 6, 6, 6, 6, 6, 1], 3, 2),
        ("moved-code-8", &[0, 1, 1, 8], 5, 3),
        ("moved-code-9-in-last-place", &[0, 1, 3, 4, 0, 9], 5, 5),
        ("moved-missing-operand", &[0, 1, 2, 4, 0], 5, 5),
        ("moved-word-left-over", &[0, 1, 2, 0, 0], 5, 4),
    ];
    let mut runs = Vec::new();
    for (name, line, number, place) in faulty {
        for (count, before) in RELATION_LINES {
            let relation_words = [before, line, &[0, 1, 1, 3]].concat();
            let words = sections([count + 2, 1], &relation_words, &[1, 9, 1, 0]);
            runs.push((name, words, number, 6 + before.len() as u32 + place));
        }
    }
    runs
}

/// Faulty kind lines behind none, one and three good lines of each sort and before one.
fn moved_kind_lines() -> Vec<RefusedRun> {
    let faulty: [FaultyLine; 4] = [
        ("moved-panel", &[2, 5, 0], 4, 0),
        ("moved-way", &[0, 5, 1, 2], 4, 3),
        ("moved-last-way", &[0, 5, 3, 1, 0, 2], 4, 5),
        ("moved-nine-ways", &[0, 5, 9], 3, 2),
    ];
    let mut runs = Vec::new();
    for (name, line, number, place) in faulty {
        for (relations, relation_words) in RELATION_LINES {
            for (kinds, before) in KIND_LINES {
                let words = sections([relations, kinds + 2], relation_words, &[before, line, &[0, 7, 0]].concat());
                runs.push((name, words, number, 6 + (relation_words.len() + before.len()) as u32 + place));
            }
        }
    }
    runs
}
