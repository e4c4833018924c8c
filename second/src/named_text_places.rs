//! Texts that are refused at each place of the words they make, with number and place worked out by hand. In those
//! words all relation lines come before all kind lines, in whatever order they are typed.

use crate::named_texts::Refused;

/// All of them.
pub fn text_places() -> Vec<Refused> {
    [too_many_lines(), too_long_lines(), too_high_boards(), disagreeing_lines(), last_places()].concat()
}

/// Sixteen words of an expression.
fn sixteen() -> String {
    "not ".repeat(15) + "same"
}

/// Refusal 1: the number of boards, then that of relation lines, then that of kind lines.
fn too_many_lines() -> Vec<Refused> {
    let of = |boards: usize, relations: usize, kinds: usize| {
        format!("boards {boards}\n{}{}", "0:5()\n".repeat(kinds), "0 same 0\n".repeat(relations))
    };
    let faulty_kinds = format!("boards 2\n{}", "9:5(1 1 1 1 1 1 1 1 1)\n".repeat(17));
    vec![
        ("no-boards-and-129-relation-lines", of(0, 129, 0), 1, 0),
        ("boards-17-and-17-kind-lines", of(17, 0, 17), 1, 0),
        ("boards-65535-and-too-many-of-both-sorts", of(65_535, 129, 17), 1, 0),
        ("relation-lines-129-after-16-kind-lines", of(1, 129, 16), 1, 1),
        ("relation-lines-129-after-17-kind-lines", of(16, 129, 17), 1, 1),
        ("relation-lines-300-after-300-kind-lines", of(1, 300, 300), 1, 1),
        ("relation-lines-129-too-long", format!("boards 2\n{}", format!("9 {} 9\n", sixteen()).repeat(129)), 1, 1),
        ("kind-lines-17-before-128-relation-lines", of(16, 128, 17), 1, 2),
        ("kind-lines-17-of-nine-ways", faulty_kinds, 1, 2),
    ]
}

/// Refusal 3: an expression too long, at its length; too many ways, at their number.
fn too_long_lines() -> Vec<Refused> {
    let sixteen = sixteen();
    let words_2001 = "not ".repeat(2_000) + "same";
    let nine = "1 ".repeat(9);
    let two_lines = "0 same 1\n1 not same 0\n";
    vec![
        ("second-line-too-long-after-a-kind-line", format!("boards 2\n0:5(1)\n0 same 1\n0 {sixteen} 1\n"), 3, 12),
        ("second-line-of-2001-words", format!("boards 2\n0:5(1)\n0 same 1\n0 {words_2001} 1\n0 same 1\n"), 3, 12),
        ("both-lines-too-long", format!("boards 2\n0 {sixteen} 1\n0 {words_2001} 1\n"), 3, 8),
        ("third-line-too-long", format!("boards 2\n{two_lines}0 {sixteen} 1\n"), 3, 17),
        ("third-line-too-long-with-high-boards", format!("boards 2\n{two_lines}2 {sixteen} 2\n"), 3, 17),
        ("second-line-too-long-before-high-way", format!("boards 2\n0:5(2)\n0 same 1\n0 {sixteen} 1\n"), 3, 12),
        ("nine-ways-before-two-relation-lines", format!("boards 2\n0:5({nine})\n{two_lines}"), 3, 17),
        ("ways-300-before-two-relation-lines", format!("boards 2\n0:5({})\n{two_lines}", "1 ".repeat(300)), 3, 17),
        ("nine-ways-in-second-kind-line", format!("boards 2\n0:5(1)\n0 same 1\n1:5({nine})\n"), 3, 16),
        ("nine-ways-after-high-panel-in-a-line", format!("boards 2\n{two_lines}0:5()\n2:5({nine})\n"), 3, 20),
    ]
}

/// Refusal 4: p, then q; p, then the ways in order.
fn too_high_boards() -> Vec<Refused> {
    let third_too_long = format!("boards 2\n0 same 1\n2 same 1\n0 {} 1\n", sixteen());
    let named = [
        ("both-boards", "boards 2\n3 same 2\n", 6),
        ("second-board-of-second-line", "boards 2\n0 same 1\n0 same 2\n", 11),
        ("second-board-behind-parentheses", "boards 2\n0 ((same)) or (not (above)) 1\n0 same 2\n", 14),
        ("first-board-before-a-line-too-long", &third_too_long, 10),
        ("second-board-before-typed-high-panel", "boards 2\n2:5(2)\n0 same 2\n", 7),
        ("panel-before-two-relation-lines", "boards 2\n2:5(2)\n0 same 1\n1 not same 0\n", 15),
        ("way-before-two-relation-lines", "boards 2\n0:5(2)\n0 same 1\n1 not same 0\n", 18),
        ("panel-between-two-relation-lines", "boards 2\n0 same 1\n2:5()\n1 not same 0\n", 15),
        ("panel-and-ways", "boards 2\n2:5(2 3)", 6),
        ("all-ways", "boards 2\n0:5(2 3)", 9),
        ("second-and-last-way", "boards 2\n0:5(1 2 1 2)\n", 10),
        ("last-way-of-eight", "boards 2\n0:5(1 1 1 1 1 1 1 2)", 16),
        ("way-before-disagreeing-lines", "boards 2\n0:6(1 65535)\n0:5()\n0:5(1)\n", 10),
    ];
    named.into_iter().map(|(name, text, place)| (name, text.to_string(), 4, place)).collect()
}

/// Refusal 11: the number of ways of the first kind line that disagrees with an earlier one.
fn disagreeing_lines() -> Vec<Refused> {
    let fifteen = format!("0 {}same 1", "not ".repeat(14));
    let around = format!("boards 2\n0:5(1)\n{fifteen}\n1:6(0 0)\n0 same or above 1\n1:5()\n");
    let named = [
        ("disagreeing-before-two-relation-lines", "boards 2\n0:5(1)\n1:5()\n0 same 1\n1 not same 0\n", 21),
        ("disagreeing-after-two-relation-lines", "boards 2\n0 same 1\n1 not same 0\n0:5(1)\n1:5()\n", 21),
        ("disagreeing-around-lines-of-18-and-6-words", &around, 41),
        ("second-and-third-line-disagree", "boards 2\n0:5(1)\n0:5()\n0:5(1 1)\n", 12),
        ("third-line-of-three-lengths", "boards 2\n0:5(1 1 1 1 1)\n0:65535()\n0:5(1)\n", 19),
    ];
    named.into_iter().map(|(name, text, place)| (name, text.to_string(), 11, place)).collect()
}

/// The last lines of as many as there may be.
fn last_places() -> Vec<Refused> {
    let lines_127 = "0 same 1\n".repeat(127);
    let seven = "1 ".repeat(7);
    let kinds_15 = format!("0:5({seven}1)\n").repeat(15);
    let longest = format!("0 {}same 1\n", "not ".repeat(14)).repeat(128);
    vec![
        ("first-board-of-line-128", format!("boards 2\n{lines_127}2 same 1\n"), 4, 514),
        ("second-board-of-line-128", format!("boards 2\n{lines_127}0 same 2\n"), 4, 515),
        ("line-128-too-long", format!("boards 2\n{lines_127}0 {} 1\n", sixteen()), 3, 516),
        ("last-way-of-kind-line-16", format!("boards 2\n{kinds_15}0:5({seven}2)\n"), 4, 181),
        ("kind-line-16-disagrees", format!("boards 2\n{kinds_15}0:5({seven})\n"), 11, 173),
        ("last-way-of-the-longest", format!("boards 2\n{kinds_15}0:5({seven}2)\n{longest}"), 4, 2_485),
        ("last-line-of-the-longest-disagrees", format!("boards 2\n{kinds_15}{longest}0:5({seven})\n"), 11, 2_477),
    ]
}
