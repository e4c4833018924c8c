//! Texts with what is to become of them, worked out by hand from the rules.

use crate::drafts::Draft;

/// An expression as typed, its words, and as it is written back.
pub type Expression = (&'static str, &'static [u16], &'static str);

/// All expressions: single words, how tight operators bind, and parentheses needed or not.
pub fn expressions() -> Vec<Expression> {
    [single_operators(), tightness(), needed_parentheses(), needless_parentheses()].concat()
}

fn single_operators() -> Vec<Expression> {
    vec![
        ("same", &[0], "same"),
        ("above", &[1], "above"),
        ("below", &[2], "below"),
        ("side", &[3], "side"),
        ("same or above", &[4, 0, 1], "same or above"),
        ("below and side", &[5, 2, 3], "below and side"),
        ("not same", &[6, 0], "not same"),
        ("inv above", &[7, 1], "inv above"),
    ]
}

/// Without parentheses: `not` and `inv` bind tightest, then `and`, then `or`; joined from the left.
fn tightness() -> Vec<Expression> {
    vec![
        ("same or above and side", &[4, 0, 5, 1, 3], "same or above and side"),
        ("same and above or side", &[4, 5, 0, 1, 3], "same and above or side"),
        ("same or above or side", &[4, 4, 0, 1, 3], "same or above or side"),
        ("same and above and side", &[5, 5, 0, 1, 3], "same and above and side"),
        ("not same and above", &[5, 6, 0, 1], "not same and above"),
        ("not same or above", &[4, 6, 0, 1], "not same or above"),
        ("same and not above", &[5, 0, 6, 1], "same and not above"),
        ("same or not above", &[4, 0, 6, 1], "same or not above"),
        ("inv above and side", &[5, 7, 1, 3], "inv above and side"),
        ("side or inv above", &[4, 3, 7, 1], "side or inv above"),
        ("not not same", &[6, 6, 0], "not not same"),
        ("inv inv above", &[7, 7, 1], "inv inv above"),
        ("not inv above", &[6, 7, 1], "not inv above"),
        ("inv not above", &[7, 6, 1], "inv not above"),
        ("not inv above and not not side", &[5, 6, 7, 1, 6, 6, 3], "not inv above and not not side"),
        ("same or not above and side", &[4, 0, 5, 6, 1, 3], "same or not above and side"),
        ("not same and above or side", &[4, 5, 6, 0, 1, 3], "not same and above or side"),
        ("same or above or below or side", &[4, 4, 4, 0, 1, 2, 3], "same or above or below or side"),
        ("same and above or below and side", &[4, 5, 0, 1, 5, 2, 3], "same and above or below and side"),
        ("same or above and below or side", &[4, 4, 0, 5, 1, 2, 3], "same or above and below or side"),
        ("same and above and below or side", &[4, 5, 5, 0, 1, 2, 3], "same and above and below or side"),
        ("same or above and below and side", &[4, 0, 5, 5, 1, 2, 3], "same or above and below and side"),
    ]
}

/// Parentheses without which an operand reads differently.
fn needed_parentheses() -> Vec<Expression> {
    vec![
        ("same or (above or side)", &[4, 0, 4, 1, 3], "same or ( above or side )"),
        ("same and (above and side)", &[5, 0, 5, 1, 3], "same and ( above and side )"),
        ("(same or above) and side", &[5, 4, 0, 1, 3], "( same or above ) and side"),
        ("same and (above or side)", &[5, 0, 4, 1, 3], "same and ( above or side )"),
        ("not (same or above)", &[6, 4, 0, 1], "not ( same or above )"),
        ("not (same and above)", &[6, 5, 0, 1], "not ( same and above )"),
        ("inv (same or above)", &[7, 4, 0, 1], "inv ( same or above )"),
        ("inv (same and above)", &[7, 5, 0, 1], "inv ( same and above )"),
        ("not not (same or above)", &[6, 6, 4, 0, 1], "not not ( same or above )"),
        ("not (not (same and above) or below)", &[6, 4, 6, 5, 0, 1, 2], "not ( not ( same and above ) or below )"),
        ("(same or above) and (below or side)", &[5, 4, 0, 1, 4, 2, 3], "( same or above ) and ( below or side )"),
        ("(same or above) or (below or side)", &[4, 4, 0, 1, 4, 2, 3], "same or above or ( below or side )"),
        ("(same and above) and (below and side)", &[5, 5, 0, 1, 5, 2, 3], "same and above and ( below and side )"),
        ("same or (above or (below or side))", &[4, 0, 4, 1, 4, 2, 3], "same or ( above or ( below or side ) )"),
        ("same or (above or below) or side", &[4, 4, 0, 4, 1, 2, 3], "same or ( above or below ) or side"),
        ("same or ((above or below) or side)", &[4, 0, 4, 4, 1, 2, 3], "same or ( above or below or side )"),
        ("(same or above and below) and side", &[5, 4, 0, 5, 1, 2, 3], "( same or above and below ) and side"),
        (
            "inv (same or side) and not (same and side)",
            &[5, 7, 4, 0, 3, 6, 5, 0, 3],
            "inv ( same or side ) and not ( same and side )",
        ),
    ]
}

/// Parentheses that the writer leaves out.
fn needless_parentheses() -> Vec<Expression> {
    vec![
        ("(same)", &[0], "same"),
        ("((same))", &[0], "same"),
        ("not (same)", &[6, 0], "not same"),
        ("(not same)", &[6, 0], "not same"),
        ("((not ((same))))", &[6, 0], "not same"),
        ("not (not same)", &[6, 6, 0], "not not same"),
        ("not (inv above)", &[6, 7, 1], "not inv above"),
        ("inv (not above)", &[7, 6, 1], "inv not above"),
        ("not (not (not (side)))", &[6, 6, 6, 3], "not not not side"),
        ("(not same) and above", &[5, 6, 0, 1], "not same and above"),
        ("same and (not above)", &[5, 0, 6, 1], "same and not above"),
        ("same or (inv above)", &[4, 0, 7, 1], "same or inv above"),
        ("(same) or (above)", &[4, 0, 1], "same or above"),
        ("(same or above)", &[4, 0, 1], "same or above"),
        ("((same) or ((above)))", &[4, 0, 1], "same or above"),
        ("(same or above) or side", &[4, 4, 0, 1, 3], "same or above or side"),
        ("(same and above) and side", &[5, 5, 0, 1, 3], "same and above and side"),
        ("(same and above) or side", &[4, 5, 0, 1, 3], "same and above or side"),
        ("same or (above and side)", &[4, 0, 5, 1, 3], "same or above and side"),
        ("(same and above) or (below and side)", &[4, 5, 0, 1, 5, 2, 3], "same and above or below and side"),
    ]
}

/// Good texts, each with the draft it makes.
pub fn good_texts() -> Vec<(&'static str, String, Draft)> {
    let mut texts = good_blanks();
    texts.extend(good_lines());
    texts.extend(agreeing_lines());
    texts.extend(text_limits());
    texts
}

/// Blanks where they may stand and where none is needed, and the last line feed there or not.
fn good_blanks() -> Vec<(&'static str, String, Draft)> {
    let apart = " ".repeat(70);
    let far_apart = format!("{apart}boards{apart}2{apart}\n{apart}0{apart}side{apart}1{apart}\n");
    let blanks = "  boards   4  \n   0    not   (  same  or  above  )   3  \n 0  :  5  (  1  2  ) \n  2:6(1)  ";
    let not_same = Draft::of(2).line(0, 1, &[6, 0]);
    let way = Draft::of(2).kind(0, 7, &[1]);
    let named = [
        ("boards-alone", "boards 3\n", Draft::of(3)),
        ("boards-alone-without-line-feed", "boards 3", Draft::of(3)),
        ("relation-line-without-line-feed", "boards 2\n0 above 1", Draft::of(2).line(0, 1, &[1])),
        ("kind-line-without-line-feed", "boards 2\n0 : 7 ( 1 )", way.clone()),
        ("blank-after-last-parenthesis", "boards 2\n0 : 7 ( 1 ) ", way.clone()),
        ("blanks-everywhere", blanks, Draft::of(4).line(0, 3, &[6, 4, 0, 1]).kind(0, 5, &[1, 2]).kind(2, 6, &[1])),
        ("parentheses-without-blanks", "boards 2\n0 not(same)1\n", not_same.clone()),
        ("all-in-parentheses", "boards 2\n0(not(same))1\n", not_same),
        ("operators-between-parentheses", "boards 2\n0(same)or(above)1\n", Draft::of(2).line(0, 1, &[4, 0, 1])),
        ("kind-line-without-blanks", "boards 2\n0:7(1)\n", way),
        ("no-ways-without-blanks", "boards 2\n0:7()\n", Draft::of(2).kind(0, 7, &[])),
        ("many-blanks", &far_apart, Draft::of(2).line(0, 1, &[3])),
    ];
    named.into_iter().map(|(name, text, draft)| (name, text.to_string(), draft)).collect()
}

/// Lines of both sorts, numbers at their limits.
fn good_lines() -> Vec<(&'static str, String, Draft)> {
    let mixed = Draft::of(4).line(0, 3, &[1]).line(1, 3, &[3]).kind(0, 5, &[1, 2]).kind(2, 6, &[]);
    let named = [
        ("example", "boards 3\n0 : 5 ( 1 2 )\n", Draft::of(3).kind(0, 5, &[1, 2])),
        ("mixed-sorts", "boards 4\n0 : 5 ( 1 2 )\n0 above 3\n2 : 6 ( )\n1 side 3\n", mixed.clone()),
        ("kind-lines-first", "boards 4\n0 : 5 ( 1 2 )\n2 : 6 ( )\n0 above 3\n1 side 3\n", mixed.clone()),
        ("relation-lines-first", "boards 4\n0 above 3\n1 side 3\n0 : 5 ( 1 2 )\n2 : 6 ( )\n", mixed),
        ("same-line-twice", "boards 1\n0 same 0\n0 same 0\n", Draft::of(1).line(0, 0, &[0]).line(0, 0, &[0])),
        ("no-ways", "boards 1\n0 : 5 ( )\n", Draft::of(1).kind(0, 5, &[])),
        ("panel-among-its-ways", "boards 1\n0 : 5 ( 0 0 )\n", Draft::of(1).kind(0, 5, &[0, 0])),
        ("code-0", "boards 1\n0 : 0 ( )\n", Draft::of(1).kind(0, 0, &[])),
        ("code-65535", "boards 1\n0 : 65535 ( )\n", Draft::of(1).kind(0, 65_535, &[])),
        ("code-10000", "boards 1\n0 : 10000 ( )\n", Draft::of(1).kind(0, 10_000, &[])),
        ("boards-16", "boards 16\n15 below 10\n9 : 9 ( 15 )\n", Draft::of(16).line(15, 10, &[2]).kind(9, 9, &[15])),
    ];
    named.into_iter().map(|(name, text, draft)| (name, text.to_string(), draft)).collect()
}

/// Kind lines that nearly disagree.
fn agreeing_lines() -> Vec<(&'static str, String, Draft)> {
    let two = |first: u16, second: u16| {
        let text = format!("boards 3\n0 : {first} ( 1 )\n1 : {second} ( 1 2 )\n");
        (text, Draft::of(3).kind(0, first, &[1]).kind(1, second, &[1, 2]))
    };
    let apart = Draft::of(4).line(0, 3, &[1]).kind(0, 5, &[1]).kind(2, 5, &[3]);
    let twice = (0..16).fold(Draft::of(1), |draft, _| draft.kind(0, 5, &[0, 0]));
    let named = [
        ("kinds-5-and-6-one-and-two-ways", two(5, 6)),
        ("kinds-7-and-263-one-and-two-ways", two(7, 263)),
        ("kinds-0-and-256-one-and-two-ways", two(0, 256)),
        ("kinds-65535-and-255-one-and-two-ways", two(65_535, 255)),
        ("one-kind-around-a-relation-line", ("boards 4\n0:5(1)\n0 above 3\n2:5(3)\n".to_string(), apart)),
        ("one-kind-of-two-ways-16-times", (format!("boards 1\n{}", "0:5(0 0)\n".repeat(16)), twice)),
    ];
    named.into_iter().map(|(name, (text, draft))| (name, text, draft)).collect()
}

/// Texts at the limits of what is taken.
fn text_limits() -> Vec<(&'static str, String, Draft)> {
    let eight = "boards 9\n0 : 5 ( 1 2 3 4 5 6 7 8 )\n".to_string();
    let nots = format!("boards 2\n0 {}side 1\n", "not ".repeat(14));
    let ands = format!("boards 2\n0 side{} 1\n", " and side".repeat(7));
    let deep = |pairs: usize| format!("boards 2\n0 {}side{} 1\n", "(".repeat(pairs), ")".repeat(pairs));
    let deep_nots = format!("boards 2\n0 {}side{} 1\n", "not((".repeat(14), "))".repeat(14));
    let many = |line: &str, count: usize| format!("boards 1\n{}", line.repeat(count));
    let lines_128 = (0..128).fold(Draft::of(1), |draft, _| draft.line(0, 0, &[0]));
    let kinds_16 = (0..16).fold(Draft::of(1), |draft, _| draft.kind(0, 5, &[]));
    let both_most = (0..16).fold(lines_128.clone(), |draft, _| draft.kind(0, 5, &[]));
    vec![
        ("eight-ways", eight, Draft::of(9).kind(0, 5, &[1, 2, 3, 4, 5, 6, 7, 8])),
        ("fifteen-words-of-not", nots, Draft::of(2).line(0, 1, &[6, 6, 6, 6, 6, 6, 6, 6, 6, 6, 6, 6, 6, 6, 3])),
        ("fifteen-words-of-and", ands, Draft::of(2).line(0, 1, &[5, 5, 5, 5, 5, 5, 5, 3, 3, 3, 3, 3, 3, 3, 3])),
        ("fifteen-words-in-parentheses", deep_nots, Draft::of(2).line(0, 1, &[[6; 14].as_slice(), &[3]].concat())),
        ("parentheses-20-deep", deep(20), Draft::of(2).line(0, 1, &[3])),
        ("parentheses-300-deep", deep(300), Draft::of(2).line(0, 1, &[3])),
        ("parentheses-2000-deep", deep(2_000), Draft::of(2).line(0, 1, &[3])),
        ("relation-lines-128", many("0 same 0\n", 128), lines_128),
        ("kind-lines-16", many("0:5()\n", 16), kinds_16),
        ("both-sorts-at-most", many(&format!("0:5()\n{}", "0 same 0\n".repeat(8)), 16), both_most),
    ]
}

/// A text that is refused, with the number and the count: the line for 20, else the place in the words made.
pub type Refused = (&'static str, String, u32, u32);

/// All texts that are refused, but for those that only have a malformed line.
pub fn refused_texts() -> Vec<Refused> {
    let single = [malformed_texts(), too_many(), too_long(), too_high(), disagreeing()];
    let several = [first_in_order(), first_before_11(), malformed_above_all(), malformed_above_11()];
    [single.concat(), several.concat()].concat()
}

/// Refusal 20 for lines that are missing or empty, in the first, a middle and the last line.
fn malformed_texts() -> Vec<Refused> {
    let long_number = format!("boards 2\n0 : {} ( )\n", "1".repeat(2_000));
    let long_zeroes = format!("boards {}2\n", "0".repeat(500));
    let wrapping = "boards 18446744073709551618\n";
    let named = [
        ("empty-text", "", 1),
        ("line-feed-alone", "\n", 1),
        ("line-feeds-alone", "\n\n\n", 1),
        ("blank-alone", " ", 1),
        ("blanks-and-line-feed", "   \n", 1),
        ("empty-first-line", "\nboards 2\n", 1),
        ("empty-line-in-the-middle", "boards 2\n\n0 same 1\n", 2),
        ("empty-line-at-the-end", "boards 2\n0 same 1\n\n", 3),
        ("empty-lines-at-the-end", "boards 2\n\n\n", 2),
        ("blank-line-in-the-middle", "boards 2\n  \n0 same 1\n", 2),
        ("blank-line-at-the-end", "boards 2\n0 same 1\n \n", 3),
        ("blank-at-the-end", "boards 2\n0 same 1\n ", 3),
        ("boards-missing", "0 same 1\n", 1),
        ("boards-second", "0 same 1\nboards 2\n", 1),
        ("boards-twice", "boards 2\nboards 2\n", 2),
        ("boards-at-the-end", "boards 2\n0 same 1\nboards 2", 3),
        ("two-malformed-lines", "boards 2\n0 same 1\n0 same\n0 1\n", 3),
        ("malformed-first-and-last", "boards\n0 same 1\n0 same\n", 1),
        ("malformed-last-line", "boards 2\n0 same 1\n0 : 5 ( 1 )\n0 : 5 ( 1\n", 4),
        ("malformed-last-line-without-line-feed", "boards 2\n0 same 1\n0 same", 3),
        ("line-broken-in-two", "boards 2\n0 same\n1\n", 2),
        ("lines-joined", "boards 2\n0 same 1 1 same 0\n", 2),
        ("line-feed-for-a-blank", "boards\n2\n", 1),
        ("number-of-2000-digits", &long_number, 2),
        ("number-with-500-leading-zeroes", &long_zeroes, 1),
        ("number-that-wraps-to-2", wrapping, 1),
    ];
    named.into_iter().map(|(name, text, line)| (name, text.to_string(), 20, line)).collect()
}

/// Refusal 1: V out of range, or too many lines.
fn too_many() -> Vec<Refused> {
    let many = |line: &str, count: usize| format!("boards 1\n{}", line.repeat(count));
    vec![
        ("boards-0", "boards 0\n".to_string(), 1, 0),
        ("boards-17", "boards 17\n".to_string(), 1, 0),
        ("boards-256", "boards 256\n".to_string(), 1, 0),
        ("boards-257", "boards 257\n".to_string(), 1, 0),
        ("boards-65535", "boards 65535".to_string(), 1, 0),
        ("relation-lines-129", many("0 same 0\n", 129), 1, 1),
        ("relation-lines-256", many("0 same 0\n", 256), 1, 1),
        ("kind-lines-17", many("0:5()\n", 17), 1, 2),
        ("kind-lines-256", many("0:5()\n", 256), 1, 2),
        ("both-sorts-too-many", many("0 same 0\n0:5()\n", 129), 1, 1),
    ]
}

/// Refusal 3: an expression of more than 15 words, more than 8 ways.
fn too_long() -> Vec<Refused> {
    let line = |expression: String| format!("boards 2\n0 {expression} 1\n");
    let ways = |count: usize| format!("boards 2\n0 : 5 ({} )\n", " 1".repeat(count));
    vec![
        ("sixteen-words-of-not", line("not ".repeat(15) + "same"), 3, 8),
        ("sixteen-words-of-inv", line("inv ".repeat(15) + "above"), 3, 8),
        ("sixteen-words-with-and", line("not side".to_string() + &" and side".repeat(7)), 3, 8),
        ("seventeen-words-of-or", line("side".to_string() + &" or side".repeat(8)), 3, 8),
        ("seventeen-words-in-parentheses", line("(side or ".repeat(8) + "side" + &")".repeat(8)), 3, 8),
        ("words-257-of-not", line("not ".repeat(256) + "same"), 3, 8),
        ("words-2001-of-not", line("not ".repeat(2_000) + "same"), 3, 8),
        ("words-1001-of-or", line("(side or ".repeat(500) + "side" + &")".repeat(500)), 3, 8),
        ("nine-ways", ways(9), 3, 8),
        ("ways-256", ways(256), 3, 8),
        ("ways-260", ways(260), 3, 8),
    ]
}

/// Refusal 4: a board of V or more.
fn too_high() -> Vec<Refused> {
    let named = [
        ("first-board-too-high", "boards 2\n2 same 1\n", 6),
        ("second-board-too-high", "boards 2\n0 same 2\n", 7),
        ("board-65535", "boards 16\n65535 same 0\n", 6),
        ("board-256", "boards 16\n0 same 256\n", 7),
        ("panel-too-high", "boards 2\n2 : 5 ( )\n", 6),
        ("way-too-high", "boards 3\n0 : 5 ( 1 3 )\n", 10),
        ("way-65535", "boards 3\n0 : 5 ( 1 65535 )\n", 10),
        ("board-too-high-in-the-last-line", "boards 2\n0 same 1\n1 : 5 ( 0 )\n0 same 1\n1 : 5 ( 2 )", 21),
    ];
    named.into_iter().map(|(name, text, place)| (name, text.to_string(), 4, place)).collect()
}

/// Refusal 11: a kind line disagrees with an earlier one.
fn disagreeing() -> Vec<Refused> {
    let blanks = "  boards   4  \n   0    not   (  same  or  above  )   3  \n 0  :  5  (  1  2  ) \n  2:5(1)  ";
    let eight = "1 ".repeat(8);
    let eight_and_seven = format!("boards 2\n0:5({eight})\n0:5({})\n", &eight[2..]);
    let last_of_16 = format!("boards 2\n0:5(1)\n{}0:5()", "0:6(1)\n".repeat(14));
    let named = [
        ("one-and-two-ways", "boards 5\n0 : 5 ( 1 )\n2 : 5 ( 3 4 )\n", 12),
        ("two-ways-and-one-among-blanks", blanks, 20),
        ("no-ways-and-one", "boards 2\n0:5()\n1:5(0)\n", 11),
        ("one-way-and-none", "boards 2\n0:5(1)\n1:5()", 12),
        ("eight-and-seven-ways", &eight_and_seven, 19),
        ("kind-0-no-ways-and-one", "boards 2\n0 : 0 ( )\n1 : 0 ( 0 )\n", 11),
        ("kind-65535-one-way-and-none", "boards 2\n0 : 65535 ( 1 )\n1 : 65535 ( )\n", 12),
        ("disagreeing-around-a-relation-line", "boards 2\n0:5(1)\n0 same 1\n1:5()\n", 16),
        ("third-line-disagrees-with-first", "boards 2\n0:5(1)\n0:6()\n1:5()\n", 15),
        ("third-line-disagrees-with-two-that-agree", "boards 2\n0:5(1)\n1:5(0)\n1:5()\n", 16),
        ("two-kinds-disagree", "boards 2\n0:5(1)\n0:6()\n1:5()\n1:6(0)\n", 15),
        ("last-of-16-lines-disagrees-with-first-alone", &last_of_16, 68),
    ];
    named.into_iter().map(|(name, text, place)| (name, text.to_string(), 11, place)).collect()
}

/// Several faults among 1 to 4: the first in the order of the words made decides.
fn first_in_order() -> Vec<Refused> {
    let nots = "not ".repeat(15);
    let nine = "1 ".repeat(9);
    vec![
        ("1-before-4", "boards 0\n0 same 0\n".to_string(), 1, 0),
        ("1-for-boards-before-3", format!("boards 17\n0 {nots}same 1\n"), 1, 0),
        ("1-for-lines-before-4", format!("boards 1\n{}", "9 same 9\n".repeat(129)), 1, 1),
        ("3-before-4-in-a-line", format!("boards 2\n2 {nots}same 2\n"), 3, 8),
        ("3-before-4-in-a-kind-line", format!("boards 2\n2 : 5 ( {nine})\n"), 3, 8),
        ("4-before-3-in-the-next-line", format!("boards 2\n2 same 0\n0 {nots}same 1\n"), 4, 6),
        ("3-before-4-in-the-next-line", format!("boards 2\n0 {nots}same 1\n2 same 0\n"), 3, 8),
        ("4-in-relation-line-before-3-in-earlier-kind-line", format!("boards 2\n0 : 5 ( {nine})\n2 same 0\n"), 4, 6),
        ("3-in-relation-line-before-4-in-earlier-kind-line", format!("boards 2\n0 : 5 ( 2 )\n0 {nots}same 1\n"), 3, 8),
        ("4-in-kind-line-before-3-in-the-next", format!("boards 2\n0 : 5 ( 2 )\n0 : 5 ( {nine})\n"), 4, 9),
        ("3-in-kind-line-before-4-in-the-next", format!("boards 2\n0 : 5 ( {nine})\n0 : 5 ( 2 )\n"), 3, 8),
    ]
}

/// Refusals 1, 3 and 4 come before 11, wherever they stand.
fn first_before_11() -> Vec<Refused> {
    let disagreeing = "boards 2\n0:5()\n0:5(1)\n";
    let nots = "not ".repeat(15);
    let nine = "1 ".repeat(9);
    vec![
        ("1-for-no-boards-before-11", disagreeing.replace("boards 2", "boards 0"), 1, 0),
        ("1-for-17-boards-before-11", disagreeing.replace("boards 2", "boards 17"), 1, 0),
        ("1-for-17-kind-lines-before-11", format!("boards 2\n{}0:5(1)", "0:5()\n".repeat(16)), 1, 2),
        ("3-in-relation-line-before-11", format!("{disagreeing}0 {nots}same 1\n"), 3, 8),
        ("3-in-later-kind-line-before-11", format!("{disagreeing}0:6({nine})\n"), 3, 15),
        ("nine-ways-of-a-kind-used-before", format!("boards 2\n0:5(1)\n0:5({nine})\n"), 3, 12),
        ("nine-ways-of-a-kind-used-after", format!("boards 2\n0:5({nine})\n0:5(1)\n"), 3, 8),
        ("4-in-relation-line-before-11", format!("{disagreeing}0 same 2\n"), 4, 7),
        ("4-in-later-kind-line-before-11", format!("{disagreeing}2:6()\n"), 4, 13),
        ("4-in-earlier-kind-line-before-11", "boards 2\n0:6(2)\n0:5()\n0:5(1)\n".to_string(), 4, 9),
        ("4-in-the-disagreeing-line", "boards 2\n0:5()\n0:5(2)\n".to_string(), 4, 12),
    ]
}

/// Refusal 20 comes before 1, 3 and 4, wherever they stand.
fn malformed_above_all() -> Vec<Refused> {
    let nots = "not ".repeat(15);
    let lines_129 = format!("boards 1\n{}", "0 same 0\n".repeat(129));
    let kinds_17 = format!("boards 1\n{}", "0:5()\n".repeat(17));
    vec![
        ("20-after-no-boards", "boards 0\n0 same\n".to_string(), 20, 2),
        ("20-after-too-many-boards", "boards 17\n0 same 1\n\n".to_string(), 20, 3),
        ("20-after-a-high-board", "boards 2\n2 same 2\n0 same\n".to_string(), 20, 3),
        ("20-after-a-long-expression", format!("boards 2\n0 {nots}same 1\n0 same 1 1\n"), 20, 3),
        ("20-before-a-high-board", "boards 2\n0 same\n2 same 2\n".to_string(), 20, 2),
        ("20-in-a-long-expression", format!("boards 2\n0 {nots}same same 1\n"), 20, 2),
        ("20-in-many-ways", format!("boards 2\n0 : 5 ( {}same )\n", "1 ".repeat(20)), 20, 2),
        ("20-in-a-high-board", "boards 2\n2 same\n".to_string(), 20, 2),
        ("20-at-the-end-of-2000-nots", format!("boards 2\n0 {}1\n", "not ".repeat(2_000)), 20, 2),
        ("20-for-a-parenthesis-too-many", format!("boards 2\n0 {}same{} 1\n", "(".repeat(300), ")".repeat(301)), 20, 2),
        ("20-for-a-parenthesis-too-few", format!("boards 2\n0 {}same{} 1\n", "(".repeat(301), ")".repeat(300)), 20, 2),
        ("20-for-256-parentheses-left-open", format!("boards 2\n0 {}same 1\n", "(".repeat(256)), 20, 2),
        ("20-in-line-302", format!("boards 1\n{}0:5", "0:5()\n".repeat(300)), 20, 302),
        ("20-after-too-many-relation-lines", lines_129.clone() + "0 same", 20, 131),
        ("20-after-too-many-kind-lines", kinds_17.clone() + "0:5(", 20, 19),
        ("20-for-an-empty-line-after-too-many", lines_129 + "\n", 20, 131),
        ("20-in-the-first-line-before-too-many", kinds_17.replace("boards", "board"), 20, 1),
    ]
}

/// Refusal 20 comes before 11, wherever it stands.
fn malformed_above_11() -> Vec<Refused> {
    let named = [
        ("20-in-the-first-line-before-11", "board 2\n0:5()\n0:5(1)\n", 1),
        ("20-between-disagreeing-lines", "boards 2\n0:5()\n\n0:5(1)\n", 3),
        ("20-in-the-disagreeing-line", "boards 2\n0:5()\n0:5(1\n", 3),
        ("20-after-disagreeing-lines", "boards 2\n0:5()\n0:5(1)\n0 same\n", 4),
    ];
    named.into_iter().map(|(name, text, line)| (name, text.to_string(), 20, line)).collect()
}

/// First lines that are malformed.
pub fn malformed_first_lines() -> Vec<&'static [u8]> {
    vec![
        b"boards",
        b"boards ",
        b"boards 3 3",
        b"boards3",
        b"boards 3boards",
        b"3 boards",
        b"boards boards 3",
        b"board 3",
        b"Boards 3",
        b"BOARDS 3",
        b"boards three",
        b"boards : 3",
        b"boards (3)",
        b"boards 3 :",
        b"boards -1",
        b"boards +3",
        b"boards 00",
        b"boards 03",
        b"boards 3.",
        b"boards 0x3",
        b"boards 65536",
        b"boards 65539",
        b"boards 100000",
        b"boards 4294967299",
        b"boards\t3",
        b"boards 3\r",
        b"boards\r3",
        b"boards 3\0",
        b"boards\xc83",
        b"boards 3\xc8",
        b"boards\xc2\xa03",
        b"\xef\xbb\xbfboards 3",
        b"boards 3 same 1",
        b"boards same",
    ]
}

/// Lines that are malformed after the first line, however many boards there are.
pub fn malformed_lines() -> Vec<&'static [u8]> {
    [malformed_relation_lines(), malformed_kind_lines(), malformed_numbers(), malformed_bytes()].concat()
}

fn malformed_relation_lines() -> Vec<&'static [u8]> {
    vec![
        b"0",
        b"same",
        b"0 1",
        b"0 same",
        b"same 1",
        b"0same 1",
        b"0 same1",
        b"0 same 1 1",
        b"0 0 same 1",
        b"0 same above 1",
        b"0 or 1",
        b"0 same or 1",
        b"0 or same 1",
        b"0 not 1",
        b"0 same not 1",
        b"0 same not above 1",
        b"0 not or same 1",
        b"0 same or or above 1",
        b"0 same and or above 1",
        b"0 ( same 1",
        b"0 same ) 1",
        b"0 ( ) 1",
        b"0 ) same ( 1",
        b"0 ( same ) ) 1",
        b"0 ( ( same ) 1",
        b"0 ( same or ) above 1",
        b"0 (same)(above) 1",
        b"0 same (above) 1",
        b"0 (same) above 1",
        b"0 not (same) not above 1",
        b"0 not () same 1",
        b"( 0 same 1 )",
        b"0 ( same 1 )",
        b"( 0 same ) 1",
        b"0 : same 1",
        b"0 same : 1",
        b"0 same 1 :",
        b"0 same 0 same 1",
        b"0 same 1 or above 1",
        b"0 boards 1",
        b"0 same boards 1",
        b"0 equal 1",
        b"0 Same 1",
        b"0 SAME 1",
        b"0 sam 1",
        b"0 sames 1",
        b"0 same_or_above 1",
        b"0 sameorabove 1",
        b"0 notsame 1",
        b"0 same, above 1",
        b"0 same | above 1",
        b"0 [same] 1",
        b"0 left 1",
        b"0 = 1",
        b"0 4 0 1 1",
        b"boards 3",
    ]
}

fn malformed_kind_lines() -> Vec<&'static [u8]> {
    vec![
        b":",
        b"0 :",
        b"0 : 5",
        b"0 : 5 (",
        b"0 : 5 )",
        b"0 : 5 1",
        b"0 : 5 1 2",
        b"0 : 5 ( 1",
        b"0 : 5 1 )",
        b"0 : ( 1 )",
        b": 5 ( 1 )",
        b"0 5 ( 1 )",
        b"0 ( 1 )",
        b"0 : 5 ) 1 (",
        b"0 : 5 ( 1 ) )",
        b"0 : 5 ( ( 1 ) )",
        b"0 : 5 ( ( 1 )",
        b"0 : 5 ( 1 ) 2",
        b"0 : 5 ( 1 ) :",
        b"0 : 5 ( 1 ) ( 1 )",
        b"0 : 5 ( ) ( )",
        b"0 : : 5 ( 1 )",
        b"0 : 5 : ( 1 )",
        b"0 : 5 ( 1 : 2 )",
        b"0 : 5 5 ( 1 )",
        b"0 0 : 5 ( 1 )",
        b"0 : 5 ( 1 , 2 )",
        b"0 : 5 ( 1,2 )",
        b"0 : same ( 1 )",
        b"0 : 5 ( same )",
        b"0 : 5 ( 1 or 2 )",
        b"same : 5 ( 1 )",
        b"( 0 : 5 ( 1 ) )",
        b"( 0 ) : 5 ( 1 )",
        b"0 : ( 5 ) ( 1 )",
        b"0 : 5 ( 1 2 same ) 1",
        b"0 ; 5 ( 1 )",
        b"0 : 5 [ 1 ]",
        b"boards : 5 ( 1 )",
    ]
}

fn malformed_numbers() -> Vec<&'static [u8]> {
    vec![
        b"00 same 1",
        b"01 same 1",
        b"0 same 01",
        b"0 same 007",
        b"+0 same 1",
        b"0 same +1",
        b"-0 same 1",
        b"0 same -1",
        b"0 same 1.0",
        b"0 same 0x1",
        b"0 same 1_0",
        b"0 same 1e0",
        b"0 same 65536",
        b"65536 same 1",
        b"65537 same 1",
        b"0 same 99999",
        b"0 same 100000",
        b"0 same 4294967297",
        b"0 same 18446744073709551617",
        b"0 : 65536 ( 1 )",
        b"0 : 00 ( 1 )",
        b"0 : 05 ( 1 )",
        b"0 : +5 ( 1 )",
        b"0 : 5 ( 65536 )",
        b"0 : 5 ( 01 )",
        b"0 : 5 ( 1 00 )",
        b"0 : 5 ( 340282366920938463463374607431768211457 )",
        b"00 : 5 ( 1 )",
        b"65536 : 5 ( 1 )",
        b"0 : 655350 ( 1 )",
        b"0 : 065535 ( 1 )",
    ]
}

/// Bytes that are neither part of a symbol nor a blank.
fn malformed_bytes() -> Vec<&'static [u8]> {
    vec![
        b"0\tsame 1",
        b"0 same\t1",
        b"\t0 same 1",
        b"0 same 1\t",
        b"0 same 1\r",
        b"\r",
        b"\t",
        b"\0",
        b"0 same 1\0",
        b"0\0same 1",
        b"0 sa\0me 1",
        b"0 same 1\xc8",
        b"0 s\xc8me 1",
        b"0\xc8same 1",
        b"\xc8",
        b"0 same 1 \xff",
        b"0\xa0same\xa01",
        b"0\xc2\xa0same 1",
        b"0 same\x0b1",
        b"0 same\x0c1",
        b"0 same 1 \x7f",
        b"0 \xf3ame 1",
        b"\xb0 same 1",
        b"0 same \xd9\xa1",
        b"0 : 5 (\t1 )",
        b"0 : 5 ( 1 )\r",
        b"0 \xba 5 ( 1 )",
        b"0 : 5 \xa8 1 )",
        b"# 0 same 1",
        b"0 same 1 # so",
        b"0 same 1;",
        b"\"0 same 1\"",
    ]
}

/// Good descriptions whose texts are of note, besides those of the expressions.
pub fn text_drafts() -> Vec<(&'static str, Draft)> {
    let lengths = Draft::of(11).kind(10, 1, &[9]).kind(9, 10, &[10]).kind(8, 100, &[]).kind(7, 9_999, &[]);
    let none = Draft::of(3).kind(0, 5, &[]).kind(1, 0, &[]).kind(2, 65_535, &[]);
    vec![
        ("no-lines", Draft::of(1)),
        ("no-lines-of-16-boards", Draft::of(16)),
        ("kinds-without-ways", none.clone()),
        ("kinds-without-ways-and-a-relation-line", none.line(2, 0, &[6, 4, 1, 2])),
        ("numbers-of-all-lengths", lengths),
        ("fifteen-words-from-the-right", Draft::of(2).line(0, 1, &from_the_right(4, 7))),
        ("fifteen-words-from-the-left", Draft::of(2).line(0, 1, &[4, 4, 4, 4, 4, 4, 4, 0, 1, 2, 3, 0, 1, 2, 3])),
        ("or-and-and-in-turn", Draft::of(2).line(0, 1, &[4, 0, 5, 1, 4, 2, 5, 3, 4, 0, 5, 1, 4, 2, 3])),
        ("and-and-or-in-turn-from-the-left", Draft::of(2).line(0, 1, &[5, 4, 5, 4, 5, 4, 5, 0, 1, 2, 3, 0, 1, 2, 3])),
        ("not-over-all", Draft::of(2).line(0, 1, &[6, 5, 6, 4, 7, 0, 6, 1, 7, 5, 6, 6, 2, 7, 3])),
    ]
}

/// So many times the operator, its right operand the next: the expression with the most parentheses.
fn from_the_right(operator: u16, times: usize) -> Vec<u16> {
    [[operator, 1].repeat(times), vec![2]].concat()
}

/// A good description of 2,486 words with the longest text of all.
pub fn longest_text() -> Draft {
    let mut draft = Draft::of(16);
    for _ in 0..128 {
        draft = draft.line(10, 15, &from_the_right(5, 7));
    }
    for _ in 0..16 {
        draft = draft.kind(15, 65_535, &[10, 11, 12, 13, 14, 15, 10, 11]);
    }
    draft
}
