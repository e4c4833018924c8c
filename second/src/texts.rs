//! Texts and descriptions by chance for the reader and the writer of texts.

use crate::calls::{text_of_words, words_of_text};
use crate::cases::{Case, MOST_ROOM_BYTES, MOST_ROOM_WORDS, MOST_TEXT_BYTES};
use crate::chance::Chance;
use crate::drafts::{any_expression, Draft, Kind, Relation};
use crate::sheets::{any_relation, any_sheet, kind_of_any_ways};
use crate::spoiling::{disagree, mostly_refused};
use crate::symbols::{stands_alone, Symbol};
use crate::typed::{boards_symbols, kind_symbols, relation_symbols};

/// A line as the pieces that are typed: symbols, or what a trainee takes for one.
type Pieces = Vec<String>;

/// One case of a text or several that belong together.
pub fn text_cases(chance: &mut Chance) -> Vec<Case> {
    match chance.below(208) {
        0..=49 => vec![good_case(chance)],
        50..=84 => vec![damaged_byte_case(chance)],
        85..=109 => vec![damaged_piece_case(chance)],
        110..=127 => vec![faulty_case(chance)],
        128..=144 => vec![soup_case(chance)],
        145..=149 => vec![bytes_case(chance)],
        150..=180 => vec![writing_case(chance)],
        181..=205 => vec![writing_refused_case(chance)],
        _ => vec![huge_case(chance)],
    }
}

/// A text that makes exactly the words of a good description.
fn good_case(chance: &mut Chance) -> Case {
    let draft = any_draft(chance);
    let lines = typed_lines(chance, &draft);
    let text = joined(chance, &lines);
    assert!(words_of_text(&text).ok() == Some(draft.words()), "a good text is read as another description");
    typed_case(chance, &text, draft.words().len())
}

/// A good text with one byte changed, deleted or inserted, at times two.
fn damaged_byte_case(chance: &mut Chance) -> Case {
    let draft = any_draft(chance);
    let lines = typed_lines(chance, &draft);
    let mut text = joined(chance, &lines);
    for _ in 0..chance.pick(&[1, 1, 1, 1, 2]) {
        damage_byte(chance, &mut text);
    }
    typed_case(chance, &text, draft.words().len())
}

/// A good text with one piece of a line deleted, inserted, changed, doubled or moved.
fn damaged_piece_case(chance: &mut Chance) -> Case {
    let draft = any_draft(chance);
    let mut lines = typed_lines(chance, &draft);
    let chosen = chance.below(lines.len());
    damage_pieces(chance, &mut lines[chosen]);
    let text = joined(chance, &lines);
    typed_case(chance, &text, draft.words().len())
}

/// A well-formed text that makes a refused description, at times with a malformed line as well.
fn faulty_case(chance: &mut Chance) -> Case {
    let mut draft = any_draft(chance);
    for _ in 0..chance.pick(&[1, 1, 2, 3]) {
        add_a_fault(chance, &mut draft);
    }
    let mut lines = typed_lines(chance, &draft);
    if chance.percent(15) {
        let chosen = chance.below(lines.len());
        damage_pieces(chance, &mut lines[chosen]);
    }
    let text = joined(chance, &lines);
    typed_case(chance, &text, draft.words().len())
}

/// Lines of pieces by chance, mostly such that each fits after the one before.
fn soup_case(chance: &mut Chance) -> Case {
    let mut lines = vec![vec!["boards".to_string(), chance.between(1, 9).to_string()]];
    if chance.percent(10) {
        lines[0] = any_soup(chance);
    }
    for _ in 0..chance.pick(&[1, 1, 2, 3]) {
        lines.push(if chance.percent(70) { fitting_soup(chance) } else { any_soup(chance) });
    }
    let text = joined(chance, &lines);
    typed_case(chance, &text, 20)
}

/// Bytes by chance, mostly after a good first line.
fn bytes_case(chance: &mut Chance) -> Case {
    let mut text = if chance.percent(60) { b"boards 3\n".to_vec() } else { Vec::new() };
    let only_of_use = chance.percent(50);
    for _ in 0..chance.below(40) {
        text.push(if only_of_use { chance.pick(b"01 :()\nsame") } else { chance.below(256) as u8 });
    }
    typed_case(chance, &text, 20)
}

/// The case of a text, in a room about as long as it needs, or as the text needed before it was damaged.
fn typed_case(chance: &mut Chance, text: &[u8], needed_before: usize) -> Case {
    let read = words_of_text(text);
    if let Err(refused) = &read {
        assert!([1, 3, 4, 11, 20].contains(&refused.number), "a text is refused with {}", refused.number);
    }
    let needed = read.map_or(needed_before, |words| words.len());
    Case::typed(text, room_around(chance, needed, MOST_ROOM_WORDS))
}

/// A good description to be written.
fn writing_case(chance: &mut Chance) -> Case {
    let words = any_draft(chance).words();
    texted_case(chance, &words)
}

/// A description to be written that is mostly refused.
fn writing_refused_case(chance: &mut Chance) -> Case {
    let draft = any_draft(chance);
    let words = mostly_refused(chance, &draft);
    texted_case(chance, &words)
}

/// The case of a description to be written, in a room about as long as its text.
fn texted_case(chance: &mut Chance, words: &[u16]) -> Case {
    assert_comes_back(words);
    let needed = text_of_words(words).map_or(words.len() * 3, |text| text.len());
    Case::texted(words, room_around(chance, needed, MOST_ROOM_BYTES))
}

/// Writing a good description and reading it back gives the same words.
pub fn assert_comes_back(words: &[u16]) {
    if let Ok(text) = text_of_words(words) {
        assert!(words_of_text(&text).as_deref() == Ok(words), "a description does not come back: {words:?}");
    }
}

/// A room just long enough, one too small, none, larger, or of any length.
fn room_around(chance: &mut Chance, needed: usize, most: usize) -> usize {
    let room = match chance.below(20) {
        0..=7 => needed,
        8..=11 => needed.saturating_sub(1),
        12..=13 => needed + 1,
        14..=15 => needed + chance.below(60),
        16..=17 => chance.below(needed + 1),
        18 => chance.pick(&[0, 1, 5, 6, 7]),
        _ => chance.pick(&[0, 300, 2_486, 32_768, most]),
    };
    room.min(most)
}

/// A good description: one of the other makers', or one with all sorts of expressions and codes.
fn any_draft(chance: &mut Chance) -> Draft {
    if chance.percent(35) {
        return any_sheet(chance).draft;
    }
    let boards = if chance.percent(70) { chance.between(1, 12) } else { chance.pick(&[1, 10, 11, 16]) };
    let mut draft = Draft::of(boards);
    let longest = chance.pick(&[1, 3, 5, 8, 15]);
    for _ in 0..chance.pick(&[0, 1, 1, 2, 3, 5]) {
        draft.relations.push(any_relation(chance, boards, longest));
    }
    for _ in 0..chance.pick(&[0, 0, 1, 1, 2, 4]) {
        draft.kinds.push(kind_of_any_ways(chance, boards));
    }
    draft.mend_codes();
    draft
}

/// Makes something wrong that a text can still say: refusal 1, 3, 4 or 11.
fn add_a_fault(chance: &mut Chance, draft: &mut Draft) {
    match chance.below(17) {
        0 => draft.boards = chance.pick(&[0, 0, 17, 18, 256, 257, 65_535]),
        1 => draft.boards = chance.below(draft.boards + 1),
        2 => {
            let count = chance.pick(&[129, 129, 130, 140]);
            draft.relations.resize(count, Relation { p: 0, q: 0, expression: vec![0] });
        }
        3 => {
            let count = chance.pick(&[17, 17, 18, 40]);
            draft.kinds.resize(count, Kind { p: 0, code: 1, ways: Vec::new() });
        }
        4..=6 => {
            let length = chance.pick(&[16, 16, 17, 18, 30]);
            let expression = any_expression(chance, length);
            let q = chance.below(draft.boards) as u16;
            insert_relation(chance, draft, Relation { p: 0, q, expression });
        }
        7..=8 => {
            let ways = vec![0; chance.pick(&[9, 9, 10, 20])];
            insert_kind(chance, draft, Kind { p: 0, code: 1, ways });
        }
        9..=13 => add_a_high_board(chance, draft),
        _ => {
            disagree(chance, draft);
        }
    }
}

/// A line with a board of V or more: p, q or both, the panel, or one of the ways.
fn add_a_high_board(chance: &mut Chance, draft: &mut Draft) {
    let high = chance.pick(&[draft.boards, draft.boards, draft.boards + 1, 256, 65_535]) as u16;
    let mut ways = vec![0; chance.between(1, 8)];
    match chance.below(5) {
        0..=1 => {
            let (p, q) = chance.pick(&[(0, high), (high, 0), (high, high)]);
            insert_relation(chance, draft, Relation { p, q, expression: vec![0] });
        }
        2 => insert_kind(chance, draft, Kind { p: high, code: 1, ways }),
        _ => {
            let at = chance.below(ways.len());
            ways[at] = high;
            insert_kind(chance, draft, Kind { p: 0, code: 1, ways });
        }
    }
}

/// Puts a relation line before, between or after the others.
fn insert_relation(chance: &mut Chance, draft: &mut Draft, line: Relation) {
    draft.relations.insert(chance.below(draft.relations.len() + 1), line);
}

/// Puts a kind line before, between or after the others.
fn insert_kind(chance: &mut Chance, draft: &mut Draft, line: Kind) {
    draft.kinds.insert(chance.below(draft.kinds.len() + 1), line);
}

/// The lines of a draft, its two sorts mixed, with parentheses more than needed.
fn typed_lines(chance: &mut Chance, draft: &Draft) -> Vec<Pieces> {
    let percent = chance.pick(&[0, 0, 10, 30, 60]);
    let mut relations: Vec<Pieces> = Vec::new();
    for line in &draft.relations {
        let pairs_more = || if chance.percent(percent) { chance.pick(&[1, 1, 1, 2, 5]) } else { 0 };
        relations.push(pieces(relation_symbols(line, pairs_more)));
    }
    let kinds: Vec<Pieces> = draft.kinds.iter().map(|line| pieces(kind_symbols(line))).collect();
    let mut lines = vec![pieces(boards_symbols(draft))];
    lines.extend(mixed(chance, relations, kinds));
    lines
}

fn pieces(symbols: Vec<Symbol>) -> Pieces {
    symbols.into_iter().map(Symbol::text).collect()
}

/// The lines of both runs; each run keeps its order.
fn mixed<T>(chance: &mut Chance, first: Vec<T>, second: Vec<T>) -> Vec<T> {
    let percent = chance.pick(&[0, 50, 50, 80, 100]);
    let (mut first, mut second) = (first.into_iter().peekable(), second.into_iter().peekable());
    let mut all = Vec::new();
    while first.peek().is_some() || second.peek().is_some() {
        let from_first = second.peek().is_none() || (first.peek().is_some() && chance.percent(percent));
        all.extend(if from_first { first.next() } else { second.next() });
    }
    all
}

/// The text of the lines, with blanks by chance; the last line may lack its line feed.
fn joined(chance: &mut Chance, lines: &[Pieces]) -> Vec<u8> {
    let habit = chance.pick(&[[0, 0, 0], [0, 0, 1], [1, 1, 1], [0, 1, 3], [0, 0, 9]]);
    let mut text = Vec::new();
    for line in lines {
        let mut word_before = false;
        for piece in line {
            let word = !piece.bytes().all(stands_alone);
            let blanks = chance.pick(&habit).max((word_before && word) as usize);
            text.extend(vec![b' '; blanks]);
            text.extend(piece.bytes());
            word_before = word;
        }
        text.extend(vec![b' '; if chance.percent(30) { chance.pick(&habit) } else { 0 }]);
        text.push(b'\n');
    }
    if chance.percent(25) {
        text.pop();
    }
    text
}

/// Changes, deletes or inserts one byte.
fn damage_byte(chance: &mut Chance, text: &mut Vec<u8>) {
    let at = chance.below(text.len());
    let near = text.get(at).map_or(b' ', |&byte| byte ^ (1 << chance.below(8)));
    let byte = match chance.below(10) {
        0..=4 => chance.pick(b"  \n\n\t\r\0::((()))00123456789\xc8\xff"),
        5..=6 => chance.pick(b"sameabovelwidrntS+-,"),
        7..=8 => near,
        _ => chance.below(256) as u8,
    };
    match chance.below(4) {
        0 if at < text.len() => text[at] = byte,
        1 | 2 if at < text.len() => drop(text.remove(at)),
        _ => text.insert(chance.below(text.len() + 1), byte),
    }
}

/// Deletes, inserts, changes, doubles or moves one piece.
fn damage_pieces(chance: &mut Chance, line: &mut Pieces) {
    let at = chance.below(line.len());
    let other = chance.below(line.len());
    match chance.below(6) {
        _ if line.is_empty() => line.push(any_piece(chance)),
        0 => drop(line.remove(at)),
        1 => line.insert(at, any_piece(chance)),
        2 => line.push(any_piece(chance)),
        3 => line[at] = any_piece(chance),
        4 => line.insert(at, line[at].clone()),
        _ => line.swap(at, other),
    }
}

/// A symbol, or what is none.
fn any_piece(chance: &mut Chance) -> String {
    let odd = ["00", "01", "+1", "-1", "65536", "99999", "1000000", "same1", "1same", "Same", "equal", "nor", "left"];
    let symbol = match chance.below(10) {
        0..=1 => Symbol::Number(chance.pick(&[0, 1, 2, 3, 9, 16, 65_535])),
        2..=3 => Symbol::Code(chance.below(4) as u16),
        4..=5 => Symbol::Code(chance.between(4, 7) as u16),
        6 => chance.pick(&[Symbol::Colon, Symbol::Colon, Symbol::Boards]),
        7..=8 => chance.pick(&[Symbol::Open, Symbol::Close]),
        _ => return chance.pick(&odd).to_string(),
    };
    symbol.text()
}

/// Pieces by chance.
fn any_soup(chance: &mut Chance) -> Pieces {
    (0..chance.below(9)).map(|_| any_piece(chance)).collect()
}

/// A line whose pieces mostly fit, each after the one before; parentheses often do not match.
fn fitting_soup(chance: &mut Chance) -> Pieces {
    if chance.percent(25) {
        return fitting_kind_soup(chance);
    }
    let mut symbols = vec![Symbol::Number(chance.below(3) as u16)];
    let mut open = 0;
    loop {
        for _ in 0..chance.pick(&[0, 0, 1, 2]) {
            let before = chance.pick(&[Symbol::Open, Symbol::Code(6), Symbol::Code(7)]);
            open += (before == Symbol::Open) as usize;
            symbols.push(before);
        }
        symbols.push(Symbol::Code(chance.below(4) as u16));
        while open > 0 && chance.percent(50) {
            open -= 1;
            symbols.push(Symbol::Close);
        }
        if chance.percent(40) {
            break;
        }
        symbols.push(Symbol::Code(chance.pick(&[4, 5])));
    }
    let missing = if chance.percent(60) { open } else { chance.below(open + 2) };
    symbols.extend(vec![Symbol::Close; missing]);
    symbols.push(Symbol::Number(chance.below(3) as u16));
    with_a_slip(chance, symbols)
}

/// A kind line that is mostly good.
fn fitting_kind_soup(chance: &mut Chance) -> Pieces {
    let line = kind_of_any_ways(chance, 3);
    with_a_slip(chance, kind_symbols(&line))
}

/// The pieces, at times with one of them wrong.
fn with_a_slip(chance: &mut Chance, symbols: Vec<Symbol>) -> Pieces {
    let mut line = pieces(symbols);
    if chance.percent(20) {
        damage_pieces(chance, &mut line);
    }
    line
}

/// A text as long as a case may be, or nearly: deep, with very many lines, words, ways, digits or blanks.
fn huge_case(chance: &mut Chance) -> Case {
    let less = chance.below(40);
    let fit = |unit: usize| (MOST_TEXT_BYTES - 100) / unit - less;
    let (few, one) = (chance.below(9), chance.below(2));
    let line = match chance.below(10) {
        0 => format!("0{}same{}1", "(".repeat(fit(2)), ")".repeat(fit(2))),
        1 => format!("0{}same{}1", "(".repeat(fit(2)), ")".repeat(fit(2) - 1 + 2 * one)),
        // In 16 bits the depth would come back to 0, and the number of ways to 8 or less.
        2 => format!("0{}same{} 1", "(".repeat(65_536 + one), ")".repeat(one)),
        3 => format!("0:5({}1)", "1 ".repeat(65_535 + few)),
        4 => format!("0 {}same{} 1", "(same or ".repeat(fit(10)), ")".repeat(fit(10))),
        5 => format!("0 {}same 1", "not ".repeat(fit(4))),
        6 => vec![["0:5()", "1 : 5()"][one]; fit(8)].join("\n"),
        7 => vec!["0 same 1"; fit(9)].join("\n"),
        8 => format!("0 same {}", "1".repeat(fit(1))),
        _ => format!("{}0 same 1", " ".repeat(fit(1))),
    };
    let last = chance.pick(&["", "\n", "\n\n", "\n0", "\n0 same 1", "\n0:5()\n"]);
    typed_case(chance, format!("boards 9\n{line}{last}").as_bytes(), 10)
}
