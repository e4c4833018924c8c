//! The sheets that trainees type: from a text to a draft, and from a draft back to a text.

use crate::description::{MOST_EXPRESSION_WORDS, MOST_KIND_LINES, MOST_RELATION_LINES, MOST_WAYS};
use crate::drafts::{Draft, Kind, Relation};
use crate::infix::{infix_symbols, prefix_words};
use crate::symbols::{symbols, Symbol};

/// The draft that a text makes; the error is the number, from 1, of the first malformed line.
pub fn read(text: &[u8]) -> Result<Draft, usize> {
    let mut draft = Draft::of(0);
    for (before, line) in lines(text).enumerate() {
        let good = symbols(line).and_then(|symbols| add_line(&mut draft, before == 0, &symbols));
        good.ok_or(before + 1)?;
    }
    Ok(draft)
}

/// The lines of a text, without line feeds; the last may lack its own. An empty text is one empty line.
fn lines(text: &[u8]) -> impl Iterator<Item = &[u8]> {
    text.strip_suffix(b"\n").unwrap_or(text).split(|&byte| byte == b'\n')
}

/// Adds what a line says to the draft; none if it is malformed.
fn add_line(draft: &mut Draft, first: bool, line: &[Symbol]) -> Option<()> {
    match *line {
        [Symbol::Boards, Symbol::Number(boards)] if first => draft.boards = boards as usize,
        _ if first => return None,
        [Symbol::Number(p), Symbol::Colon, Symbol::Number(code), Symbol::Open, ref ways @ .., Symbol::Close] => {
            let ways = ways.iter().map(|&way| number(way)).collect::<Option<Vec<u16>>>()?;
            draft.kinds.push(Kind { p, code, ways });
        }
        [Symbol::Number(p), ref expression @ .., Symbol::Number(q)] => {
            draft.relations.push(Relation { p, q, expression: prefix_words(expression)? });
        }
        _ => return None,
    }
    Some(())
}

fn number(symbol: Symbol) -> Option<u16> {
    match symbol {
        Symbol::Number(number) => Some(number),
        _ => None,
    }
}

/// The draft with everything too long cut to one more than is allowed. It is refused for the same reason and at the
/// same place, for nothing before its first fault is cut; but its counts and its total fit into words, so that its
/// header is right.
pub fn cut(mut draft: Draft) -> Draft {
    draft.relations.truncate(MOST_RELATION_LINES as usize + 1);
    draft.kinds.truncate(MOST_KIND_LINES as usize + 1);
    for line in &mut draft.relations {
        line.expression.truncate(MOST_EXPRESSION_WORDS as usize + 1);
    }
    for line in &mut draft.kinds {
        line.ways.truncate(MOST_WAYS as usize + 1);
    }
    draft
}

/// The text of a good draft: relation lines first, one blank between symbols, a line feed after each line.
pub fn written(draft: &Draft) -> Vec<u8> {
    let mut lines = vec![boards_symbols(draft)];
    lines.extend(draft.relations.iter().map(|line| relation_symbols(line, || 0)));
    lines.extend(draft.kinds.iter().map(kind_symbols));
    let mut text = String::new();
    for line in lines {
        let symbols: Vec<String> = line.into_iter().map(Symbol::text).collect();
        text.push_str(&symbols.join(" "));
        text.push('\n');
    }
    text.into_bytes()
}

/// The first line: `boards V`.
pub fn boards_symbols(draft: &Draft) -> Vec<Symbol> {
    vec![Symbol::Boards, Symbol::Number(draft.boards as u16)]
}

/// A relation line: `p expr q`, with as many pairs of parentheses more than needed as are asked for.
pub fn relation_symbols(line: &Relation, pairs_more: impl FnMut() -> usize) -> Vec<Symbol> {
    let mut symbols = infix_symbols(&line.expression, pairs_more);
    symbols.insert(0, Symbol::Number(line.p));
    symbols.push(Symbol::Number(line.q));
    symbols
}

/// A kind line: `p : code ( ways )`.
pub fn kind_symbols(line: &Kind) -> Vec<Symbol> {
    let mut symbols = vec![Symbol::Number(line.p), Symbol::Colon, Symbol::Number(line.code), Symbol::Open];
    symbols.extend(line.ways.iter().map(|&way| Symbol::Number(way)));
    symbols.push(Symbol::Close);
    symbols
}
