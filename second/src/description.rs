//! The reader: a run of words becomes a description, or is refused with 1 to 5, then 11, and the place of the fault.

use crate::relations::{converse, ALL, SINGLES};
use std::ops::RangeInclusive;

pub const MOST_BOARDS: u16 = 16;
pub const MOST_RELATION_LINES: u16 = 128;
pub const MOST_KIND_LINES: u16 = 16;
pub const MOST_EXPRESSION_WORDS: u16 = 15;
pub const MOST_WAYS: u16 = 8;
pub const HEADER: usize = 6;

/// The cell (p, q) is to lie within the set.
pub struct RelationLine {
    pub p: usize,
    pub q: usize,
    pub set: u8,
}

/// The panel p is of the kind and has these ways, in order.
pub struct KindLine {
    pub p: usize,
    pub code: u16,
    pub ways: Vec<usize>,
}

/// What a good run of words says.
pub struct Description {
    pub boards: usize,
    pub relation_lines: Vec<RelationLine>,
    pub kind_lines: Vec<KindLine>,
}

/// A refusal: its number, and its place in the run of words, from 0. That is the first word that breaks the rule or,
/// where words are missing, the place just after the header, section or expression that is too short.
#[derive(Clone, Copy)]
pub struct Refusal {
    pub number: u32,
    pub place: usize,
}

/// The refusal, unless it is good.
fn demand(good: bool, number: u32, place: usize) -> Result<(), Refusal> {
    if good {
        Ok(())
    } else {
        Err(Refusal { number, place })
    }
}

/// A part of a run of words, and the place in the run where it starts.
#[derive(Clone, Copy)]
struct Part<'a> {
    words: &'a [u16],
    start: usize,
}

impl<'a> Part<'a> {
    /// The place just after it.
    fn end(self) -> usize {
        self.start + self.words.len()
    }

    /// Its first so many words, and those after them.
    fn split_at(self, count: usize) -> (Part<'a>, Part<'a>) {
        let (front, rest) = self.words.split_at(count);
        (Part { words: front, ..self }, Part { words: rest, start: self.start + count })
    }
}

/// What was read from the front of a part, and the part left.
type Taken<'a, T> = Result<(T, Part<'a>), Refusal>;

/// Reads a description; the error is the refusal: 1 to 5, then 11.
pub fn read(words: &[u16]) -> Result<Description, Refusal> {
    check_ranges(words)?;
    check_offsets(words)?;
    let boards = words[0];
    let (_, lines) = Part { words, start: 0 }.split_at(HEADER);
    let (relation_section, kind_section) = lines.split_at(words[4] as usize - HEADER);
    let (relation_lines, left) = read_lines(relation_section, words[1], boards, read_relation_line)?;
    check_nothing_left(left)?;
    let (kind_lines, left) = read_lines(kind_section, words[2], boards, read_kind_line)?;
    check_nothing_left(left)?;
    check_numbers_of_ways(&kind_lines, kind_section.start)?;
    Ok(Description { boards: boards as usize, relation_lines, kind_lines })
}

/// Refusal 1: fewer than 6 words, or V, R or K out of range, in this order.
fn check_ranges(words: &[u16]) -> Result<(), Refusal> {
    demand(words.len() >= HEADER, 1, words.len())?;
    demand(words[0] >= 1 && words[0] <= MOST_BOARDS, 1, 0)?;
    demand(words[1] <= MOST_RELATION_LINES, 1, 1)?;
    demand(words[2] <= MOST_KIND_LINES, 1, 2)
}

/// Refusal 2: the relation offset, the kind offset or the total is wrong, in this order.
fn check_offsets(words: &[u16]) -> Result<(), Refusal> {
    let (relation_offset, kind_offset, total) = (words[3] as usize, words[4] as usize, words[5] as usize);
    demand(relation_offset == HEADER, 2, 3)?;
    demand(kind_offset >= HEADER && kind_offset <= total, 2, 4)?;
    demand(total == words.len(), 2, 5)
}

/// Refusal 3: words are left over in a section; the place is the first of them.
fn check_nothing_left(left: Part<'_>) -> Result<(), Refusal> {
    demand(left.words.is_empty(), 3, left.start)
}

/// Refusal 11: a kind line disagrees with an earlier one, being of its code but of another number of ways; the place
/// is its number of ways. The first line is at the start given.
fn check_numbers_of_ways(lines: &[KindLine], mut start: usize) -> Result<(), Refusal> {
    for (at, line) in lines.iter().enumerate() {
        let disagrees = |earlier: &KindLine| earlier.code == line.code && earlier.ways.len() != line.ways.len();
        demand(!lines[..at].iter().any(disagrees), 11, start + 2)?;
        start += 3 + line.ways.len();
    }
    Ok(())
}

/// Reads that many lines from the front of a section; gives them and the part left.
fn read_lines<'a, L>(
    section: Part<'a>,
    count: u16,
    boards: u16,
    read_line: fn(Part<'a>, u16) -> Taken<'a, L>,
) -> Taken<'a, Vec<L>> {
    let mut lines = Vec::new();
    let mut left = section;
    for _ in 0..count {
        let (line, rest) = read_line(left, boards)?;
        lines.push(line);
        left = rest;
    }
    Ok((lines, left))
}

/// A relation line: p, q, a length from 1 to 15, then that many words of an expression.
fn read_relation_line(left: Part<'_>, boards: u16) -> Taken<'_, RelationLine> {
    let (expression, rest) = counted_part(left, 1..=MOST_EXPRESSION_WORDS)?;
    let p = board(left, 0, boards)?;
    let q = board(left, 1, boards)?;
    let set = meaning(expression.words).map_err(|at| Refusal { number: 5, place: expression.start + at })?;
    Ok((RelationLine { p, q, set }, rest))
}

/// A kind line: p, a kind code (any word), a number of ways from 0 to 8, then the ways.
fn read_kind_line(left: Part<'_>, boards: u16) -> Taken<'_, KindLine> {
    let (listed, rest) = counted_part(left, 0..=MOST_WAYS)?;
    let p = board(left, 0, boards)?;
    let mut ways = Vec::new();
    for at in 0..listed.words.len() {
        ways.push(board(listed, at, boards)?);
    }
    Ok((KindLine { p, code: left.words[1], ways }, rest))
}

/// The third word of a line counts the words after it: those words, and the part after the line.
/// Refusal 3: the count is out of range; or the line runs past its section, at the section's end.
fn counted_part(left: Part<'_>, range: RangeInclusive<u16>) -> Taken<'_, Part<'_>> {
    demand(left.words.len() >= 3, 3, left.end())?;
    let count = left.words[2];
    demand(range.contains(&count), 3, left.start + 2)?;
    let (_, after) = left.split_at(3);
    demand(after.words.len() >= count as usize, 3, left.end())?;
    Ok(after.split_at(count as usize))
}

/// The board whose number stands so many words after the start of the part.
/// Refusal 4: the number is V or more.
fn board(part: Part<'_>, at: usize, boards: u16) -> Result<usize, Refusal> {
    let number = part.words[at];
    demand(number < boards, 4, part.start + at)?;
    Ok(number as usize)
}

/// The set that a whole expression means. The error is the place in it of a code above 7 or of the first word left
/// over, whichever is met; where words are missing, it is the place just after it.
pub fn meaning(expression: &[u16]) -> Result<u8, usize> {
    match operand(expression, 0)? {
        (set, end) if end == expression.len() => Ok(set),
        (_, end) => Err(end),
    }
}

/// The meaning of the one expression that begins at the place, and the place just after it. The error is the place
/// of a code above 7 or of the first word missing.
fn operand(words: &[u16], at: usize) -> Result<(u8, usize), usize> {
    let code = *words.get(at).ok_or(at)?;
    match code {
        0..=3 => Ok((SINGLES[code as usize], at + 1)),
        4 | 5 => {
            let (left, at) = operand(words, at + 1)?;
            let (right, at) = operand(words, at)?;
            Ok((if code == 4 { left | right } else { left & right }, at))
        }
        6 => operand(words, at + 1).map(|(set, at)| (ALL & !set, at)),
        7 => operand(words, at + 1).map(|(set, at)| (converse(set), at)),
        _ => Err(at),
    }
}
