//! Descriptions in the making: lines, expressions, and the words they come to.

use crate::chance::Chance;
use crate::description::{meaning, HEADER};
use crate::relations::{converse, SINGLES};
use std::collections::HashMap;

/// A relation line to be: p, q and the words of its expression.
#[derive(Clone)]
pub struct Relation {
    pub p: u16,
    pub q: u16,
    pub expression: Vec<u16>,
}

/// A kind line to be: p, the kind code and the ways.
#[derive(Clone)]
pub struct Kind {
    pub p: u16,
    pub code: u16,
    pub ways: Vec<u16>,
}

/// A description to be; nothing in it need be in range.
#[derive(Clone)]
pub struct Draft {
    pub boards: usize,
    pub relations: Vec<Relation>,
    pub kinds: Vec<Kind>,
    /// Words that no line uses, at the end of each section.
    pub left_over: [Vec<u16>; 2],
}

impl Draft {
    pub fn of(boards: usize) -> Draft {
        Draft { boards, relations: Vec::new(), kinds: Vec::new(), left_over: [Vec::new(), Vec::new()] }
    }

    /// The draft that a good run of words comes from.
    pub fn of_words(words: &[u16]) -> Draft {
        let mut draft = Draft::of(words[0] as usize);
        let mut left = &words[HEADER..];
        for line in 0..words[1] + words[2] {
            let (p, second, count) = (left[0], left[1], left[2] as usize);
            let (counted, rest) = left[3..].split_at(count);
            draft = if line < words[1] { draft.line(p, second, counted) } else { draft.kind(p, second, counted) };
            left = rest;
        }
        draft
    }

    /// Adds a relation line by its expression.
    pub fn line(mut self, p: u16, q: u16, expression: &[u16]) -> Draft {
        self.relations.push(Relation { p, q, expression: expression.to_vec() });
        self
    }

    /// Adds a relation line by its set.
    pub fn within(self, p: u16, q: u16, set: u8) -> Draft {
        let expression = expression_of(set);
        self.line(p, q, &expression)
    }

    /// Adds a kind line.
    pub fn kind(mut self, p: u16, code: u16, ways: &[u16]) -> Draft {
        self.kinds.push(Kind { p, code, ways: ways.to_vec() });
        self
    }

    /// The words: header, relation lines, kind lines.
    pub fn words(&self) -> Vec<u16> {
        let mut relation_words = Vec::new();
        for line in &self.relations {
            relation_words.extend([line.p, line.q, line.expression.len() as u16]);
            relation_words.extend(&line.expression);
        }
        relation_words.extend(&self.left_over[0]);
        let mut kind_words = Vec::new();
        for line in &self.kinds {
            kind_words.extend([line.p, line.code, line.ways.len() as u16]);
            kind_words.extend(&line.ways);
        }
        kind_words.extend(&self.left_over[1]);
        let kind_offset = HEADER + relation_words.len();
        let total = kind_offset + kind_words.len();
        let header = [self.boards, self.relations.len(), self.kinds.len(), HEADER, kind_offset, total];
        let mut words: Vec<u16> = header.iter().map(|&word| word as u16).collect();
        words.extend(relation_words);
        words.extend(kind_words);
        words
    }

    /// The places of the lengths and of the numbers of ways among the words.
    pub fn counts(&self) -> Vec<usize> {
        let mut counts = Vec::new();
        let mut start = HEADER;
        for line in &self.relations {
            counts.push(start + 2);
            start += 3 + line.expression.len();
        }
        start += self.left_over[0].len();
        for line in &self.kinds {
            counts.push(start + 2);
            start += 3 + line.ways.len();
        }
        counts
    }

    /// The same boards with the first so many relation and kind lines alone.
    pub fn first_lines(&self, relations: usize, kinds: usize) -> Draft {
        let (relations, kinds) = (self.relations[..relations].to_vec(), self.kinds[..kinds].to_vec());
        Draft { relations, kinds, ..Draft::of(self.boards) }
    }

    /// The same description with each board renamed and with so many boards in all.
    pub fn renamed(&self, boards: usize, names: &[u16]) -> Draft {
        let name = |board: u16| names.get(board as usize).copied().unwrap_or(board);
        let mut draft = Draft { boards, ..self.clone() };
        for line in &mut draft.relations {
            (line.p, line.q) = (name(line.p), name(line.q));
        }
        for line in &mut draft.kinds {
            line.p = name(line.p);
            line.ways = line.ways.iter().map(|&way| name(way)).collect();
        }
        draft
    }

    /// Changes codes so that no kind lines disagree: a line that disagrees with an earlier one takes the next code,
    /// by 1 or 256 more or by 1 less, with which it does not. Lines of one code and as many ways still share a code.
    pub fn mend_codes(&mut self) {
        let step = [1, 256, u16::MAX][self.boards % 3];
        let mut ways_of = HashMap::new();
        for line in &mut self.kinds {
            let ways = line.ways.len();
            while *ways_of.entry(line.code).or_insert(ways) != ways {
                line.code = line.code.wrapping_add(step);
            }
        }
    }

    /// Turns some relation lines round: (q, p) with the converse set.
    pub fn turn_some(&mut self, chance: &mut Chance) {
        for line in &mut self.relations {
            let set = meaning(&line.expression).unwrap_or(0);
            if chance.percent(30) {
                *line = Relation { p: line.q, q: line.p, expression: expression_of(converse(set)) };
            }
        }
    }
}

/// A plain expression with this meaning.
pub fn expression_of(set: u8) -> Vec<u16> {
    let members: Vec<u16> = (0..4).filter(|code| set >> code & 1 == 1).collect();
    if members.is_empty() {
        return vec![5, 0, 1];
    }
    let mut expression = vec![4; members.len() - 1];
    expression.extend(members);
    expression
}

/// Any whole expression of exactly so many words (1 or more).
pub fn any_expression(chance: &mut Chance, length: usize) -> Vec<u16> {
    if length <= 1 {
        return vec![chance.below(4) as u16];
    }
    if length == 2 || chance.percent(35) {
        let mut expression = vec![chance.pick(&[6, 7])];
        expression.extend(any_expression(chance, length - 1));
        return expression;
    }
    let left = chance.between(1, length - 2);
    let mut expression = vec![chance.pick(&[4, 4, 5])];
    expression.extend(any_expression(chance, left));
    expression.extend(any_expression(chance, length - 1 - left));
    expression
}

/// An expression of at most so many words (2 or more) whose meaning holds the relation.
pub fn expression_holding(chance: &mut Chance, relation: u8, longest: usize) -> Vec<u16> {
    let length = chance.between(1, longest - 1);
    let mut expression = any_expression(chance, length);
    if meaning(&expression).unwrap_or(0) & relation == 0 {
        expression.insert(0, 6);
    }
    expression
}

/// A set that holds the relation and, by chance, others.
pub fn set_holding(chance: &mut Chance, relation: u8) -> u8 {
    let others = if chance.percent(40) { chance.pick(&SINGLES) } else { chance.below(16) as u8 };
    relation | others
}
