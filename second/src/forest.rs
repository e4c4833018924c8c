//! A hidden forest that boards hang in: from it come lines that have an arrangement.

use crate::chance::Chance;
use crate::drafts::Kind;
use crate::relations::{A, B, E, S};

/// Places in a forest.
pub struct Forest {
    /// The place above each place; a place stands after the one above it.
    above: Vec<Option<usize>>,
    /// The place of each board.
    place: Vec<usize>,
}

impl Forest {
    /// A forest by chance for so many boards: deep or wide, with few or many boards in one place.
    pub fn any(chance: &mut Chance, boards: usize) -> Forest {
        let least = if chance.percent(70) { (boards + 1) / 2 } else { 1 };
        let places = chance.between(least, boards);
        let (roots, deep) = (chance.pick(&[2, 15, 40]), chance.pick(&[0, 30, 80]));
        let mut above = vec![None];
        for place in 1..places {
            let hangs = !chance.percent(roots);
            let from = if chance.percent(deep) { place - 1 } else { chance.below(place) };
            above.push(hangs.then_some(from));
        }
        let mut place: Vec<usize> = (0..places).collect();
        while place.len() < boards {
            place.push(chance.below(places));
        }
        chance.shuffle(&mut place);
        Forest { above, place }
    }

    /// Two panels (the first two names) and as many ways of each (the next names): one panel under two
    /// names with its ways in the same or in any order, or two panels side by side.
    pub fn of_twins(chance: &mut Chance, names: &[u16], ways: usize) -> Forest {
        let one_panel = chance.percent(75);
        let mut above = vec![None, None];
        above.extend((0..2 * ways).map(|way| Some(if one_panel { 0 } else { way / ways })));
        let mut order: Vec<usize> = (0..ways).collect();
        if chance.percent(50) {
            chance.shuffle(&mut order);
        }
        let mut place = vec![0; names.len()];
        for (at, &name) in names.iter().enumerate() {
            place[name as usize] = match at {
                0 => 0,
                1 => !one_panel as usize,
                _ if at < 2 + ways => at,
                _ if at < 2 + 2 * ways && one_panel => 2 + order[at - 2 - ways],
                _ if at < 2 + 2 * ways => at,
                _ => chance.below(2 + ways),
            };
        }
        Forest { above, place }
    }

    /// The relation of board p to board q.
    pub fn relation(&self, p: usize, q: usize) -> u8 {
        let (first, second) = (self.place[p], self.place[q]);
        if first == second {
            E
        } else if self.is_above(first, second) {
            A
        } else if self.is_above(second, first) {
            B
        } else {
            S
        }
    }

    fn is_above(&self, first: usize, second: usize) -> bool {
        let mut place = second;
        while let Some(up) = self.above[place] {
            if up == first {
                return true;
            }
            place = up;
        }
        false
    }

    /// The arrangement that the forest is.
    pub fn cells(&self) -> Vec<u8> {
        let boards = self.place.len();
        (0..boards * boards).map(|cell| self.relation(cell / boards, cell % boards)).collect()
    }

    /// A kind line that the forest satisfies: a way to each place just below the panel's own.
    /// Lines for one place agree in code and order. None if there would be more than 8 ways.
    pub fn kind(&self, chance: &mut Chance, p: usize, codes: &[u16]) -> Option<Kind> {
        let panel = self.place[p];
        let mut below: Vec<usize> = (0..self.above.len()).filter(|&place| self.above[place] == Some(panel)).collect();
        if panel % 2 == 1 {
            below.reverse();
        }
        if below.len() > 8 {
            return None;
        }
        let ways = below.iter().map(|&place| self.board_at(chance, place)).collect();
        Some(Kind { p: p as u16, code: codes[panel % codes.len()], ways })
    }

    /// Some board at the place.
    fn board_at(&self, chance: &mut Chance, place: usize) -> u16 {
        let there: Vec<usize> = (0..self.place.len()).filter(|&board| self.place[board] == place).collect();
        chance.pick(&there) as u16
    }
}
