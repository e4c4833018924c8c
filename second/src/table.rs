//! A table of sets: V times V cells, cell (p, q) at V times p plus q.

use crate::relations::{is_single, ALL};

#[derive(Clone, PartialEq)]
pub struct Table {
    pub boards: usize,
    pub cells: Vec<u8>,
}

impl Table {
    /// The full table: all four relations in every cell.
    pub fn full(boards: usize) -> Table {
        Table { boards, cells: vec![ALL; boards * boards] }
    }

    /// The lent cells as a table; refusal 6 if there are not V times V cells, or a cell is above 15.
    pub fn lent(boards: usize, cells: &[u8]) -> Result<Table, u32> {
        check_number_of_cells(boards, cells)?;
        if cells.iter().any(|&cell| cell > ALL) {
            return Err(6);
        }
        Ok(Table { boards, cells: cells.to_vec() })
    }

    /// The set in cell (p, q).
    pub fn at(&self, p: usize, q: usize) -> u8 {
        self.cells[self.boards * p + q]
    }

    /// Strikes from cell (p, q) all that is not in the set.
    pub fn keep(&mut self, p: usize, q: usize, set: u8) {
        self.cells[self.boards * p + q] &= set;
    }

    /// Strikes the members of the set from cell (p, q).
    pub fn strike(&mut self, p: usize, q: usize, set: u8) {
        self.keep(p, q, ALL & !set);
    }

    pub fn has_empty_cell(&self) -> bool {
        self.cells.contains(&0)
    }

    pub fn is_all_single(&self) -> bool {
        self.cells.iter().all(|&cell| is_single(cell))
    }

    /// The number of relations in all cells together.
    pub fn relations(&self) -> u32 {
        self.cells.iter().map(|cell| cell.count_ones()).sum()
    }

    /// The first pair p < q, by p and then q, whose cell has several relations.
    pub fn first_undecided(&self) -> Option<(usize, usize)> {
        for p in 0..self.boards {
            for q in p + 1..self.boards {
                if self.at(p, q).count_ones() > 1 {
                    return Some((p, q));
                }
            }
        }
        None
    }
}

/// Refusal 6: there are not V times V cells, whatever they hold.
pub fn check_number_of_cells(boards: usize, cells: &[u8]) -> Result<(), u32> {
    if cells.len() == boards * boards {
        Ok(())
    } else {
        Err(6)
    }
}
