//! Lent tables by chance, well-formed and not.

use crate::calls;
use crate::cases::MOST_CELLS;
use crate::chance::Chance;
use crate::forest::Forest;
use crate::relations::{converse, ALL, SINGLES};
use crate::sheets::Sheet;
use crate::table::Table;

/// A lent table for the sheet: full or not, symmetric or not, closed, decided, empty in places, or malformed.
pub fn any_table(chance: &mut Chance, sheet: &Sheet, boards: usize) -> Vec<u8> {
    let full = Table::full(boards).cells;
    match chance.below(20) {
        0..=6 => full,
        7..=12 => around_hidden(chance, sheet, boards),
        13 => full.iter().map(|_| chance.between(1, 15) as u8).collect(),
        14..=15 => nearly_full(chance, full),
        16 => closed_and_narrowed(chance, sheet, full),
        17 => with_empty_cell(chance, sheet, boards),
        18 => proposal(chance, sheet),
        _ => malformed(chance, full),
    }
}

/// A table to be opened: any lent table, any bytes, one byte throughout, or what opening leaves.
pub fn any_contents(chance: &mut Chance, sheet: &Sheet, boards: usize) -> Vec<u8> {
    let mut cells = Table::full(boards).cells;
    match chance.below(10) {
        0..=2 => cells.fill_with(|| chance.below(256) as u8),
        3 => cells.fill(chance.pick(&[0, 0, 1, 16, 128, 255])),
        4 => {
            calls::open(&sheet.draft.words(), &mut cells);
        }
        _ => cells = any_table(chance, sheet, boards),
    }
    cells
}

/// Sets that hold the hidden arrangement (or that of some forest); the cell across is the converse,
/// or another such set.
fn around_hidden(chance: &mut Chance, sheet: &Sheet, boards: usize) -> Vec<u8> {
    let hidden = match &sheet.hidden {
        Some(hidden) if hidden.len() == boards * boards => hidden.clone(),
        _ if boards > 0 => Forest::any(chance, boards).cells(),
        _ => Vec::new(),
    };
    let mut cells: Vec<u8> = hidden.iter().map(|&relation| relation | chance.below(16) as u8).collect();
    if chance.percent(50) {
        for cell in 0..cells.len() {
            cells[boards * (cell % boards) + cell / boards] = converse(cells[cell]);
        }
    }
    cells
}

/// Full but for one or a few cells.
fn nearly_full(chance: &mut Chance, mut cells: Vec<u8>) -> Vec<u8> {
    for _ in 0..chance.between(1, 3) {
        let at = chance.below(cells.len());
        if let Some(cell) = cells.get_mut(at) {
            *cell = chance.between(1, 14) as u8;
        }
    }
    cells
}

/// The closed table, at times with one cell narrowed further.
fn closed_and_narrowed(chance: &mut Chance, sheet: &Sheet, mut cells: Vec<u8>) -> Vec<u8> {
    calls::close(&sheet.draft.words(), &mut cells);
    let at = chance.below(cells.len());
    if let (Some(cell), true) = (cells.get_mut(at), chance.percent(60)) {
        *cell = chance.pick(&SINGLES);
    }
    cells
}

fn with_empty_cell(chance: &mut Chance, sheet: &Sheet, boards: usize) -> Vec<u8> {
    let mut cells = around_hidden(chance, sheet, boards);
    let at = chance.below(cells.len());
    if let Some(cell) = cells.get_mut(at) {
        *cell = 0;
    }
    cells
}

/// A cell above 15, or mostly a wrong number of cells.
fn malformed(chance: &mut Chance, mut cells: Vec<u8>) -> Vec<u8> {
    let at = chance.below(cells.len());
    match cells.get_mut(at) {
        Some(cell) if chance.percent(50) => *cell = chance.pick(&[16, 17, 31, 128, 240, 255]),
        _ => change_number(chance, &mut cells),
    }
    cells
}

/// Mostly makes the number of cells a wrong one: one more, one fewer, none, twice as many, that of another number of
/// boards, or any that a case may have.
pub fn change_number(chance: &mut Chance, cells: &mut Vec<u8>) {
    let right = cells.len();
    let count = match chance.below(12) {
        0..=3 => right + 1,
        4..=6 => right.saturating_sub(1),
        7 => 0,
        8 => right * 2,
        9..=10 => chance.between(1, 22).pow(2),
        _ => chance.below(MOST_CELLS + 1),
    };
    cells.resize(count.min(MOST_CELLS), chance.pick(&[0, ALL, 255]));
}

/// The hidden arrangement or the one found; if there is none, that of some forest.
pub fn proposal(chance: &mut Chance, sheet: &Sheet) -> Vec<u8> {
    let boards = sheet.draft.boards;
    if let (Some(hidden), true) = (&sheet.hidden, chance.percent(50)) {
        return hidden.clone();
    }
    let mut cells = Table::full(boards).cells;
    let answer = calls::search(&sheet.draft.words(), &mut cells, tries_allowed(boards));
    if answer.number != 0 {
        return Forest::any(chance, boards).cells();
    }
    cells
}

/// The most tries for which a search with so many boards is still fast.
pub fn tries_allowed(boards: usize) -> u32 {
    (8_000_000 / (boards * boards * boards).max(1)).clamp(1, 20_000) as u32
}
