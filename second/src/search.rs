//! The search for the first arrangement within a table, counting tries against a budget.

use crate::closing::closed;
use crate::description::Description;
use crate::relations::{has, SINGLES};
use crate::table::Table;

/// How a search ends.
pub enum Ending {
    Found(Table),
    NoArrangement,
    BudgetRanOut,
}

/// Closes the table and searches within it; gives the ending and the tries made.
pub fn search(description: &Description, table: &Table, budget: u32) -> (Ending, u32) {
    let mut tries = 0;
    let ending = close_and_go_on(description, table, budget, &mut tries);
    (ending, tries)
}

/// Closes; a contradiction means none; all single is the arrangement; otherwise tries.
fn close_and_go_on(description: &Description, table: &Table, budget: u32, tries: &mut u32) -> Ending {
    match closed(description, table) {
        None => Ending::NoArrangement,
        Some(table) => match table.first_undecided() {
            None => Ending::Found(table),
            Some(pair) => try_each(description, &table, pair, budget, tries),
        },
    }
}

/// Tries the relations of cell (p, q) in the order E, A, B, S until one succeeds.
/// The budget runs out exactly when one try more than the budget would be made.
fn try_each(description: &Description, table: &Table, pair: (usize, usize), budget: u32, tries: &mut u32) -> Ending {
    let (p, q) = pair;
    for relation in SINGLES {
        if !has(table.at(p, q), relation) {
            continue;
        }
        if *tries == budget {
            return Ending::BudgetRanOut;
        }
        *tries += 1;
        let mut narrowed = table.clone();
        narrowed.keep(p, q, relation);
        match close_and_go_on(description, &narrowed, budget, tries) {
            Ending::NoArrangement => {}
            ended => return ended,
        }
    }
    Ending::NoArrangement
}
