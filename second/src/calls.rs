//! The calls: number and count of each, and the lent table or room afterwards.

use crate::arrangement::is_arrangement;
use crate::closing::closed;
use crate::description::{self, Description, Refusal};
use crate::drafts::Draft;
use crate::search::{self, Ending};
use crate::table::{check_number_of_cells, Table};
use crate::typed;

/// Number 0 is success, else the refusal number; the count is 0 unless said. Of a refusal of the description, 1 to 5
/// and 11, it is the place in the words.
#[derive(Clone, Copy, PartialEq, Debug)]
pub struct Answer {
    pub number: u32,
    pub count: u32,
}

fn success(count: u32) -> Answer {
    Answer { number: 0, count }
}

fn refusal(number: u32) -> Answer {
    Answer { number, count: 0 }
}

impl From<Refusal> for Answer {
    fn from(refused: Refusal) -> Answer {
        Answer { number: refused.number, count: refused.place as u32 }
    }
}

/// Reads a description: 0, or 1 to 5, then 11.
pub fn read(words: &[u16]) -> Answer {
    match description::read(words) {
        Ok(_) => success(0),
        Err(refused) => refused.into(),
    }
}

/// The description, or the first refusal: 1 to 5, then 11, then 6 for the number of cells, whatever they hold.
fn read_beside(words: &[u16], cells: &[u8]) -> Result<Description, Answer> {
    let description = description::read(words)?;
    check_number_of_cells(description.boards, cells).map_err(refusal)?;
    Ok(description)
}

/// The description and the lent table, or the first refusal: 1 to 5, then 11, then 6.
fn read_both(words: &[u16], cells: &[u8]) -> Result<(Description, Table), Answer> {
    let description = description::read(words)?;
    let table = Table::lent(description.boards, cells).map_err(refusal)?;
    Ok((description, table))
}

/// Replaces the lent table, whatever it holds, by the largest closed one within the full table and counts the
/// relations struck from the full one; 7 if that is contradictory.
pub fn open(words: &[u16], cells: &mut [u8]) -> Answer {
    match read_beside(words, cells) {
        Ok(description) => put_closed(&description, &Table::full(description.boards), cells),
        Err(refused) => refused,
    }
}

/// Replaces the lent table by the largest closed one within it and counts the relations struck;
/// 7 if that is contradictory.
pub fn close(words: &[u16], cells: &mut [u8]) -> Answer {
    match read_both(words, cells) {
        Ok((description, table)) => put_closed(&description, &table, cells),
        Err(refused) => refused,
    }
}

/// Puts the largest closed table within the table into the lent cells and counts the relations struck from the table.
/// If that is contradictory, refuses with 7 and leaves the lent cells as they came.
fn put_closed(description: &Description, table: &Table, cells: &mut [u8]) -> Answer {
    match closed(description, table) {
        Some(closed) => {
            cells.copy_from_slice(&closed.cells);
            success(table.relations() - closed.relations())
        }
        None => refusal(7),
    }
}

/// Replaces the lent table by the first arrangement within it and counts the tries;
/// 8 with the tries if there is none, 9 with the budget if that ran out.
pub fn search(words: &[u16], cells: &mut [u8], budget: u32) -> Answer {
    let (description, table) = match read_both(words, cells) {
        Ok(both) => both,
        Err(refused) => return refused,
    };
    match search::search(&description, &table, budget) {
        (Ending::Found(arrangement), tries) => {
            cells.copy_from_slice(&arrangement.cells);
            success(tries)
        }
        (Ending::NoArrangement, tries) => Answer { number: 8, count: tries },
        (Ending::BudgetRanOut, _) => Answer { number: 9, count: budget },
    }
}

/// Success exactly if the table is an arrangement for the description, else 10.
pub fn check(words: &[u16], cells: &[u8]) -> Answer {
    match read_both(words, cells) {
        Ok((description, table)) if is_arrangement(&description, &table) => success(0),
        Ok(_) => refusal(10),
        Err(refused) => refused,
    }
}

/// The words that a text makes: 20 with the number of the first malformed line (the largest count if it
/// does not fit), then 1 to 5, then 11, with the place in those words.
pub fn words_of_text(text: &[u8]) -> Result<Vec<u16>, Answer> {
    let draft = match typed::read(text) {
        Ok(draft) => typed::cut(draft),
        Err(line) => return Err(Answer { number: 20, count: u32::try_from(line).unwrap_or(u32::MAX) }),
    };
    let words = draft.words();
    description::read(&words)?;
    Ok(words)
}

/// The text of a description, or 1 to 5, then 11.
pub fn text_of_words(words: &[u16]) -> Result<Vec<u8>, Answer> {
    description::read(words)?;
    Ok(typed::written(&Draft::of_words(words)))
}

/// Puts the words of a text at the front of the lent room and counts them; 20, 1 to 5, 11, then 19.
pub fn read_text(text: &[u8], room: &mut [u16]) -> Answer {
    put(words_of_text(text), room)
}

/// Puts the text of a description at the front of the lent room and counts its bytes; 1 to 5, 11, then 19.
pub fn write_text(words: &[u16], room: &mut [u8]) -> Answer {
    put(text_of_words(words), room)
}

/// Refusal 19: the lent room is too small for what was made.
fn put<T: Copy>(made: Result<Vec<T>, Answer>, room: &mut [T]) -> Answer {
    let made = match made {
        Ok(made) => made,
        Err(refused) => return refused,
    };
    match room.get_mut(..made.len()) {
        Some(front) => {
            front.copy_from_slice(&made);
            success(made.len() as u32)
        }
        None => refusal(19),
    }
}
