//! What the program prints for its input.

use crate::calls;
use crate::relations::{A, B, E, S};
use crate::table::Table;

/// The longest input taken: 2,486 words.
pub const MOST_BYTES: usize = 4_972;
/// The tries the program allows itself.
pub const BUDGET: u32 = 10_000;

/// The text printed for the bytes of standard input.
pub fn site(bytes: &[u8]) -> String {
    if bytes.len() % 2 == 1 || bytes.len() > MOST_BYTES {
        return "input\n".to_string();
    }
    let words = little_endian_words(bytes);
    let refused = calls::read(&words);
    if refused.number != 0 {
        return format!("refused {}\n", refused.number);
    }
    let boards = words[0] as usize;
    let mut cells = Table::full(boards).cells;
    let answer = calls::search(&words, &mut cells, BUDGET);
    if answer.number != 0 {
        return format!("refused {}\n", answer.number);
    }
    listing(boards, answer.count, &cells)
}

/// Each two bytes are a word, the low byte first.
pub fn little_endian_words(bytes: &[u8]) -> Vec<u16> {
    bytes.chunks_exact(2).map(|pair| u16::from_le_bytes([pair[0], pair[1]])).collect()
}

/// The first line has V and the tries; then one line for each pair p < q in order.
fn listing(boards: usize, tries: u32, cells: &[u8]) -> String {
    let mut text = format!("boards {boards} tries {tries}\n");
    for p in 0..boards {
        for q in p + 1..boards {
            text.push_str(&format!("{p} {} {q}\n", sign(cells[boards * p + q])));
        }
    }
    text
}

/// The sign of a single relation.
fn sign(relation: u8) -> char {
    match relation {
        E => '=',
        A => '<',
        B => '>',
        S => '|',
        _ => '?',
    }
}
