//! The symbols of a text: words, numbers, colon and parentheses, as they are typed.

/// The words of an expression, in the order of their codes.
const NAMES: [&str; 8] = ["same", "above", "below", "side", "or", "and", "not", "inv"];

#[derive(Clone, Copy, PartialEq, Debug)]
pub enum Symbol {
    Number(u16),
    Boards,
    /// A relation or an operator, by its code.
    Code(u16),
    Colon,
    Open,
    Close,
}

impl Symbol {
    /// The symbol as it is typed.
    pub fn text(self) -> String {
        match self {
            Symbol::Number(number) => number.to_string(),
            Symbol::Boards => "boards".to_string(),
            Symbol::Code(code) => NAMES.get(code as usize).unwrap_or(&"?").to_string(),
            Symbol::Colon => ":".to_string(),
            Symbol::Open => "(".to_string(),
            Symbol::Close => ")".to_string(),
        }
    }
}

/// The symbols of a line; none if some piece of it is no symbol.
pub fn symbols(line: &[u8]) -> Option<Vec<Symbol>> {
    let mut symbols = Vec::new();
    let mut left = line;
    while let Some(&first) = left.first() {
        let length = if stands_alone(first) { 1 } else { run_length(left) };
        let (piece, rest) = left.split_at(length);
        left = rest;
        if piece != b" " {
            symbols.push(symbol(piece)?);
        }
    }
    Some(symbols)
}

/// Blank, colon and parentheses end the word or number before them.
pub fn stands_alone(byte: u8) -> bool {
    b" :()".contains(&byte)
}

/// The bytes up to the next that stands alone.
fn run_length(left: &[u8]) -> usize {
    left.iter().position(|&byte| stands_alone(byte)).unwrap_or(left.len())
}

/// The one symbol that the piece is.
fn symbol(piece: &[u8]) -> Option<Symbol> {
    match piece {
        b":" => Some(Symbol::Colon),
        b"(" => Some(Symbol::Open),
        b")" => Some(Symbol::Close),
        b"boards" => Some(Symbol::Boards),
        _ => match NAMES.iter().position(|name| name.as_bytes() == piece) {
            Some(code) => Some(Symbol::Code(code as u16)),
            None => number(piece).map(Symbol::Number),
        },
    }
}

/// A number has decimal digits only, no leading zero, and is at most 65535.
fn number(piece: &[u8]) -> Option<u16> {
    let only_digits = piece.iter().all(u8::is_ascii_digit);
    let leading_zero = piece.len() > 1 && piece.starts_with(b"0");
    if !only_digits || leading_zero {
        return None;
    }
    std::str::from_utf8(piece).ok()?.parse().ok()
}
