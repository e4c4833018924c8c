//! The case stream, the answers to its cases, and a readable form of both.

use crate::calls::{self, Answer};
use crate::description;
use crate::printing;

#[derive(Clone, Copy, PartialEq, Debug)]
pub enum Call {
    Read,
    Open,
    Close,
    Search,
    Check,
    Site,
    Typed,
    Texted,
}

/// The calls in the order of their numbers in the stream.
pub const CALLS: [Call; 8] =
    [Call::Read, Call::Open, Call::Close, Call::Search, Call::Check, Call::Site, Call::Typed, Call::Texted];

impl Call {
    /// The first word of an answer to this call.
    pub fn name(self) -> &'static str {
        match self {
            Call::Read => "read",
            Call::Open => "open",
            Call::Close => "close",
            Call::Search => "search",
            Call::Check => "check",
            Call::Site => "site",
            Call::Typed => "typed",
            Call::Texted => "texted",
        }
    }

    /// Whether a case of this call has a lent table.
    fn has_table(self) -> bool {
        matches!(self, Call::Open | Call::Close | Call::Search | Call::Check)
    }

    /// Whether a case of this call has bytes where the others have words.
    fn has_bytes(self) -> bool {
        matches!(self, Call::Site | Call::Typed)
    }

    /// The longest run of words or bytes in a case of this call.
    fn longest_run(self) -> usize {
        match self {
            Call::Site => MOST_SITE_BYTES,
            Call::Typed => MOST_TEXT_BYTES,
            _ => MOST_WORDS,
        }
    }

    /// The largest number in a case of this call.
    fn largest_number(self) -> u32 {
        match self {
            Call::Typed => MOST_ROOM_WORDS as u32,
            Call::Texted => MOST_ROOM_BYTES as u32,
            _ => u32::MAX,
        }
    }
}

pub const MOST_WORDS: usize = 65_600;
pub const MOST_SITE_BYTES: usize = 6_000;
pub const MOST_TEXT_BYTES: usize = 131_200;
pub const MOST_ROOM_WORDS: usize = 65_600;
pub const MOST_ROOM_BYTES: usize = 32_768;
pub const MOST_CELLS: usize = 512;

/// What stands in every place of a lent room before the call.
const OLD_WORD: u16 = 42_405;
const OLD_BYTE: u8 = 165;

/// One case: the budget for search and the length of the lent room for typed and texted stand in `number`, which is 0
/// for the others.
#[derive(Clone, PartialEq)]
pub struct Case {
    pub call: Call,
    pub number: u32,
    pub words: Vec<u16>,
    pub bytes: Vec<u8>,
    pub cells: Vec<u8>,
}

impl Case {
    pub fn read(words: &[u16]) -> Case {
        Case { call: Call::Read, number: 0, words: words.to_vec(), bytes: Vec::new(), cells: Vec::new() }
    }

    pub fn open(words: &[u16], cells: &[u8]) -> Case {
        Case { call: Call::Open, cells: cells.to_vec(), ..Case::read(words) }
    }

    pub fn close(words: &[u16], cells: &[u8]) -> Case {
        Case { call: Call::Close, cells: cells.to_vec(), ..Case::read(words) }
    }

    pub fn search(words: &[u16], cells: &[u8], budget: u32) -> Case {
        Case { call: Call::Search, number: budget, cells: cells.to_vec(), ..Case::read(words) }
    }

    pub fn check(words: &[u16], cells: &[u8]) -> Case {
        Case { call: Call::Check, cells: cells.to_vec(), ..Case::read(words) }
    }

    pub fn site(bytes: &[u8]) -> Case {
        Case { call: Call::Site, number: 0, words: Vec::new(), bytes: bytes.to_vec(), cells: Vec::new() }
    }

    /// A text to be read into a room of so many words.
    pub fn typed(text: &[u8], room: usize) -> Case {
        Case { call: Call::Typed, number: room as u32, ..Case::site(text) }
    }

    /// A description to be written as text into a room of so many bytes.
    pub fn texted(words: &[u16], room: usize) -> Case {
        Case { call: Call::Texted, number: room as u32, ..Case::read(words) }
    }

    /// The case as bytes of a stream.
    pub fn stream(&self) -> Vec<u8> {
        let run = if self.call.has_bytes() { self.bytes.clone() } else { little_endian_bytes(&self.words) };
        let run_length = if self.call.has_bytes() { self.bytes.len() } else { self.words.len() };
        let mut stream = Vec::new();
        for number in [self.call as u32, self.number, run_length as u32, self.cells.len() as u32] {
            stream.extend_from_slice(&number.to_le_bytes());
        }
        stream.extend_from_slice(&run);
        stream.extend_from_slice(&self.cells);
        stream
    }

    /// The words of the description, for site and for a good text those that the bytes make.
    pub fn description_words(&self) -> Vec<u16> {
        match self.call {
            Call::Site => printing::little_endian_words(&self.bytes),
            Call::Typed => calls::words_of_text(&self.bytes).unwrap_or_default(),
            _ => self.words.clone(),
        }
    }
}

/// Each word as two bytes, the low byte first.
pub fn little_endian_bytes(words: &[u16]) -> Vec<u8> {
    words.iter().flat_map(|word| word.to_le_bytes()).collect()
}

/// Takes the cases off a stream one after another.
pub struct Cases<'a> {
    left: &'a [u8],
}

impl<'a> Cases<'a> {
    pub fn of(stream: &'a [u8]) -> Cases<'a> {
        Cases { left: stream }
    }

    /// The next case; none at the end; a message if the stream is not made of whole cases.
    pub fn take(&mut self) -> Result<Option<Case>, String> {
        if self.left.is_empty() {
            return Ok(None);
        }
        let call_number = self.take_number()? as usize;
        let number = self.take_number()?;
        let run_length = self.take_number()? as usize;
        let cell_count = self.take_number()? as usize;
        let call = *CALLS.get(call_number).ok_or(format!("there is no call {call_number}"))?;
        if run_length > call.longest_run() || number > call.largest_number() || cell_count > MOST_CELLS {
            return Err("a case is longer than the stream allows".to_string());
        }
        let width = if call.has_bytes() { 1 } else { 2 };
        let run = self.take_bytes(run_length * width)?;
        let cells = self.take_bytes(cell_count)?.to_vec();
        let case = Case { call, number, words: Vec::new(), bytes: Vec::new(), cells };
        Ok(Some(if call.has_bytes() {
            Case { bytes: run.to_vec(), ..case }
        } else {
            Case { words: printing::little_endian_words(run), ..case }
        }))
    }

    fn take_number(&mut self) -> Result<u32, String> {
        let bytes = self.take_bytes(4)?;
        Ok(u32::from_le_bytes([bytes[0], bytes[1], bytes[2], bytes[3]]))
    }

    fn take_bytes(&mut self, count: usize) -> Result<&'a [u8], String> {
        if self.left.len() < count {
            return Err("the stream ends inside a case".to_string());
        }
        let (taken, left) = self.left.split_at(count);
        self.left = left;
        Ok(taken)
    }
}

/// What was answered: number and count (site: the text printed), and the table or the room afterwards.
pub struct Answered {
    pub answer: Answer,
    pub cells: Vec<u8>,
    pub printed: String,
    /// The room of typed.
    pub word_room: Vec<u16>,
    /// The room of texted.
    pub byte_room: Vec<u8>,
}

/// Makes the call of the case.
pub fn answered(case: &Case) -> Answered {
    let mut cells = case.cells.clone();
    let mut printed = String::new();
    let (mut word_room, mut byte_room) = (Vec::new(), Vec::new());
    let answer = match case.call {
        Call::Read => calls::read(&case.words),
        Call::Open => calls::open(&case.words, &mut cells),
        Call::Close => calls::close(&case.words, &mut cells),
        Call::Search => calls::search(&case.words, &mut cells, case.number),
        Call::Check => calls::check(&case.words, &cells),
        Call::Site => {
            printed = printing::site(&case.bytes);
            Answer { number: 0, count: 0 }
        }
        Call::Typed => {
            word_room = vec![OLD_WORD; case.number as usize];
            calls::read_text(&case.bytes, &mut word_room)
        }
        Call::Texted => {
            byte_room = vec![OLD_BYTE; case.number as usize];
            calls::write_text(&case.words, &mut byte_room)
        }
    };
    Answered { answer, cells, printed, word_room, byte_room }
}

/// The text of the answer to a case.
pub fn answer_text(case: &Case, answered: &Answered) -> String {
    let Answer { number, count } = answered.answer;
    let name = case.call.name();
    match case.call {
        Call::Site => format!("site\n{}", answered.printed),
        Call::Read | Call::Check => format!("{name} {number} {count}\n"),
        Call::Typed => format!("{name} {number} {count}{}\n", word_room_text(&answered.word_room, count)),
        Call::Texted => format!("{name} {number} {count}{}\n", byte_room_text(&answered.byte_room, count)),
        _ => format!("{name} {number} {count} {}\n", table_text(&case.cells, &answered.cells)),
    }
}

/// `same` if the table afterwards equals the table lent, else its cells as hex digits.
fn table_text(lent: &[u8], afterwards: &[u8]) -> String {
    if lent == afterwards {
        return "same".to_string();
    }
    afterwards.iter().map(|&cell| char::from_digit(cell as u32, 16).unwrap_or('?')).collect()
}

/// `same` if the room is as it came; else the words counted, and whether those past them are as they came.
fn word_room_text(room: &[u16], count: u32) -> String {
    if room.iter().all(|&word| word == OLD_WORD) {
        return " same".to_string();
    }
    let (counted, past) = room.split_at(room.len().min(count as usize));
    let words: String = counted.iter().map(|word| format!(" {word}")).collect();
    format!("{words} {}", kept_text(past.iter().all(|&word| word == OLD_WORD)))
}

/// `same` if the room is as it came; else the bytes counted as they are, on lines of their own,
/// and whether those past them are as they came.
fn byte_room_text(room: &[u8], count: u32) -> String {
    if room.iter().all(|&byte| byte == OLD_BYTE) {
        return " same".to_string();
    }
    let (counted, past) = room.split_at(room.len().min(count as usize));
    let text = String::from_utf8_lossy(counted);
    format!("\n{text}{}", kept_text(past.iter().all(|&byte| byte == OLD_BYTE)))
}

fn kept_text(kept: bool) -> &'static str {
    if kept {
        "kept"
    } else {
        "lost"
    }
}

/// The longest run of words or bytes that is shown whole.
const MOST_SHOWN: usize = 3_000;

/// The case in readable lines: call, number, words in decimal, the lines they make, cells.
pub fn readable(case: &Case) -> String {
    let mut text = String::from(case.call.name());
    match case.call {
        Call::Search => text.push_str(&format!(" with budget {}", case.number)),
        Call::Typed => text.push_str(&format!(" into {} words", case.number)),
        Call::Texted => text.push_str(&format!(" into {} bytes", case.number)),
        _ => {}
    }
    text.push('\n');
    match case.call {
        Call::Site => text.push_str(&format!("  {} bytes:{}\n", case.bytes.len(), numbers_text(&case.bytes))),
        Call::Typed => text.push_str(&format!("  {} bytes: {}\n", case.bytes.len(), escaped_text(&case.bytes))),
        _ => {}
    }
    let words = case.description_words();
    if case.call != Call::Typed || !words.is_empty() {
        text.push_str(&format!("  {} words:{}\n", words.len(), numbers_text(&words)));
        text.push_str(&description_text(&words));
    }
    if case.call.has_table() {
        text.push_str(&format!("  {} cells:{}\n", case.cells.len(), numbers_text(&case.cells)));
    }
    text
}

/// The numbers in decimal, each after a blank; a very long run is cut.
fn numbers_text<N: std::fmt::Display>(numbers: &[N]) -> String {
    let mut text: String = numbers.iter().take(MOST_SHOWN).map(|number| format!(" {number}")).collect();
    if numbers.len() > MOST_SHOWN {
        text.push_str(&format!(" and {} more", numbers.len() - MOST_SHOWN));
    }
    text
}

/// The bytes of a text, line feeds and odd ones escaped; a very long text is cut.
fn escaped_text(bytes: &[u8]) -> String {
    let shown = &bytes[..bytes.len().min(MOST_SHOWN)];
    let cut = if shown.len() < bytes.len() { " and more" } else { "" };
    format!("{}{cut}", shown.escape_ascii())
}

/// The lines of a good description, each with its meaning; else the refusal and its place.
fn description_text(words: &[u16]) -> String {
    let description = match description::read(words) {
        Ok(description) => description,
        Err(refused) => return format!("  refused {} at word {}\n", refused.number, refused.place),
    };
    let mut text = format!("  {} boards\n", description.boards);
    for line in &description.relation_lines {
        text.push_str(&format!("  ({}, {}) within {}\n", line.p, line.q, set_text(line.set)));
    }
    for line in &description.kind_lines {
        text.push_str(&format!("  {} of kind {} has ways{}\n", line.p, line.code, numbers_text(&line.ways)));
    }
    text
}

/// A set by the letters of its members.
fn set_text(set: u8) -> String {
    let members: String = "EABS".chars().enumerate().filter(|(i, _)| set >> i & 1 == 1).map(|(_, name)| name).collect();
    format!("{set} {{{members}}}")
}
