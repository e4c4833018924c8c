//! Cases by chance: a mix of all calls, of those about tables, or of those about texts.

use crate::calls;
use crate::cases::{answered, little_endian_bytes, readable, Answered, Case, MOST_SITE_BYTES};
use crate::chance::Chance;
use crate::description::MOST_RELATION_LINES;
use crate::drafts::Draft;
use crate::forest::Forest;
use crate::lent_tables::{any_contents, any_table, change_number, proposal, tries_allowed};
use crate::printing::{BUDGET, MOST_BYTES};
use crate::relations::{converse, ALL, SINGLES};
use crate::sheets::{any_sheet, behind_loose_boards, few_boards, hard_sheet, Sheet};
use crate::spoiling::mostly_refused;
use crate::table::Table;
use crate::texts::text_cases;

/// The part of texts in a mix of all calls, in hundredths.
const TEXTS: usize = 25;

/// Makes cases one after another, the same from the same seed.
pub struct Maker {
    chance: Chance,
    mix: fn(&mut Chance) -> Vec<Case>,
    /// Cases made together and not yet given, the next one last.
    waiting: Vec<Case>,
}

impl Maker {
    /// A maker of cases of all calls.
    pub fn from_seed(seed: u64) -> Maker {
        Maker::of(all_cases, seed)
    }

    /// A maker of cases without texts.
    pub fn of_tables(seed: u64) -> Maker {
        Maker::of(table_cases, seed)
    }

    /// A maker of cases of texts alone.
    pub fn of_texts(seed: u64) -> Maker {
        Maker::of(text_cases, seed)
    }

    fn of(mix: fn(&mut Chance) -> Vec<Case>, seed: u64) -> Maker {
        Maker { chance: Chance::from_seed(seed), mix, waiting: Vec::new() }
    }

    /// The next case.
    pub fn next_case(&mut self) -> Case {
        loop {
            if let Some(case) = self.waiting.pop() {
                return case;
            }
            self.waiting = (self.mix)(&mut self.chance);
            self.waiting.reverse();
        }
    }
}

/// Cases of any call.
fn all_cases(chance: &mut Chance) -> Vec<Case> {
    if chance.percent(TEXTS) {
        text_cases(chance)
    } else {
        table_cases(chance)
    }
}

/// One case or several that belong together; at times none, if a search would take long.
fn table_cases(chance: &mut Chance) -> Vec<Case> {
    match chance.below(124) {
        0..=20 => refused_cases(chance),
        21..=24 => vec![Case::read(&any_sheet(chance).draft.words())],
        25..=40 => vec![open_case(chance)],
        41..=46 => staged_cases(chance),
        47..=68 => vec![close_case(chance)],
        69..=93 => search_cases(chance),
        94..=112 => vec![check_case(chance)],
        _ => site_cases(chance),
    }
}

/// A description that is mostly refused, at times several calls of it.
fn refused_cases(chance: &mut Chance) -> Vec<Case> {
    let sheet = any_sheet(chance);
    let words = mostly_refused(chance, &sheet.draft);
    let boards = if chance.percent(50) { sheet.draft.boards } else { words.first().map_or(0, |&v| v.min(17) as usize) };
    let cells =
        if chance.percent(20) { any_contents(chance, &sheet, boards) } else { any_table(chance, &sheet, boards) };
    let budget = chance.below(200) as u32;
    if !ends_soon(&words, &cells, budget) {
        return Vec::new();
    }
    let (read, open, close) = (Case::read(&words), opening(&words, &cells), Case::close(&words, &cells));
    let (search, check) = (Case::search(&words, &cells, budget), Case::check(&words, &cells));
    match chance.below(12) {
        0..=5 => vec![read],
        6..=7 => vec![open],
        8 => vec![close],
        9 => vec![search],
        10 => vec![check],
        _ => vec![open, close, search, check],
    }
}

/// The opening of a table of any contents. It answers as the closing of a full table of as many cells, and leaves what
/// that leaves, or if refused the table as it came.
pub fn opening(words: &[u16], cells: &[u8]) -> Case {
    let (case, full) = (Case::open(words, cells), Case::close(words, &vec![ALL; cells.len()]));
    let (opened, closed) = (answered(&case), answered(&full));
    let left = if opened.answer.number == 0 { closed.cells } else { cells.to_vec() };
    assert!(opened.answer == closed.answer && opened.cells == left, "{}differs from a full table", readable(&case));
    case
}

/// A good description, at times contradictory, and a table of any contents, at times of a wrong number of cells.
fn open_case(chance: &mut Chance) -> Case {
    let sheet = any_sheet(chance);
    let mut cells = any_contents(chance, &sheet, sheet.draft.boards);
    let draft = if chance.percent(15) { contradictory(chance, sheet.draft) } else { sheet.draft };
    if chance.percent(20) {
        change_number(chance, &mut cells);
    }
    opening(&draft.words(), &cells)
}

/// The draft with a line whose set holds nothing that opening leaves in its cell.
fn contradictory(chance: &mut Chance, mut draft: Draft) -> Draft {
    draft.relations.truncate(MOST_RELATION_LINES as usize - 1);
    let mut opened = Table::full(draft.boards);
    calls::open(&draft.words(), &mut opened.cells);
    let (p, q) = (chance.below(draft.boards), chance.below(draft.boards));
    draft.within(p as u16, q as u16, ALL & !opened.at(p, q))
}

/// Two to four stages under more and more lines of a sheet.
fn staged_cases(chance: &mut Chance) -> Vec<Case> {
    let sheet = any_sheet(chance);
    let cells = any_contents(chance, &sheet, sheet.draft.boards);
    let all = (sheet.draft.relations.len(), sheet.draft.kinds.len());
    let (mut relations, mut kinds) = (0, 0);
    let mut lines = Vec::new();
    for _ in 0..chance.between(1, 3) {
        (relations, kinds) = (chance.between(relations, all.0), chance.between(kinds, all.1));
        lines.push((relations, kinds));
    }
    lines.push(all);
    stages(&sheet.draft, &lines, &cells)
}

/// The opening of a table under the first so many relation and kind lines, then closings under more of them and at
/// last under all, each of the table that the stage before left, up to the first refusal.
pub fn stages(draft: &Draft, lines: &[(usize, usize)], lent: &[u8]) -> Vec<Case> {
    let mut cases = Vec::new();
    let mut table = lent.to_vec();
    for (stage, &(relations, kinds)) in lines.iter().enumerate() {
        let words = draft.first_lines(relations, kinds).words();
        let case = if stage == 0 { opening(&words, &table) } else { Case::close(&words, &table) };
        let Answered { answer, cells, .. } = answered(&case);
        cases.push(case);
        if answer.number != 0 {
            break;
        }
        table = cells;
    }
    assert_as_at_once(&cases, &opening(&draft.words(), lent));
    cases
}

/// The stages strike together what opening under all lines strikes, and leave the same; or both are refused alike.
fn assert_as_at_once(stages: &[Case], at_once: &Case) {
    let opened = answered(at_once);
    let (mut number, mut struck, mut cells) = (0, 0, Vec::new());
    for stage in stages.iter().map(answered) {
        (number, struck, cells) = (stage.answer.number, struck + stage.answer.count, stage.cells);
    }
    let as_much = number != 0 || (struck == opened.answer.count && cells == opened.cells);
    assert!(number == opened.answer.number && as_much, "stages differ from {}", readable(at_once));
}

fn close_case(chance: &mut Chance) -> Case {
    let sheet = any_sheet(chance);
    let cells = any_table(chance, &sheet, sheet.draft.boards);
    Case::close(&sheet.draft.words(), &cells)
}

/// Whether the search with this budget needs no more tries than are allowed.
fn ends_soon(words: &[u16], cells: &[u8], budget: u32) -> bool {
    let boards = words.first().map_or(1, |&v| v as usize).min(16);
    budget <= tries_allowed(boards) || tries_needed(words, cells).is_some()
}

/// The tries that the search makes, if it ends within those allowed.
fn tries_needed(words: &[u16], cells: &[u8]) -> Option<u32> {
    let boards = words.first().map_or(1, |&v| v as usize).min(16);
    let answer = calls::search(words, &mut cells.to_vec(), tries_allowed(boards));
    (answer.number != 9).then_some(answer.count)
}

/// Searches with budgets around the tries needed, none, large and of the program.
fn search_cases(chance: &mut Chance) -> Vec<Case> {
    let hard = chance.percent(45);
    let sheet = if hard { hard_sheet(chance) } else { any_sheet(chance) };
    let words = sheet.draft.words();
    let boards = sheet.draft.boards;
    let cells = if hard && chance.percent(90) { Table::full(boards).cells } else { any_table(chance, &sheet, boards) };
    let most = tries_allowed(boards);
    let tries = match tries_needed(&words, &cells) {
        Some(tries) => tries,
        None => {
            let budget = chance.pick(&[0, 1, 10, most / 10, most]);
            return vec![Case::search(&words, &cells, budget)];
        }
    };
    let budgets = match chance.below(10) {
        0..=2 if tries > 0 => vec![tries - 1, tries, tries + 1],
        0 => vec![0, 1],
        3 => vec![chance.below(tries as usize + 1) as u32],
        4 => vec![0],
        5..=6 => vec![chance.pick(&[u32::MAX, u32::MAX - 1, 1 << 31, 65_536, 65_535])],
        _ => vec![tries.saturating_add(chance.below(2_000) as u32)],
    };
    budgets.into_iter().map(|budget| Case::search(&words, &cells, budget)).collect()
}

/// A proposed arrangement: found, changed in a cell, of another forest, or of a nearby description.
fn check_case(chance: &mut Chance) -> Case {
    let mut sheet = any_sheet(chance);
    let mut cells = proposal(chance, &sheet);
    match chance.below(10) {
        0..=3 => {}
        4 => change_a_cell(chance, &mut cells),
        5 => change_a_pair(chance, sheet.draft.boards, &mut cells),
        6..=8 if chance.percent(80) => change_a_line(chance, &mut sheet),
        6..=8 => cells = Forest::any(chance, sheet.draft.boards).cells(),
        _ => cells = any_table(chance, &sheet, sheet.draft.boards),
    }
    Case::check(&sheet.draft.words(), &cells)
}

/// Puts something else in one cell.
fn change_a_cell(chance: &mut Chance, cells: &mut [u8]) {
    let at = chance.below(cells.len());
    let wrong = if chance.percent(80) { chance.pick(&SINGLES) } else { chance.below(17) as u8 };
    if let Some(cell) = cells.get_mut(at) {
        *cell = wrong;
    }
}

/// Puts another relation in a cell and its converse in the cell across.
fn change_a_pair(chance: &mut Chance, boards: usize, cells: &mut [u8]) {
    let (p, q) = (chance.below(boards), chance.below(boards));
    let relation = chance.pick(&SINGLES);
    cells[boards * p + q] = relation;
    cells[boards * q + p] = converse(relation);
}

/// Takes a line away or changes one a little; mostly no lines disagree afterwards.
fn change_a_line(chance: &mut Chance, sheet: &mut Sheet) {
    let draft = &mut sheet.draft;
    let (line, kind) = (chance.below(draft.relations.len()), chance.below(draft.kinds.len()));
    let board = chance.below(draft.boards) as u16;
    match chance.below(7) {
        0 if !draft.relations.is_empty() => drop(draft.relations.remove(line)),
        1 if !draft.relations.is_empty() => draft.relations[line].expression = vec![chance.below(4) as u16],
        2 if !draft.kinds.is_empty() => drop(draft.kinds[kind].ways.pop()),
        3 if !draft.kinds.is_empty() => draft.kinds[kind].code ^= 1,
        4 if !draft.kinds.is_empty() => draft.kinds[kind].p = board,
        5 if !draft.kinds.is_empty() => draft.kinds[kind].ways.reverse(),
        _ if !draft.kinds.is_empty() && draft.kinds[kind].ways.len() < 8 => draft.kinds[kind].ways.push(board),
        _ => {}
    }
    if chance.percent(90) {
        draft.mend_codes();
    }
}

/// An input of the program: mostly a good description; at times odd, refused or too long.
fn site_cases(chance: &mut Chance) -> Vec<Case> {
    let sheet = any_sheet(chance);
    let words = match chance.below(21) {
        0..=4 => mostly_refused(chance, &sheet.draft),
        5 if chance.percent(10) => behind_loose_boards(chance.pick(&[3, 4])).words(),
        _ => sheet.draft.words(),
    };
    let mut bytes = little_endian_bytes(&words);
    match chance.below(60) {
        0 => drop(bytes.pop()),
        1 => bytes.push(chance.below(256) as u8),
        2 if chance.percent(20) => bytes.resize(chance.between(MOST_BYTES - 2, MOST_SITE_BYTES), 0),
        3 => bytes.truncate(few_boards(chance)),
        _ => {}
    }
    let boards = words.first().map_or(1, |&v| v.min(16) as usize);
    if boards <= 9 || ends_soon(&words, &Table::full(boards).cells, BUDGET) {
        vec![Case::site(&bytes)]
    } else {
        Vec::new()
    }
}
