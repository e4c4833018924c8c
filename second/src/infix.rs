//! Expressions as they are typed, operators between operands, and as words in prefix order.
//! Nothing here calls itself: a text may nest its parentheses as deep as it is long.

use crate::symbols::Symbol;

/// How tight an operator binds its operands; a single relation is tighter than all.
fn binding(code: u16) -> u8 {
    match code {
        4 => 1,
        5 => 2,
        6 | 7 => 3,
        _ => WHOLE,
    }
}

/// The binding of `not` and `inv`, and of what no operator can tear apart.
const TIGHTEST: u8 = 3;
const WHOLE: u8 = 4;

/// A relation or an operator with the places of its operands among the nodes.
struct Node {
    code: u16,
    operands: Vec<usize>,
}

/// An expression half read.
#[derive(Default)]
struct Yard {
    nodes: Vec<Node>,
    /// The places of the operands that are whole and not yet joined.
    whole: Vec<usize>,
    /// The operators and opening parentheses whose right end is not yet met.
    waiting: Vec<Symbol>,
}

/// The words in prefix order of an expression as typed; none if it is malformed.
pub fn prefix_words(typed: &[Symbol]) -> Option<Vec<u16>> {
    let mut yard = Yard::default();
    let mut operand_expected = true;
    for &symbol in typed {
        operand_expected = if operand_expected { yard.begin_operand(symbol)? } else { yard.go_on(symbol)? };
    }
    if operand_expected {
        return None;
    }
    yard.join(0)?;
    if yard.waiting.is_empty() {
        yard.words()
    } else {
        None
    }
}

impl Yard {
    /// Takes a symbol where an operand must begin; says whether one must still begin after it.
    fn begin_operand(&mut self, symbol: Symbol) -> Option<bool> {
        match symbol {
            Symbol::Code(code @ 0..=3) => {
                self.add(code, Vec::new());
                Some(false)
            }
            Symbol::Code(6 | 7) | Symbol::Open => {
                self.waiting.push(symbol);
                Some(true)
            }
            _ => None,
        }
    }

    /// Takes a symbol after a whole operand; says whether another operand must begin after it.
    fn go_on(&mut self, symbol: Symbol) -> Option<bool> {
        match symbol {
            Symbol::Code(code @ (4 | 5)) => {
                self.join(binding(code))?;
                self.waiting.push(symbol);
                Some(true)
            }
            Symbol::Close => {
                self.join(0)?;
                self.waiting.pop().map(|_| false)
            }
            _ => None,
        }
    }

    /// Joins the waiting operators with their operands, the last first, up to a parenthesis
    /// or to one that binds looser than asked.
    fn join(&mut self, loosest: u8) -> Option<()> {
        while let Some(&Symbol::Code(code)) = self.waiting.last() {
            if binding(code) < loosest {
                break;
            }
            self.waiting.pop();
            let last = self.whole.pop()?;
            let operands = if binding(code) == TIGHTEST { vec![last] } else { vec![self.whole.pop()?, last] };
            self.add(code, operands);
        }
        Some(())
    }

    /// Adds a whole operand.
    fn add(&mut self, code: u16, operands: Vec<usize>) {
        self.whole.push(self.nodes.len());
        self.nodes.push(Node { code, operands });
    }

    /// The codes of the whole expression, each before its operands.
    fn words(&self) -> Option<Vec<u16>> {
        let mut words = Vec::new();
        let mut to_come = self.whole.clone();
        while let Some(place) = to_come.pop() {
            let node = self.nodes.get(place)?;
            words.push(node.code);
            to_come.extend(node.operands.iter().rev());
        }
        Some(words)
    }
}

/// An operand as it is typed, and how tight its outermost operator binds.
struct Operand {
    binding: u8,
    typed: Vec<Symbol>,
}

/// A good expression as it is typed: with the parentheses without which an operand reads differently,
/// and as many pairs more around each operand as are asked for.
pub fn infix_symbols(expression: &[u16], mut pairs_more: impl FnMut() -> usize) -> Vec<Symbol> {
    let mut operands: Vec<Operand> = Vec::new();
    // From the last word to the first, so that the operands of a word are there when it comes.
    for &code in expression.iter().rev() {
        let mut typed = vec![Symbol::Code(code)];
        match code {
            0..=3 => {}
            4 | 5 => {
                typed.splice(0..0, taken(&mut operands, binding(code)));
                typed.extend(taken(&mut operands, binding(code) + 1));
            }
            _ => typed.extend(taken(&mut operands, TIGHTEST)),
        }
        let mut operand = Operand { binding: binding(code), typed };
        for _ in 0..pairs_more() {
            operand = Operand { binding: WHOLE, typed: in_parentheses(operand.typed) };
        }
        operands.push(operand);
    }
    taken(&mut operands, 0)
}

/// The last operand, in parentheses if it binds looser than asked.
fn taken(operands: &mut Vec<Operand>, loosest: u8) -> Vec<Symbol> {
    match operands.pop() {
        Some(operand) if operand.binding < loosest => in_parentheses(operand.typed),
        Some(operand) => operand.typed,
        None => Vec::new(),
    }
}

fn in_parentheses(typed: Vec<Symbol>) -> Vec<Symbol> {
    [vec![Symbol::Open], typed, vec![Symbol::Close]].concat()
}
