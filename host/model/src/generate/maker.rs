//! The parts that all generators are made of.

use super::rng::Rng;
use crate::ast::*;

/// Upper bounds of a program's parts.
#[derive(Debug, Clone, Copy)]
pub struct Size {
    pub gates: usize,
    pub registers: usize,
    pub statements: usize,
    /// Statements of one body.
    pub body: usize,
    /// Depth of an expression.
    pub depth: usize,
}

impl Size {
    pub const TINY: Size = Size { gates: 2, registers: 2, statements: 2, body: 1, depth: 1 };
    pub const SMALL: Size = Size { gates: 3, registers: 4, statements: 5, body: 3, depth: 2 };
    pub const MIDDLE: Size = Size { gates: 8, registers: 8, statements: 12, body: 6, depth: 3 };
    pub const LARGE: Size = Size { gates: 20, registers: 20, statements: 40, body: 10, depth: 5 };
}

/// How spans are numbered. Counted ones pin every error down; the others show that spans are copied and never read.
enum Spans {
    Counted(u32),
    Any,
    Few,
}

pub struct Maker<'a> {
    pub rng: &'a mut Rng,
    pub size: Size,
    spans: Spans,
}

/// What a gate's header tells its callers.
#[derive(Debug, Clone, Copy)]
pub struct Head {
    pub name: u16,
    pub params: usize,
    pub args: usize,
}

impl<'a> Maker<'a> {
    pub fn new(rng: &'a mut Rng, size: Size) -> Maker<'a> {
        let spans = match rng.below(16) {
            0 => Spans::Any,
            1 => Spans::Few,
            _ => Spans::Counted(0),
        };
        Maker { rng, size, spans }
    }

    pub fn span(&mut self) -> u32 {
        match &mut self.spans {
            Spans::Counted(last) => {
                *last += 1;
                *last
            }
            Spans::Any => self.rng.draw() as u32,
            Spans::Few => *self.rng.pick(&[0, 1, u32::MAX]),
        }
    }

    pub fn symbol(&mut self, name: u16) -> Symbol {
        Symbol { span: self.span(), name }
    }

    pub fn operand(&mut self, name: u16, index: Option<u64>) -> Operand {
        Operand { span: self.span(), name, index }
    }

    pub fn stmt(&mut self, action: Action) -> Stmt {
        Stmt { span: self.span(), action }
    }

    pub fn register(&mut self, kind: Kind, name: u16, size: u64) -> Register {
        let index = if size == 1 && self.rng.chance(3) { None } else { Some(size) };
        Register { span: self.span(), kind, operand: self.operand(name, index) }
    }

    /// An expression over these variables; where there are none it has none.
    pub fn expr(&mut self, vars: &[u16]) -> Expr {
        let depth = self.rng.between(1, self.size.depth);
        self.expr_within(vars, depth)
    }

    fn expr_within(&mut self, vars: &[u16], depth: usize) -> Expr {
        let span = self.span();
        let inner = if depth > 1 { self.rng.below(4) } else { 0 };
        let node = match inner {
            0 | 1 => self.leaf(vars),
            2 => {
                let operator = *self.rng.pick(&BINARY);
                let (left, right) = (self.expr_within(vars, depth - 1), self.expr_within(vars, depth - 1));
                Node::Binary(operator, Box::new(left), Box::new(right))
            }
            _ => {
                let operator = *self.rng.pick(&UNARY);
                Node::Unary(operator, Box::new(self.expr_within(vars, depth - 1)))
            }
        };
        Expr { span, node }
    }

    fn leaf(&mut self, vars: &[u16]) -> Node {
        if !vars.is_empty() && self.rng.chance(2) {
            return Node::Var(*self.rng.pick(vars));
        }
        match self.rng.below(8) {
            0 => Node::Real(self.rng.draw() as u32),
            1 => Node::Int(self.rng.draw()),
            2 => Node::Int(self.rng.below(4) as u64),
            _ => Node::Pi,
        }
    }

    /// So many names, all different. Now and then one is long, or not ASCII, or not UTF-8.
    pub fn names(&mut self, count: usize) -> Vec<Vec<u8>> {
        (0..count).map(|number| self.name(number)).collect()
    }

    fn name(&mut self, number: usize) -> Vec<u8> {
        let letter = b'a' + (number % 26) as u8;
        let mut name = vec![letter];
        if number >= 26 {
            name.extend((number / 26).to_string().bytes());
        }
        match self.rng.below(60) {
            0 => name.extend(vec![b'x'; 64 - name.len()]),
            1 => name.extend("é".bytes()),
            2 if self.rng.chance(4) => name.push(0xff),
            _ => (),
        }
        name
    }
}
