//! The parts that hand-written programs are made of. Spans are given where an error shows them and follow from that elsewhere.

use crate::ast::*;

/// A program of these declarations over so many names.
pub fn program(names: usize, decls: Vec<Decl>) -> Program {
    Program { names: (0..names).map(name).collect(), decls }
}

/// a to z, then a1 and so on.
pub fn name(number: usize) -> Vec<u8> {
    let digits = if number < 26 { String::new() } else { (number / 26).to_string() };
    [&[b'a' + (number % 26) as u8], digits.as_bytes()].concat()
}

pub fn symbol(span: u32, name: u16) -> Symbol {
    Symbol { span, name }
}

pub fn symbols(span: u32, names: &[u16]) -> Vec<Symbol> {
    (span..).zip(names).map(|(span, &name)| symbol(span, name)).collect()
}

pub fn whole(span: u32, name: u16) -> Operand {
    Operand { span, name, index: None }
}

pub fn expr(span: u32, node: Node) -> Expr {
    Expr { span, node }
}

pub fn stmt(span: u32, action: Action) -> Stmt {
    Stmt { span, action }
}

pub fn empty_barrier(span: u32) -> Stmt {
    stmt(span, Action::Barrier { regs: Vec::new() })
}

pub fn register(span: u32, kind: Kind, name: u16, size: u64) -> Decl {
    Decl::Register(Register { span, kind, operand: Operand { span: span + 1, name, index: Some(size) } })
}

pub fn gate(span: u32, name: u16, params: &[u16], args: &[u16], body: Option<Vec<Stmt>>) -> Decl {
    let (params, args) = (symbols(span + 2, params), symbols(span + 40, args));
    Decl::Gate(Gate { span, name: symbol(span + 1, name), params, args, body })
}

pub fn call(span: u32, name: u16, args: &[u16]) -> Stmt {
    let args = (span + 2..).zip(args).map(|(span, &name)| whole(span, name)).collect();
    stmt(span, Action::Call(Call { name: symbol(span + 1, name), args, params: Vec::new() }))
}

pub fn condition(span: u32, name: u16, value: u64, then: Stmt) -> Stmt {
    let reg = whole(span + 1, name);
    stmt(span, Action::If(Box::new(If { reg, value_span: span + 2, value, then })))
}

pub fn pis(span: u32) -> [Expr; 3] {
    [0, 1, 2].map(|angle| expr(span + angle, Node::Pi))
}

/// One bit of a register.
pub fn bit(span: u32, name: u16, index: u64) -> Operand {
    Operand { span, name, index: Some(index) }
}

pub fn u(span: u32, reg: Operand) -> Stmt {
    stmt(span, Action::U { reg, angles: pis(span + 1) })
}

pub fn cx(span: u32, copy: Operand, xor: Operand) -> Stmt {
    stmt(span, Action::Cx { copy, xor })
}

pub fn measure(span: u32, from: Operand, to: Operand) -> Stmt {
    stmt(span, Action::Measure { from, to })
}

pub fn reset(span: u32, reg: Operand) -> Stmt {
    stmt(span, Action::Reset { reg })
}

pub fn barrier(span: u32, regs: Vec<Operand>) -> Stmt {
    stmt(span, Action::Barrier { regs })
}
