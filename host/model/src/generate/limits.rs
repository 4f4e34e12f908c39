//! Programs at each limit of the image and one past it.

use crate::ast::*;
use crate::flatten::flatten;
use crate::form::limit;

/// A limit that one program keeps and another passes by one.
pub struct Limit {
    pub what: &'static str,
    pub kept: Program,
    pub passed: Program,
    /// 01's number for the second.
    pub refusal: u8,
}

pub fn limits() -> Vec<Limit> {
    let of = |what, at: usize, make: &dyn Fn(usize) -> Program| Limit {
        what,
        kept: make(at),
        passed: make(at + 1),
        refusal: 7,
    };
    vec![
        of("names", limit::NAMES, &names),
        Limit {
            refusal: 6,
            ..of("name bytes", limit::NAME_BYTES, &|length| named(vec![vec![b'x'; length]]))
        },
        of("gates", limit::GATES, &gates),
        of("redefinitions", limit::GATES, &|count| one_name(vec![Decl::Gate(gate(0, 0)); count])),
        of("registers", limit::REGISTERS, &registers),
        of("parameters", limit::COUNTED, &|count| one_name(vec![Decl::Gate(gate(count, 0))])),
        of("arguments", limit::COUNTED, &|count| one_name(vec![Decl::Gate(gate(0, count))])),
        of("call parameters", limit::COUNTED, &|count| one_name(vec![call(count, 0)])),
        of("call operands", limit::COUNTED, &|count| one_name(vec![call(0, count)])),
        of("barrier operands", limit::COUNTED, &barrier),
        of("depth", limit::DEPTH, &depth),
        of("ifs", limit::IFS, &ifs),
        Limit { refusal: 2, ..of("image bytes", limit::IMAGE, &bytes) },
    ]
}

fn named(names: Vec<Vec<u8>>) -> Program {
    Program { names, decls: Vec::new() }
}

fn one_name(decls: Vec<Decl>) -> Program {
    Program { names: vec![b"a".to_vec()], decls }
}

fn names(count: usize) -> Program {
    named((0..count as u16).map(|number| number.to_le_bytes().to_vec()).collect())
}

const SYMBOL: Symbol = Symbol { span: 1, name: 0 };
const OPERAND: Operand = Operand { span: 2, name: 0, index: None };
const PI: Expr = Expr { span: 3, node: Node::Pi };

fn gate(params: usize, args: usize) -> Gate {
    Gate { span: 4, name: SYMBOL, params: vec![SYMBOL; params], args: vec![SYMBOL; args], body: None }
}

fn gates(count: usize) -> Program {
    let gate = |number: usize| {
        let name = Symbol { span: 5, name: number as u16 };
        Decl::Gate(Gate { span: number as u32, name, ..gate(0, 0) })
    };
    Program { decls: (0..count).map(gate).collect(), ..names(count) }
}

/// QREGs and CREGs in turn: they share the limit.
fn registers(count: usize) -> Program {
    let register = |number: usize| {
        let kind = if number % 2 == 0 { Kind::Quantum } else { Kind::Classical };
        let operand = Operand { name: number as u16, ..OPERAND };
        Decl::Register(Register { span: number as u32, kind, operand })
    };
    Program { decls: (0..count).map(register).collect(), ..names(count) }
}

fn call(params: usize, args: usize) -> Decl {
    let call = Call { name: SYMBOL, args: vec![OPERAND; args], params: vec![PI; params] };
    Decl::Stmt(Stmt { span: 6, action: Action::Call(call) })
}

fn barrier(count: usize) -> Program {
    one_name(vec![Decl::Stmt(Stmt { span: 6, action: Action::Barrier { regs: vec![OPERAND; count] } })])
}

/// An expression that is so deep along its right operands.
fn depth(depth: usize) -> Program {
    let deeper = |expr: Expr, level: usize| match level % 2 {
        0 => Expr { span: 7, node: Node::Unary(Unary::Neg, Box::new(expr)) },
        _ => Expr { span: 8, node: Node::Binary(Binary::Pow, Box::new(PI), Box::new(expr)) },
    };
    let angle = (1..depth).fold(PI, deeper);
    let action = Action::U { reg: OPERAND, angles: [PI, angle, PI] };
    one_name(vec![Decl::Stmt(Stmt { span: 6, action })])
}

/// So many IFs in a row.
fn ifs(count: usize) -> Program {
    let governed = |then: Stmt, number: usize| {
        let condition = If { reg: OPERAND, value_span: 9, value: number as u64, then };
        Stmt { span: 10, action: Action::If(Box::new(condition)) }
    };
    let reset = Stmt { span: 6, action: Action::Reset { reg: OPERAND } };
    one_name(vec![Decl::Stmt((0..count).fold(reset, governed))])
}

/// Empty barriers, eight bytes each, and a NAME that makes up the rest.
fn bytes(length: usize) -> Program {
    let empty = Decl::Stmt(Stmt { span: 6, action: Action::Barrier { regs: Vec::new() } });
    let name = vec![b'x'; length % 8 + 5];
    let mut program = Program { names: vec![name], decls: Vec::new() };
    let rest = length - flatten(&program).len();
    program.decls = vec![empty; rest / 8];
    program
}
