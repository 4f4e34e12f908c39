//! What the Rust's type checker says of a program, in 01's terms.

use crate::ast;
use crate::ast::{FileSpan, Reg, Span};
use crate::convert::convert;
use crate::typing::TypeError;
use model::ast::{Operand, Program, Symbol};
use model::calls::Edge;
use model::errors::Error;

/// The errors up to recursion, and the cycles, which petgraph chooses and which are compared by a rule of their own.
#[derive(Debug, Default)]
pub struct Verdict {
    pub errors: Vec<Error>,
    pub cycles: Vec<Vec<Step>>,
}

/// A pair of a cycle: the gate whose definition span is shown, and the call whose span is shown.
#[derive(Debug, Clone, Copy, PartialEq, Eq)]
pub struct Step {
    pub gate: usize,
    pub def: u32,
    pub call: Edge,
}

/// The Rust's answer; none if a name is not UTF-8, since then there is no such program there.
pub fn verdict(program: &Program) -> Option<Verdict> {
    let mut verdict = Verdict::default();
    let names = Names(&program.names);
    for error in convert(program)?.type_check().err().unwrap_or_default() {
        match error {
            TypeError::RecursiveDefinition { cycle } => verdict.cycles.push(cycle.iter().map(step).collect()),
            error => verdict.errors.push(names.error(error)),
        }
    }
    Some(verdict)
}

fn number(span: FileSpan) -> u32 {
    span.start as u32
}

fn step((def, call): &(FileSpan, FileSpan)) -> Step {
    let edge = Edge { from: call.end, to: call.file, span: number(*call) };
    Step { gate: def.end, def: number(*def), call: edge }
}

/// The way back from the Rust's names to name numbers.
struct Names<'a>(&'a [Vec<u8>]);

impl Names<'_> {
    fn name(&self, symbol: &ast::Symbol) -> u16 {
        let bytes = symbol.as_str().as_bytes();
        self.0.iter().position(|name| name == bytes).expect("a name of the program") as u16
    }

    fn symbol(&self, symbol: &Span<ast::Symbol>) -> Symbol {
        Symbol { span: number(symbol.span), name: self.name(&symbol.inner) }
    }

    fn operand(&self, reg: &Span<Reg>) -> Operand {
        Operand { span: number(reg.span), name: self.name(&reg.inner.name), index: reg.inner.index }
    }

    fn error(&self, error: TypeError) -> Error {
        match error {
            TypeError::RecursiveDefinition { .. } => unreachable!("cycles are kept apart"),
            TypeError::UndefinedParameter { .. }
            | TypeError::InvalidComparisonSize { .. }
            | TypeError::WrongOperandSize { .. }
            | TypeError::InvalidRegisterIndex { .. }
            | TypeError::WrongRegisterType { .. }
            | TypeError::UndefinedRegister { .. } => self.operand_error(error),
            _ => self.definition_error(error),
        }
    }

    /// Errors at gates, registers and calls as such.
    #[rustfmt::skip]
    fn definition_error(&self, error: TypeError) -> Error {
        match error {
            TypeError::RedefinedGate { name, decl, prev } =>
                Error::RedefinedGate { name: self.symbol(&name), decl: number(decl), prev: number(prev) },
            TypeError::RedefinedArgument { name, decl, prev } =>
                Error::RedefinedArgument { name: self.symbol(&name), decl: number(decl), prev: number(prev) },
            TypeError::RedefinedParameter { name, decl, prev } =>
                Error::RedefinedParameter { name: self.symbol(&name), decl: number(decl), prev: number(prev) },
            TypeError::ZeroSizeRegister { reg, decl } =>
                Error::ZeroSizeRegister { reg: number(reg), decl: number(decl) },
            TypeError::RedefinedRegister { reg, decl, prev } =>
                Error::RedefinedRegister { reg: self.operand(&reg), decl: number(decl), prev: number(prev) },
            TypeError::WrongArgumentArity { stmt, def, name, arity, actual } => Error::WrongArgumentArity {
                stmt: number(stmt), def: number(def), name: self.name(&name),
                arity: arity as u64, actual: actual as u64,
            },
            TypeError::WrongParameterArity { stmt, def, name, arity, actual } => Error::WrongParameterArity {
                stmt: number(stmt), def: number(def), name: self.name(&name),
                arity: arity as u64, actual: actual as u64,
            },
            TypeError::UndefinedGate { name, stmt } =>
                Error::UndefinedGate { name: self.symbol(&name), stmt: number(stmt) },
            _ => unreachable!("an error at an operand"),
        }
    }

    /// Errors at operands, values and variables.
    #[rustfmt::skip]
    fn operand_error(&self, error: TypeError) -> Error {
        match error {
            TypeError::UndefinedParameter { name, stmt, span } =>
                Error::UndefinedParameter { name: self.name(&name), stmt: number(stmt), span: number(span) },
            TypeError::InvalidComparisonSize { reg, value, stmt, reg_size, value_size } =>
                Error::InvalidComparisonSize {
                    reg: number(reg), value: number(value), stmt: number(stmt), reg_size, value_size,
                },
            TypeError::WrongOperandSize { stmt, span, size, match_span, match_size } =>
                Error::WrongOperandSize {
                    stmt: number(stmt), span: number(span), size, match_span: number(match_span), match_size,
                },
            TypeError::InvalidRegisterIndex { name, index, size, reg, def, stmt } =>
                Error::InvalidRegisterIndex {
                    name: self.name(&name), index, size,
                    reg: number(reg), def: number(def), stmt: number(stmt),
                },
            TypeError::WrongRegisterType { name, def, stmt, reg, classical } => Error::WrongRegisterType {
                name: self.name(&name), def: number(def), stmt: number(stmt), reg: number(reg), classical,
            },
            TypeError::UndefinedRegister { name, reg, stmt } =>
                Error::UndefinedRegister { name: self.name(&name), reg: number(reg), stmt: number(stmt) },
            _ => unreachable!("an error at a definition"),
        }
    }
}
