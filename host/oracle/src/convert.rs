//! From the model's program to the Rust's.
//!
//! A span's number goes into `start` and comes back from there. The two fields that the type checker copies along carry what a
//! cycle is checked with: a gate's declaration span its gate number in `end`, a call's span its caller in `end` and its callee in `file`.

use crate::ast;
use crate::ast::{FileSpan, Span};
use model::ast::*;
use model::calls::Calls;

/// The Rust's program; none if a name is not UTF-8.
pub fn convert(program: &Program) -> Option<ast::Program> {
    converted(program, Some(Calls::of(program)))
}

/// The same without what cycles are checked with, whose search would tell in a measurement.
pub fn plain(program: &Program) -> Option<ast::Program> {
    converted(program, None)
}

fn converted(program: &Program, calls: Option<Calls>) -> Option<ast::Program> {
    let symbol = |name: &Vec<u8>| std::str::from_utf8(name).ok().map(ast::Symbol::new);
    let names = program.names.iter().map(symbol).collect::<Option<Vec<_>>>()?;
    let mut converter = Converter { names, calls, caller: 0 };
    Some(ast::Program { decls: program.decls.iter().map(|decl| converter.decl(decl)).collect() })
}

struct Converter<'a> {
    names: Vec<ast::Symbol>,
    calls: Option<Calls<'a>>,
    /// The gate whose body is being converted.
    caller: usize,
}

fn at_start(start: u32) -> FileSpan {
    FileSpan { start: start as usize, end: 0, file: 0 }
}

fn at<T>(span: FileSpan, inner: T) -> Span<T> {
    Span { span, inner: Box::new(inner) }
}

impl Converter<'_> {
    fn decl(&mut self, decl: &Decl) -> Span<ast::Decl> {
        match decl {
            Decl::Include(file) => at(at_start(file.span), ast::Decl::Include { file: self.symbol(file) }),
            Decl::Register(register) => {
                let reg = self.operand(&register.operand);
                let decl = match register.kind {
                    Kind::Quantum => ast::Decl::QReg { reg },
                    Kind::Classical => ast::Decl::CReg { reg },
                };
                at(at_start(register.span), decl)
            }
            Decl::Gate(gate) => self.gate(gate),
            Decl::Stmt(stmt) => at(at_start(stmt.span), ast::Decl::Stmt(self.stmt(stmt))),
        }
    }

    fn gate(&mut self, gate: &Gate) -> Span<ast::Decl> {
        self.caller = self.number(gate.name.name);
        let span = FileSpan { end: self.caller, ..at_start(gate.span) };
        let def = ast::Decl::Def {
            name: self.symbol(&gate.name),
            params: gate.params.iter().map(|param| self.symbol(param)).collect(),
            args: gate.args.iter().map(|arg| self.symbol(arg)).collect(),
            body: gate.body.as_ref().map(|body| body.iter().map(|stmt| self.stmt(stmt)).collect()),
        };
        at(span, def)
    }

    /// A gate's number; 0 for what is no gate, whose calls are in no cycle.
    fn number(&self, name: u16) -> usize {
        self.calls.as_ref().and_then(|calls| calls.number(name)).unwrap_or(0)
    }

    fn name(&self, name: u16) -> ast::Symbol {
        self.names[usize::from(name)].clone()
    }

    fn symbol(&self, symbol: &Symbol) -> Span<ast::Symbol> {
        at(at_start(symbol.span), self.name(symbol.name))
    }

    fn operand(&self, operand: &Operand) -> Span<ast::Reg> {
        at(at_start(operand.span), ast::Reg { name: self.name(operand.name), index: operand.index })
    }

    fn stmt(&self, stmt: &Stmt) -> Span<ast::Stmt> {
        let span = match &stmt.action {
            Action::Call(call) => {
                FileSpan { end: self.caller, file: self.number(call.name.name), ..at_start(stmt.span) }
            }
            _ => at_start(stmt.span),
        };
        at(span, self.action(&stmt.action))
    }

    fn action(&self, action: &Action) -> ast::Stmt {
        match action {
            Action::U { reg, angles: [theta, phi, lambda] } => ast::Stmt::U {
                theta: self.expr(theta),
                phi: self.expr(phi),
                lambda: self.expr(lambda),
                reg: self.operand(reg),
            },
            Action::Cx { copy, xor } => ast::Stmt::CX { copy: self.operand(copy), xor: self.operand(xor) },
            Action::Measure { from, to } => {
                ast::Stmt::Measure { from: self.operand(from), to: self.operand(to) }
            }
            Action::Reset { reg } => ast::Stmt::Reset { reg: self.operand(reg) },
            Action::Barrier { regs } => {
                ast::Stmt::Barrier { regs: regs.iter().map(|reg| self.operand(reg)).collect() }
            }
            Action::Call(call) => ast::Stmt::Gate {
                name: self.symbol(&call.name),
                params: call.params.iter().map(|param| self.expr(param)).collect(),
                args: call.args.iter().map(|arg| self.operand(arg)).collect(),
            },
            Action::If(condition) => ast::Stmt::Conditional {
                reg: self.operand(&condition.reg),
                val: at(at_start(condition.value_span), condition.value),
                then: self.stmt(&condition.then),
            },
        }
    }

    fn expr(&self, expr: &Expr) -> Span<ast::Expr> {
        let node = match &expr.node {
            Node::Pi => ast::Expr::Pi,
            Node::Real(bits) => ast::Expr::Real(f32::from_bits(*bits)),
            Node::Int(value) => ast::Expr::Int(*value),
            Node::Var(name) => ast::Expr::Var(self.name(*name)),
            Node::Binary(operator, left, right) => binary(*operator)(self.expr(left), self.expr(right)),
            Node::Unary(operator, operand) => unary(*operator)(self.expr(operand)),
        };
        at(at_start(expr.span), node)
    }
}

fn binary(operator: Binary) -> fn(Span<ast::Expr>, Span<ast::Expr>) -> ast::Expr {
    match operator {
        Binary::Add => ast::Expr::Add,
        Binary::Sub => ast::Expr::Sub,
        Binary::Mul => ast::Expr::Mul,
        Binary::Div => ast::Expr::Div,
        Binary::Pow => ast::Expr::Pow,
    }
}

fn unary(operator: Unary) -> fn(Span<ast::Expr>) -> ast::Expr {
    match operator {
        Unary::Neg => ast::Expr::Neg,
        Unary::Sin => ast::Expr::Sin,
        Unary::Cos => ast::Expr::Cos,
        Unary::Tan => ast::Expr::Tan,
        Unary::Exp => ast::Expr::Exp,
        Unary::Ln => ast::Expr::Ln,
        Unary::Sqrt => ast::Expr::Sqrt,
    }
}
