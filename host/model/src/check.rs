//! 01's error list: "gate headers; register declarations; top-level statements; bodies in declaration order; recursion".

use crate::ast::*;
use crate::calls::Calls;
use crate::errors::Error;

pub fn errors(program: &Program) -> Vec<Error> {
    let calls = Calls::of(program);
    let mut errors = Vec::new();
    headers(program, &calls, &mut errors);
    registers(program, &mut errors);
    let top = Scope::top(program);
    program
        .statements()
        .for_each(|stmt| Checker { calls: &calls, scope: &top, errors: &mut errors }.stmt(stmt));
    for gate in program.gates() {
        let body = Scope::body(gate);
        let mut checker = Checker { calls: &calls, scope: &body, errors: &mut errors };
        gate.statements().iter().for_each(|stmt| checker.stmt(stmt));
    }
    errors.extend(recursion(&calls));
    errors
}

/// "A gate name seen before: kind 1 with the first entry's span; its repeated names aren't reported". For a first entry: "Repeated
/// arguments, then parameters".
fn headers(program: &Program, calls: &Calls, errors: &mut Vec<Error>) {
    let mut seen = Vec::new();
    for gate in program.gates() {
        let decl = gate.span;
        if seen.contains(&gate.name.name) {
            let first = calls.number(gate.name.name).expect("it was seen");
            errors.push(Error::RedefinedGate { name: gate.name, decl, prev: calls.gates[first].span });
            continue;
        }
        seen.push(gate.name.name);
        for (name, prev) in repeated(&gate.args) {
            errors.push(Error::RedefinedArgument { name, decl, prev });
        }
        for (name, prev) in repeated(&gate.params) {
            errors.push(Error::RedefinedParameter { name, decl, prev });
        }
    }
}

/// Each repeated name with the span of the latest earlier one.
fn repeated(symbols: &[Symbol]) -> Vec<(Symbol, u32)> {
    let earlier = |at: usize| symbols[..at].iter().rev().find(|symbol| symbol.name == symbols[at].name);
    (0..symbols.len()).filter_map(|at| Some((symbols[at], earlier(at)?.span))).collect()
}

/// "kind 5 for size 0, then kind 6 with the latest earlier one's operand span"
fn registers(program: &Program, errors: &mut Vec<Error>) {
    let mut earlier: Vec<Operand> = Vec::new();
    for register in program.registers() {
        let (reg, decl) = (register.operand, register.span);
        if register.size() == 0 {
            errors.push(Error::ZeroSizeRegister { reg: reg.span, decl });
        }
        if let Some(prev) = earlier.iter().rev().find(|prev| prev.name == reg.name) {
            errors.push(Error::RedefinedRegister { reg, decl, prev: prev.span });
        }
        earlier.push(reg);
    }
}

fn recursion(calls: &Calls) -> Vec<Error> {
    let pairs =
        |lead: usize| calls.cycle(lead).iter().map(|step| (calls.gates[step.gate].span, step.call)).collect();
    calls.groups().iter().map(|group| Error::RecursiveDefinition { cycle: pairs(group[0]) }).collect()
}

/// What a name can stand for where a statement is.
pub struct Scope {
    registers: Vec<Defined>,
    params: Vec<u16>,
}

#[derive(Debug, Clone, Copy, PartialEq, Eq)]
struct Defined {
    name: u16,
    span: u32,
    kind: Kind,
    size: u64,
}

impl Scope {
    /// All registers, wherever they stand; no parameters.
    pub fn top(program: &Program) -> Scope {
        let defined = |register: &Register| Defined {
            name: register.operand.name,
            span: register.operand.span,
            kind: register.kind,
            size: register.size(),
        };
        Scope { registers: program.registers().map(defined).collect(), params: Vec::new() }
    }

    /// "Inside a body only arguments exist, quantum, size 1"
    pub fn body(gate: &Gate) -> Scope {
        let defined = |arg: &Symbol| Defined { name: arg.name, span: arg.span, kind: Kind::Quantum, size: 1 };
        Scope {
            registers: gate.args.iter().map(defined).collect(),
            params: gate.params.iter().map(|param| param.name).collect(),
        }
    }

    /// "the later one wins", for registers and for arguments.
    fn find(&self, name: u16) -> Option<&Defined> {
        self.registers.iter().rev().find(|defined| defined.name == name)
    }

    /// The operand's size, or the one error at it: "kind 15, then 14, then 13 unless index < size".
    pub fn size(&self, operand: &Operand, wanted: Kind, stmt: u32) -> Result<u64, Error> {
        let (name, reg) = (operand.name, operand.span);
        let Some(found) = self.find(name) else {
            return Err(Error::UndefinedRegister { name, reg, stmt });
        };
        if found.kind != wanted {
            let classical = wanted == Kind::Classical;
            return Err(Error::WrongRegisterType { name, def: found.span, stmt, reg, classical });
        }
        match operand.index {
            None => Ok(found.size),
            Some(index) if index < found.size => Ok(1),
            Some(index) => {
                let (size, def) = (found.size, found.span);
                Err(Error::InvalidRegisterIndex { name, index, size, reg, def, stmt })
            }
        }
    }
}

struct Checker<'a> {
    calls: &'a Calls<'a>,
    scope: &'a Scope,
    errors: &'a mut Vec<Error>,
}

impl Checker<'_> {
    fn stmt(&mut self, stmt: &Stmt) {
        let at = stmt.span;
        match &stmt.action {
            Action::U { reg, angles } => {
                self.operand(reg, Kind::Quantum, at);
                angles.iter().for_each(|angle| self.expr(angle, at));
            }
            Action::Cx { copy, xor } => self.matching(&[(*copy, Kind::Quantum), (*xor, Kind::Quantum)], at),
            Action::Measure { from, to } => {
                self.matching(&[(*from, Kind::Quantum), (*to, Kind::Classical)], at)
            }
            Action::Reset { reg } => {
                self.operand(reg, Kind::Quantum, at);
            }
            Action::Barrier { regs } => regs.iter().for_each(|reg| {
                self.operand(reg, Kind::Quantum, at);
            }),
            Action::Call(call) => self.call(call, at),
            Action::If(condition) => self.condition(condition, at),
        }
    }

    fn operand(&mut self, operand: &Operand, wanted: Kind, stmt: u32) -> Option<u64> {
        match self.scope.size(operand, wanted, stmt) {
            Ok(size) => Some(size),
            Err(error) => {
                self.errors.push(error);
                None
            }
        }
    }

    /// All operands, then: "the first sized operand whose size isn't 1 fixes size and span; size 0 counts. Later ones err (12) if
    /// over 1 and different."
    fn matching(&mut self, operands: &[(Operand, Kind)], stmt: u32) {
        let sizes: Vec<(Option<u64>, u32)> = operands
            .iter()
            .map(|(operand, kind)| (self.operand(operand, *kind, stmt), operand.span))
            .collect();
        let mut fixed: Option<(u64, u32)> = None;
        for (size, span) in sizes.into_iter().filter_map(|(size, span)| Some((size?, span))) {
            match fixed {
                None if size != 1 => fixed = Some((size, span)),
                Some((match_size, match_span)) if size > 1 && size != match_size => {
                    self.errors.push(Error::WrongOperandSize { stmt, span, size, match_span, match_size })
                }
                _ => (),
            }
        }
    }

    /// "kind 11, or 10 then 9; then operands, matching, expressions"
    fn call(&mut self, call: &Call, stmt: u32) {
        match self.calls.number(call.name.name) {
            None => self.errors.push(Error::UndefinedGate { name: call.name, stmt }),
            Some(number) => self.arity(self.calls.gates[number], call, stmt),
        }
        let operands: Vec<(Operand, Kind)> = call.args.iter().map(|arg| (*arg, Kind::Quantum)).collect();
        self.matching(&operands, stmt);
        call.params.iter().for_each(|param| self.expr(param, stmt));
    }

    fn arity(&mut self, gate: &Gate, call: &Call, stmt: u32) {
        let (def, name) = (gate.span, call.name.name);
        let (arity, actual) = (gate.params.len() as u64, call.params.len() as u64);
        if arity != actual {
            self.errors.push(Error::WrongParameterArity { stmt, def, name, arity, actual });
        }
        let (arity, actual) = (gate.args.len() as u64, call.args.len() as u64);
        if arity != actual {
            self.errors.push(Error::WrongArgumentArity { stmt, def, name, arity, actual });
        }
    }

    /// "operand, governed statement, then kind 8 if the operand has a size s and value >= 2^s"
    fn condition(&mut self, condition: &If, stmt: u32) {
        let size = self.operand(&condition.reg, Kind::Classical, stmt);
        self.stmt(&condition.then);
        let Some(reg_size) = size else { return };
        if !fits(condition.value, reg_size) {
            self.errors.push(Error::InvalidComparisonSize {
                reg: condition.reg.span,
                value: condition.value_span,
                stmt,
                reg_size,
                value_size: value_size(condition.value),
            });
        }
    }

    /// "kind 7 unless a parameter"
    fn expr(&mut self, expr: &Expr, stmt: u32) {
        match &expr.node {
            Node::Var(name) if !self.scope.params.contains(name) => {
                self.errors.push(Error::UndefinedParameter { name: *name, stmt, span: expr.span })
            }
            Node::Pi | Node::Real(_) | Node::Int(_) | Node::Var(_) => (),
            Node::Unary(_, operand) => self.expr(operand, stmt),
            Node::Binary(_, left, right) => {
                self.expr(left, stmt);
                self.expr(right, stmt);
            }
        }
    }
}

/// Whether the value is below 2^size. From size 64 on every value is.
fn fits(value: u64, size: u64) -> bool {
    size >= 64 || u128::from(value) < 1u128 << size
}

/// "the exponent of the least power of two not below the value, 64 if that is 2^64"
fn value_size(value: u64) -> u64 {
    (0..=64).find(|exponent| 1u128 << exponent >= u128::from(value)).expect("2^64 is above every value")
}
