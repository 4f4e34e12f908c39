//! Programs without errors.

use super::maker::{Head, Maker, Size};
use super::rng::Rng;
use crate::ast::*;

/// What statements can name.
#[derive(Default)]
pub struct Scope {
    pub quantum: Vec<(u16, u64)>,
    pub classical: Vec<(u16, u64)>,
    pub params: Vec<u16>,
    pub gates: Vec<Head>,
}

pub fn valid(rng: &mut Rng, size: Size) -> Program {
    Maker::new(rng, size).valid()
}

impl Maker<'_> {
    pub fn valid(&mut self) -> Program {
        let gates = self.rng.between(0, self.size.gates);
        let registers = self.rng.between(0, self.size.registers);
        // Enough names that gates differ among themselves, and registers among themselves.
        let count = gates.max(registers).max(4) + self.rng.below(3);
        let names = self.names(count);
        let mut scope = Scope::default();
        let mut decls = Vec::new();
        for name in self.different(count, gates) {
            let gate = self.valid_gate(name, count, &scope.gates);
            scope.gates.push(Head { name, params: gate.params.len(), args: gate.args.len() });
            decls.push(Decl::Gate(gate));
        }
        for name in self.different(count, registers) {
            decls.push(Decl::Register(self.valid_register(name, &mut scope)));
        }
        for _ in 0..self.rng.between(0, self.size.statements) {
            decls.push(Decl::Stmt(self.valid_stmt(&scope)));
        }
        if self.rng.chance(5) {
            let file = self.rng.below(count) as u16;
            decls.push(Decl::Include(self.symbol(file)));
        }
        self.rng.shuffle(&mut decls);
        Program { names, decls }
    }

    /// So many different name numbers below `count`, in any order.
    pub fn different(&mut self, count: usize, wanted: usize) -> Vec<u16> {
        let mut names: Vec<u16> = (0..count as u16).collect();
        self.rng.shuffle(&mut names);
        names.truncate(wanted);
        names
    }

    pub fn symbols(&mut self, names: &[u16]) -> Vec<Symbol> {
        names.iter().map(|&name| self.symbol(name)).collect()
    }

    fn valid_register(&mut self, name: u16, scope: &mut Scope) -> Register {
        let quantum = !self.rng.chance(3);
        let size = if self.rng.chance(40) { self.rng.between(6, 70) } else { self.rng.between(1, 4) } as u64;
        let (kind, list) = if quantum {
            (Kind::Quantum, &mut scope.quantum)
        } else {
            (Kind::Classical, &mut scope.classical)
        };
        list.push((name, size));
        self.register(kind, name, size)
    }

    /// A gate that calls only gates made before it.
    pub fn valid_gate(&mut self, name: u16, count: usize, gates: &[Head]) -> Gate {
        let (params, args) = (self.rng.below(3), self.rng.below(4));
        let (params, args) = (self.different(count, params), self.different(count, args));
        let (span, symbol) = (self.span(), self.symbol(name));
        let scope = Scope {
            quantum: args.iter().map(|&arg| (arg, 1)).collect(),
            classical: Vec::new(),
            params: params.clone(),
            gates: gates.to_vec(),
        };
        let (params, args) = (self.symbols(&params), self.symbols(&args));
        let length = self.rng.between(0, self.size.body);
        let body = (0..length).map(|_| self.valid_stmt(&scope)).collect();
        let body = if self.rng.chance(5) { None } else { Some(body) };
        Gate { span, name: symbol, params, args, body }
    }

    pub fn valid_stmt(&mut self, scope: &Scope) -> Stmt {
        let action = self.valid_action(scope);
        self.stmt(action)
    }

    fn valid_action(&mut self, scope: &Scope) -> Action {
        let quantum = !scope.quantum.is_empty();
        let classical = !scope.classical.is_empty();
        match self.rng.below(9) {
            0 | 1 if quantum => {
                let reg = self.operands(scope, 1)[0];
                Action::U { reg, angles: [0; 3].map(|_| self.expr(&scope.params)) }
            }
            2 if quantum => {
                let operands = self.operands(scope, 2);
                Action::Cx { copy: operands[0], xor: operands[1] }
            }
            3 if quantum => Action::Reset { reg: self.operands(scope, 1)[0] },
            4 if quantum && classical => self.measure(scope),
            5 if classical => self.condition(scope),
            6 | 7 if !scope.gates.is_empty() => self.call(scope),
            _ => {
                let count = if quantum { self.rng.below(4) } else { 0 };
                Action::Barrier { regs: self.operands(scope, count) }
            }
        }
    }

    /// Quantum operands whose sizes pair: each is one bit or a whole register of the common size.
    fn operands(&mut self, scope: &Scope, count: usize) -> Vec<Operand> {
        if count == 0 {
            return Vec::new();
        }
        let common = self.rng.pick(&scope.quantum).1;
        (0..count).map(|_| self.paired(&scope.quantum, common)).collect()
    }

    fn paired(&mut self, registers: &[(u16, u64)], common: u64) -> Operand {
        let &(name, size) = self.rng.pick(registers);
        let whole = (size == common || size == 1) && !self.rng.chance(3);
        let index = if whole { None } else { Some(self.rng.below(size as usize) as u64) };
        self.operand(name, index)
    }

    fn measure(&mut self, scope: &Scope) -> Action {
        let common = self.rng.pick(&scope.quantum).1;
        Action::Measure {
            from: self.paired(&scope.quantum, common),
            to: self.paired(&scope.classical, common),
        }
    }

    fn condition(&mut self, scope: &Scope) -> Action {
        let &(name, size) = self.rng.pick(&scope.classical);
        let index = if self.rng.chance(4) { Some(self.rng.below(size as usize) as u64) } else { None };
        let width = if index.is_some() { 1 } else { size };
        let mask = if width >= 64 { u64::MAX } else { (1 << width) - 1 };
        let value = if self.rng.chance(3) { mask } else { self.rng.draw() & mask };
        let (reg, value_span) = (self.operand(name, index), self.span());
        Action::If(Box::new(If { reg, value_span, value, then: self.valid_stmt(scope) }))
    }

    /// A call with the right counts; where there is nothing quantum to name, only gates without arguments are called.
    fn call(&mut self, scope: &Scope) -> Action {
        let callable: Vec<&Head> =
            scope.gates.iter().filter(|head| head.args == 0 || !scope.quantum.is_empty()).collect();
        if callable.is_empty() {
            return Action::Barrier { regs: Vec::new() };
        }
        let head = **self.rng.pick(&callable);
        let args = self.operands(scope, head.args);
        let params = (0..head.params).map(|_| self.expr(&scope.params)).collect();
        Action::Call(Call { name: self.symbol(head.name), args, params })
    }
}
