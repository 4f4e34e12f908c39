//! Programs in which every choice is free, over few names, so that errors are many and stand together.

use super::maker::{Maker, Size};
use super::rng::Rng;
use crate::ast::*;

/// Everything at random.
pub fn wild(rng: &mut Rng, size: Size) -> Program {
    let mut maker = Maker::new(rng, size);
    let names = maker.rng.between(1, 6);
    maker.wild(names)
}

/// Many registers, few of them with one bit, and statements over them: for indices, pairing and comparisons.
pub fn sizes(rng: &mut Rng, size: Size) -> Program {
    let mut maker = Maker::new(rng, size);
    let count = maker.rng.between(2, maker.size.registers.max(2));
    let names = maker.names(count + 1);
    let mut decls = Vec::new();
    for name in 0..count as u16 {
        let kind = if maker.rng.chance(3) { Kind::Classical } else { Kind::Quantum };
        let size = maker.register_size();
        decls.push(Decl::Register(maker.register(kind, name, size)));
    }
    let args = maker.rng.between(1, 4);
    let args = maker.different(count, args);
    let gate = count as u16;
    decls.push(Decl::Gate(Gate {
        span: maker.span(),
        name: maker.symbol(gate),
        params: Vec::new(),
        args: maker.symbols(&args),
        body: None,
    }));
    for _ in 0..maker.rng.between(1, maker.size.statements) {
        let action = maker.sized_action(count, gate, args.len());
        decls.push(Decl::Stmt(maker.stmt(action)));
    }
    maker.rng.shuffle(&mut decls);
    Program { names, decls }
}

impl Maker<'_> {
    fn register_size(&mut self) -> u64 {
        match self.rng.below(40) {
            0..=2 => 0,
            3 => *self.rng.pick(&[62, 63]),
            4 => *self.rng.pick(&[64, 65, 4_096, 4_097, u64::MAX]),
            _ => self.rng.between(1, 4) as u64,
        }
    }

    fn sized_action(&mut self, names: usize, gate: u16, args: usize) -> Action {
        match self.rng.below(8) {
            0 => Action::Barrier { regs: (0..self.rng.below(5)).map(|_| self.wild_operand(names)).collect() },
            1 | 2 => Action::Cx { copy: self.wild_operand(names), xor: self.wild_operand(names) },
            3 => Action::Measure { from: self.wild_operand(names), to: self.wild_operand(names) },
            4 | 5 => {
                let then = self.sized_action(names, gate, args);
                let then = self.stmt(then);
                self.wild_condition(names, then)
            }
            _ => {
                let args = (0..args).map(|_| self.wild_operand(names)).collect();
                Action::Call(Call { name: self.symbol(gate), args, params: Vec::new() })
            }
        }
    }

    fn wild(&mut self, count: usize) -> Program {
        let names = self.names(count);
        let mut decls = Vec::new();
        for _ in 0..self.rng.between(0, self.size.gates) {
            decls.push(Decl::Gate(self.wild_gate(count)));
        }
        for _ in 0..self.rng.between(0, self.size.registers) {
            let kind = if self.rng.chance(3) { Kind::Classical } else { Kind::Quantum };
            let (name, size) = (self.any(count), self.register_size());
            decls.push(Decl::Register(self.register(kind, name, size)));
        }
        for _ in 0..self.rng.between(0, self.size.statements) {
            decls.push(Decl::Stmt(self.wild_stmt(count)));
        }
        self.rng.shuffle(&mut decls);
        Program { names, decls }
    }

    pub fn any(&mut self, names: usize) -> u16 {
        self.rng.below(names) as u16
    }

    pub fn wild_operand(&mut self, names: usize) -> Operand {
        let index = match self.rng.below(6) {
            0 | 1 => Some(self.rng.below(5) as u64),
            2 if self.rng.chance(4) => Some(self.rng.draw()),
            _ => None,
        };
        let name = self.any(names);
        self.operand(name, index)
    }

    fn wild_gate(&mut self, names: usize) -> Gate {
        let (span, name) = (self.span(), self.any(names));
        let name = self.symbol(name);
        let params = (0..self.rng.below(4)).map(|_| self.any(names)).collect::<Vec<u16>>();
        let args = (0..self.rng.below(4)).map(|_| self.any(names)).collect::<Vec<u16>>();
        let (params, args) = (self.symbols(&params), self.symbols(&args));
        let body = (0..self.rng.between(0, self.size.body)).map(|_| self.wild_stmt(names)).collect();
        let body = if self.rng.chance(6) { None } else { Some(body) };
        Gate { span, name, params, args, body }
    }

    pub fn wild_stmt(&mut self, names: usize) -> Stmt {
        let action = self.wild_action(names);
        self.stmt(action)
    }

    fn wild_action(&mut self, names: usize) -> Action {
        let vars: Vec<u16> = (0..names as u16).collect();
        match self.rng.below(9) {
            0 | 1 => Action::U { reg: self.wild_operand(names), angles: [0; 3].map(|_| self.expr(&vars)) },
            2 => Action::Cx { copy: self.wild_operand(names), xor: self.wild_operand(names) },
            3 => Action::Measure { from: self.wild_operand(names), to: self.wild_operand(names) },
            4 => Action::Reset { reg: self.wild_operand(names) },
            5 => Action::Barrier { regs: (0..self.rng.below(4)).map(|_| self.wild_operand(names)).collect() },
            6 => {
                let then = self.wild_stmt(names);
                self.wild_condition(names, then)
            }
            _ => {
                let name = self.any(names);
                let args = (0..self.rng.below(4)).map(|_| self.wild_operand(names)).collect();
                let params = (0..self.rng.below(4)).map(|_| self.expr(&vars)).collect();
                Action::Call(Call { name: self.symbol(name), args, params })
            }
        }
    }

    pub fn wild_condition(&mut self, names: usize, then: Stmt) -> Action {
        let (reg, value_span) = (self.wild_operand(names), self.span());
        Action::If(Box::new(If { reg, value_span, value: self.value(), then }))
    }

    /// A value at or beside a power of two.
    pub fn value(&mut self) -> u64 {
        let exponent = if self.rng.chance(4) { self.rng.below(64) } else { self.rng.below(6) };
        let power = 1u64 << exponent;
        match self.rng.below(8) {
            0..=2 => power,
            3..=5 => power - 1,
            6 => power + 1,
            _ => u64::MAX,
        }
    }
}
