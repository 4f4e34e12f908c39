//! Programs without errors whose run is near a limit, on either side of it.

use super::maker::{Head, Maker, Size};
use super::rng::Rng;
use super::valid::Scope;
use crate::ast::*;
use crate::form::limit;
use crate::run::{count, totals};

/// Names that only what fills up the program has: a gate and a register of each kind.
const FILLER: u16 = 0;
const FILLERS: [(Kind, u16); 2] = [(Kind::Quantum, 1), (Kind::Classical, 2)];
const NAMES: usize = 40;

/// Entries that a call of the filling gate yields.
const BATCH: u64 = 16;

pub fn near_limits(rng: &mut Rng) -> Program {
    let size = *rng.pick(&[Size::TINY, Size::SMALL, Size::SMALL, Size::MIDDLE]);
    let mut maker = Maker::new(rng, size);
    let mut program = maker.broad();
    for (kind, name) in FILLERS {
        if maker.rng.chance(2) {
            maker.fill_bits(&mut program, kind, name);
        }
    }
    let (quantum, classical) = totals(&program);
    if quantum <= limit::BITS && classical <= limit::BITS {
        maker.fill_entries(&mut program);
    }
    maker.rng.shuffle(&mut program.decls);
    program
}

impl Maker<'_> {
    /// Gates and statements over registers that are large or of one bit.
    fn broad(&mut self) -> Program {
        let names = self.names(NAMES);
        let mut scope = Scope::default();
        let mut decls = Vec::new();
        let mut free: Vec<u16> = self.different(NAMES - 3, NAMES - 3).iter().map(|name| name + 3).collect();
        for _ in 0..self.rng.between(0, self.size.gates) {
            let name = free.pop().expect("a name for each gate");
            let gate = self.valid_gate(name, NAMES, &scope.gates);
            scope.gates.push(Head { name, params: gate.params.len(), args: gate.args.len() });
            decls.push(Decl::Gate(gate));
        }
        let common = *self.rng.pick(&[2, 3, 16, 63, 64, 100, 512, 1_000, 2_048]);
        for _ in 0..self.rng.between(1, self.size.registers) {
            let name = free.pop().expect("a name for each register");
            let size = if self.rng.chance(3) { 1 } else { common };
            let (kind, list) = if self.rng.chance(3) {
                (Kind::Classical, &mut scope.classical)
            } else {
                (Kind::Quantum, &mut scope.quantum)
            };
            list.push((name, size));
            decls.push(Decl::Register(self.register(kind, name, size)));
        }
        for _ in 0..self.rng.between(0, self.size.statements) {
            decls.push(Decl::Stmt(self.valid_stmt(&scope)));
        }
        Program { names, decls }
    }

    /// A register that makes the total the limit, or one more, or past 2^64.
    fn fill_bits(&mut self, program: &mut Program, kind: Kind, name: u16) {
        let (quantum, classical) = totals(program);
        let total = if kind == Kind::Quantum { quantum } else { classical };
        let wanted = limit::BITS + self.rng.below(2) as u128;
        let size = match self.rng.below(12) {
            // Past 2^64, so that a total that wraps is a small one.
            0 => u64::MAX,
            _ if total < wanted => (wanted - total) as u64,
            _ => return,
        };
        if size > 0 {
            program.decls.push(Decl::Register(self.register(kind, name, size)));
        }
    }

    /// Empty barriers, one entry each, until there are as many entries as there may be, one fewer, or one more.
    fn fill_entries(&mut self, program: &mut Program) {
        let wanted = limit::ENTRIES - 1 + self.rng.below(3) as u64;
        let Some(mut missing) = wanted.checked_sub(count(program)) else { return };
        let barrier = |maker: &mut Self| maker.stmt(Action::Barrier { regs: Vec::new() });
        let body = (0..BATCH).map(|_| barrier(self)).collect();
        let (span, name) = (self.span(), self.symbol(FILLER));
        program.decls.push(Decl::Gate(Gate { span, name, params: vec![], args: vec![], body: Some(body) }));
        while missing >= BATCH {
            let call = Call { name: self.symbol(FILLER), args: Vec::new(), params: Vec::new() };
            program.decls.push(Decl::Stmt(self.stmt(Action::Call(call))));
            missing -= BATCH;
        }
        for _ in 0..missing {
            program.decls.push(Decl::Stmt(barrier(self)));
        }
    }
}
