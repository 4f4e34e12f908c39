//! Valid programs with some changes, so that errors stand alone among much that is right.

use super::maker::{Maker, Size};
use super::rng::Rng;
use crate::ast::*;

pub fn spoiled(rng: &mut Rng, size: Size) -> Program {
    let mut maker = Maker::new(rng, size);
    let mut program = maker.valid();
    for _ in 0..maker.rng.between(1, 3) {
        maker.spoil(&mut program);
    }
    program
}

impl Maker<'_> {
    fn spoil(&mut self, program: &mut Program) {
        let names = program.names.len();
        match self.rng.below(9) {
            0 | 1 => self.spoil_operand(program),
            2 => self.spoil_register(program),
            3 => self.spoil_gate(program),
            4 | 5 => self.spoil_stmt(program),
            6 => self.repeat_decl(program),
            7 => self.wild_in_body(program),
            _ => {
                let at = self.rng.below(program.decls.len() + 1);
                program.decls.insert(at, Decl::Stmt(self.wild_stmt(names)));
            }
        }
    }

    fn spoil_operand(&mut self, program: &mut Program) {
        let names = program.names.len();
        let mut count = 0;
        each_operand(program, &mut |_| count += 1);
        if count == 0 {
            return;
        }
        let (chosen, other) = (self.rng.below(count), self.any(names));
        let (rename, index) = (self.rng.chance(2), Some(self.rng.below(6) as u64));
        let mut at = 0;
        each_operand(program, &mut |operand| {
            if at == chosen && rename {
                operand.name = other;
            } else if at == chosen {
                operand.index = if operand.index.is_some() && chosen % 2 == 0 { None } else { index };
            }
            at += 1;
        });
    }

    fn spoil_register(&mut self, program: &mut Program) {
        let mut registers: Vec<&mut Register> = program.decls.iter_mut().filter_map(register).collect();
        if registers.is_empty() {
            return;
        }
        let chosen = self.rng.below(registers.len());
        let register = &mut registers[chosen];
        match self.rng.below(4) {
            0 => register.operand.index = Some(0),
            1 => register.operand.index = Some(self.rng.below(6) as u64),
            2 => register.operand.index = None,
            _ => {
                let quantum = register.kind == Kind::Quantum;
                register.kind = if quantum { Kind::Classical } else { Kind::Quantum };
            }
        }
    }

    /// Repeats a name of the header, adds one, or drops one.
    fn spoil_gate(&mut self, program: &mut Program) {
        let names = program.names.len();
        let mut gates: Vec<&mut Gate> = program.decls.iter_mut().filter_map(gate).collect();
        if gates.is_empty() {
            return;
        }
        let chosen = self.rng.below(gates.len());
        let list = if self.rng.chance(2) { &mut gates[chosen].params } else { &mut gates[chosen].args };
        match self.rng.below(4) {
            0 => drop(list.pop()),
            1 => {
                let name = self.any(names);
                list.push(self.symbol(name));
            }
            _ => {
                if let Some(&first) = list.first() {
                    list.push(self.symbol(first.name));
                    list.push(self.symbol(first.name));
                }
            }
        }
    }

    fn spoil_stmt(&mut self, program: &mut Program) {
        let names = program.names.len();
        let mut count = 0;
        each_stmt(program, &mut |_| count += 1);
        if count == 0 {
            return;
        }
        let chosen = self.rng.below(count);
        let mut at = 0;
        each_stmt(program, &mut |stmt| {
            if at == chosen {
                self.change(stmt, names);
            }
            at += 1;
        });
    }

    fn change(&mut self, stmt: &mut Stmt, names: usize) {
        let vars: Vec<u16> = (0..names as u16).collect();
        let free = self.any(names);
        let then = stmt.clone();
        match &mut stmt.action {
            Action::U { angles, .. } => angles[self.rng.below(3)] = self.expr(&vars),
            Action::If(condition) => condition.value = self.value(),
            Action::Call(call) => match self.rng.below(4) {
                0 => call.name.name = free,
                1 => call.params.push(self.expr(&vars)),
                2 => call.args.push(self.operand(free, None)),
                _ => drop(call.args.pop()),
            },
            Action::Measure { from, to } => std::mem::swap(from, to),
            action => *action = self.wild_condition(names, then),
        }
    }

    /// A copy of a declaration somewhere, with a span of its own: a redefinition, or a statement run twice.
    fn repeat_decl(&mut self, program: &mut Program) {
        if program.decls.is_empty() {
            return;
        }
        let mut copy = self.rng.pick(&program.decls).clone();
        match &mut copy {
            Decl::Include(file) => file.span = self.span(),
            Decl::Register(register) => {
                register.span = self.span();
                register.operand.span = self.span();
            }
            Decl::Gate(gate) => gate.span = self.span(),
            Decl::Stmt(stmt) => stmt.span = self.span(),
        }
        let at = self.rng.below(program.decls.len() + 1);
        program.decls.insert(at, copy);
    }

    fn wild_in_body(&mut self, program: &mut Program) {
        let names = program.names.len();
        let mut gates: Vec<&mut Gate> = program.decls.iter_mut().filter_map(gate).collect();
        if gates.is_empty() {
            return;
        }
        let chosen = self.rng.below(gates.len());
        let body = gates[chosen].body.get_or_insert_with(Vec::new);
        let at = self.rng.below(body.len() + 1);
        body.insert(at, self.wild_stmt(names));
    }
}

fn register(decl: &mut Decl) -> Option<&mut Register> {
    match decl {
        Decl::Register(register) => Some(register),
        _ => None,
    }
}

fn gate(decl: &mut Decl) -> Option<&mut Gate> {
    match decl {
        Decl::Gate(gate) => Some(gate),
        _ => None,
    }
}

/// Visits every statement, what an IF governs before the IF.
fn each_stmt(program: &mut Program, visit: &mut dyn FnMut(&mut Stmt)) {
    fn within(stmt: &mut Stmt, visit: &mut dyn FnMut(&mut Stmt)) {
        if let Action::If(condition) = &mut stmt.action {
            within(&mut condition.then, visit);
        }
        visit(stmt);
    }
    for decl in &mut program.decls {
        match decl {
            Decl::Stmt(stmt) => within(stmt, visit),
            Decl::Gate(gate) => gate.body.iter_mut().flatten().for_each(|stmt| within(stmt, visit)),
            Decl::Include(_) | Decl::Register(_) => (),
        }
    }
}

/// Visits every operand of every statement.
fn each_operand(program: &mut Program, visit: &mut dyn FnMut(&mut Operand)) {
    each_stmt(program, &mut |stmt| match &mut stmt.action {
        Action::U { reg, .. } | Action::Reset { reg } => visit(reg),
        Action::Cx { copy: first, xor: second } | Action::Measure { from: first, to: second } => {
            visit(first);
            visit(second);
        }
        Action::Barrier { regs } => regs.iter_mut().for_each(&mut *visit),
        Action::Call(call) => call.args.iter_mut().for_each(&mut *visit),
        Action::If(condition) => visit(&mut condition.reg),
    });
}
