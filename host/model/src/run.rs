//! The run of an admitted program: totals of bits, count of entries, the entries. A program that check finds no error in never gets
//! stuck, so the lookups here insist on what they find.

use crate::ast::*;
use crate::bytes::{field, Bytes};
use crate::calls::Calls;
use crate::order::order;

#[derive(Debug, Clone, PartialEq, Eq)]
pub enum Entry {
    U(u32),
    Cx(u32, u32),
    Measure(u32, u32),
    Reset(u32),
    BarrierQubit(u32),
    BarrierEnd,
    Opaque(u16, Vec<u32>),
    If { first: u32, width: u32, value: u64 },
    IfEnd,
}

impl Entry {
    pub fn encode(&self) -> Vec<u8> {
        field(self.tag(), &self.payload())
    }

    fn tag(&self) -> u8 {
        match self {
            Entry::U(_) => 32,
            Entry::Cx(..) => 33,
            Entry::Measure(..) => 34,
            Entry::Reset(_) => 35,
            Entry::BarrierQubit(_) => 36,
            Entry::BarrierEnd => 37,
            Entry::Opaque(..) => 38,
            Entry::If { .. } => 39,
            Entry::IfEnd => 40,
        }
    }

    fn payload(&self) -> Vec<u8> {
        let mut out = Bytes::default();
        match self {
            Entry::U(qubit) | Entry::Reset(qubit) | Entry::BarrierQubit(qubit) => out.u32(*qubit),
            Entry::Cx(first, second) | Entry::Measure(first, second) => out.u32(*first).u32(*second),
            Entry::Opaque(name, qubits) => qubits.iter().fold(out.u16(*name), |out, qubit| out.u32(*qubit)),
            Entry::If { first, width, value } => out.u32(*first).u32(*width).u64(*value),
            Entry::BarrierEnd | Entry::IfEnd => &mut out,
        };
        out.0
    }
}

/// Quantum and classical bits in all.
pub fn totals(program: &Program) -> (u128, u128) {
    let total = |kind| {
        let sizes = program.registers().filter(|register| register.kind == kind);
        sizes.map(|register| u128::from(register.size())).sum()
    };
    (total(Kind::Quantum), total(Kind::Classical))
}

/// A name's bits: the first one's number and how many there are.
#[derive(Debug, Clone, Copy)]
struct Bits {
    name: u16,
    first: u64,
    size: u64,
}

/// "Quantum bits are numbered across QREGs in declaration order from 0, classical bits likewise."
fn top_scope(program: &Program) -> Vec<Bits> {
    let (mut quantum, mut classical) = (0, 0);
    let number = |register: &Register| {
        let next = if register.kind == Kind::Quantum { &mut quantum } else { &mut classical };
        let first = *next;
        *next += register.size();
        Bits { name: register.operand.name, first, size: register.size() }
    };
    program.registers().map(number).collect()
}

fn find(scope: &[Bits], operand: &Operand) -> Bits {
    let bits = scope.iter().find(|bits| bits.name == operand.name).expect("a declared name");
    match operand.index {
        None => *bits,
        Some(index) => Bits { name: bits.name, first: bits.first + index, size: 1 },
    }
}

/// The operands that a statement is repeated over.
fn operands(action: &Action) -> Vec<&Operand> {
    match action {
        Action::U { reg, .. } | Action::Reset { reg } => vec![reg],
        Action::Cx { copy, xor } => vec![copy, xor],
        Action::Measure { from, to } => vec![from, to],
        Action::Call(call) => call.args.iter().collect(),
        Action::Barrier { .. } | Action::If(_) => Vec::new(),
    }
}

/// "once if all operands have size 1, else for j from 0 below the common size"
fn times(bits: &[Bits]) -> u64 {
    bits.iter().map(|bits| bits.size).find(|&size| size != 1).unwrap_or(1)
}

/// The number of entries of the run, held at u64's highest number where it is greater. It is worked out once a gate, so that
/// programs whose run is out of reach are counted all the same.
pub fn count(program: &Program) -> u64 {
    let counts = gate_counts(program);
    let scope = top_scope(program);
    let calls = Calls::of(program);
    let each = |stmt: &Stmt| count_stmt(&calls, &counts, &scope, stmt);
    program.statements().map(each).fold(0, u64::saturating_add)
}

/// The number of entries that one run of each gate's body yields, 1 for an opaque gate.
fn gate_counts(program: &Program) -> Vec<u64> {
    let calls = Calls::of(program);
    let mut counts = vec![0; calls.gates.len()];
    for number in order(program) {
        let gate = calls.gates[number];
        let scope = body_scope(gate, &vec![0; gate.args.len()]);
        let each = |stmt: &Stmt| count_stmt(&calls, &counts, &scope, stmt);
        let body = gate.statements().iter().map(each).fold(0, u64::saturating_add);
        counts[number] = if gate.body.is_some() { body } else { 1 };
    }
    counts
}

fn count_stmt(calls: &Calls, counts: &[u64], scope: &[Bits], stmt: &Stmt) -> u64 {
    let bits: Vec<Bits> = operands(&stmt.action).into_iter().map(|operand| find(scope, operand)).collect();
    match &stmt.action {
        Action::Barrier { regs } => 1 + regs.iter().map(|reg| find(scope, reg).size).sum::<u64>(),
        Action::If(condition) => count_stmt(calls, counts, scope, &condition.then).saturating_add(2),
        Action::Call(call) => {
            let gate = calls.number(call.name.name).expect("a declared gate");
            times(&bits).saturating_mul(counts[gate])
        }
        _ => times(&bits),
    }
}

fn body_scope(gate: &Gate, qubits: &[u64]) -> Vec<Bits> {
    let bind = |(arg, qubit): (&Symbol, &u64)| Bits { name: arg.name, first: *qubit, size: 1 };
    gate.args.iter().zip(qubits).map(bind).collect()
}

/// The entries of the run. Only asked where the count is small.
pub fn entries(program: &Program) -> Vec<Entry> {
    let mut run = Run { calls: Calls::of(program), counts: gate_counts(program), entries: Vec::new() };
    let scope = top_scope(program);
    program.statements().for_each(|stmt| run.stmt(&scope, stmt));
    run.entries
}

struct Run<'a> {
    calls: Calls<'a>,
    counts: Vec<u64>,
    entries: Vec<Entry>,
}

impl Run<'_> {
    fn stmt(&mut self, scope: &[Bits], stmt: &Stmt) {
        match &stmt.action {
            Action::Barrier { regs } => self.barrier(scope, regs),
            Action::If(condition) => {
                let bits = find(scope, &condition.reg);
                let (first, width) = (bits.first as u32, bits.size as u32);
                self.entries.push(Entry::If { first, width, value: condition.value });
                self.stmt(scope, &condition.then);
                self.entries.push(Entry::IfEnd);
            }
            action => {
                let bits: Vec<Bits> =
                    operands(action).into_iter().map(|operand| find(scope, operand)).collect();
                for j in 0..times(&bits) {
                    let pick = |bits: &Bits| if bits.size == 1 { bits.first } else { bits.first + j };
                    self.once(action, &bits.iter().map(pick).collect::<Vec<u64>>());
                }
            }
        }
    }

    /// "one barrier qubit each, operand by operand, lowest first within one"
    fn barrier(&mut self, scope: &[Bits], regs: &[Operand]) {
        for reg in regs {
            let bits = find(scope, reg);
            let qubits = bits.first..bits.first + bits.size;
            self.entries.extend(qubits.map(|qubit| Entry::BarrierQubit(qubit as u32)));
        }
        self.entries.push(Entry::BarrierEnd);
    }

    /// One run of a statement, its operands being these bits. Totals are at most 4,096 here, so bit numbers fit.
    fn once(&mut self, action: &Action, bits: &[u64]) {
        let bit = |at: usize| bits[at] as u32;
        match action {
            Action::U { .. } => self.entries.push(Entry::U(bit(0))),
            Action::Cx { .. } => self.entries.push(Entry::Cx(bit(0), bit(1))),
            Action::Measure { .. } => self.entries.push(Entry::Measure(bit(0), bit(1))),
            Action::Reset { .. } => self.entries.push(Entry::Reset(bit(0))),
            Action::Call(call) => self.call(call, bits),
            Action::Barrier { .. } | Action::If(_) => unreachable!("these run once, by themselves"),
        }
    }

    /// A gate that yields no entries is not entered: there may be more ways through such gates than can be walked.
    fn call(&mut self, call: &Call, bits: &[u64]) {
        let number = self.calls.number(call.name.name).expect("a declared gate");
        let gate = self.calls.gates[number];
        if gate.body.is_none() {
            let qubits = bits.iter().map(|&bit| bit as u32).collect();
            self.entries.push(Entry::Opaque(call.name.name, qubits));
        } else if self.counts[number] > 0 {
            let scope = body_scope(gate, bits);
            gate.statements().iter().for_each(|stmt| self.stmt(&scope, stmt));
        }
    }
}
