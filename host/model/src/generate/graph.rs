//! Gates that call each other in the shapes that matter to recursion.

use super::maker::{Maker, Size};
use super::rng::Rng;
use crate::ast::*;

pub fn graph(rng: &mut Rng, size: Size) -> Program {
    let mut maker = Maker::new(rng, size);
    let gates = maker.rng.between(1, maker.size.gates.max(2) + 2);
    let edges = maker.edges(gates);
    let names = maker.names(gates + 1);
    let mut decls = Vec::new();
    for gate in 0..gates {
        let callees: Vec<usize> = edges.iter().filter(|edge| edge.0 == gate).map(|edge| edge.1).collect();
        maker.split(gate, &callees, &mut decls);
    }
    if maker.rng.chance(2) {
        let callee = maker.rng.below(gates);
        decls.push(Decl::Stmt(maker.call_of(callee)));
    }
    maker.rng.shuffle(&mut decls);
    Program { names, decls }
}

impl Maker<'_> {
    /// Calls as pairs of gates, gates being numbers for the time being.
    fn edges(&mut self, gates: usize) -> Vec<(usize, usize)> {
        let mut edges = Vec::new();
        match self.rng.below(6) {
            0 => edges.extend((0..gates).filter(|_| self.rng.chance(2)).map(|gate| (gate, gate))),
            1 => edges.extend(ring(0, gates)),
            2 => {
                // Two rings that share no gate.
                let middle = self.rng.below(gates) + 1;
                edges.extend(ring(0, middle));
                edges.extend(ring(middle, gates));
            }
            3 => {
                // A chain into a ring: none of its gates is in the group.
                let middle = self.rng.below(gates);
                edges.extend((0..middle).map(|gate| (gate, gate + 1)));
                edges.extend(ring(middle, gates));
            }
            4 => {
                // Calls to lower gates only: no recursion.
                edges.extend((1..gates).map(|gate| (gate, self.rng.below(gate))));
            }
            _ => {
                let count = self.rng.between(0, gates * 2);
                edges.extend((0..count).map(|_| (self.rng.below(gates), self.rng.below(gates))));
            }
        }
        self.confuse(gates, &mut edges);
        edges
    }

    /// Renumbers the gates, repeats some calls and adds a stray one now and then.
    fn confuse(&mut self, gates: usize, edges: &mut Vec<(usize, usize)>) {
        let mut renumbered: Vec<usize> = (0..gates).collect();
        self.rng.shuffle(&mut renumbered);
        for edge in edges.iter_mut() {
            *edge = (renumbered[edge.0], renumbered[edge.1]);
        }
        for at in 0..edges.len() {
            if self.rng.chance(4) {
                edges.push(edges[at]);
            }
        }
        if self.rng.chance(4) {
            edges.push((self.rng.below(gates), self.rng.below(gates)));
        }
        self.rng.shuffle(edges);
    }

    /// A gate's definition with its calls. Once in five it is split in two, so that a redefinition may be what closes a cycle.
    fn split(&mut self, gate: usize, callees: &[usize], decls: &mut Vec<Decl>) {
        let middle = if self.rng.chance(5) { self.rng.below(callees.len() + 1) } else { callees.len() };
        decls.push(Decl::Gate(self.calling_gate(gate, &callees[..middle])));
        if middle < callees.len() || self.rng.chance(12) {
            decls.push(Decl::Gate(self.calling_gate(gate, &callees[middle..])));
        }
    }

    fn calling_gate(&mut self, gate: usize, callees: &[usize]) -> Gate {
        let (span, name) = (self.span(), self.symbol(gate as u16));
        // A parameter now and then, so that the calls to this gate have a wrong count.
        let params: Vec<u16> = if self.rng.chance(6) { vec![gate as u16] } else { Vec::new() };
        let params = self.symbols(&params);
        let body = callees.iter().map(|&callee| self.call_of(callee)).collect();
        let body = if callees.is_empty() && self.rng.chance(3) { None } else { Some(body) };
        Gate { span, name, params, args: Vec::new(), body }
    }

    /// A call without operands, now and then with a wrong one, or under IF.
    fn call_of(&mut self, callee: usize) -> Stmt {
        let callee = callee as u16;
        let args = if self.rng.chance(8) { vec![self.operand(callee, None)] } else { Vec::new() };
        let call = Action::Call(Call { name: self.symbol(callee), args, params: Vec::new() });
        let call = self.stmt(call);
        if !self.rng.chance(10) {
            return call;
        }
        let condition = self.wild_condition(usize::from(callee) + 1, call);
        self.stmt(condition)
    }
}

/// Each gate from `low` to below `high` calls the next, the last one the first.
fn ring(low: usize, high: usize) -> Vec<(usize, usize)> {
    (low..high).map(|gate| (gate, if gate + 1 == high { low } else { gate + 1 })).collect()
}
