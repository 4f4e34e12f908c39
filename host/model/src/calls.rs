//! The graph of calls: "gates are numbered by first entries", a redefinition's calls count as the first entry's, and a call to a
//! declared gate counts whatever its arity.

use crate::ast::{Action, Gate, Program, Stmt};

pub struct Calls<'a> {
    /// The first entry of each gate name, by gate number.
    pub gates: Vec<&'a Gate>,
    /// Every call from a body to a declared gate, in image order.
    pub calls: Vec<Edge>,
}

#[derive(Debug, Clone, Copy, PartialEq, Eq)]
pub struct Edge {
    pub from: usize,
    pub to: usize,
    pub span: u32,
}

/// A step of a cycle: the gate reached and the span of the call that reached it.
#[derive(Debug, Clone, Copy, PartialEq, Eq)]
pub struct Step {
    pub gate: usize,
    pub call: u32,
}

impl<'a> Calls<'a> {
    pub fn of(program: &'a Program) -> Calls<'a> {
        let mut this = Calls { gates: Vec::new(), calls: Vec::new() };
        for gate in program.gates() {
            if this.number(gate.name.name).is_none() {
                this.gates.push(gate);
            }
        }
        for gate in program.gates() {
            let from = this.number(gate.name.name).expect("every gate has a first entry");
            gate.statements().iter().for_each(|stmt| this.add(from, stmt));
        }
        this
    }

    fn add(&mut self, from: usize, stmt: &Stmt) {
        match &stmt.action {
            Action::Call(call) => {
                if let Some(to) = self.number(call.name.name) {
                    self.calls.push(Edge { from, to, span: stmt.span });
                }
            }
            Action::If(condition) => self.add(from, &condition.then),
            _ => (),
        }
    }

    /// The number of the gate with this name.
    pub fn number(&self, name: u16) -> Option<usize> {
        self.gates.iter().position(|gate| gate.name.name == name)
    }

    /// At [from][to] the span of the earliest call in image order.
    pub fn earliest(&self) -> Vec<Vec<Option<u32>>> {
        let mut table = vec![vec![None; self.gates.len()]; self.gates.len()];
        for edge in &self.calls {
            table[edge.from][edge.to].get_or_insert(edge.span);
        }
        table
    }

    /// At [from][to] whether some calls, one or more, lead there.
    fn reach(&self) -> Vec<Vec<bool>> {
        let size = self.gates.len();
        let mut reach = vec![vec![false; size]; size];
        self.calls.iter().for_each(|edge| reach[edge.from][edge.to] = true);
        for middle in 0..size {
            let onward = reach[middle].clone();
            for row in reach.iter_mut().filter(|row| row[middle]) {
                (0..size).for_each(|to| row[to] |= onward[to]);
            }
        }
        reach
    }

    /// The groups with a cycle, by lowest gate; the gates of each in rising order.
    pub fn groups(&self) -> Vec<Vec<usize>> {
        let reach = self.reach();
        let size = self.gates.len();
        let together = |a: usize, b: usize| reach[a][b] && reach[b][a];
        (0..size)
            .filter(|&lead| reach[lead][lead] && !(0..lead).any(|lower| together(lower, lead)))
            .map(|lead| (lead..size).filter(|&gate| together(lead, gate)).collect())
            .collect()
    }

    /// The cycle that 01 fixes: it "starts and ends at that gate, is the shortest, and among those has the lowest next gate at
    /// each step".
    pub fn cycle(&self, lead: usize) -> Vec<Step> {
        let earliest = self.earliest();
        let away = distances(&earliest, lead);
        let mut steps = Vec::new();
        let mut at = lead;
        loop {
            let next = (0..self.gates.len())
                .filter(|&gate| earliest[at][gate].is_some() && away[gate].is_some())
                .min_by_key(|&gate| (away[gate], gate))
                .expect("the gate is on a cycle");
            steps.push(Step { gate: next, call: earliest[at][next].expect("there is a call") });
            at = next;
            if at == lead {
                return steps;
            }
        }
    }
}

/// For each gate the least number of calls that lead from it to `goal`; none where none do.
fn distances(earliest: &[Vec<Option<u32>>], goal: usize) -> Vec<Option<usize>> {
    let mut away = vec![None; earliest.len()];
    away[goal] = Some(0);
    for step in 1..earliest.len() {
        for gate in 0..earliest.len() {
            let near = |to: usize| earliest[gate][to].is_some() && away[to] == Some(step - 1);
            if away[gate].is_none() && (0..earliest.len()).any(near) {
                away[gate] = Some(step);
            }
        }
    }
    away
}
