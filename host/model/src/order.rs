//! The order of gates, callees first.

use crate::ast::Program;
use crate::calls::Calls;

/// "at each place the lowest gate not yet placed whose callees all are". Only asked of programs without recursion.
pub fn order(program: &Program) -> Vec<usize> {
    let calls = Calls::of(program);
    let earliest = calls.earliest();
    let size = calls.gates.len();
    let mut order: Vec<usize> = Vec::new();
    while order.len() < size {
        let ready = |gate: usize| (0..size).all(|to| earliest[gate][to].is_none() || order.contains(&to));
        let next = (0..size).find(|&gate| !order.contains(&gate) && ready(gate));
        order.push(next.expect("without recursion some gate is ready"));
    }
    order
}
