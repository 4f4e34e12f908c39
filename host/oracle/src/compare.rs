//! The comparison that 01 asks for: error fields byte for byte up to recursion; for recursion "the number of groups is compared, that
//! each Rust cycle lies in a group of ours of its own, and that each shown cycle is real".

use crate::verdict::{verdict, Step, Verdict};
use model::ast::Program;
use model::calls::Calls;
use model::check;
use model::errors::{encode, Error};

#[derive(Debug, Clone, PartialEq, Eq)]
pub enum Difference {
    /// The error fields up to recursion.
    Fields { ours: Vec<u8>, rust: Vec<u8> },
    /// An error of ours after a recursion.
    Order,
    /// The numbers of groups: in the graph of calls, listed by us, listed by the Rust.
    Groups { graph: usize, ours: usize, rust: usize },
    /// A cycle of ours that is none, or not one of its group.
    OurCycle(Vec<(u32, u32)>),
    /// A cycle of the Rust that is none, or that lies in no group of its own.
    RustCycle(Vec<(u32, u32)>),
}

/// The model's list against the Rust's, on a program of the domain.
pub fn agrees(program: &Program) -> Result<(), Difference> {
    compare(program, &check::errors(program))
}

/// Some list of ours against the Rust's, on a program of the domain.
pub fn compare(program: &Program, ours: &[Error]) -> Result<(), Difference> {
    judge(program, ours, &verdict(program).expect("a program of the domain"))
}

/// Some list of ours against what the Rust said.
pub fn judge(program: &Program, ours: &[Error], rust: &Verdict) -> Result<(), Difference> {
    let end = ours.iter().position(|error| cycle(error).is_some()).unwrap_or(ours.len());
    let (errors, recursion) = ours.split_at(end);
    let (ours, rust_fields) = (encode(errors), encode(&rust.errors));
    if ours != rust_fields {
        return Err(Difference::Fields { ours, rust: rust_fields });
    }
    let cycles: Vec<_> = recursion.iter().filter_map(cycle).collect();
    if cycles.len() != recursion.len() {
        return Err(Difference::Order);
    }
    recursion_agrees(&Calls::of(program), &cycles, &rust.cycles)
}

fn cycle(error: &Error) -> Option<&Vec<(u32, u32)>> {
    match error {
        Error::RecursiveDefinition { cycle } => Some(cycle),
        _ => None,
    }
}

fn recursion_agrees(calls: &Calls, ours: &[&Vec<(u32, u32)>], rust: &[Vec<Step>]) -> Result<(), Difference> {
    let groups = calls.groups();
    if groups.len() != ours.len() || groups.len() != rust.len() {
        return Err(Difference::Groups { graph: groups.len(), ours: ours.len(), rust: rust.len() });
    }
    for (group, cycle) in groups.iter().zip(ours) {
        if !leads_back(calls, group, cycle) {
            return Err(Difference::OurCycle(cycle.to_vec()));
        }
    }
    let mut free = groups;
    for cycle in rust {
        let home = free.iter().position(|group| cycle.iter().all(|step| group.contains(&step.gate)));
        match home {
            Some(home) if is_real(calls, cycle) => drop(free.remove(home)),
            _ => {
                return Err(Difference::RustCycle(
                    cycle.iter().map(|step| (step.def, step.call.span)).collect(),
                ))
            }
        }
    }
    Ok(())
}

/// Whether calls of the group with these spans lead from its lowest gate back to it. Spans may repeat, so all gates that fit are
/// followed.
fn leads_back(calls: &Calls, group: &[usize], cycle: &[(u32, u32)]) -> bool {
    let mut at = vec![group[0]];
    for (def, call) in cycle {
        let fits = |to: usize| group.contains(&to) && calls.gates[to].span == *def;
        let steps = calls.calls.iter().filter(|edge| edge.span == *call && at.contains(&edge.from));
        at = steps.map(|edge| edge.to).filter(|&to| fits(to)).collect();
    }
    !cycle.is_empty() && at.contains(&group[0])
}

/// Whether each call shown is a call from the gate before to the gate shown, the last one being the gate before the first.
fn is_real(calls: &Calls, cycle: &[Step]) -> bool {
    let Some(last) = cycle.last() else { return false };
    let befores = std::iter::once(last.gate).chain(cycle.iter().map(|step| step.gate));
    befores.zip(cycle).all(|(before, step)| {
        let joins = step.call.from == before && step.call.to == step.gate;
        joins && calls.calls.contains(&step.call) && calls.gates[step.gate].span == step.def
    })
}
