//! The programs on which the Rust is asked: "The Rust's shift fails from size 64 on [...] The oracle domain leaves these out, and
//! names that aren't UTF-8."

use model::ast::{Action, Kind, Program, Stmt};
use model::check::Scope;

#[derive(Debug, Clone, Copy, PartialEq, Eq)]
pub enum LeftOut {
    /// A name is not UTF-8.
    Name,
    /// An IF compares an operand of 64 bits or more.
    Shift,
}

/// Why a program is left out; none if it is in the domain.
pub fn left_out(program: &Program) -> Option<LeftOut> {
    if program.names.iter().any(|name| std::str::from_utf8(name).is_err()) {
        return Some(LeftOut::Name);
    }
    let top = Scope::top(program);
    let shifted = program.statements().any(|stmt| shifts(&top, stmt))
        || program.gates().any(|gate| {
            let body = Scope::body(gate);
            gate.statements().iter().any(|stmt| shifts(&body, stmt))
        });
    shifted.then_some(LeftOut::Shift)
}

fn shifts(scope: &Scope, stmt: &Stmt) -> bool {
    let Action::If(condition) = &stmt.action else { return false };
    let size = scope.size(&condition.reg, Kind::Classical, stmt.span);
    size.is_ok_and(|size| size >= 64) || shifts(scope, &condition.then)
}
