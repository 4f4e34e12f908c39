//! Small programs written by hand: the specimens of 01 and the places where a wrong build would go astray.

use crate::ast::*;
use crate::build::*;

/// Every specimen whose image is small, for the list of the Rust's answers.
pub fn all() -> Vec<Program> {
    let mut all = vec![Program::default(), undeclared(), broadcast(), repeated_parameters()];
    all.extend([&[1, 3, 1][..], &[3, 2], &[0, 5], &[5, 0], &[1, 0, 2], &[2, 1, 2, 3]].map(matching));
    for (size, value) in [(2, 3), (2, 4), (1, 2), (0, 0), (0, 1), (63, 1 << 63), (63, u64::MAX), (3, 9)] {
        all.push(comparison(size, value));
    }
    all.extend([index(3, 2), index(3, 3), index(0, 0)]);
    all.extend([nested(16, 1), nested(2, 0), operand_then_angle(), classical_in_body(), wrong_kinds()]);
    all.extend([later_register(0), later_register(3), repeated_arguments(), redefined_arity()]);
    all.extend(recursions());
    all
}

/// Recursion in every shape.
fn recursions() -> Vec<Program> {
    let edges: [&[(u16, u16)]; 12] = [
        &[(0, 0)],
        &[(0, 1), (1, 0)],
        &[(0, 0), (0, 0)],
        &[(0, 1), (1, 1), (0, 0)],
        &[(1, 1), (2, 2)],
        &[(0, 1), (1, 2), (2, 0), (0, 2)],
        &[(0, 1), (1, 0), (2, 3), (3, 2)],
        &[(3, 2), (2, 1), (1, 3)],
        &[(0, 1), (1, 2), (2, 1)],
        &[(2, 1), (1, 0)],
        &[(0, 2), (0, 1), (1, 3), (2, 3), (3, 0)],
        &[(0, 3), (3, 0), (0, 1), (1, 2), (2, 0)],
    ];
    let mut all: Vec<Program> = edges.iter().map(|edges| calling(4, edges)).collect();
    all.extend([redefinition_closes(), wrong_arity_in_cycle(), call_under_if(), undeclared_call()]);
    all
}

/// U on undeclared q: the specimen that 01 gives byte by byte.
pub fn undeclared() -> Program {
    let action = Action::U { reg: whole(2, 0), angles: pis(3) };
    Program { names: vec![b"q".to_vec()], decls: vec![Decl::Stmt(stmt(1, action))] }
}

/// q of size 2, U on q.
pub fn broadcast() -> Program {
    let u = stmt(3, Action::U { reg: whole(4, 0), angles: pis(5) });
    program(1, vec![register(1, Kind::Quantum, 0, 2), Decl::Stmt(u)])
}

/// A call of an opaque gate on registers of these sizes; the operands' spans are 502 and on.
pub fn matching(sizes: &[u64]) -> Program {
    let names: Vec<u16> = (0..sizes.len() as u16).collect();
    let gate_name = sizes.len() as u16;
    let mut decls: Vec<Decl> = names
        .iter()
        .zip(sizes)
        .map(|(&name, &size)| register(u32::from(name) * 2 + 1, Kind::Quantum, name, size))
        .collect();
    decls.push(gate(100, gate_name, &[], &names, None));
    decls.push(Decl::Stmt(call(500, gate_name, &names)));
    program(sizes.len() + 1, decls)
}

/// A register of this size compared with this value; the IF's span is 3.
pub fn comparison(size: u64, value: u64) -> Program {
    let compared = condition(3, 0, value, empty_barrier(6));
    program(1, vec![register(1, Kind::Classical, 0, size), Decl::Stmt(compared)])
}

/// One bit of a register.
pub fn index(size: u64, index: u64) -> Program {
    let reg = Operand { span: 4, name: 0, index: Some(index) };
    program(1, vec![register(1, Kind::Quantum, 0, size), Decl::Stmt(stmt(3, Action::Reset { reg }))])
}

/// A gate with parameters x, x, x, whose spans are 3, 4, 5.
pub fn repeated_parameters() -> Program {
    program(2, vec![gate(1, 0, &[1, 1, 1], &[], None)])
}

/// Gates that call each other so; each gate's span is 100 times its number and 1 more, each call's 1,000 and 10 for each before it.
pub fn calling(gates: u16, edges: &[(u16, u16)]) -> Program {
    let calls: Vec<(u16, Stmt)> =
        (1_000..).step_by(10).zip(edges).map(|(span, edge)| (edge.0, call(span, edge.1, &[]))).collect();
    let body = |from: u16| calls.iter().filter(|call| call.0 == from).map(|call| call.1.clone()).collect();
    let decl = |from: u16| gate(u32::from(from) * 100 + 1, from, &[], &[], Some(body(from)));
    program(usize::from(gates), (0..gates).map(decl).collect())
}

/// a calls b, b is empty, and a second b calls a.
pub fn redefinition_closes() -> Program {
    program(
        2,
        vec![
            gate(100, 0, &[], &[], Some(vec![call(1, 1, &[])])),
            gate(200, 1, &[], &[], Some(Vec::new())),
            gate(300, 1, &[], &[], Some(vec![call(11, 0, &[])])),
        ],
    )
}

/// a, which takes an argument, calls itself with none.
pub fn wrong_arity_in_cycle() -> Program {
    program(2, vec![gate(100, 0, &[], &[1], Some(vec![call(1, 0, &[])]))])
}

/// a calls itself under an IF that errs.
fn call_under_if() -> Program {
    program(2, vec![gate(100, 0, &[], &[], Some(vec![condition(1, 1, 0, call(5, 0, &[]))]))])
}

/// a calls b, which is not declared, and itself after that.
fn undeclared_call() -> Program {
    program(2, vec![gate(100, 0, &[], &[], Some(vec![call(1, 1, &[]), call(5, 0, &[])]))])
}

/// IFs in a row, each comparing one bit with this value and one more than the IF that it stands in.
fn nested(ifs: u32, value: u64) -> Program {
    let wrap = |then: Stmt, number: u32| condition(10 * number + 10, 0, value + u64::from(number), then);
    let row = (0..ifs).fold(empty_barrier(5), wrap);
    program(1, vec![register(1, Kind::Classical, 0, 1), Decl::Stmt(row)])
}

/// Errors in the operands and in the angles: the operands' come first.
fn operand_then_angle() -> Program {
    let angles = [3, 4, 5].map(|span| expr(span, Node::Var(0)));
    let u = stmt(1, Action::U { reg: whole(2, 0), angles });
    let name = symbol(11, 0);
    let params = vec![expr(13, Node::Var(0))];
    let called = stmt(10, Action::Call(Call { name, args: vec![whole(12, 0)], params }));
    program(1, vec![Decl::Stmt(u), Decl::Stmt(called)])
}

/// MEASURE and IF in a body, where nothing classical exists, though a register at the top level has that name.
fn classical_in_body() -> Program {
    let measure = stmt(10, Action::Measure { from: whole(11, 1), to: whole(12, 1) });
    let body = vec![measure, condition(20, 2, 0, empty_barrier(25))];
    program(3, vec![register(1, Kind::Classical, 2, 1), gate(100, 0, &[], &[1], Some(body))])
}

/// A classical register where a quantum one is wanted and the other way round, with an index outside that is not reported then.
fn wrong_kinds() -> Program {
    let reset = stmt(10, Action::Reset { reg: Operand { span: 11, name: 0, index: Some(9) } });
    let compared = condition(20, 1, 9, empty_barrier(25));
    let decls = vec![register(1, Kind::Classical, 0, 2), register(3, Kind::Quantum, 1, 2)];
    program(2, [decls, vec![Decl::Stmt(reset), Decl::Stmt(compared)]].concat())
}

/// A register used before it stands, declared twice: the later one, of this size, wins.
fn later_register(size: u64) -> Program {
    let reset = stmt(10, Action::Reset { reg: Operand { span: 11, name: 0, index: Some(2) } });
    let decls = vec![register(1, Kind::Quantum, 0, 5), register(3, Kind::Quantum, 0, size)];
    program(1, [vec![Decl::Stmt(reset)], decls].concat())
}

/// An argument named three times and used with an index outside: the last span is the definition.
fn repeated_arguments() -> Program {
    let reset = stmt(10, Action::Reset { reg: Operand { span: 11, name: 1, index: Some(1) } });
    program(2, vec![gate(100, 0, &[], &[1, 1, 1], Some(vec![reset]))])
}

/// A gate redefined with other counts, its repeated names unreported: calls are held to the first entry's.
fn redefined_arity() -> Program {
    let decls = vec![gate(100, 0, &[], &[1], None), gate(200, 0, &[1], &[1, 1], None)];
    let calls = [&[1][..], &[1, 1]].map(|args| Decl::Stmt(call(10 * args.len() as u32, 0, args)));
    program(2, [decls, vec![register(1, Kind::Quantum, 1, 1)], calls.to_vec()].concat())
}

/// A register of so many bits, used nowhere.
pub fn bits(kind: Kind, size: u64) -> Program {
    program(1, vec![register(1, kind, 0, size)])
}

/// A run of 4,096 entries and so many more.
pub fn entries(more: usize) -> Program {
    let u = stmt(3, Action::U { reg: whole(4, 0), angles: pis(5) });
    let decls = vec![register(1, Kind::Quantum, 0, 4_096), Decl::Stmt(u)];
    program(1, [decls, vec![Decl::Stmt(empty_barrier(9)); more]].concat())
}

/// 100 gates, each calling the one before it twice; the first one's body is empty or not. The top level calls the last.
pub fn doubling(empty: bool) -> Program {
    let bottom = if empty { Vec::new() } else { vec![empty_barrier(1)] };
    let twice = |name: u16| vec![call(2, name - 1, &[]), call(5, name - 1, &[])];
    let body = |name: u16| if name == 0 { bottom.clone() } else { twice(name) };
    let gates = (0..100).map(|name| gate(100 + u32::from(name), name, &[], &[], Some(body(name))));
    let decls = gates.chain([Decl::Stmt(call(9, 99, &[]))]).collect();
    program(100, decls)
}
