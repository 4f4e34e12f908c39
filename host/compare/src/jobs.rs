//! The jobs of the benchmark: images as large as they may be, each of one kind.

use model::ast::*;
use model::build::*;
use model::flatten::flatten;
use model::form::{limit, tag};
use model::generate::Rng;
use model::specimens::calling;

pub struct Job {
    pub what: &'static str,
    pub program: Program,
}

impl Job {
    pub fn image(&self) -> Vec<u8> {
        flatten(&self.program)
    }
}

/// What check is measured on.
pub fn checks() -> Vec<Job> {
    let job = |what, program| Job { what, program };
    vec![
        job("U, CALL and CX without errors", valid()),
        job("an error or more in every statement", wrong()),
        job("512 names of 64 bytes, alike in 60", long_names()),
        job("128 gates with bodies", bodies()),
        job("calls to later gates", graph(later)),
        job("calls to earlier gates", graph(earlier)),
        job("calls to earlier gates, gates shuffled", graph(shuffled)),
        job("calls around one ring", graph(ring)),
        job("calls around, each gate in many rings", graph(around)),
        job("calls between two gates each", graph(pairs)),
    ]
}

/// What order is measured on: gates without recursion, as many calls as fit.
pub fn orders() -> Vec<Job> {
    let job = |what, program| Job { what, program };
    vec![
        job("calls to later gates", graph(later)),
        job("calls to earlier gates", graph(earlier)),
        job("calls to earlier gates, gates shuffled", graph(shuffled)),
    ]
}

/// The program with as many more declarations as its image has room for.
fn filled(mut program: Program, more: impl Fn(usize) -> Decl) -> Program {
    let mut length = flatten(&program).len();
    for number in 0.. {
        let decl = more(number);
        length += flatten(&Program { names: Vec::new(), decls: vec![decl.clone()] }).len();
        if length > limit::IMAGE {
            break;
        }
        program.decls.push(decl);
    }
    program
}

/// Pi times a half.
fn angle() -> Expr {
    let (pi, half) = (expr(61, Node::Pi), expr(62, Node::Real(0.5f32.to_bits())));
    expr(60, Node::Binary(Binary::Mul, Box::new(pi), Box::new(half)))
}

fn called(name: u16, args: Vec<Operand>, params: Vec<Expr>) -> Stmt {
    stmt(70, Action::Call(Call { name: symbol(71, name), args, params }))
}

/// Registers 0 to 7 of 16 qubits and 8 of 16 bits; gates 10 to 13 with a parameter and two arguments, and bodies over them.
fn front() -> Program {
    let mut decls: Vec<Decl> =
        (0..8).map(|name| register(u32::from(name), Kind::Quantum, name, 16)).collect();
    decls.push(register(8, Kind::Classical, 8, 16));
    for name in 10..14 {
        let turn = Action::U { reg: whole(81, 20), angles: [0; 3].map(|_| expr(82, Node::Var(22))) };
        let mut body = vec![stmt(80, turn), cx(83, whole(84, 20), whole(85, 21))];
        body.extend((10..name).map(|lower| called(lower, vec![whole(86, 21), whole(87, 20)], vec![angle()])));
        decls.push(gate(u32::from(name) * 100, name, &[22], &[20, 21], Some(body)));
    }
    program(30, decls)
}

fn valid() -> Program {
    filled(front(), |number| {
        let (first, second) = ((number % 8) as u16, (number * 5 % 8) as u16);
        let indexed = bit(51, second, number as u64 % 16);
        Decl::Stmt(match number % 3 {
            0 => {
                stmt(50, Action::U { reg: whole(51, first), angles: [angle(), pis(52)[0].clone(), angle()] })
            }
            1 => called(10 + first % 4, vec![whole(53, first), indexed], vec![angle()]),
            _ => cx(54, indexed, whole(55, first)),
        })
    })
}

/// Every kind of error that a statement can have.
fn wrong() -> Program {
    filled(front(), |number| {
        let missing = whole(51, 29);
        let free = expr(52, Node::Var(28));
        Decl::Stmt(match number % 6 {
            0 => stmt(50, Action::U { reg: missing, angles: [free.clone(), free.clone(), free] }),
            1 => called(10, vec![whole(53, 0)], vec![]),
            2 => called(29, vec![missing, bit(54, 1, 99)], vec![free]),
            3 => cx(55, whole(56, 8), bit(57, 2, 16)),
            4 => measure(58, whole(59, 0), whole(60, 1)),
            _ => condition(63, 8, 1 << 16, cx(64, missing, missing)),
        })
    })
}

/// The names take half of the image; the rest are registers, gates and statements over all of them.
fn long_names() -> Program {
    let long = |number: usize| format!("{}{number:04}", "x".repeat(60)).into_bytes();
    let mut program = Program { names: (0..limit::NAMES).map(long).collect(), decls: Vec::new() };
    program.decls.extend((0..128).map(|name| register(u32::from(name), Kind::Quantum, 4 * name, 1)));
    program.decls.extend((0..100).map(|name| gate(900, 4 * name + 1, &[], &[4 * name + 2, 511], None)));
    filled(program, |number| {
        let (first, second) = (4 * (number % 128) as u16, 4 * (number * 7 % 128) as u16);
        let call = called(4 * (number % 100) as u16 + 1, vec![whole(53, first), whole(54, second)], vec![]);
        Decl::Stmt(if number % 2 == 0 { call } else { cx(55, whole(56, second), whole(57, first)) })
    })
}

/// Statements of each body: its parameter and arguments used, an earlier gate called.
fn bodies() -> Program {
    let body = |name: u16, length: usize| -> Vec<Stmt> {
        (0..length)
            .map(|number| match number % 3 {
                0 => stmt(
                    50,
                    Action::U { reg: whole(51, 130), angles: [0; 3].map(|_| expr(52, Node::Var(132))) },
                ),
                1 => cx(53, whole(54, 130), bit(55, 131, 0)),
                _ if name == 0 => reset(56, whole(57, 131)),
                _ => called(name / 2, vec![whole(58, 131), whole(59, 130)], vec![expr(60, Node::Var(132))]),
            })
            .collect()
    };
    let of = |length: usize| {
        let gate =
            |name: u16| gate(u32::from(name) * 100, name, &[132], &[130, 131], Some(body(name, length)));
        program(133, (0..limit::GATES as u16).map(gate).collect())
    };
    let longest = (0..).take_while(|length| flatten(&of(*length)).len() <= limit::IMAGE).last();
    of(longest.expect("empty bodies fit"))
}

/// As many gates as there may be, and as many calls of this shape as fit. The shape gives the callee at a distance, if there is one.
fn graph(callee: fn(u16, u16) -> Option<u16>) -> Program {
    let gates = limit::GATES as u16;
    let call = flatten(&calling(1, &[(0, 0)])).len() - flatten(&calling(1, &[])).len();
    let room = (limit::IMAGE - flatten(&calling(gates, &[])).len()) / call;
    let pairs = (1..=u16::MAX).flat_map(|distance| (0..gates).map(move |from| (from, distance)));
    let edges = pairs.filter_map(|(from, distance)| Some((from, callee(from, distance)?)));
    calling(gates, &edges.take(room).collect::<Vec<_>>())
}

fn later(from: u16, distance: u16) -> Option<u16> {
    Some(from + distance).filter(|to| usize::from(*to) < limit::GATES)
}

fn earlier(from: u16, distance: u16) -> Option<u16> {
    from.checked_sub(distance)
}

/// Calls to earlier gates, the gates being numbered without regard to that.
fn shuffled(from: u16, distance: u16) -> Option<u16> {
    let mut numbers: Vec<u16> = (0..limit::GATES as u16).collect();
    Rng::new(1).shuffle(&mut numbers);
    let place = numbers.iter().position(|number| *number == from).expect("a gate") as u16;
    earlier(place, distance).map(|place| numbers[usize::from(place)])
}

fn ring(from: u16, _: u16) -> Option<u16> {
    Some((from + 1) % limit::GATES as u16)
}

fn around(from: u16, distance: u16) -> Option<u16> {
    Some((from + distance) % limit::GATES as u16)
}

fn pairs(from: u16, _: u16) -> Option<u16> {
    Some(from ^ 1)
}

/// An image without errors whose last field has one byte too many: all of it is read and nothing is checked.
pub fn refused_at_the_end() -> Vec<u8> {
    let mut program = valid();
    program.decls.truncate(program.decls.len() - 1);
    let last = [tag::BARRIER, 6, 0, 0, 0, 0, 0, 0, 0];
    [flatten(&program), last.to_vec()].concat()
}

/// What expand is measured on: runs of as many entries as there may be.
pub fn expands() -> Vec<Job> {
    let quantum = |name: u16, size: u64| register(u32::from(name), Kind::Quantum, name, size);
    let one = |decls: &[Decl], stmt: Stmt| program(140, [decls, &[Decl::Stmt(stmt)]].concat());
    let all = limit::ENTRIES;
    let over = whole(5, 0);
    let args: Vec<u16> = (100..132).collect();
    let opaque = gate(1_000, 40, &[], &args, None);
    let bits = [vec![over], (1..32).map(|index| bit(6, 0, index)).collect()].concat();
    let mut doubling = vec![gate(1_000, 10, &[], &[100], Some(vec![u(7, whole(8, 100))])), quantum(0, 1)];
    doubling.extend((11..23).map(|name| {
        let twice = vec![call(30, name - 1, &[100]), call(40, name - 1, &[100])];
        gate(u32::from(name) * 100, name, &[], &[100], Some(twice))
    }));
    let chain = (1..128).map(|name| gate(2_000, name, &[], &[130], Some(vec![call(30, name - 1, &[130])])));
    let bottom = gate(1_000, 0, &[], &[130], Some(vec![u(7, whole(8, 130))]));
    let deep: Vec<Decl> = [bottom, quantum(0, all)].into_iter().chain(chain).collect();
    let job = |what, program| Job { what, program };
    vec![
        job("U over a register", one(&[quantum(0, all)], u(7, over))),
        job("CX over two registers", {
            let halves = [quantum(0, all / 2), quantum(1, all / 2)];
            let back = Decl::Stmt(cx(8, whole(6, 1), over));
            one(&[&halves[..], &[back]].concat(), cx(7, over, whole(6, 1)))
        }),
        job("a barrier over a register", one(&[quantum(0, all - 1)], barrier(7, vec![over]))),
        job("an opaque gate on 32 operands", one(&[quantum(0, all), opaque], called(40, bits, vec![]))),
        job("twelve doubling gates over U", one(&doubling, call(50, 22, &[0]))),
        job("U at the end of 128 calls", one(&deep, call(50, 127, &[0]))),
    ]
}
