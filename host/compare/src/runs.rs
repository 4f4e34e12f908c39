//! Programs at and past each limit of the run, with what 01 says of them, and generated ones near the limits.

use crate::entries::{decode, sound};
use crate::services::Services;
use crate::tally::Tally;
use model::answer::{answers, Service};
use model::ast::*;
use model::build::*;
use model::flatten::flatten;
use model::form::limit;
use model::generate::{near_limits, valid, Rng, Size};
use model::read::read;
use model::run;
use model::specimens;
use std::slice::from_ref;

/// A program and what expand has to say of it.
pub struct Case {
    pub what: &'static str,
    pub program: Program,
    pub said: Said,
}

#[derive(Debug, Clone, Copy, PartialEq, Eq)]
pub enum Said {
    Entries(u64),
    Refused(u64),
}

use Said::{Entries, Refused};

const ALL: u64 = limit::ENTRIES;
const BITS: u64 = limit::BITS as u64;

pub fn cases() -> Vec<Case> {
    let mut cases = Vec::new();
    for more in [0, 1] {
        let said = if more == 0 { Entries(ALL) } else { Refused(10) };
        let counted = statements(more).into_iter().chain(conditions(more)).chain(calls(more));
        cases.extend(counted.map(|(what, program)| Case { what, program, said }));
    }
    cases.extend(
        [totals(), past_all_numbers(), doubling(), deep(), wide(), first_refusal()].into_iter().flatten(),
    );
    cases
}

fn quantum(name: u16, size: u64) -> Decl {
    register(u32::from(name) * 10 + 1, Kind::Quantum, name, size)
}

fn classical(name: u16, size: u64) -> Decl {
    register(u32::from(name) * 10 + 1, Kind::Classical, name, size)
}

fn run_of(decls: &[Decl], stmts: Vec<Stmt>) -> Program {
    program(140, decls.iter().cloned().chain(stmts.into_iter().map(Decl::Stmt)).collect())
}

/// Statements and then so many empty barriers, an entry each.
fn filled(decls: &[Decl], mut stmts: Vec<Stmt>, more: u64) -> Program {
    stmts.extend((0..more).map(|_| empty_barrier(9)));
    run_of(decls, stmts)
}

/// Statements that yield as many entries as there may be, and so many more.
fn statements(more: u64) -> Vec<(&'static str, Program)> {
    let (q, r) = (whole(5, 0), whole(6, 1));
    let full = [quantum(0, ALL)];
    let halves = [quantum(0, ALL / 2), quantum(1, ALL / 2)];
    let measured = [classical(1, ALL), quantum(0, ALL)];
    let odd = [quantum(0, ALL / 2 - 1)];
    vec![
        ("U over a register", filled(&full, vec![u(7, q)], more)),
        ("RESET over a register", filled(&full, vec![reset(7, q)], more)),
        ("CX over two registers", filled(&halves, vec![cx(7, q, r), cx(8, r, q)], more)),
        ("CX from one bit to a register", filled(&full, vec![cx(7, bit(8, 0, ALL - 1), q)], more)),
        ("MEASURE over two registers", filled(&measured, vec![measure(7, q, r)], more)),
        ("MEASURE of one bit to a register", filled(&measured, vec![measure(7, bit(8, 0, 9), r)], more)),
        ("barrier over a register", run_of(&[quantum(0, ALL - 1 + more)], vec![barrier(7, vec![q])])),
        ("barrier with qubits twice", filled(&odd, vec![barrier(7, vec![q, bit(8, 0, 3), q])], more)),
        ("empty barriers", filled(&[], vec![], ALL + more)),
    ]
}

/// The same under IFs, two entries each.
fn conditions(more: u64) -> Vec<(&'static str, Program)> {
    let decls = |size: u64| [quantum(0, size + more), classical(1, 1), classical(2, 64)];
    let row = |stmt: Stmt| (0..16).fold(stmt, |then, number| condition(20 + number, 1, 1, then));
    let over = whole(5, 0);
    let barrier = barrier(7, vec![over]);
    vec![
        ("IF over a broadcast", run_of(&decls(ALL - 2), vec![condition(8, 1, 0, u(7, over))])),
        ("IF with the greatest value", run_of(&decls(ALL - 2), vec![condition(8, 2, u64::MAX, u(7, over))])),
        ("IF over a barrier", run_of(&decls(ALL - 3), vec![condition(8, 1, 0, barrier)])),
        ("IFs in a row", run_of(&decls(ALL - 32), vec![row(u(7, over))])),
        ("IFs in a row, twice", run_of(&decls(ALL / 2 - 32), vec![row(u(7, over)), row(reset(7, over))])),
    ]
}

/// A gate with arguments named 100 and on.
fn defined(name: u16, args: u16, body: Option<Vec<Stmt>>) -> Decl {
    gate(1_000 + u32::from(name) * 100, name, &[], &(100..100 + args).collect::<Vec<u16>>(), body)
}

fn called(name: u16, args: &[Operand]) -> Stmt {
    let call = Call { name: symbol(31, name), args: args.to_vec(), params: Vec::new() };
    stmt(30, Action::Call(call))
}

/// The gate's arguments from one of them on, each once.
fn args(first: u16, count: u16) -> Vec<Operand> {
    (0..count).map(|arg| whole(40, 100 + (first + arg) % count)).collect()
}

/// The gates from 10 on, each calling the one before it twice, the first being this one.
fn doubled(count: u16, bottom: Decl) -> Vec<Decl> {
    let twice = |name: u16| vec![called(name - 1, &args(0, 1)), called(name - 1, &args(0, 1))];
    let above = (11..10 + count).map(|name| defined(name, 1, Some(twice(name))));
    [bottom].into_iter().chain(above).collect()
}

/// Calls that yield as many entries as there may be, and so many more.
fn calls(more: u64) -> Vec<(&'static str, Program)> {
    let over = whole(5, 0);
    let on_arg = u(7, whole(8, 100));
    let long = defined(10, 1, Some(vec![on_arg.clone(); 64]));
    let pair = defined(10, 1, Some(vec![on_arg.clone(), reset(7, bit(8, 100, 0))]));
    let fence = defined(10, 3, Some(vec![barrier(7, args(1, 3))]));
    let opaque = defined(10, 2, None);
    let caller = defined(11, 2, Some(vec![called(10, &args(1, 2)); 4]));
    let empty = defined(12, 1, Some(vec![]));
    let twelve = doubled(13, defined(10, 1, Some(vec![on_arg])));
    let with = |size: u64, gates: &[Decl]| [&[quantum(0, size), classical(1, 1)], gates].concat();
    let fenced = called(10, &[over, bit(6, 0, 1_023), over]);
    let both = [over, bit(6, 0, 0)];
    let governed = condition(8, 1, 1, called(10, &[over]));
    vec![
        ("a long body over a register", filled(&with(64, &[long]), vec![called(10, &[over])], more)),
        ("a barrier in a body", filled(&with(1_024, &[fence]), vec![fenced], more)),
        (
            "an opaque gate over a register",
            filled(&with(ALL, from_ref(&opaque)), vec![called(10, &both)], more),
        ),
        ("an opaque gate in a body", filled(&with(1_024, &[caller, opaque]), vec![called(11, &both)], more)),
        ("doubling gates", filled(&with(1, &twelve), vec![called(22, &[over])], more)),
        ("IF over a call", filled(&with(ALL / 2 - 1, &[pair]), vec![governed], more)),
        ("a gate that yields nothing", {
            filled(&with(ALL, &[empty]), vec![called(12, &[over]), u(7, over), called(12, &[over])], more)
        }),
    ]
}

/// Registers with as many bits as there may be, and one more, in one piece and in many.
fn totals() -> Vec<Case> {
    let mut cases = Vec::new();
    for total in [BITS, BITS + 1] {
        let said = if total == BITS { Entries(1) } else { Refused(9) };
        let even = [vec![32; 127], vec![total - 127 * 32]].concat();
        let ones = [vec![total - 127], vec![1; 127]].concat();
        for sizes in [vec![total], vec![1, total - 1], vec![total - 1, 1], even, ones] {
            let (last, size) = (sizes.len() as u16 - 1, *sizes.last().expect("a size"));
            let quantums: Vec<Decl> = (0..).zip(&sizes).map(|(name, size)| quantum(name, *size)).collect();
            let use_last = vec![u(7, bit(8, last, size - 1))];
            cases.push(Case { what: "quantum bits", program: run_of(&quantums, use_last), said });
            let classicals: Vec<Decl> =
                (0..).zip(&sizes).map(|(name, size)| classical(name, *size)).collect();
            let no_qubits = vec![empty_barrier(7)];
            cases.push(Case { what: "classical bits", program: run_of(&classicals, no_qubits), said });
        }
    }
    let both = [quantum(0, BITS), classical(1, BITS)];
    let ends = vec![measure(7, bit(8, 0, BITS - 1), bit(9, 1, BITS - 1))];
    cases.push(Case { what: "all bits of both kinds", program: run_of(&both, ends), said: Entries(1) });
    cases
}

/// Totals past 2^64, which wrap to small ones where they are not held.
fn past_all_numbers() -> Vec<Case> {
    const HALF: u64 = 1 << 63;
    const MAX: u64 = u64::MAX;
    let lists: [&[u64]; 9] = [
        &[MAX],
        &[MAX, 1],
        &[1, MAX],
        &[MAX, BITS + 1],
        &[HALF, HALF],
        &[HALF, HALF, BITS],
        &[HALF, 1, HALF],
        &[MAX, MAX, 2],
        &[MAX; 128],
    ];
    let registers = |make: fn(u16, u64) -> Decl, sizes: &[u64]| {
        run_of(&(0..).zip(sizes).map(|(name, size)| make(name, *size)).collect::<Vec<Decl>>(), vec![])
    };
    let case = |program| Case { what: "bits past 2^64", program, said: Refused(9) };
    lists.iter().flat_map(|sizes| [quantum, classical].map(|make| case(registers(make, sizes)))).collect()
}

/// "100 doubling gates, with an empty one at the bottom or not"
fn doubling() -> Vec<Case> {
    let bottom = |body: Vec<Stmt>| defined(10, 1, Some(body));
    let program = |size: u64, count: u16, bottom: Decl| {
        let mut decls = doubled(count, bottom);
        decls.push(quantum(0, size));
        run_of(&decls, vec![called(9 + count, &[whole(5, 0)])])
    };
    let on_arg = u(7, whole(8, 100));
    // The hundredth gate has an entry of its own beside two calls that yield nothing.
    let mut one = doubled(100, bottom(vec![]));
    one.push(defined(110, 1, Some(vec![called(108, &args(0, 1)), on_arg.clone(), called(109, &args(0, 1))])));
    one.push(quantum(0, ALL));
    let case = |what, program, said| Case { what, program, said };
    vec![
        case("doubling gates over nothing", program(1, 100, bottom(vec![])), Entries(0)),
        case("doubling gates over nothing, for each bit", program(ALL, 100, bottom(vec![])), Entries(0)),
        case("doubling gates over U", program(1, 100, bottom(vec![on_arg.clone()])), Refused(10)),
        case("doubling gates over an opaque one", program(1, 100, defined(10, 1, None)), Refused(10)),
        case("doubling gates over a barrier", program(1, 100, bottom(vec![empty_barrier(7)])), Refused(10)),
        case("64 doublings and one bit", program(1, 65, bottom(vec![on_arg.clone()])), Refused(10)),
        case("64 doublings for each bit", program(ALL, 65, bottom(vec![on_arg])), Refused(10)),
        case(
            "U beside much that yields nothing",
            run_of(&one, vec![called(110, &[whole(5, 0)])]),
            Entries(ALL),
        ),
        case("barriers at the bottom", specimens::doubling(false), Refused(10)),
        case("nothing at the bottom", specimens::doubling(true), Entries(0)),
    ]
}

/// As many gates as there may be, each calling the next with its arguments moved on by one, defined in either order.
fn deep() -> Vec<Case> {
    let link = |name: u16| match name {
        0 => defined(0, 3, Some(vec![cx(7, whole(8, 100), whole(9, 102))])),
        _ => defined(name, 3, Some(vec![u(7, whole(8, 101)), called(name - 1, &args(1, 3))])),
    };
    let upward: Vec<Decl> = (0..128).map(link).collect();
    let downward: Vec<Decl> = upward.iter().rev().cloned().collect();
    let mut shuffled = upward.clone();
    Rng::new(1).shuffle(&mut shuffled);
    let top = |gates: Vec<Decl>, size: u64, said| {
        let decls = [gates, vec![quantum(0, size), quantum(1, size), quantum(2, 1)]].concat();
        let call = called(127, &[whole(5, 0), whole(5, 1), whole(5, 2)]);
        Case { what: "calls to the greatest depth", program: run_of(&decls, vec![call]), said }
    };
    vec![
        top(upward.clone(), 1, Entries(128)),
        top(downward.clone(), 32, Entries(ALL)),
        top(downward, 33, Refused(10)),
        top(shuffled, 1, Entries(128)),
        top(upward, 32, Entries(ALL)),
    ]
}

/// 32 of everything that is counted.
fn wide() -> Vec<Case> {
    let registers: Vec<Decl> = (0..32).map(|name| quantum(name, 128)).collect();
    let wholes: Vec<Operand> = (0..32).map(|name| whole(50 + u32::from(name), name)).collect();
    let bits: Vec<Operand> = (0..32).map(|name| bit(50, name, u64::from(name))).collect();
    let mixed = [&wholes[..31], &bits[31..]].concat();
    let with = |gates: &[Decl]| [&registers[..], gates].concat();
    let opaque = defined(40, 32, None);
    let turned = defined(41, 32, Some(vec![called(40, &args(7, 32)), barrier(7, args(3, 32))]));
    let case =
        |what, decls: &[Decl], stmt: Stmt, said| Case { what, program: run_of(decls, vec![stmt]), said };
    vec![
        case("an opaque gate on 32 bits", &with(from_ref(&opaque)), called(40, &bits), Entries(1)),
        case("an opaque gate on 32 registers", &with(from_ref(&opaque)), called(40, &wholes), Entries(128)),
        case(
            "an opaque gate on registers and a bit",
            &with(from_ref(&opaque)),
            called(40, &mixed),
            Entries(128),
        ),
        case(
            "32 arguments passed on",
            &with(&[turned.clone(), opaque.clone()]),
            called(41, &bits),
            Entries(34),
        ),
        case("32 arguments for each bit", &with(&[opaque, turned]), called(41, &mixed), Refused(10)),
        case("a barrier over 32 bits", &registers, barrier(7, bits), Entries(33)),
        case("a barrier over registers and a bit", &registers, barrier(7, mixed), Entries(31 * 128 + 2)),
        case("a barrier over 32 registers", &registers, barrier(7, wholes), Refused(10)),
    ]
}

/// Two refusals at once: "then 8, 9, 10".
fn first_refusal() -> Vec<Case> {
    let over = vec![u(7, whole(5, 0))];
    let zero = [quantum(0, BITS + 1), classical(1, 0)];
    let case =
        |decls: &[Decl], said| Case { what: "the first refusal", program: run_of(decls, over.clone()), said };
    vec![case(&zero, Refused(8)), case(&zero[..1], Refused(9)), case(&zero[1..], Refused(8))]
}

/// So many admitted programs from the seed, most of them with a run near a limit.
pub fn generated(tally: &mut Tally, count: u64, seed: u64) {
    let mut rng = Rng::new(seed);
    for turn in 0..count {
        let program = match turn % 4 {
            0 => valid(&mut rng, Size::MIDDLE),
            _ => near_limits(&mut rng),
        };
        both(tally, &flatten(&program));
    }
}

/// The image as any other, and its run read back.
pub fn both(tally: &mut Tally, image: &[u8]) {
    tally.image(image);
    let services = tally.services;
    if !tally.offers(Service::Expand) {
        return;
    }
    if let Some((name, _)) = misread(services, image) {
        tally.findings.add(name, image, &mut |image| misread(services, image));
    }
}

/// What is wrong with the entries of a run that expand writes, read by 01's table and held to the program and the model's entries.
fn misread(services: &dyn Services, image: &[u8]) -> Option<(String, String)> {
    let full = &answers(image)[Service::Expand as usize];
    if full.answer.number != 0 {
        return None;
    }
    let program = read(image).ok()?;
    let mut out = vec![0; full.bytes.len()];
    let answer = services.ask(Service::Expand, image, &mut out);
    if answer != full.answer {
        // A difference of its own, told where answers are compared.
        return None;
    }
    let found = decode(&out).and_then(|entries| {
        sound(&program, &entries)?;
        let same = entries == run::entries(&program) && entries.len() as u64 == answer.first;
        same.then_some(()).ok_or("other entries than the model's".to_string())
    });
    found.err().map(|story| ("Expand writes entries that are not the run's".to_string(), story))
}
