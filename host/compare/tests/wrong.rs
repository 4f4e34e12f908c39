//! Wrong builds behind the boundary: each is found, and those that check wrongly are found by the Rust's word alone.
#![cfg(feature = "rust")]

use compare::damage;
use compare::runs::{self, Said};
use compare::rust::Compared;
use compare::services::{bytes, Services, ANSWER};
use model::answer::{answers, Answer, Full, Service, SERVICES};
use model::ast::{Action, Decl, Program, Stmt};
use model::calls::Calls;
use model::check;
use model::errors::{encode, Error, RECURSION};
use model::flatten::flatten;
use model::read::read;
use model::run::{self, Entry};

/// The model with its answers changed before they are written.
struct Edited(Edit);

type Edit = fn(Service, Option<&Program>, Full) -> Full;

impl Services for Edited {
    fn offered(&self) -> Vec<Service> {
        SERVICES.to_vec()
    }

    fn call(&self, service: Service, image: &[u8], out: &mut [u8], answer: &mut [u8]) {
        let full = answers(image)[service as usize].clone();
        let full = (self.0)(service, read(image).ok().as_ref(), full);
        if answer.len() >= ANSWER {
            answer[..ANSWER].copy_from_slice(&bytes(&full.within(out.len())));
            if let Some(room) = out.get_mut(..full.bytes.len()) {
                room.copy_from_slice(&full.bytes);
            }
        }
    }
}

/// The model with its buffers handled wrongly.
struct Careless(Call);

/// From the answer and the bytes to the buffers.
type Call = fn(Answer, &[u8], &mut [u8], &mut [u8]);

impl Services for Careless {
    fn offered(&self) -> Vec<Service> {
        SERVICES.to_vec()
    }

    fn call(&self, service: Service, image: &[u8], out: &mut [u8], answer: &mut [u8]) {
        let full = &answers(image)[service as usize];
        (self.0)(full.within(out.len()), &full.bytes, out, answer);
    }
}

/// Everything that is compared, in a small measure.
fn compared(services: &dyn Services) -> Compared<'_> {
    let mut compared = Compared::new(services);
    compared.generated(700, 1);
    damage::generated(&mut compared.tally, 400, 1);
    for case in runs::cases().iter().filter(|case| !matches!(case.said, Said::Entries(1_000..))) {
        compared.tally.image(&flatten(&case.program));
    }
    compared
}

/// A list of errors in the place of check's.
fn listed(service: Service, full: Full, errors: Vec<Error>) -> Full {
    if service != Service::Check {
        return full;
    }
    let bytes = encode(&errors);
    let (number, first) = (u64::from(!errors.is_empty()), errors.len() as u64);
    Full { answer: Answer { number, first, second: bytes.len() as u64 }, bytes }
}

/// Check's errors, the recursion being that of a changed program.
fn with_recursion_of(
    service: Service,
    program: Option<&Program>,
    full: Full,
    change: fn(&mut Program),
) -> Full {
    let Some(program) = program else { return full };
    let mut changed = program.clone();
    change(&mut changed);
    let mut errors = check::errors(program);
    errors.retain(|error| error.kind() != RECURSION);
    errors.extend(check::errors(&changed).into_iter().filter(|error| error.kind() == RECURSION));
    listed(service, full, errors)
}

/// Check's errors, changed.
fn with_errors(service: Service, program: Option<&Program>, full: Full, change: fn(&mut Vec<Error>)) -> Full {
    let Some(program) = program else { return full };
    let mut errors = check::errors(program);
    change(&mut errors);
    listed(service, full, errors)
}

/// The run's entries, changed.
fn with_entries(
    service: Service,
    program: Option<&Program>,
    full: Full,
    change: fn(&mut Vec<Entry>),
) -> Full {
    let (Service::Expand, Some(program), 0) = (service, program, full.answer.number) else { return full };
    let mut entries = run::entries(program);
    change(&mut entries);
    let bytes: Vec<u8> = entries.iter().flat_map(Entry::encode).collect();
    let answer = Answer { number: 0, first: entries.len() as u64, second: bytes.len() as u64 };
    Full { answer, bytes }
}

/// Drops the bodies of gates that were defined before.
fn without_redefinitions(program: &mut Program) {
    let mut seen = Vec::new();
    for decl in &mut program.decls {
        if let Decl::Gate(gate) = decl {
            if seen.contains(&gate.name.name) {
                gate.body = None;
            }
            seen.push(gate.name.name);
        }
    }
}

fn without_wrong_arity(program: &mut Program) {
    let whole = program.clone();
    let calls = Calls::of(&whole);
    let right = |stmt: &Stmt| match &stmt.action {
        Action::Call(call) => calls.number(call.name.name).is_some_and(|number| {
            let gate = calls.gates[number];
            gate.args.len() == call.args.len() && gate.params.len() == call.params.len()
        }),
        _ => true,
    };
    for decl in &mut program.decls {
        if let Decl::Gate(gate) = decl {
            gate.body.iter_mut().for_each(|body| body.retain(right));
        }
    }
}

/// Keeps the gates only where the top level calls something.
fn without_unreached(program: &mut Program) {
    let calls = program.statements().any(|stmt| matches!(stmt.action, Action::Call(_)));
    program.decls.retain(|decl| calls || !matches!(decl, Decl::Gate(_)));
}

fn without_last_statement(program: &mut Program) {
    let last = program.decls.iter().rposition(|decl| matches!(decl, Decl::Stmt(_)));
    if let Some(last) = last {
        program.decls.remove(last);
    }
}

fn expressions_first(errors: &mut [Error]) {
    for at in 1..errors.len() {
        let (before, after) = (&errors[at - 1], &errors[at]);
        if (13..=15).contains(&before.kind()) && after.kind() == 7 {
            errors.swap(at - 1, at);
        }
    }
}

fn turned_cycles(errors: &mut [Error]) {
    for error in errors {
        if let Error::RecursiveDefinition { cycle } = error {
            cycle.rotate_left(1);
        }
    }
}

/// Builds whose check is wrong, so that the Rust tells.
const CHECKS: [(&str, Edit); 10] = [
    ("matching fixed by the first size over 1", |service, program, full| {
        with_errors(service, program, full, |errors| {
            errors.retain(|error| !matches!(error, Error::WrongOperandSize { match_size: 0, .. }))
        })
    }),
    ("a redefined gate's calls dropped", |service, program, full| {
        with_recursion_of(service, program, full, without_redefinitions)
    }),
    ("only cycles reachable from the top level", |service, program, full| {
        with_recursion_of(service, program, full, without_unreached)
    }),
    ("the expression before the operands", |service, program, full| {
        with_errors(service, program, full, |errors| expressions_first(errors))
    }),
    ("an edge left out where arity is wrong", |service, program, full| {
        with_recursion_of(service, program, full, without_wrong_arity)
    }),
    ("the last statement skipped", |service, program, full| {
        let Some(program) = program else { return full };
        let mut shorter = program.clone();
        without_last_statement(&mut shorter);
        listed(service, full, check::errors(&shorter))
    }),
    ("everything accepted", |service, _, full| listed(service, full, Vec::new())),
    ("one fixed list", |service, _, full| {
        listed(service, full, vec![Error::UndefinedRegister { name: 0, reg: 2, stmt: 1 }])
    }),
    ("an invented count", |service, _, mut full| {
        full.answer.first += u64::from(service == Service::Check && full.answer.number == 1);
        full
    }),
    ("cycles that start elsewhere", |service, program, full| {
        with_errors(service, program, full, |errors| turned_cycles(errors))
    }),
];

#[test]
fn wrong_checks_are_found_by_the_rust() {
    for (what, edit) in CHECKS {
        let build = Edited(edit);
        let compared = compared(&build);
        let names = compared.tally.findings.names();
        assert!(names.iter().any(|name| name.starts_with("Check against the Rust")), "{what}: {names:?}");
        assert!(names.iter().any(|name| !name.starts_with("Check against the Rust")), "{what}: {names:?}");
    }
}

/// Builds that are wrong in the other services, or in a refusal.
const OTHERS: [(&str, Edit); 13] = [
    ("order takes the highest gate", |service, _, mut full| {
        if service == Service::Order {
            full.bytes.reverse();
        }
        full
    }),
    ("expand writes nothing", |service, program, full| with_entries(service, program, full, Vec::clear)),
    ("a broadcast that repeats the wrong operand", |service, program, full| {
        with_entries(service, program, full, |entries| {
            for entry in entries {
                if let Entry::Cx(copy, xor) = entry {
                    *xor = *copy;
                }
            }
        })
    }),
    ("classical bits numbered otherwise", |service, program, full| {
        with_entries(service, program, full, |entries| {
            for entry in entries {
                if let Entry::Measure(_, bit) = entry {
                    *bit += 1;
                }
            }
        })
    }),
    ("a barrier that closes early", |service, program, full| {
        with_entries(service, program, full, |entries| {
            for at in 1..entries.len() {
                if entries[at] == Entry::BarrierEnd {
                    entries.swap(at - 1, at);
                }
            }
        })
    }),
    ("the last entry missing", |service, program, full| {
        with_entries(service, program, full, |entries| drop(entries.pop()))
    }),
    ("an IF that closes twice", |service, program, full| {
        with_entries(service, program, full, |entries| {
            if entries.last() == Some(&Entry::IfEnd) {
                entries.push(Entry::IfEnd);
            }
        })
    }),
    ("bits counted first, entries after", |_, _, mut full| {
        full.answer.number -= u64::from(full.answer.number == 10);
        full
    }),
    ("totals that wrap", |_, program, mut full| {
        let wide =
            program.is_some_and(|program| program.registers().any(|register| register.size() > 1 << 60));
        if full.answer.number == 9 && wide {
            full.answer.number = 0;
        }
        full
    }),
    ("errors not looked at by expand", |service, _, mut full| {
        if service == Service::Expand && full.answer.number == 8 {
            full.answer.number = 0;
        }
        full
    }),
    ("an offset past the field", |_, _, mut full| {
        full.answer.first += u64::from((3..=7).contains(&full.answer.number));
        full
    }),
    ("a bad name taken for a bad payload", |_, _, mut full| {
        full.answer.number -= u64::from(full.answer.number == 6);
        full
    }),
    ("a second number with a refusal", |_, _, mut full| {
        full.answer.second += u64::from(full.answer.number == 4);
        full
    }),
];

#[test]
fn other_wrong_answers_are_found_by_the_model() {
    for (what, edit) in OTHERS {
        let build = Edited(edit);
        let compared = compared(&build);
        assert!(compared.tally.findings.count() > 0, "{what}");
    }
}

fn write(answer: Answer, room: &mut [u8]) {
    if let Some(room) = room.get_mut(..ANSWER) {
        room.copy_from_slice(&bytes(&answer));
    }
}

fn copy(from: &[u8], to: &mut [u8]) {
    if let Some(to) = to.get_mut(..from.len()) {
        to.copy_from_slice(from);
    }
}

/// Builds that answer rightly and touch what is not theirs.
const CARELESS: [(&str, Call); 7] = [
    ("as much as fits is written", |answer, bytes, out, room| {
        write(answer, room);
        out.iter_mut().zip(bytes).for_each(|(out, byte)| *out = *byte);
    }),
    ("the rest of the buffer is cleared", |answer, bytes, out, room| {
        write(answer, room);
        if answer.number <= 1 && room.len() >= ANSWER {
            out.fill(0);
            copy(bytes, out);
        }
    }),
    ("a byte past the answer is written", |answer, bytes, out, room| {
        write(answer, room);
        if room.len() > ANSWER {
            room[ANSWER] = 0;
        }
        if room.len() >= ANSWER {
            copy(bytes, out);
        }
    }),
    ("the buffer is written though the answer does not fit", |answer, bytes, out, room| {
        write(answer, room);
        copy(bytes, out);
    }),
    ("a short answer is written as far as it goes", |answer, bytes, out, room| {
        let whole = compare::services::bytes(&answer);
        room.iter_mut().zip(whole).for_each(|(room, byte)| *room = byte);
        if room.len() >= ANSWER {
            copy(bytes, out);
        }
    }),
    ("an answer of exactly its length is not written", |answer, bytes, out, room| {
        if room.len() > ANSWER {
            write(answer, room);
            copy(bytes, out);
        }
    }),
    ("one byte more is asked for", |answer, bytes, out, room| {
        let answer = match out.len() == bytes.len() && answer.number <= 1 {
            true => Answer { number: 11, ..answer },
            false => answer,
        };
        write(answer, room);
        if room.len() >= ANSWER && answer.number <= 1 {
            copy(bytes, out);
        }
    }),
];

#[test]
fn careless_builds_are_found() {
    for (what, call) in CARELESS {
        let build = Careless(call);
        let compared = compared(&build);
        assert!(compared.tally.findings.count() > 0, "{what}");
    }
}

/// Differences are told with the image that shows them and with what was expected.
#[test]
fn a_difference_is_told_with_a_small_image() {
    let build = Edited(CHECKS[0].1);
    let text = compared(&build).to_string();
    let hex = text.lines().filter(|line| line.starts_with("  01")).map(|line| line.trim().len() / 2);
    let smallest = hex.min().expect("an image");
    assert!(smallest < 120, "{text}");
}
