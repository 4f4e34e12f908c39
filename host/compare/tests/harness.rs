//! What compares, tested with the model in the archive's place: no difference, everything met, cases that are what they say.

use compare::damage;
use compare::entries::{decode, sound};
use compare::jobs;
use compare::room::{around, every, Lender};
use compare::runs::{self, Said};
use compare::services::{Model, Services};
use compare::shrink::shrink;
use compare::tally::Tally;
use model::answer::{answers, Service, SERVICES};
use model::ast::{Kind, Program};
use model::build::*;
use model::flatten::flatten;
use model::form::limit;
use model::read::read;
use model::run::Entry;

#[test]
fn the_model_agrees_with_itself_on_damage() {
    let mut tally = Tally::new(&Model);
    damage::chosen(&mut tally);
    damage::short(&mut tally, 1_000, 1);
    damage::generated(&mut tally, 8_000, 1);
    assert_eq!(tally.findings.count(), 0, "{tally}");
    assert!(tally.numbers[0][..8].iter().all(|times| *times >= 9), "{tally}");
}

#[test]
fn the_model_agrees_with_itself_on_runs() {
    let mut tally = Tally::new(&Model);
    runs::generated(&mut tally, 400, 1);
    assert_eq!(tally.findings.count(), 0, "{tally}");
    let expand = tally.numbers[Service::Expand as usize];
    assert!([0, 9, 10].iter().all(|number| expand[*number] >= 30), "{tally}");
}

/// The expectations beside the cases are written by hand.
#[test]
fn expand_says_what_stands_beside_each_case() {
    for case in runs::cases() {
        let answer = answers(&flatten(&case.program))[Service::Expand as usize].answer;
        let said = match answer.number {
            0 => Said::Entries(answer.first),
            number => Said::Refused(number),
        };
        assert_eq!(said, case.said, "{}", case.what);
    }
}

#[test]
fn generated_runs_are_near_the_limits() {
    let mut rng = model::generate::Rng::new(2);
    let (mut at, mut past) = (0, 0);
    for _ in 0..300 {
        let image = flatten(&model::generate::near_limits(&mut rng));
        assert_eq!(answers(&image)[0].answer.number, 0);
        let expand = answers(&image)[Service::Expand as usize].answer;
        at += u32::from(expand.number == 0 && expand.first == limit::ENTRIES);
        past += u32::from(expand.number == 10);
    }
    assert!(at >= 20 && past >= 20, "{at} at the limit, {past} past it");
}

#[test]
fn jobs_are_what_they_say() {
    for (job, errors) in jobs::checks().iter().zip([0, 2_000, 0, 0, 0, 0, 0, 1, 1, 64]) {
        let image = job.image();
        assert!((61_000..=limit::IMAGE).contains(&image.len()), "{}: {} bytes", job.what, image.len());
        let found = answers(&image)[0].answer.first;
        assert!(found == errors || errors == 2_000 && found > errors, "{}: {found} errors", job.what);
    }
    for job in jobs::expands() {
        let answer = answers(&job.image())[Service::Expand as usize].answer;
        assert_eq!((answer.number, answer.first), (0, limit::ENTRIES), "{}", job.what);
    }
    for job in jobs::orders() {
        assert_eq!(answers(&job.image())[Service::Order as usize].answer.first, 128, "{}", job.what);
    }
    let refused = jobs::refused_at_the_end();
    let answer = answers(&refused)[0].answer;
    assert_eq!((answer.number, answer.first), (5, refused.len() as u64 - 9));
}

#[test]
fn every_room_around_some_answers() {
    let mut lender = Lender::default();
    let mut rng = model::generate::Rng::new(3);
    for _ in 0..20 {
        let image = model::generate::image(&mut rng);
        for (service, full) in SERVICES.into_iter().zip(&answers(&image)) {
            for room in around(full).into_iter().chain(every(full)) {
                lender.held(&Model, service, &image, full, room).expect("the model keeps to its room");
            }
        }
    }
}

/// Entries by hand: a register of two qubits and one of three bits, each statement of 01's table.
#[test]
fn entries_are_read_by_the_table() {
    let bytes = [
        &[32, 4, 0, 1, 0, 0, 0][..],
        &[33, 8, 0, 0, 0, 0, 0, 1, 0, 0, 0],
        &[34, 8, 0, 1, 0, 0, 0, 2, 0, 0, 0],
        &[35, 4, 0, 0, 0, 0, 0],
        &[36, 4, 0, 1, 0, 0, 0, 37, 0, 0],
        &[38, 10, 0, 5, 1, 1, 0, 0, 0, 0, 0, 0, 0],
        &[39, 16, 0, 0, 0, 0, 0, 3, 0, 0, 0, 7, 0, 0, 0, 0, 0, 0, 0, 40, 0, 0],
    ];
    let entries = vec![
        Entry::U(1),
        Entry::Cx(0, 1),
        Entry::Measure(1, 2),
        Entry::Reset(0),
        Entry::BarrierQubit(1),
        Entry::BarrierEnd,
        Entry::Opaque(261, vec![1, 0]),
        Entry::If { first: 0, width: 3, value: 7 },
        Entry::IfEnd,
    ];
    assert_eq!(decode(&bytes.concat()), Ok(entries));
    for wrong in
        [&[31, 0, 0][..], &[32, 3, 0, 0, 0, 0], &[37, 1, 0, 0], &[38, 1, 0, 0], &[41, 0, 0], &[40, 0]]
    {
        assert!(decode(wrong).is_err(), "{wrong:?}");
    }
}

#[test]
fn entries_that_are_not_the_programs_are_found() {
    let opaque = gate(100, 2, &[], &[3, 4], None);
    let decls = vec![register(1, Kind::Quantum, 0, 2), register(3, Kind::Classical, 1, 3), opaque];
    let program = program(5, decls);
    let compared = |first, width, value| vec![Entry::If { first, width, value }, Entry::IfEnd];
    let right =
        [compared(0, 3, 7), compared(2, 1, 1), vec![Entry::Opaque(2, vec![1, 1]), Entry::U(1)]].concat();
    assert_eq!(sound(&program, &right), Ok(()));
    let wrong = [
        vec![Entry::U(2)],
        vec![Entry::Measure(1, 3)],
        vec![Entry::Measure(2, 0)],
        vec![Entry::BarrierQubit(0)],
        vec![Entry::BarrierQubit(0), Entry::U(0), Entry::BarrierEnd],
        vec![Entry::IfEnd],
        compared(0, 3, 8),
        compared(0, 2, 0),
        compared(1, 3, 0),
        compared(3, 1, 0),
        compared(0, 3, 7)[..1].to_vec(),
        vec![Entry::Opaque(2, vec![1])],
        vec![Entry::Opaque(0, vec![1, 1])],
    ];
    for entries in wrong {
        assert!(sound(&program, &entries).is_err(), "{entries:?}");
    }
}

/// An image is cut down to the one statement that matters, with its one name.
#[test]
fn shrinking_keeps_what_matters() {
    let mut rng = model::generate::Rng::new(4);
    let mut program = model::generate::valid(&mut rng, model::generate::Size::LARGE);
    program.decls.push(model::ast::Decl::Stmt(reset(7, whole(8, 3))));
    let has_reset =
        |image: &[u8]| read(image).is_ok_and(|program: Program| format!("{program:?}").contains("Reset"));
    let smallest = shrink(&flatten(&program), &mut |image| has_reset(image));
    assert!(has_reset(&smallest));
    // A NAME of one byte and a RESET.
    assert_eq!(smallest.len(), 4 + 22);
}

#[test]
fn an_answer_of_fewer_bytes_changes_nothing() {
    for length in 0..24 {
        let (mut out, mut answer) = ([7; 100], vec![9; length]);
        Model.call(Service::Check, &flatten(&model::specimens::undeclared()), &mut out, &mut answer);
        assert!(out == [7; 100] && answer == vec![9; length]);
    }
}
