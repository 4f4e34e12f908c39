//! The specimens of 01 and its list of wrong builds.

use model::answer::{Answer, Service, SERVICES};
use model::ast::{Kind, Program};
use model::check::errors;
use model::errors::Error;
use model::flatten::flatten;
use model::specimens::*;

fn answer(service: Service, program: &Program) -> (Answer, Vec<u8>) {
    let mut out = vec![0; 100_000];
    let answer = service.answer(&flatten(program), &mut out);
    out.truncate(if answer.number <= 1 { answer.second as usize } else { 0 });
    (answer, out)
}

fn number(service: Service, program: &Program) -> u64 {
    answer(service, program).0.number
}

fn size_errors(sizes: &[u64]) -> Vec<Error> {
    let is_size = |error: &Error| matches!(error, Error::WrongOperandSize { .. });
    errors(&matching(sizes)).into_iter().filter(is_size).collect()
}

fn cycles(program: &Program) -> Vec<Vec<(u32, u32)>> {
    let cycle = |error| match error {
        Error::RecursiveDefinition { cycle } => Some(cycle),
        _ => None,
    };
    errors(program).into_iter().filter_map(cycle).collect()
}

#[test]
fn the_empty_image() {
    for service in SERVICES {
        let done = Answer { number: 0, first: 0, second: 0 };
        assert_eq!(answer(service, &Program::default()), (done, vec![]));
        assert_eq!(service.answer(&[], &mut []), done);
    }
}

#[test]
fn u_on_an_undeclared_register() {
    let image = [
        &[1, 1, 0, 0x71, 0x10, 0x22, 0, 1, 0, 0, 0, 2][..],
        &[0; 14],
        &[0, 3, 0, 0, 0, 0, 4, 0, 0, 0, 0, 5, 0, 0, 0],
    ];
    assert_eq!(flatten(&undeclared()), image.concat());
    let (found, list) = answer(Service::Check, &undeclared());
    assert_eq!(found, Answer { number: 1, first: 1, second: 13 });
    assert_eq!(list, [0x0f, 0x0a, 0, 0, 0, 2, 0, 0, 0, 1, 0, 0, 0]);
}

#[test]
fn u_on_a_register_of_two() {
    let (found, run) = answer(Service::Expand, &broadcast());
    assert_eq!(found, Answer { number: 0, first: 2, second: 14 });
    assert_eq!(run, [0x20, 4, 0, 0, 0, 0, 0, 0x20, 4, 0, 1, 0, 0, 0]);
}

#[test]
fn matching_is_fixed_by_the_first_size_that_is_not_one() {
    let wrong = |at: u32, size, match_at: u32, match_size| Error::WrongOperandSize {
        stmt: 500,
        span: 502 + at,
        size,
        match_span: 502 + match_at,
        match_size,
    };
    assert_eq!(size_errors(&[1, 3, 1]), []);
    assert_eq!(size_errors(&[3, 2]), [wrong(1, 2, 0, 3)]);
    assert_eq!(size_errors(&[0, 5]), [wrong(1, 5, 0, 0)]);
    assert_eq!(size_errors(&[5, 0]), []);
    assert_eq!(size_errors(&[1, 0, 2]), [wrong(2, 2, 1, 0)]);
    assert_eq!(size_errors(&[2, 1, 2, 3]), [wrong(3, 3, 0, 2)]);
}

#[test]
fn comparisons() {
    let wrong = |reg_size, value_size| {
        vec![Error::InvalidComparisonSize { reg: 4, value: 5, stmt: 3, reg_size, value_size }]
    };
    assert_eq!(errors(&comparison(2, 3)), []);
    assert_eq!(errors(&comparison(2, 4)), wrong(2, 2));
    assert_eq!(errors(&comparison(3, 9)), wrong(3, 4));
    assert_eq!(errors(&comparison(63, 1 << 63)), wrong(63, 63));
    assert_eq!(errors(&comparison(63, u64::MAX)), wrong(63, 64));
    assert_eq!(errors(&comparison(64, u64::MAX)), []);
}

#[test]
fn recursion() {
    assert_eq!(cycles(&calling(1, &[(0, 0)])), [[(1, 1_000)]]);
    assert_eq!(cycles(&calling(2, &[(0, 1), (1, 0)])), [[(101, 1_000), (1, 1_010)]]);
    // The earliest call counts.
    assert_eq!(cycles(&calling(1, &[(0, 0), (0, 0)])), [[(1, 1_000)]]);
    // The shortest way, though a longer one stands first.
    assert_eq!(cycles(&calling(3, &[(0, 1), (1, 2), (2, 0), (0, 2)])), [[(201, 1_030), (1, 1_020)]]);
    // The lowest next gate, though the higher one is called first.
    let diamond = [(0, 2), (0, 1), (1, 3), (2, 3), (3, 0)];
    assert_eq!(cycles(&calling(4, &diamond)), [[(101, 1_010), (301, 1_020), (1, 1_040)]]);
    // Groups by lowest gate, whichever calls the other.
    assert_eq!(cycles(&calling(2, &[(0, 1), (1, 1), (0, 0)])), [[(1, 1_020)], [(101, 1_010)]]);
    assert_eq!(cycles(&calling(3, &[(2, 1), (1, 0)])), [[]; 0] as [[(u32, u32); 0]; 0]);
}

#[test]
fn calls_that_a_wrong_build_drops() {
    assert_eq!(cycles(&redefinition_closes()), [[(200, 1), (100, 11)]]);
    assert_eq!(cycles(&wrong_arity_in_cycle()), [[(100, 1)]]);
}

#[test]
fn repeated_parameters_name_the_latest_earlier_one() {
    let repeated: Vec<(u32, u32)> = errors(&repeated_parameters())
        .into_iter()
        .map(|error| match error {
            Error::RedefinedParameter { name, prev, .. } => (name.span, prev),
            other => panic!("{other:?}"),
        })
        .collect();
    assert_eq!(repeated, [(4, 3), (5, 4)]);
}

#[test]
fn indices() {
    assert_eq!(errors(&index(3, 2)), []);
    let wrong = Error::InvalidRegisterIndex { name: 0, index: 3, size: 3, reg: 4, def: 2, stmt: 3 };
    assert_eq!(errors(&index(3, 3)), [wrong]);
}

#[test]
fn limits_of_the_run() {
    assert_eq!(answer(Service::Expand, &entries(0)).0, Answer { number: 0, first: 4_096, second: 4_096 * 7 });
    assert_eq!(number(Service::Expand, &entries(1)), 10);
    for kind in [Kind::Quantum, Kind::Classical] {
        assert_eq!(number(Service::Expand, &bits(kind, 4_096)), 0);
        assert_eq!(number(Service::Expand, &bits(kind, 4_097)), 9);
        assert_eq!(number(Service::Expand, &bits(kind, u64::MAX)), 9);
        assert_eq!(number(Service::Order, &bits(kind, u64::MAX)), 0);
    }
}

#[test]
fn doubling_gates_come_back() {
    let (found, order) = answer(Service::Order, &doubling(false));
    assert_eq!((found.first, order), (100, (0..100).collect()));
    assert_eq!(number(Service::Expand, &doubling(false)), 10);
    let nothing = Answer { number: 0, first: 0, second: 0 };
    assert_eq!(answer(Service::Expand, &doubling(true)).0, nothing);
}
