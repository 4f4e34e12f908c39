//! The places where the Rust and 01 part, each with the smallest image that was found. The same images stand in the document on
//! differences.

use model::answer::Service;
use model::check;
use model::errors::Error;
use model::read::read;
use model::text::unhex;
use oracle::verdict::{verdict, Verdict};

type Cycle = Vec<(u32, u32)>;

fn program(image: &str) -> model::ast::Program {
    let image = unhex(image).expect("hex");
    let mut out = [0; 1_000];
    assert!(Service::Check.answer(&image, &mut out).number <= 1);
    read(&image).expect("an image that is read")
}

fn rust(image: &str) -> Verdict {
    verdict(&program(image)).expect("names are UTF-8")
}

/// The cycles that 01 lists, and those that the Rust does.
fn cycles(image: &str) -> (Vec<Cycle>, Vec<Cycle>) {
    let ours = check::errors(&program(image)).into_iter().map(|error| match error {
        Error::RecursiveDefinition { cycle } => cycle,
        other => panic!("{other:?}"),
    });
    let shown = |cycle: &Vec<_>| {
        cycle.iter().map(|step: &oracle::verdict::Step| (step.def, step.call.span)).collect()
    };
    (ours.collect(), rust(image).cycles.iter().map(shown).collect())
}

/// A classical register of 64 bits compared with 1, and one of 65 compared with 2.
const SHIFT_64: &str = "01010063041300010000000200000000000140000000000000\
    00161f000300000004000000000000000000000000000005000000010000000000000014050006000000\
    00";
const SHIFT_65: &str = "01010063041300010000000200000000000141000000000000\
    00161f000300000004000000000000000000000000000005000000020000000000000014050006000000\
    00";

#[test]
fn the_shift_from_size_64_on() {
    for (image, reg_size, value_size) in [(SHIFT_64, 64, 0), (SHIFT_65, 65, 1)] {
        assert_eq!(check::errors(&program(image)), []);
        let answer = std::panic::catch_unwind(|| rust(image).errors);
        if cfg!(debug_assertions) {
            assert!(answer.is_err(), "a debug build stops at the shift");
        } else {
            let wrapped = Error::InvalidComparisonSize { reg: 4, value: 5, stmt: 3, reg_size, value_size };
            assert_eq!(answer.expect("a release build goes on"), [wrapped]);
        }
    }
}

/// a calls itself twice.
const CALL: &str = "01010061050d0001000000020000000000010000\
    150c00030000000400000000000000150c00050000000600000000000000060000";

#[test]
fn the_choice_of_call() {
    let (ours, rust) = cycles(CALL);
    assert_eq!(ours, [[(1, 3)]]);
    assert_eq!(rust, [[(1, 5)]]);
}

/// a calls b, b calls a.
const START: &str = "0101006101010062\
    050d0001000000020000000000010000150c00030000000400000001000000060000\
    050d0005000000060000000100010000150c00070000000800000000000000060000";

#[test]
fn the_start_of_a_cycle() {
    let (ours, rust) = cycles(START);
    assert_eq!(ours, [[(5, 3), (1, 7)]]);
    assert_eq!(rust, [[(1, 7), (5, 3)]]);
}

/// a calls b and itself, b calls a.
const LENGTH: &str = "0101006101010062\
    050d0001000000020000000000010000150c00030000000400000001000000150c00050000000600000000000000060000\
    050d0007000000080000000100010000150c00090000000a00000000000000060000";

#[test]
fn the_length_of_a_cycle() {
    let (ours, rust) = cycles(LENGTH);
    assert_eq!(ours, [vec![(1, 5)]]);
    assert_eq!(rust, [vec![(1, 9), (7, 3)]]);
}

/// a calls b and itself, b calls itself.
const GROUPS: &str = "0101006101010062\
    050d0001000000020000000000010000150c00030000000400000001000000150c00050000000600000000000000060000\
    050d0007000000080000000100010000150c00090000000a00000001000000060000";

#[test]
fn the_order_of_groups() {
    let (ours, rust) = cycles(GROUPS);
    assert_eq!(ours, [[(1, 5)], [(7, 9)]]);
    assert_eq!(rust, [[(7, 9)], [(1, 5)]]);
}
