//! The model against the Rust, and the comparison itself against lists that are wrong.

use model::ast::Program;
use model::check;
use model::errors::Error;
use model::generate::limits::limits;
use model::specimens;
use oracle::compare::{agrees, compare, Difference};
use oracle::domain::{left_out, LeftOut};
use oracle::tally::Tally;

#[test]
fn generated_programs_agree() {
    let tally = Tally::generated(20_000, 7);
    println!("{tally}");
    assert_eq!(tally.differences, [""; 0]);
    assert!(tally.kinds[1..].iter().all(|count| *count >= 500), "{tally}");
    assert!(tally.names_left_out > 0 && tally.shifts_left_out > 0, "{tally}");
}

#[test]
fn specimens_and_limits_agree() {
    let mut tally = Tally::default();
    specimens::all().iter().for_each(|program| tally.add(program));
    for limit in limits() {
        tally.add(&limit.kept);
        tally.add(&limit.passed);
    }
    for program in [specimens::doubling(true), specimens::doubling(false), specimens::entries(1)] {
        tally.add(&program);
    }
    assert_eq!(tally.differences, [""; 0]);
}

/// The worst recursion: as many gates as there may be, each calling every other.
#[test]
fn many_gates_agree() {
    let all = |gates: u16| (0..gates).flat_map(move |from| (0..gates).map(move |to| (from, to)));
    let full: Vec<(u16, u16)> = all(60).filter(|(from, to)| from != to).collect();
    let ring: Vec<(u16, u16)> = (0..128).map(|gate| (gate, (gate + 1) % 128)).collect();
    let pairs: Vec<(u16, u16)> = (0..128).map(|gate| (gate, gate ^ 1)).collect();
    for edges in [full, ring, pairs] {
        assert_eq!(agrees(&specimens::calling(128, &edges)), Ok(()));
    }
}

#[test]
fn the_domain() {
    assert_eq!(left_out(&specimens::comparison(63, u64::MAX)), None);
    assert_eq!(left_out(&specimens::comparison(64, 0)), Some(LeftOut::Shift));
    let named = |name: &[u8]| Program { names: vec![name.to_vec()], decls: Vec::new() };
    assert_eq!(left_out(&named("é".as_bytes())), None);
    assert_eq!(left_out(&named(&[0xff])), Some(LeftOut::Name));
}

/// Each wrong list of the model's is told from the right one.
#[test]
fn wrong_lists_are_found() {
    let program = specimens::calling(4, &[(0, 1), (1, 0), (2, 3), (3, 2)]);
    let right = check::errors(&program);
    assert_eq!(compare(&program, &right), Ok(()));
    let groups = |ours| Err(Difference::Groups { graph: 2, ours, rust: 2 });
    assert_eq!(compare(&program, &[]), groups(0));
    assert_eq!(compare(&program, &right[..1]), groups(1));
    assert_eq!(compare(&program, &[&right[..], &right[..1]].concat()), groups(3));

    let cycle = |pairs: &[(u32, u32)]| Error::RecursiveDefinition { cycle: pairs.to_vec() };
    let wrong_cycles = [
        cycle(&[]),
        cycle(&[(101, 1_000)]),
        cycle(&[(101, 1_000), (1, 1_000)]),
        cycle(&[(301, 1_020), (201, 1_030)]),
    ];
    for wrong in wrong_cycles {
        let found = compare(&program, &[wrong, right[1].clone()]);
        assert!(matches!(found, Err(Difference::OurCycle(_))), "{found:?}");
    }

    let extra = Error::UndefinedRegister { name: 0, reg: 1, stmt: 2 };
    let found = compare(&program, &[std::slice::from_ref(&extra), &right[..]].concat());
    assert!(matches!(found, Err(Difference::Fields { .. })), "{found:?}");
    assert_eq!(compare(&program, &[&right[..], &[extra]].concat()), Err(Difference::Order));
}

#[test]
fn missing_and_swapped_errors_are_found() {
    let program = specimens::repeated_parameters();
    let right = check::errors(&program);
    let swapped = [right[1].clone(), right[0].clone()];
    for wrong in [&right[..1], &right[1..], &swapped, &[]] {
        let found = compare(&program, wrong);
        assert!(matches!(found, Err(Difference::Fields { .. })), "{found:?}");
    }
}
