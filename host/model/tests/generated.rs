//! Generated programs: the way to bytes and back, answers around the room they need, and that damage never gets through unseen.

use model::answer::SERVICES;
use model::check;
use model::errors::{decode, encode};
use model::flatten::flatten;
use model::generate::{self, Class, Rng, Size};
use model::read::read;

#[test]
fn flatten_then_read_gives_the_program_back() {
    let mut rng = Rng::new(1);
    for _ in 0..20_000 {
        let program = generate::program(&mut rng);
        assert_eq!(read(&flatten(&program)).as_ref(), Ok(&program));
    }
}

#[test]
fn error_fields_go_there_and_back() {
    let mut rng = Rng::new(2);
    let mut met = [0; 16];
    for _ in 0..10_000 {
        let errors = check::errors(&generate::program(&mut rng));
        errors.iter().for_each(|error| met[usize::from(error.kind())] += 1);
        assert_eq!(decode(&encode(&errors)), Some(errors));
    }
    for (kind, count) in met.iter().enumerate().skip(1) {
        assert!(*count >= 100, "kind {kind} is met {count} times");
    }
}

#[test]
fn bytes_that_are_no_error_fields_are_not_decoded() {
    for bytes in [&[0, 0, 0][..], &[16, 0, 0], &[5, 8], &[5, 9, 0, 0, 0, 0, 0, 0, 0, 0, 0, 0], &[4, 1, 0, 0]]
    {
        assert_eq!(decode(bytes), None);
    }
}

#[test]
fn valid_programs_have_no_errors_and_run() {
    let mut rng = Rng::new(3);
    let mut written = 0;
    for _ in 0..5_000 {
        let program = generate::valid(&mut rng, Size::SMALL);
        assert_eq!(check::errors(&program), []);
        let image = flatten(&program);
        for service in SERVICES {
            let mut out = vec![0; 200_000];
            let answer = service.answer(&image, &mut out);
            assert!(answer.number == 0, "{service:?} answers {}", answer.number);
            written += answer.first;
        }
    }
    assert!(written > 30_000, "{written} items");
}

#[test]
fn most_programs_of_the_other_classes_have_errors() {
    let mut rng = Rng::new(4);
    for class in [Class::Spoiled, Class::Wild, Class::Sizes, Class::Graph] {
        let made: Vec<_> = (0..1_000).map(|_| generate::of_class(class, &mut rng, Size::SMALL)).collect();
        let bad = made.iter().filter(|program| !check::errors(program).is_empty()).count();
        assert!((500..1_000).contains(&bad), "{class:?}: {bad} of 1000");
    }
}

/// Whatever the image: the offset is inside, the numbers are 01's, a refused call changes no byte, and a written one only those
/// it says.
#[test]
fn every_answer_keeps_to_its_room() {
    let mut rng = Rng::new(5);
    for _ in 0..10_000 {
        let image = generate::image(&mut rng);
        for service in SERVICES {
            let mut out = vec![0xa5; rng.below(200)];
            let answer = service.answer(&image, &mut out);
            let done = answer.number <= 1;
            let kept = if done { answer.second as usize } else { 0 };
            assert!(out[kept..].iter().all(|byte| *byte == 0xa5));
            assert!(!(3..=7).contains(&answer.number) || answer.first as usize <= image.len());
            assert!(answer.number != 11 || answer.second as usize > out.len());
        }
    }
}

#[test]
fn damage_meets_every_refusal_of_the_reading_but_the_length() {
    let mut rng = Rng::new(6);
    let mut met = [0; 8];
    for _ in 0..20_000 {
        if let Err(refusal) = read(&generate::image(&mut rng)) {
            met[usize::from(refusal.number)] += 1;
        }
    }
    assert!(met[3..].iter().all(|count| *count > 50), "{met:?}");
}
