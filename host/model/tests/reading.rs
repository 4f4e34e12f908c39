//! The reading against hand-written images, and the file of them against the code that writes it.

use model::cases::{cases, text};
use model::flatten::flatten;
use model::generate::limits::limits;
use model::read::{read, Refusal};
use model::text::uncompact;

const FILE: &str = concat!(env!("CARGO_MANIFEST_DIR"), "/../vectors/reading.txt");

#[test]
fn each_case_is_read_as_written_beside_it() {
    for case in cases() {
        let image = case.image.bytes();
        let found = match read(&image) {
            Ok(_) => (0, 0),
            Err(Refusal { number, offset }) => (number, offset),
        };
        assert_eq!(found, (case.number, case.offset), "{:?}", case.image);
    }
}

#[test]
fn every_refusal_is_met() {
    let cases = cases();
    for number in 0..=7 {
        let met = cases.iter().filter(|case| case.number == number).count();
        assert!(number == 1 || met >= 3, "{number} is met {met} times");
    }
}

#[test]
fn the_file_holds_these_cases() {
    let file = std::fs::read_to_string(FILE).expect("vectors/reading.txt");
    assert!(file == text(), "vectors/reading.txt differs: write it again with the binary `reading`");
    for (line, case) in file.lines().zip(cases()) {
        let image = line.split(' ').next().and_then(uncompact);
        assert_eq!(image, Some(case.image.bytes()));
    }
}

#[test]
fn each_limit_is_kept_and_passed_by_one() {
    for limit in limits() {
        let kept = flatten(&limit.kept);
        assert_eq!(read(&kept).as_ref(), Ok(&limit.kept), "{}", limit.what);
        let passed = read(&flatten(&limit.passed)).expect_err(limit.what);
        assert_eq!(passed.number, limit.refusal, "{}", limit.what);
    }
}
