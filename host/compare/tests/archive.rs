//! The archive, where it is linked: everything that the commands compare, in a short measure.

use compare::archive::Archive;
use compare::damage;
use compare::room::{around, every, Lender};
use compare::runs;
use compare::services::Services;
use compare::tally::Tally;
use model::answer::{answers, Service, SERVICES};
use model::flatten::flatten;
use model::sample::samples;
use model::specimens;
use std::io::Write;

fn archive() -> Option<Archive> {
    Archive::linked()
}

/// A line for what is not there, past the test harness, which would keep it to itself.
#[test]
fn what_is_left_out() {
    let offered = archive().map_or(Vec::new(), |archive| archive.offered());
    let missing: Vec<_> = SERVICES.iter().filter(|service| !offered.contains(service)).collect();
    let line = match missing.len() {
        0 => return,
        3 => "\nleft out: the proved library, whose archive is not there\n".to_string(),
        _ => format!("\nleft out: {missing:?} of the proved library, which its archive does not export\n"),
    };
    std::io::stderr().write_all(line.as_bytes()).unwrap();
}

fn clean(tally: &Tally) {
    assert_eq!(tally.findings.count(), 0, "{tally}");
}

#[cfg(feature = "rust")]
#[test]
fn generated_programs() {
    let Some(archive) = archive() else { return };
    let mut compared = compare::rust::Compared::new(&archive);
    compared.generated(30_000, 11);
    assert_eq!(compared.tally.findings.count(), 0, "{compared}");
    assert!(compared.kinds[1..].iter().all(|count| *count >= 500), "{compared}");
    assert!(compared.names_left_out > 0 && compared.shifts_left_out > 0, "{compared}");
}

#[test]
fn damaged_images() {
    let Some(archive) = archive() else { return };
    let mut tally = Tally::new(&archive);
    damage::chosen(&mut tally);
    damage::generated(&mut tally, 40_000, 12);
    clean(&tally);
}

#[test]
fn short_images() {
    let Some(archive) = archive() else { return };
    let mut tally = Tally::new(&archive);
    damage::short(&mut tally, 40_000, 13);
    damage::fields(&mut tally);
    clean(&tally);
}

/// Each limit of the run, and programs near them: what stands beside the cases is written by hand.
#[test]
fn runs_around_every_limit() {
    let Some(archive) = archive() else { return };
    let mut tally = Tally::new(&archive);
    for case in runs::cases() {
        runs::both(&mut tally, &flatten(&case.program));
    }
    runs::generated(&mut tally, 1_500, 14);
    clean(&tally);
}

#[test]
fn specimens_in_every_room() {
    let Some(archive) = archive() else { return };
    let mut tally = Tally::new(&archive);
    for program in specimens::all() {
        tally.image_in(&flatten(&program), |full, _| every(full));
    }
    for program in [specimens::doubling(true), specimens::doubling(false), specimens::entries(1)] {
        tally.image(&flatten(&program));
    }
    clean(&tally);
}

/// The sample answers are those of the file, not the model's.
#[test]
fn sample_answers() {
    let (Some(archive), Some(samples)) = (archive(), samples()) else { return };
    let mut lender = Lender::default();
    for sample in samples {
        for service in archive.offered() {
            let said = &sample.said[service as usize];
            for room in around(said) {
                let held = lender.held(&archive, service, &sample.image, said, room);
                held.unwrap_or_else(|astray| panic!("{astray}\n{}", model::text::hex(&sample.image)));
            }
        }
    }
}

/// The list that is replayed without any Rust holds for the archive too: the fields up to recursion and the number of groups.
#[test]
fn the_list_of_the_rusts_answers() {
    let Some(archive) = archive().filter(|archive| archive.offered().contains(&Service::Check)) else {
        return;
    };
    let list = concat!(env!("CARGO_MANIFEST_DIR"), "/../../crates/replay/stdin");
    for line in std::fs::read_to_string(list).expect("crates/replay/stdin").lines() {
        let words: Vec<&str> = line.split(' ').collect();
        let image = model::text::unhex(words[0]).expect("hex");
        let mut out = vec![0; answers(&image)[0].bytes.len()];
        let answer = archive.ask(Service::Check, &image, &mut out);
        let errors = model::errors::decode(&out).expect("error fields");
        let groups = errors.iter().filter(|error| error.kind() == model::errors::RECURSION).count();
        let (listed, _) = errors.split_at(errors.len() - groups);
        assert_eq!(
            line,
            format!("{} {} {groups}", words[0], model::text::hex(&model::errors::encode(listed)))
        );
        assert_eq!(answer.first, errors.len() as u64);
    }
}
