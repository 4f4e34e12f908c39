//! `damage COUNT SEED [model]`: so many damaged and random images, all short ones and the chosen ones, against the model.

use compare::command::{end, words};
use compare::damage;
use compare::tally::Tally;
use std::process::ExitCode;
use std::time::Instant;

fn main() -> ExitCode {
    let words = match words("damage") {
        Ok(words) => words,
        Err(code) => return code,
    };
    let started = Instant::now();
    let mut tally = Tally::new(&*words.services);
    damage::chosen(&mut tally);
    damage::short(&mut tally, words.count, words.seed);
    damage::fields(&mut tally);
    damage::generated(&mut tally, words.count, words.seed);
    println!("{tally}");
    end(tally.findings.count(), started)
}
