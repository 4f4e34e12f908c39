//! `compare COUNT SEED [model]`: so many generated programs, check against the Rust and all three services against the model.

use compare::command::{end, words};
use compare::rust::Compared;
use std::process::ExitCode;
use std::time::Instant;

fn main() -> ExitCode {
    let words = match words("compare") {
        Ok(words) => words,
        Err(code) => return code,
    };
    let started = Instant::now();
    let mut compared = Compared::new(&*words.services);
    compared.generated(words.count, words.seed);
    println!("{compared}");
    end(compared.tally.findings.count(), started)
}
