//! `runs COUNT SEED [model]`: so many admitted programs, most with a run near a limit, and the chosen ones: all three services against
//! the model, expand's bytes read back by 01's table.

use compare::command::{end, words};
use compare::runs;
use compare::tally::Tally;
use model::flatten::flatten;
use std::process::ExitCode;
use std::time::Instant;

fn main() -> ExitCode {
    let words = match words("runs") {
        Ok(words) => words,
        Err(code) => return code,
    };
    let started = Instant::now();
    let mut tally = Tally::new(&*words.services);
    runs::cases().iter().for_each(|case| runs::both(&mut tally, &flatten(&case.program)));
    runs::generated(&mut tally, words.count, words.seed);
    println!("{tally}");
    end(tally.findings.count(), started)
}
