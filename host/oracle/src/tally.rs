//! Many generated programs compared, and what was met on the way.

use crate::compare::judge;
use crate::domain::{left_out, LeftOut};
use crate::verdict::verdict;
use model::ast::Program;
use model::check;
use model::errors::RECURSION;
use model::flatten::flatten;
use model::generate::{self, Rng};
use model::text::hex;
use std::fmt;

#[derive(Debug, Default)]
pub struct Tally {
    pub programs: u64,
    pub names_left_out: u64,
    pub shifts_left_out: u64,
    pub without_errors: u64,
    /// How often the Rust listed each kind.
    pub kinds: [u64; 16],
    /// Images on which the two sides part, with how.
    pub differences: Vec<String>,
}

impl Tally {
    /// Compares so many generated programs.
    pub fn generated(count: u64, seed: u64) -> Tally {
        let mut rng = Rng::new(seed);
        let mut tally = Tally::default();
        for _ in 0..count {
            tally.add(&generate::program(&mut rng));
        }
        tally
    }

    pub fn add(&mut self, program: &Program) {
        self.programs += 1;
        match left_out(program) {
            Some(LeftOut::Name) => self.names_left_out += 1,
            Some(LeftOut::Shift) => self.shifts_left_out += 1,
            None => self.compare(program),
        }
    }

    fn compare(&mut self, program: &Program) {
        let rust = verdict(program).expect("a program of the domain");
        self.without_errors += u64::from(rust.errors.is_empty() && rust.cycles.is_empty());
        rust.errors.iter().for_each(|error| self.kinds[usize::from(error.kind())] += 1);
        self.kinds[usize::from(RECURSION)] += rust.cycles.len() as u64;
        if let Err(difference) = judge(program, &check::errors(program), &rust) {
            self.differences.push(format!("{} {difference:?}", hex(&flatten(program))));
        }
    }
}

impl fmt::Display for Tally {
    fn fmt(&self, f: &mut fmt::Formatter) -> fmt::Result {
        for (kind, count) in self.kinds.iter().enumerate().skip(1) {
            writeln!(f, "kind {kind}: {count}")?;
        }
        writeln!(f, "without errors: {}", self.without_errors)?;
        writeln!(f, "left out for a name that is not UTF-8: {}", self.names_left_out)?;
        writeln!(f, "left out for a comparison of 64 bits or more: {}", self.shifts_left_out)?;
        for difference in &self.differences {
            writeln!(f, "difference: {difference}")?;
        }
        write!(f, "{} programs, {} differences", self.programs, self.differences.len())
    }
}
