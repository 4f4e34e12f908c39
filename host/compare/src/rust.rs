//! Generated programs: check against the Rust's type checker on its domain, and everything against the model.

use crate::runs;
use crate::services::Services;
use crate::tally::Tally;
use model::answer::Service;
use model::ast::Program;
use model::errors::{decode, RECURSION};
use model::flatten::flatten;
use model::generate::{self, near_limits, Rng};
use model::read::read;
use oracle::compare::judge;
use oracle::domain::{left_out, LeftOut};
use oracle::verdict::{verdict, Verdict};
use std::fmt;

/// Longer than any list of errors of these programs.
const ROOM: usize = 1 << 20;

pub struct Compared<'a> {
    pub tally: Tally<'a>,
    pub names_left_out: u64,
    pub shifts_left_out: u64,
    pub without_errors: u64,
    /// How often the Rust listed each kind.
    pub kinds: [u64; 16],
    room: Vec<u8>,
}

impl<'a> Compared<'a> {
    pub fn new(services: &'a dyn Services) -> Compared<'a> {
        Compared {
            tally: Tally::new(services),
            names_left_out: 0,
            shifts_left_out: 0,
            without_errors: 0,
            kinds: [0; 16],
            room: vec![0; ROOM],
        }
    }

    /// Compares so many generated programs.
    pub fn generated(&mut self, count: u64, seed: u64) {
        let mut rng = Rng::new(seed);
        for turn in 0..count {
            // The model's five classes seldom come near a limit of the run.
            self.add(&match turn % 16 {
                0 => near_limits(&mut rng),
                _ => generate::program(&mut rng),
            });
        }
    }

    /// Against the model whatever the program, against the Rust if it is in the domain.
    pub fn add(&mut self, program: &Program) {
        let image = flatten(program);
        runs::both(&mut self.tally, &image);
        match left_out(program) {
            Some(LeftOut::Name) => self.names_left_out += 1,
            Some(LeftOut::Shift) => self.shifts_left_out += 1,
            None if self.tally.offers(Service::Check) => self.judged(program, &image),
            None => (),
        }
    }

    fn judged(&mut self, program: &Program, image: &[u8]) {
        let rust = verdict(program).expect("a program of the domain");
        self.without_errors += u64::from(rust.errors.is_empty() && rust.cycles.is_empty());
        rust.errors.iter().for_each(|error| self.kinds[usize::from(error.kind())] += 1);
        self.kinds[usize::from(RECURSION)] += rust.cycles.len() as u64;
        let (services, room) = (self.tally.services, &mut self.room);
        let Some((name, _)) = parts(services, room, program, image, &rust) else { return };
        self.tally.findings.add(name, image, &mut |image| {
            let program = read(image).ok().filter(|program| left_out(program).is_none())?;
            parts(services, room, &program, image, &verdict(&program)?)
        });
    }
}

/// How check parts from the Rust, if it does.
fn parts(
    services: &dyn Services,
    room: &mut [u8],
    program: &Program,
    image: &[u8],
    rust: &Verdict,
) -> Option<(String, String)> {
    let found = |what: &str, story: String| Some((format!("Check against the Rust: {what}"), story));
    let answer = services.ask(Service::Check, image, room);
    if answer.number > 1 || answer.second > room.len() as u64 {
        return found("refused", format!("{answer:?}"));
    }
    let fields = &room[..answer.second as usize];
    let Some(errors) = decode(fields) else { return found("no error fields", format!("{fields:02x?}")) };
    if errors.len() as u64 != answer.first || answer.number != u64::from(!errors.is_empty()) {
        return found("another count", format!("{answer:?} for {} errors", errors.len()));
    }
    let difference = judge(program, &errors, rust).err()?;
    let story = format!("{difference:?}");
    found(story.split([' ', '(']).next().unwrap_or_default(), story.clone())
}

impl fmt::Display for Compared<'_> {
    fn fmt(&self, f: &mut fmt::Formatter) -> fmt::Result {
        for (kind, count) in self.kinds.iter().enumerate().skip(1) {
            writeln!(f, "kind {kind}: {count}")?;
        }
        writeln!(f, "without errors: {}", self.without_errors)?;
        writeln!(f, "left out of the Rust's domain for a name that is not UTF-8: {}", self.names_left_out)?;
        writeln!(f, "left out of it for a comparison of 64 bits or more: {}", self.shifts_left_out)?;
        write!(f, "{}", self.tally)
    }
}
