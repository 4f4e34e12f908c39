//! The fixed list of the Rust's answers: one case a line, the image, the error fields up to recursion, the number of groups.

use crate::domain::left_out;
use crate::verdict::verdict;
use model::ast::Program;
use model::errors::encode;
use model::flatten::flatten;
use model::generate::{of_class, Rng, Size, CLASSES};
use model::specimens;
use model::text::hex;

/// The seed that the list in the repository is made from.
pub const SEED: u64 = 20_170_711;

/// Cases from the generators, beside the specimens.
const GENERATED: usize = 460;

/// Images are kept short, so that the list stays small; one in ten may be longer.
const SHORT: usize = 220;
const LONGER: usize = 600;

pub fn list() -> String {
    let mut lines: Vec<String> = Vec::new();
    for program in specimens::all() {
        lines.extend(line(&program, usize::MAX));
    }
    let mut rng = Rng::new(SEED);
    let wanted = lines.len() + GENERATED;
    while lines.len() < wanted {
        let class = CLASSES[lines.len() % CLASSES.len()];
        let (size, most) = match lines.len() % 10 {
            0 => (Size::MIDDLE, LONGER),
            1..=5 => (Size::SMALL, SHORT),
            _ => (Size::TINY, SHORT),
        };
        let found = line(&of_class(class, &mut rng, size), most);
        lines.extend(found.filter(|line| !lines.contains(line)));
    }
    lines.concat()
}

/// The program's line; none if it is not in the domain or its image is longer than `most`.
fn line(program: &Program, most: usize) -> Option<String> {
    let image = flatten(program);
    if image.len() > most || left_out(program).is_some() {
        return None;
    }
    let verdict = verdict(program)?;
    Some(format!("{} {} {}\n", hex(&image), hex(&encode(&verdict.errors)), verdict.cycles.len()))
}
