//! Programs and images for tests, from a seed: the same seed gives the same ones on every machine.

mod damage;
mod graph;
pub mod limits;
mod maker;
mod near;
mod rng;
mod spoil;
mod valid;
mod wild;

pub use damage::damaged;
pub use graph::graph;
pub use maker::Size;
pub use near::near_limits;
pub use rng::Rng;
pub use spoil::spoiled;
pub use valid::valid;
pub use wild::{sizes, wild};

use crate::ast::Program;
use crate::flatten::flatten;

/// What a generated program is like.
#[derive(Debug, Clone, Copy, PartialEq, Eq)]
pub enum Class {
    /// No errors.
    Valid,
    /// A valid one with some changes.
    Spoiled,
    /// Every choice free, over few names.
    Wild,
    /// Register sizes, indices, pairing and comparisons.
    Sizes,
    /// Calls among gates.
    Graph,
}

pub const CLASSES: [Class; 5] = [Class::Valid, Class::Spoiled, Class::Wild, Class::Sizes, Class::Graph];

/// A program of the class.
pub fn of_class(class: Class, rng: &mut Rng, size: Size) -> Program {
    match class {
        Class::Valid => valid(rng, size),
        Class::Spoiled => spoiled(rng, size),
        Class::Wild => wild(rng, size),
        Class::Sizes => sizes(rng, size),
        Class::Graph => graph(rng, size),
    }
}

/// A program of any class and of mostly small size.
pub fn program(rng: &mut Rng) -> Program {
    let size = match rng.below(10) {
        0 => Size::LARGE,
        1..=3 => Size::MIDDLE,
        _ => Size::SMALL,
    };
    let class = *rng.pick(&CLASSES);
    of_class(class, rng, size)
}

/// An image: a program's, and in half of the cases a damaged copy of one.
pub fn image(rng: &mut Rng) -> Vec<u8> {
    let image = flatten(&program(rng));
    if rng.chance(2) {
        damaged(rng, image)
    } else {
        image
    }
}
