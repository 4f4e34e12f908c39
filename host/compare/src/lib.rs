//! The proved library, through its archive, against the Rust's type checker and against the model, for all three services: what it
//! answers, what it writes, and what it leaves alone.

pub mod archive;
pub mod command;
pub mod damage;
pub mod entries;
pub mod jobs;
pub mod room;
pub mod runs;
#[cfg(feature = "rust")]
pub mod rust;
pub mod services;
pub mod shrink;
pub mod tally;
