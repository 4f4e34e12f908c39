//! Document 01 as a plain program. It is written from the document alone, simple and slow, and shares no code with what it is used to
//! judge: the Rust's type checker on one side, the proved library on the other.

pub mod answer;
pub mod ast;
pub mod build;
pub mod bytes;
pub mod calls;
pub mod cases;
pub mod check;
pub mod errors;
pub mod flatten;
pub mod form;
pub mod generate;
pub mod order;
pub mod read;
pub mod run;
pub mod sample;
pub mod specimens;
pub mod text;
