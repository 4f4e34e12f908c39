//! What the commands share: `COUNT SEED`, and after them `model` where the model is to stand in the archive's place.

use crate::archive::Archive;
use crate::services::{Model, Services};
use std::process::ExitCode;

pub struct Words {
    pub count: u64,
    pub seed: u64,
    pub services: Box<dyn Services>,
}

/// The command's words, or how it ends where they are others.
pub fn words(name: &str) -> Result<Words, ExitCode> {
    let words: Vec<String> = std::env::args().skip(1).collect();
    let model = words.get(2).map(String::as_str) == Some("model");
    let numbers: Option<Vec<u64>> = words.iter().take(2).map(|word| word.parse().ok()).collect();
    match numbers.as_deref() {
        Some([count, seed]) if words.len() == 2 + usize::from(model) => {
            Ok(Words { count: *count, seed: *seed, services: services(model)? })
        }
        _ => {
            eprintln!("{name} COUNT SEED [model]");
            Err(ExitCode::from(2))
        }
    }
}

/// The archive, or the model in its place.
pub fn services(model: bool) -> Result<Box<dyn Services>, ExitCode> {
    if model {
        return Ok(Box::new(Model));
    }
    let Some(archive) = Archive::linked() else {
        eprintln!("the archive is not there; with the word `model` the model stands in its place");
        return Err(ExitCode::from(2));
    };
    Ok(Box::new(archive))
}

/// Says how long it took, and fails where there is a difference.
pub fn end(differences: u64, started: std::time::Instant) -> ExitCode {
    println!("{:.1} seconds", started.elapsed().as_secs_f64());
    ExitCode::from(u8::from(differences > 0))
}
