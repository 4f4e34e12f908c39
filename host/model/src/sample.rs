//! The sample answers that stand beside the repository: images with what all three services say of them.

use crate::answer::{Answer, Full};
use crate::text::unhex;
use std::path::PathBuf;

pub struct Sample {
    pub image: Vec<u8>,
    /// In the order of `SERVICES`.
    pub said: [Full; 3],
}

/// The samples; none where the file is not there.
pub fn samples() -> Option<Vec<Sample>> {
    let beside = concat!(env!("CARGO_MANIFEST_DIR"), "/../../../shared/vectors");
    let folder = std::env::var_os("PESUKOYMI_VECTORS").map_or(PathBuf::from(beside), PathBuf::from);
    let text = std::fs::read_to_string(folder.join("sample.txt")).ok()?;
    Some(text.split("\n\n").filter(|case| !case.trim().is_empty()).map(sample).collect())
}

/// A case: its class, the image, and a line for each service.
fn sample(case: &str) -> Sample {
    let lines: Vec<&str> = case.lines().collect();
    let image = unhex(lines[1].strip_prefix("image ").unwrap_or("-").trim()).expect("hex");
    Sample { image, said: [2, 3, 4].map(|line| said(lines[line])) }
}

/// A line: the service, 01's number, the two numbers, and the bytes written if there are any.
fn said(line: &str) -> Full {
    let words: Vec<&str> = line.split(' ').collect();
    let number = |at: usize| words[at].parse::<u64>().expect("a number");
    let answer = Answer { number: number(1), first: number(2), second: number(3) };
    Full { answer, bytes: words.get(4).map_or(Vec::new(), |digits| unhex(digits).expect("hex")) }
}
