//! The list of the Rust's answers against the model. It needs no Rust source.

use model::check;
use model::errors::{encode, RECURSION};
use model::read::read;
use model::text::{hex, unhex};

const LIST: &str = concat!(env!("CARGO_MANIFEST_DIR"), "/../../crates/replay/stdin");

#[test]
fn the_model_answers_as_the_list_does() {
    let list = std::fs::read_to_string(LIST).expect("crates/replay/stdin");
    for line in list.lines() {
        let image = line.split(' ').next().and_then(unhex).expect("an image");
        let errors = check::errors(&read(&image).expect("an image that is read"));
        let (cycles, others): (Vec<_>, Vec<_>) =
            errors.into_iter().partition(|error| error.kind() == RECURSION);
        assert_eq!(line, format!("{} {} {}", hex(&image), hex(&encode(&others)), cycles.len()));
    }
    assert!((400..=600).contains(&list.lines().count()));
}
