//! The list in the repository is the one that the Rust gives today.

const LIST: &str = concat!(env!("CARGO_MANIFEST_DIR"), "/../../crates/replay/stdin");

#[test]
fn the_list_is_up_to_date() {
    let file = std::fs::read_to_string(LIST).expect("crates/replay/stdin");
    assert!(
        file == oracle::answers::list(),
        "crates/replay/stdin differs: write it again with the binary `answers`"
    );
    assert!(file.len() < 300_000);
}

#[test]
fn the_list_covers_every_kind() {
    let mut met = [0; 16];
    let mut groups = 0;
    for line in oracle::answers::list().lines() {
        let words: Vec<&str> = line.split(' ').collect();
        let errors = model::text::unhex(words[1]).and_then(|fields| model::errors::decode(&fields));
        errors.expect("error fields").iter().for_each(|error| met[usize::from(error.kind())] += 1);
        groups += words[2].parse::<usize>().expect("a number");
    }
    met[usize::from(model::errors::RECURSION)] = groups;
    assert!(met[1..].iter().all(|count| *count >= 10), "{met:?}");
}
