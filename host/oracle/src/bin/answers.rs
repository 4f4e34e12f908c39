//! Writes the list of the Rust's answers, crates/replay/stdin, to standard output.

fn main() {
    print!("{}", oracle::answers::list());
}
