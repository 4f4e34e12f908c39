//! Writes the cases of vectors/reading.txt to standard output.

fn main() {
    print!("{}", model::cases::text());
}
