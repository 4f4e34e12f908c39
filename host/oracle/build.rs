//! Writes the glue that names the Rust's files where they are. They are compiled from there, unchanged and uncopied.

use std::path::PathBuf;
use std::{env, fs};

const FILES: [&str; 3] = ["typing.rs", "ast/mod.rs", "ast/utils.rs"];

fn main() {
    println!("cargo:rerun-if-env-changed=PESUKOYMI_RUST");
    let beside = PathBuf::from(env::var_os("CARGO_MANIFEST_DIR").unwrap()).join("../../../shared/docs/src");
    let source = env::var_os("PESUKOYMI_RUST").map_or(beside, PathBuf::from);
    let Ok(source) = fs::canonicalize(&source) else {
        panic!("the Rust's source is not at {}; PESUKOYMI_RUST names its folder", source.display());
    };
    for file in FILES {
        println!("cargo:rerun-if-changed={}", source.join(file).display());
    }
    let module = |name: &str, file: &str| {
        // Not all of it is used.
        format!("#[allow(dead_code)]\n#[path = {:?}]\npub mod {name};\n", source.join(file))
    };
    let glue = module("ast", "ast/mod.rs") + &module("typing", "typing.rs");
    let out = PathBuf::from(env::var_os("OUT_DIR").unwrap()).join("glue.rs");
    fs::write(out, glue).expect("the glue is written");
}
