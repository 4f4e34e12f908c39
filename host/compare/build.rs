//! Links the archive of the proved library where it is there. What it exports is asked of `nm`, since the services came one by one:
//! an archive without order or expand is compared in the others.

use std::path::{Path, PathBuf};
use std::process::Command;
use std::{env, fs};

const SERVICES: [&str; 3] = ["check", "order", "expand"];

fn main() {
    println!("cargo:rerun-if-env-changed=PESUKOYMI_ARCHIVE");
    let beside = PathBuf::from(env::var_os("CARGO_MANIFEST_DIR").unwrap()).join("../../target/staticlib");
    let folder = env::var_os("PESUKOYMI_ARCHIVE").map_or(beside, PathBuf::from);
    println!("cargo:rerun-if-changed={}", folder.join("libpesukoymi.a").display());
    for service in SERVICES {
        println!("cargo:rustc-check-cfg=cfg(archive_{service})");
    }
    let Ok(archive) = fs::canonicalize(folder.join("libpesukoymi.a")) else { return };
    let exports = exports(&archive);
    for service in SERVICES.iter().filter(|service| exports.contains(&format!("pesukoymi_{service}"))) {
        println!("cargo:rustc-cfg=archive_{service}");
    }
    println!("cargo:rustc-link-search=native={}", archive.parent().unwrap().display());
    println!("cargo:rustc-link-lib=static=pesukoymi");
}

/// The functions that the archive defines for others. A line of `nm` is an address, a letter (T for code) and a name.
fn exports(archive: &Path) -> Vec<String> {
    let listed = Command::new("nm").args(["--defined-only", "--extern-only"]).arg(archive).output();
    let listed = listed.expect("nm, which comes with the linker, lists what the archive exports");
    assert!(
        listed.status.success(),
        "nm cannot read the archive: {}",
        String::from_utf8_lossy(&listed.stderr)
    );
    let text = String::from_utf8_lossy(&listed.stdout).into_owned();
    text.lines().filter_map(|line| line.split_once(" T ")).map(|(_, name)| name.to_string()).collect()
}
