//! Links the calls for the tests only, libprobe.a, from the folder of libzones.a (rust/build.rs), or from where the repository makes
//! it, crates/probe/out. By hand they are made at the top of the repository: `tools/archive zones` and `tools/archive probe`.

use std::env;
use std::path::PathBuf;

fn main() {
    let folder = env::var_os("DEP_ZONES_FOLDER").expect("the package zones says where it was");
    let mut folder = PathBuf::from(folder);
    if !folder.join("libprobe.a").is_file() {
        let tests = env::var_os("CARGO_MANIFEST_DIR").expect("cargo gives CARGO_MANIFEST_DIR");
        folder = PathBuf::from(tests).join("../crates/probe/out");
    }
    let archive = folder.join("libprobe.a");
    println!("cargo:rerun-if-changed={}", archive.display());
    if !archive.is_file() {
        eprintln!("error: there is no {}", archive.display());
        eprintln!("Make it with `tools/archive probe` at the top of the repository.");
        std::process::exit(1);
    }
    println!("cargo:rustc-link-search=native={}", folder.display());
    println!("cargo:rustc-link-lib=static=probe");
}
