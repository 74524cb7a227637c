//! Links libzones.a, taken from the folder ZONES_LIB_DIR (a relative one begins at the folder of this package), or from where the
//! repository makes it for the processor: crates/zones/out for x86-64, target/port/NAME for those of docs/PORTING.md.

use std::env;
use std::path::PathBuf;

/// The folder, from the top of the repository, and the command that makes the archive.
fn made_for(processor: &str) -> Option<(&'static str, &'static str)> {
    match processor {
        "x86_64" => Some(("crates/zones/out", "tools/archive zones")),
        "aarch64" => Some(("target/port/aarch64", "tools/port aarch64")),
        "arm" => Some(("target/port/armv7", "tools/port armv7")),
        _ => None,
    }
}

fn stop(messages: &[String]) -> ! {
    for message in messages {
        eprintln!("{message}");
    }
    std::process::exit(1);
}

fn main() {
    println!("cargo:rerun-if-env-changed=ZONES_LIB_DIR");
    let processor = env::var("CARGO_CFG_TARGET_ARCH").unwrap_or_default();
    let made = made_for(&processor);
    let chosen = env::var_os("ZONES_LIB_DIR").map(PathBuf::from);
    let usual = made.map(|(folder, _)| PathBuf::from("..").join(folder));
    let Some(folder) = chosen.or(usual) else {
        stop(&[
            format!("error: the repository makes no archive for {processor} (docs/PORTING.md)"),
            "Set ZONES_LIB_DIR to the folder that holds libzones.a.".into(),
        ]);
    };
    let package = env::var_os("CARGO_MANIFEST_DIR").expect("cargo gives CARGO_MANIFEST_DIR");
    // An absolute folder replaces the package's, a relative one begins there.
    let folder = PathBuf::from(package).join(folder);
    let archive = folder.join("libzones.a");
    println!("cargo:rerun-if-changed={}", archive.display());
    if !archive.is_file() {
        let command = made.map_or("tools/archive zones", |(_, command)| command);
        stop(&[
            format!("error: there is no {}", archive.display()),
            format!("Make it with `{command}` at the top of the repository (some minutes the first time),"),
            "or set ZONES_LIB_DIR to the folder that holds libzones.a.".into(),
        ]);
    }
    println!("cargo:rustc-link-search=native={}", folder.display());
    println!("cargo:rustc-link-lib=static=zones");
    // For the packages that link further archives of the same folder.
    println!("cargo:folder={}", folder.display());
}
