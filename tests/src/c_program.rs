//! Programs in C, compiled with include/zones.h and linked with the archive.

use std::env;
use std::path::{Path, PathBuf};
use std::process::{Command, Output, Stdio};

/// Every warning that a maker is likely to ask for is an error.
const WARNINGS: [&str; 4] = ["-Wall", "-Wextra", "-pedantic", "-Werror"];

/// A compiler, the language that it is told and the standard.
pub type Compiler = (&'static str, &'static str, &'static str);

pub const CC: Compiler = ("cc", "c", "c99");

/// The archive that makers link.
pub fn archive() -> PathBuf {
    let folder = env::var_os("ZONES_LIB_DIR").unwrap_or("../crates/zones/out".into());
    let tests = Path::new(env!("CARGO_MANIFEST_DIR"));
    tests.join(folder).join("libzones.a")
}

/// The folder of the header.
pub fn include() -> PathBuf {
    Path::new(env!("CARGO_MANIFEST_DIR")).join("../include")
}

/// Whether there is a program of this name on the machine.
pub fn has(program: &str) -> bool {
    let mut asked = Command::new(program);
    let asked = asked.arg("--version").stdout(Stdio::null());
    asked.stderr(Stdio::null()).status().is_ok()
}

fn command((compiler, language, standard): Compiler, include: &Path) -> Command {
    let mut command = Command::new(compiler);
    command.arg(format!("-std={standard}")).args(WARNINGS);
    command.arg("-I").arg(include).args(["-x", language]);
    command
}

/// Compiles sources to a program of the first one's name in a folder.
pub fn compiled(sources: &[&Path], folder: &Path) -> PathBuf {
    let program = folder.join(sources[0].file_stem().expect("a source has a name"));
    let mut command = command(CC, &include());
    command.arg("-O2").args(sources).args(["-x", "none"]);
    // Bound at the start: tools/stack.c measures no dynamic linker.
    let compiled = command.arg(archive()).args(["-Wl,-z,now", "-o"]);
    let compiled = compiled.arg(&program).status();
    let compiled = compiled.expect("a C compiler, which linking these tests needs too");
    assert!(compiled.success(), "{}", sources[0].display());
    program
}

/// Whether a source compiles with the header of another folder, whatever the compiler warns of, and the program ends well.
pub fn ends_well(source: &Path, folder: &Path) -> bool {
    let program = folder.join("program");
    let mut command = Command::new("cc");
    command
        .args(["-std=c99", "-w", "-I"])
        .arg(folder)
        .arg(source);
    command.arg(archive()).arg("-o").arg(&program);
    let compiled = command.output().expect("a C compiler");
    let run = || Command::new(&program).output().expect("the program runs");
    compiled.status.success() && run().status.success()
}

/// What a compiler says of a source, which it reads and makes nothing of.
pub fn checked(compiler: Compiler, source: &Path, defined: &str) -> Output {
    let mut command = command(compiler, &include());
    let command = command.args(["-fsyntax-only", defined]).arg(source);
    command.output().expect("the compiler runs")
}
