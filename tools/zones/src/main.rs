//! The command `zones`; `zones --help` says what it does.

use std::env;
use std::process::ExitCode;

fn main() -> ExitCode {
    zones_tools::run(env::args_os().skip(1).collect())
}
