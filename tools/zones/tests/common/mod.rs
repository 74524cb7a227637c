//! Runs of the command `zones` at the top of the repository.

#![allow(dead_code)]

use std::io::Write;
use std::path::{Path, PathBuf};
use std::process::{Command, Output, Stdio};

pub const ZONES: &str = env!("CARGO_BIN_EXE_zones");

pub fn top() -> PathBuf {
    Path::new(env!("CARGO_MANIFEST_DIR")).join("../..")
}

/// A file of the tests, by a name that no other test has.
pub fn scratch(name: &str) -> String {
    let path = Path::new(env!("CARGO_TARGET_TMPDIR")).join(name);
    path.to_str().expect("a path in UTF-8").to_string()
}

/// What a run left.
#[derive(PartialEq, Eq, Debug)]
pub struct Ran {
    pub status: i32,
    pub out: Vec<u8>,
    pub said: String,
}

impl Ran {
    fn of(output: Output) -> Ran {
        Ran {
            status: output.status.code().expect("the program ends by itself"),
            out: output.stdout,
            said: String::from_utf8(output.stderr).expect("messages in UTF-8"),
        }
    }

    pub fn text(&self) -> &str {
        str::from_utf8(&self.out).expect("text")
    }
}

pub fn command(words: &[&str]) -> Command {
    let mut command = Command::new(ZONES);
    command.args(words).current_dir(top());
    command
}

pub fn run(words: &[&str]) -> Ran {
    let run = command(words).stdin(Stdio::null()).output();
    Ran::of(run.expect("the program runs"))
}

/// A run with bytes on standard input.
pub fn fed(words: &[&str], input: &[u8]) -> Ran {
    let mut command = command(words);
    command.stdin(Stdio::piped()).stdout(Stdio::piped());
    let mut child = command.stderr(Stdio::piped()).spawn().expect("it runs");
    let mut stdin = child.stdin.take().expect("a pipe");
    let input = input.to_vec();
    let feeder = std::thread::spawn(move || {
        // A program that reads no further closes the pipe.
        _ = stdin.write_all(&input);
    });
    let output = child.wait_with_output().expect("it ends");
    feeder.join().expect("all is fed");
    Ran::of(output)
}

/// The output of a run that does what it was asked.
pub fn done(words: &[&str]) -> Vec<u8> {
    let ran = run(words);
    assert_eq!((ran.status, ran.said.as_str()), (0, ""), "{words:?}");
    ran.out
}

pub fn sample(name: &str) -> Vec<u8> {
    std::fs::read(top().join("samples").join(name)).expect("a sample")
}

pub const SAMPLES: [&str; 5] = ["pit", "berms", "quarter", "full", "refused"];

/// A program of python3 in tests/.
pub fn python(script: &str, words: &[&str]) -> Ran {
    let script = Path::new(env!("CARGO_MANIFEST_DIR"))
        .join("tests")
        .join(script);
    let run = Command::new("python3")
        .arg(script)
        .args(words)
        .current_dir(top())
        .output();
    Ran::of(run.expect("python3 is on the machine"))
}
