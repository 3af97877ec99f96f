//! The program, run on a text.

use std::io::Write;
use std::process::{Command, Stdio};

pub struct Ran {
    pub status: Option<i32>,
    pub out: String,
    pub err: String,
}

pub fn run(arguments: &[&str], input: &str) -> Ran {
    let piped = Stdio::piped;
    let mut program = Command::new(env!("CARGO_BIN_EXE_scenario"));
    let mut child =
        program.args(arguments).stdin(piped()).stdout(piped()).stderr(piped()).spawn().expect("the program");
    child.stdin.take().expect("its input").write_all(input.as_bytes()).expect("room");
    let ended = child.wait_with_output().expect("an end");
    let text = |bytes| String::from_utf8(bytes).expect("text");
    Ran { status: ended.status.code(), out: text(ended.stdout), err: text(ended.stderr) }
}
