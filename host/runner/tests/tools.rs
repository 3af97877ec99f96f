//! How the program is called: help, version, files that are none of its own, a reader that goes away.

use std::io::{Read, Write};
use std::process::{Command, Output, Stdio};

fn run(arguments: &[&str], input: &[u8]) -> Output {
    let program = env!("CARGO_BIN_EXE_scenario");
    let piped = Stdio::piped;
    let child = Command::new(program).args(arguments).stdin(piped()).stdout(piped()).stderr(piped()).spawn();
    let mut child = child.expect("the program");
    let _ = child.stdin.take().expect("its input").write_all(input);
    child.wait_with_output().expect("an end")
}

fn refused(arguments: &[&str], input: &[u8], message: &str) {
    let ended = run(arguments, input);
    assert_eq!((ended.status.code(), String::from_utf8_lossy(&ended.stderr).trim_end()), (Some(2), message));
    assert_eq!(ended.stdout, b"");
}

#[test]
fn help_and_version() {
    let help = run(&["--help"], b"");
    assert!(help.status.success() && help.stdout.starts_with(b"usage: scenario "));
    let version = run(&["--explain", "--version"], b"");
    assert_eq!(String::from_utf8_lossy(&version.stdout), concat!("scenario ", env!("CARGO_PKG_VERSION"), "\n"));
    assert!(version.status.success());
}

#[test]
fn wrong_arguments() {
    refused(&["--nope", "-"], b"", "there is no option '--nope'");
    refused(&["-", "-"], b"", "'-' is too much");
    refused(&["--layer"], b"", "--layer: which?");
    refused(&["--layer", "nope", "-"], b"", "there is no layer 'nope' here");
}

#[test]
fn files_that_hold_nothing() {
    for (empty, line) in [(&b""[..], 1), (b"\n", 1), (b"# a comment\n  \n", 2)] {
        refused(&["-"], empty, &format!("-:{line}: there is neither a scenario nor a case in the file"));
    }
    let marked = "-:1: the file begins with a byte order mark; save it as UTF-8 without one";
    refused(&["-"], b"\xEF\xBB\xBFscenario a\nend\n", marked);
    refused(&["-"], b"\xFF\xFEs\0c\0", "-:1: the file is UTF-16; save it as UTF-8");
    refused(&["-"], b"\xFE\xFF\0s\0c", "-:1: the file is UTF-16; save it as UTF-8");
    assert!(run(&["-"], b"scenario a\nend\n").status.success());
}

#[test]
fn a_closed_pipe_ends_quietly() {
    let program = env!("CARGO_BIN_EXE_scenario");
    let piped = Stdio::piped;
    let child = Command::new(program).arg("-").stdin(piped()).stdout(piped()).stderr(piped()).spawn();
    let mut child = child.expect("the program");
    let mut out = child.stdout.take().expect("its output");
    let mut input = child.stdin.take().expect("its input");
    let writer = std::thread::spawn(move || {
        let _ = input.write_all(b"scenario a\n");
        while input.write_all(b"claim\ngo\n").is_ok() {}
    });
    let mut begin = [0; 6];
    out.read_exact(&mut begin).expect("some output");
    assert_eq!(&begin, b"answer");
    drop(out);
    let ended = child.wait_with_output().expect("an end");
    writer.join().expect("an end");
    assert!(ended.status.success());
    assert_eq!(String::from_utf8_lossy(&ended.stderr), "");
}
