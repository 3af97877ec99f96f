//! How the program is called.

use std::process::{Command, Output};

fn run(arguments: &[&str]) -> Output {
    Command::new(env!("CARGO_BIN_EXE_differential")).args(arguments).output().expect("the program")
}

#[test]
fn help_and_version() {
    let help = run(&["--help"]);
    assert!(help.status.success() && help.stdout.starts_with(b"usage: differential "));
    let version = run(&["--version"]);
    assert_eq!(String::from_utf8_lossy(&version.stdout), concat!("differential ", env!("CARGO_PKG_VERSION"), "\n"));
}

#[test]
fn a_run_that_compares_nothing_is_an_error() {
    let wrong: [(&[&str], &str); 6] = [
        (&["--part", "nope"], "there is no part 'nope'"),
        (&["--reference", "model", "--part", "random", "--calls", "0"], "there was nothing to compare"),
        (&["--nope"], "there is no option '--nope'"),
        (&["--seed"], "--seed: which?"),
        (&["--seed", "x"], "--seed x: no number"),
        (&["--reference", "nope"], "one of 'nope' and 'library' is not here"),
    ];
    for (arguments, message) in wrong {
        let ended = run(arguments);
        let said = String::from_utf8_lossy(&ended.stderr).trim_end().to_string();
        assert_eq!((ended.status.code(), said.as_str()), (Some(2), message));
        assert_eq!(ended.stdout, b"");
    }
    let good = run(&["--reference", "model", "--part", "packets"]);
    assert!(good.status.success() && good.stdout.starts_with(b"library against model, seed 1\n"));
}

/// The verdict does not depend on whether its text is read.
#[test]
fn a_closed_pipe_ends_quietly() {
    let mut child = Command::new(env!("CARGO_BIN_EXE_differential"))
        .args(["--reference", "model", "--part", "packets"])
        .stdout(std::process::Stdio::piped())
        .stderr(std::process::Stdio::piped())
        .spawn()
        .expect("the program");
    drop(child.stdout.take());
    let ended = child.wait_with_output().expect("an end");
    assert_eq!((ended.status.code(), String::from_utf8_lossy(&ended.stderr).as_ref()), (Some(0), ""));
}
