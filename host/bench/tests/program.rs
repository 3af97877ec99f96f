//! How the program is called.

use std::process::{Command, Output};

fn run(arguments: &[&str]) -> Output {
    Command::new(env!("CARGO_BIN_EXE_bench")).args(arguments).output().expect("the program")
}

#[test]
fn help_version_and_wrong_arguments() {
    let help = run(&["--help"]);
    assert!(help.status.success() && help.stdout.starts_with(b"usage: bench "));
    let version = run(&["--version"]);
    assert_eq!(String::from_utf8_lossy(&version.stdout), concat!("bench ", env!("CARGO_PKG_VERSION"), "\n"));
    for wrong in [&["--nope"][..], &["--calls", "library", "nope", "1"], &["--calls", "library", "bring-up", "x"]] {
        assert_eq!(run(wrong).status.code(), Some(2));
    }
    assert!(run(&["--calls", "library", "bring-up", "1"]).status.success());
    assert!(run(&["--calls", "library", "two-in-turn", "1"]).status.success());
}
