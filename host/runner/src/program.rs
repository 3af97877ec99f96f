//! What every program does alike.

use std::io::{self, ErrorKind, Write};
use std::process::ExitCode;

/// Answers `--help` and `--version`, wherever they stand among the arguments. None where neither is asked for.
pub fn asked(name: &str, help: &str) -> Option<ExitCode> {
    for argument in std::env::args().skip(1) {
        match argument.as_str() {
            "--help" | "-h" => print(help),
            "--version" | "-V" => print(&format!("{name} {}\n", env!("CARGO_PKG_VERSION"))),
            _ => continue,
        };
        return Some(ExitCode::SUCCESS);
    }
    None
}

/// Writes to standard output. False where nobody reads it any more.
pub fn print(text: &str) -> bool {
    let mut out = io::stdout().lock();
    match out.write_all(text.as_bytes()).and_then(|()| out.flush()) {
        Ok(()) => true,
        Err(e) if e.kind() == ErrorKind::BrokenPipe => false,
        Err(e) => {
            let _ = writeln!(io::stderr(), "standard output: {e}");
            false
        }
    }
}

/// What is wrong with how the program was called, or with what it was given.
pub fn fail(message: &str) -> ExitCode {
    let _ = writeln!(io::stderr(), "{}", message.trim_end());
    ExitCode::from(2)
}
