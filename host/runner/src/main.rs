//! Runs scenarios and cases and prints what each call and each function leaves.
#![forbid(unsafe_code)]

mod answers;
mod input;

use std::fs::File;
use std::io::{self, BufReader, Write};
use std::process::ExitCode;

use answers::Answers;
use input::{Ends, run};
use runner::program::{asked, fail};

const HELP: &str = "\
usage: scenario [--explain] [--check] [--layer LAYER] FILE

Runs the scenarios and cases of FILE (- is standard input) and prints what each call and each function leaves;
docs/SCENARIOS.md has the form.

  --explain        print each call for people
  --check          end with 1 if a call, a submission or a case was answered other than 0, or could not be made
  --layer LAYER    who answers: library (the default), model or original
  --help           print this
  --version        print the version

Exit status: 0, 1 with --check as above, or 2 where the arguments or a line of FILE are wrong.
";

struct Options {
    explain: bool,
    check: bool,
    layer: String,
    file: String,
}

fn options() -> Result<Options, String> {
    let mut arguments = std::env::args().skip(1);
    let mut options = Options { explain: false, check: false, layer: "library".to_string(), file: String::new() };
    while let Some(argument) = arguments.next() {
        match argument.as_str() {
            "--explain" => options.explain = true,
            "--check" => options.check = true,
            "--layer" => options.layer = arguments.next().ok_or("--layer: which?")?,
            option if option.starts_with("--") => return Err(format!("there is no option '{option}'")),
            _ if options.file.is_empty() => options.file = argument,
            _ => return Err(format!("'{argument}' is too much")),
        }
    }
    if options.file.is_empty() {
        return Err(HELP.to_string());
    }
    Ok(options)
}

fn main() -> ExitCode {
    if let Some(code) = asked("scenario", HELP) {
        return code;
    }
    let Options { explain, check, layer, file } = match options() {
        Ok(options) => options,
        Err(message) => return fail(&message),
    };
    let Some(mut answers) = Answers::new(&layer, explain) else {
        return fail(&format!("there is no layer '{layer}' here"));
    };
    let mut out = io::BufWriter::new(io::stdout().lock());
    let result = match file.as_str() {
        "-" => run(&file, io::stdin().lock(), &mut answers, &mut out),
        path => match File::open(path) {
            Ok(opened) => run(path, BufReader::new(opened), &mut answers, &mut out),
            Err(e) => Err(Ends::Wrong(format!("{path}: {e}"))),
        },
    };
    match result {
        Err(Ends::Wrong(message)) => {
            let _ = out.flush();
            fail(&message)
        }
        _ if check && answers.refused => ExitCode::from(1),
        Ok(()) | Err(Ends::Unread) => ExitCode::SUCCESS,
    }
}
