//! Each call of library and original over the same inputs, the library's functions that send no command, and choices of
//! settings: instructions, counted by callgrind, and time.
#![forbid(unsafe_code)]

mod choice;
mod outside;

use std::process::{Command, ExitCode};

use runner::program::{asked, fail, print};
use scenario::{Answer, Cannot, Scenario, Session, Step, parse, start_clock, stop_clock};

const INPUTS: &str = include_str!("../inputs.txt");
const HELP: &str = "\
usage: bench [--functions | --choices | --calls LAYER NAME TIMES]

Prints a table of each call of library and original over the inputs of host/bench/inputs.txt: instructions, counted by
valgrind where it is there, and time; then a table of the library's functions outside a slot, and of the reasons of claims;
then choices of settings with the steps of their search, and the most steps that were found by number of names and
addresses.

  --functions                print the second table only
  --choices                  print the tables of choices only
  --calls LAYER NAME TIMES   only run the last call, the function or the choice of the input NAME so many times
  --help                     print this
  --version                  print the version

Exit status: 0, 1 where a layer is not here or gives no answer, 2 where the arguments are wrong.
";

/// How often a call is repeated: for instructions, and for time.
const COUNTED: u32 = 10;
const TIMED: u32 = 20_000;

fn completed(step: &Step) -> Step {
    let mut step = step.clone();
    if step.ctx.is_empty() {
        step.ctx = vec![0; 1056];
    }
    if step.outcomes.is_empty() {
        step.outcomes = vec![0; 64];
    }
    step
}

/// Runs the last call of a scenario so many times on what the others left. Its answer, and nanoseconds for each.
fn repeat(layer: &str, scenario: &Scenario, times: u32) -> Result<(Answer, f64), Cannot> {
    let mut layer = runner::layer(layer).ok_or(Cannot::NoSuchInput)?;
    let mut session = Session::new();
    let (last, before) = scenario.steps.split_last().ok_or(Cannot::NoSuchInput)?;
    for step in before {
        session.run(&mut *layer, &completed(step))?;
    }
    let (call, record, buffers) = session.prepare(&completed(last));
    let mut answer = Answer::default();
    start_clock();
    for _ in 0..times {
        (_, answer) = layer.call(&record, &call, &mut buffers.clone())?;
    }
    Ok((answer, stop_clock().as_nanos() as f64 / f64::from(times.max(1))))
}

/// Keeps copying to plain loops: callgrind counts each round of a `rep movsb`, which is one instruction.
const PLAIN_COPIES: &str = "glibc.cpu.x86_rep_movsb_threshold=1000000:glibc.cpu.x86_rep_stosb_threshold=1000000";

/// Instructions of the calls proper in a run of this program.
fn collected(layer: &str, name: &str, times: u32) -> Option<u64> {
    let run = Command::new("valgrind")
        .env("GLIBC_TUNABLES", PLAIN_COPIES)
        .args(["--tool=callgrind", "--callgrind-out-file=/dev/null", "--toggle-collect=*clock::call_proper*"])
        .arg(std::env::current_exe().ok()?)
        .args(["--calls", layer, name, &times.to_string()])
        .output()
        .ok()?;
    let text = String::from_utf8_lossy(&run.stderr).into_owned();
    text.lines().find_map(|line| line.split_once("Collected :")?.1.trim().parse().ok())
}

fn instructions(layer: &str, name: &str) -> Option<u64> {
    Some((collected(layer, name, 1 + COUNTED)? - collected(layer, name, 1)?) / u64::from(COUNTED))
}

fn row(scenario: &Scenario) -> Result<String, Cannot> {
    let name = &scenario.name;
    let (answer, library) = repeat("library", scenario, TIMED)?;
    let (same, original) = repeat("original", scenario, TIMED)?;
    assert_eq!(answer, same, "{name}: the answers");
    let counts = instructions("library", name).zip(instructions("original", name));
    let counts =
        counts.map_or("no valgrind | | |".to_string(), |(l, o)| format!("{l} | {o} | {:.2} |", l as f64 / o as f64));
    let times = format!("{library:.0} | {original:.0} | {:.2} |", library / original);
    Ok(format!("| {name} | {} | {} | {counts} {times}", answer.number, answer.count))
}

/// The table of the functions that send no command, which the original has not, as long as somebody reads it.
fn functions() -> Result<(), Cannot> {
    let title = "| function | bytes | answer | instructions | a byte | ns | a byte |";
    let mut read = print(&format!("{title}\n|---|---|---|---|---|---|---|\n"));
    for (name, question) in outside::inputs() {
        read = read && print(&format!("{}\n", outside::row(&name, &question).ok_or(Cannot::NoSuchInput)?));
    }
    Ok(())
}

/// Both tables of choices.
fn choices() -> Result<(), Cannot> {
    let mut read = true;
    let mut table = |title: String, rows: &mut dyn Iterator<Item = Option<String>>| {
        read = read && print(&title);
        for row in rows {
            read = read && print(&row.ok_or(Cannot::NoSuchInput)?);
        }
        Ok(())
    };
    table(choice::title(), &mut choice::rows())?;
    table(format!("\n{}", choice::growth_title()), &mut choice::growth())
}

fn tables(scenarios: &[Scenario]) -> Result<(), Cannot> {
    let title = "| call | answer | commands | library | original | ratio | library, ns | original, ns | ratio |";
    let mut read = print(&format!("{title}\n|---|---|---|---|---|---|---|---|---|\n"));
    for scenario in scenarios {
        read = read && print(&format!("{}\n", row(scenario)?));
    }
    if read && print("\n") {
        functions()?;
    }
    if read && print("\n") { choices() } else { Ok(()) }
}

/// Repeats the call, function or choice of that name. None: there is none.
fn only(scenarios: &[Scenario], layer: &str, name: &str, times: u32) -> Option<Result<(), Cannot>> {
    if let Some(scenario) = scenarios.iter().find(|s| s.name == name) {
        return Some(repeat(layer, scenario, times).map(drop));
    }
    if let Some(done) = choice::only(layer, name, times) {
        return Some(done.ok_or(Cannot::NoSuchInput));
    }
    let (_, question) = outside::inputs().into_iter().find(|(of, _)| of == name)?;
    Some(outside::repeat(layer, &question, times).map(drop).ok_or(Cannot::NoSuchInput))
}

fn main() -> ExitCode {
    if let Some(code) = asked("bench", HELP) {
        return code;
    }
    let scenarios = parse(INPUTS).expect("inputs.txt").scenarios;
    let arguments: Vec<String> = std::env::args().skip(1).collect();
    let words: Vec<&str> = arguments.iter().map(String::as_str).collect();
    let done = match words[..] {
        [] => Some(tables(&scenarios)),
        ["--functions"] => Some(functions()),
        ["--choices"] => Some(choices()),
        ["--calls", layer, name, times] => times.parse().ok().and_then(|times| only(&scenarios, layer, name, times)),
        _ => return fail(HELP),
    };
    match done {
        Some(Ok(())) => ExitCode::SUCCESS,
        Some(Err(cannot)) => {
            fail(&format!("a layer is not here or does not answer: {cannot:?}"));
            ExitCode::FAILURE
        }
        None => fail("there is no such input, or TIMES is no number"),
    }
}
