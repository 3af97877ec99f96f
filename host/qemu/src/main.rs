//! Drives QEMU's xHCI controller and its devices through the library (docs/QEMU.md).
#![forbid(unsafe_code)]

mod block;
mod bus;
mod controller;
mod descriptors;
mod findings;
mod machine;
mod rig;
mod scenario;
mod seen;
mod text;
mod wrong;

use std::collections::{BTreeMap, BTreeSet};
use std::io;
use std::process::ExitCode;

use findings::{DEPARTURES, Kind};
use runner::program::{asked, fail, print};
use scenario::{SCENARIOS, Scenario};
use wrong::WRONGS;

const HELP: &str = "\
usage: qemu [--record] [SCENARIO ...]
       qemu [--record] --wrong
       qemu --list

Drives QEMU's xHCI controller and its devices through the library, and holds the controller against the record after
every call (docs/QEMU.md). Without a SCENARIO all are played; --list names them.

  --record         print what was sent, and what came, for people
  --wrong          make one thing wrong at a time, and see whether it is noticed, and by what
  --list           print the scenarios
  --help           print this
  --version        print the version

QEMU is qemu-system-x86_64, or what the variable QEMU names.
Exit status: 0, 1 where something is not as it should be, 2 where the arguments are wrong, 3 where there is no QEMU.
";

const NO_QEMU: u8 = 3;

fn main() -> ExitCode {
    if let Some(status) = asked("qemu", HELP) {
        return status;
    }
    let (options, names): (Vec<_>, Vec<_>) = std::env::args().skip(1).partition(|argument| argument.starts_with("--"));
    if let Some(option) = options.iter().find(|option| !["--record", "--list", "--wrong"].contains(&option.as_str())) {
        return fail(&format!("there is no option '{option}'"));
    }
    if let Some(name) = names.iter().find(|name| SCENARIOS.iter().all(|scenario| scenario.name != **name)) {
        return fail(&format!("there is no scenario '{name}'"));
    }
    if options.iter().any(|option| option == "--list") {
        let lines: String = SCENARIOS.iter().map(|s| format!("{:14}  {}\n", s.name, s.what)).collect();
        print(&lines);
        return ExitCode::SUCCESS;
    }
    if machine::version().is_none() {
        eprintln!("there is no {}: install QEMU (Debian: apt-get install qemu-system-x86)", machine::program());
        return ExitCode::from(NO_QEMU);
    }
    if options.iter().any(|option| option == "--wrong") {
        return status(notice(options.iter().any(|option| option == "--record")));
    }
    let chosen: Vec<_> = SCENARIOS.iter().filter(|s| names.is_empty() || names.iter().any(|n| n == s.name)).collect();
    status(play(&chosen, !options.is_empty(), names.is_empty()))
}

fn status(good: io::Result<bool>) -> ExitCode {
    match good {
        Ok(true) => ExitCode::SUCCESS,
        Ok(false) => ExitCode::FAILURE,
        Err(error) => {
            eprintln!("QEMU: {error}");
            ExitCode::FAILURE
        }
    }
}

fn kinds<'a>(kinds: impl IntoIterator<Item = &'a Kind>) -> String {
    let names: Vec<String> = kinds.into_iter().map(|kind| format!("{kind:?}").to_lowercase()).collect();
    if names.is_empty() { "nothing".into() } else { names.join(", ") }
}

/// Makes one thing wrong at a time: whether each is noticed as it is known to be. The first column is what spoils a
/// field on its way to the controller, the second a library that writes it so.
fn notice(explain: bool) -> io::Result<bool> {
    let mut good = true;
    for wrong in WRONGS {
        let found = wrong.found()?;
        let seen: Vec<BTreeSet<Kind>> =
            found.iter().map(|faults| faults.iter().map(|(kind, _)| *kind).collect()).collect();
        let known: Vec<BTreeSet<Kind>> = wrong.noticed.iter().map(|kinds| kinds.iter().copied().collect()).collect();
        let within = wrong.within().map(|scenario| format!(" ({})", scenario.name)).unwrap_or_default();
        let columns: Vec<String> = seen.iter().map(|seen| format!("{:24}", kinds(seen))).collect();
        print(&format!("{:54}{}\n", format!("{}{within}", wrong.what), columns.concat().trim_end()));
        for (_, fault) in found.iter().flatten().filter(|_| explain || seen != known) {
            print(&format!("  {fault}\n"));
        }
        if seen != known {
            good = false;
            let known: Vec<String> = known.iter().map(kinds).collect();
            print(&format!("  expected: {}\n", known.join("; ")));
        }
    }
    Ok(good)
}

/// Plays scenarios: whether all is as it should be. Of all of them it is asked, too, that each known departure occurs.
fn play(scenarios: &[&Scenario], record: bool, all: bool) -> io::Result<bool> {
    let (mut held, mut faults) = (0, 0);
    let mut departures = BTreeMap::new();
    for scenario in scenarios {
        let mut rig = rig::play(scenario, record)?;
        for note in rig.controller.notes.take().into_iter().flatten() {
            print(&format!("{note}\n"));
        }
        let findings = &rig.findings;
        if !record {
            let verdict = if findings.faults.is_empty() { "ok" } else { "FAILED" };
            print(&format!("{:14}  {:3} checks hold, {verdict}\n", scenario.name, findings.held));
        }
        for (_, fault) in &findings.faults {
            print(&format!("  {fault}\n"));
        }
        held += findings.held;
        faults += findings.faults.len();
        for (name, count) in &findings.departures {
            *departures.entry(*name).or_insert(0) += count;
        }
    }
    let gone: Vec<_> = DEPARTURES.iter().filter(|name| all && !departures.contains_key(*name)).collect();
    if record {
        return Ok(faults == 0);
    }
    for (name, count) in &departures {
        print(&format!("known: {name}, {count} times\n"));
    }
    for name in &gone {
        print(&format!("no longer met: {name}; remove it from DEPARTURES and from docs/DIFFERENCES.md\n"));
    }
    print(&format!("{held} checks hold, {faults} do not\n"));
    Ok(faults == 0 && gone.is_empty())
}
