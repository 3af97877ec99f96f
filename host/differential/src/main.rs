//! Holds two layers against each other, call by call, and their functions outside a slot.
#![forbid(unsafe_code)]

mod block;
mod build;
mod case;
mod choice;
mod compare;
mod doubt;
mod exhaustive;
mod faults;
mod fields;
mod groups;
mod narrow;
mod outside;
mod random;
mod raw;
mod refusal;
mod rng;
mod rows;
mod settings;
mod shrink;
mod store;
mod tally;
mod turns;

use std::fs;
use std::path::{Path, PathBuf};
use std::process::ExitCode;
use std::time::Instant;

use compare::Pair;
use narrow::Sparse;
use outside::Question;
use runner::program::{asked, fail, print};
use scenario::Layer;
use store::Store;
use tally::Tally;

const HELP: &str = "\
usage: differential [--reference LAYER] [--subject LAYER] [--seed N] [--calls N] [--cases N]
                    [--every N] [--part PART] [--sample] [--store FOLDER]

Holds two layers against each other, call by call, and their functions outside a slot; layers are library, model and
original, and crab_usb, crab-usb's device over the library, as a subject.

  --reference LAYER   what is right (original)
  --subject LAYER     what is judged (library)
  --seed N            of the random calls (1)
  --calls N           how many of them (600000); in lists for rings in doubt a quarter as many, 50000 at
                      least
  --cases N           how many random cases of raw descriptors, and of settings (2000000); a twentieth of blocks, and
                      of lists for a dispatcher, a quarter of choices
  --every N           judge each N-th call on a slot, and have the library make the others (1)
  --part PART         one part instead of all: refusals, records, routes, outcomes, store, asks, intervals,
                      companions, ports, packets, think, slots, random; doubt, of the subject alone; raw, settings, block, choices
                      or turns (which the
                      original has not)
  --sample            print a small scenario for each call and answer, or case for each function and answer, instead
                      of the counts
  --store FOLDER      draw a sample of the reference's answers by path, from calls of its own, and write it to
                      replay_CALL/stdin and stdout in FOLDER
  --help              print this
  --version           print the version

Exit status: 0, 1 where there is a difference that docs/DIFFERENCES.md does not list, 2 where the arguments are wrong.
";

struct Options {
    reference: String,
    subject: String,
    seed: u64,
    calls: u64,
    /// Random cases of the parts raw and settings, twenty times those of block and four times those of choices.
    cases: u64,
    /// Which calls on a slot are judged.
    every: u64,
    part: Option<String>,
    /// Print a small scenario for each call and answer, or case for each function and answer, instead of the counts.
    sample: bool,
    /// Draw a sample of the reference's answers, and write it to replay_CALL/stdin and stdout in this folder.
    store: Option<PathBuf>,
}

fn options() -> Result<Options, String> {
    let mut options = Options {
        reference: "original".to_string(),
        subject: "library".to_string(),
        seed: 1,
        calls: 600_000,
        cases: 2_000_000,
        every: 1,
        part: None,
        sample: false,
        store: None,
    };
    let mut arguments = std::env::args().skip(1);
    while let Some(key) = arguments.next() {
        if key == "--sample" {
            options.sample = true;
            continue;
        }
        let mut value = || arguments.next().ok_or_else(|| format!("{key}: which?"));
        let number = |text: String| text.parse().map_err(|_| format!("{key} {text}: no number"));
        match key.as_str() {
            "--reference" => options.reference = value()?,
            "--subject" => options.subject = value()?,
            "--seed" => options.seed = number(value()?)?,
            "--calls" => options.calls = number(value()?)?,
            "--cases" => options.cases = number(value()?)?,
            "--every" => options.every = number(value()?)?,
            "--part" => options.part = Some(value()?),
            "--store" => options.store = Some(value()?.into()),
            _ => return Err(format!("there is no option '{key}'")),
        }
    }
    let is_part = |name: &String| {
        ["random", "doubt", "raw", "settings", "block", "choices", "turns"].contains(&name.as_str())
            || exhaustive::PARTS.iter().any(|part| part.0 == name)
    };
    match options.part.as_ref().filter(|name| !is_part(name)) {
        Some(name) => Err(format!("there is no part '{name}'")),
        None => Ok(options),
    }
}

fn main() -> ExitCode {
    if let Some(code) = asked("differential", HELP) {
        return code;
    }
    let options = match options() {
        Ok(options) => options,
        Err(message) => return fail(&message),
    };
    let done = match options.part.as_deref() {
        Some("doubt") => doubt(&options),
        Some("raw") => functions(&options, raw::run),
        Some("settings") => functions(&options, settings::run),
        Some("block") => functions(&options, block::run),
        Some("choices") => functions(&options, choice::run),
        Some("turns") => turns(&options),
        Some(_) => calls(&options),
        None => calls(&options).and_then(|passed| Ok(beyond_calls(&options)? && passed)),
    };
    match done {
        Ok(true) => ExitCode::SUCCESS,
        Ok(false) => ExitCode::FAILURE,
        Err(message) => fail(&message),
    }
}

/// crab-usb's device over the library, where crab-usb is.
const CRAB_USB: &str = "crab_usb";

fn subject(name: &str) -> Option<Box<dyn Layer>> {
    if name == CRAB_USB { crab_usb::layer() } else { runner::layer(name) }
}

/// The library makes the calls that are not judged.
fn sparse(every: u64) -> Option<Sparse> {
    let others = runner::layer("library").filter(|_| every > 1)?;
    Some(Sparse { every, seen: 0, others })
}

/// The calls on a slot. False: a difference.
fn calls(options: &Options) -> Result<bool, String> {
    let (Some(reference), Some(subject)) = (runner::layer(&options.reference), subject(&options.subject)) else {
        return Err(format!("one of '{}' and '{}' is not here", options.reference, options.subject));
    };
    let (listed, narrow) = (options.reference == "original", options.subject == CRAB_USB);
    let sparse = sparse(options.every);
    let mut pair = Pair { reference, subject, listed, narrow, sparse };
    let mut tally = Tally::default();
    tally.store = options.store.is_some().then(Store::default);
    let start = Instant::now();
    if tally.store.is_some() {
        tally.part("the sample's", |tally| store::calls(&mut pair, tally));
    } else {
        parts(options, &mut pair, &mut tally);
    }
    if tally.calls() == 0 {
        return Err("there was nothing to compare".to_string());
    }
    if options.sample {
        print(&tally.sample(&mut pair));
        return Ok(true);
    }
    if let (Some(folder), Some(store)) = (&options.store, tally.store.take()) {
        write(folder, &store, &mut pair).map_err(|e| format!("{}: {e}", folder.display()))?;
    }
    print(&format!("{} against {}, seed {}\n", options.subject, options.reference, options.seed));
    print(&tally.text(start.elapsed()));
    let difference = tally.first_difference(&mut pair);
    if let Some(text) = &difference {
        print(&format!("{text}\n"));
    }
    Ok(difference.is_none())
}

fn parts(options: &Options, pair: &mut Pair, tally: &mut Tally) {
    for (name, part) in exhaustive::PARTS {
        let has_none = pair.narrow && name == "asks";
        if !has_none && options.part.as_deref().is_none_or(|p| p == name) {
            tally.part(name, |tally| part(pair, tally));
        }
    }
    if options.part.as_deref().is_none_or(|p| p == "random") {
        tally.part("random", |tally| random::run(pair, tally, options.seed, options.calls));
    }
}

/// Calls in lists, at least: with so many each way into quarantine is met.
const LISTED: u64 = 50_000;

/// Lists of calls through the subject, and the rings that a controller may hold. False: one of them is free.
fn doubt(options: &Options) -> Result<bool, String> {
    let name = &options.subject;
    let mut subject = subject(name).ok_or_else(|| format!("'{name}' is not here"))?;
    let (text, good) = doubt::run(name, &mut *subject, options.seed, (options.calls / 4).max(LISTED));
    print(&text);
    Ok(good)
}

/// Calls of many slots through the subject's dispatcher. False: one is not as it should be.
fn turns(options: &Options) -> Result<bool, String> {
    let Options { reference, subject, seed, cases, .. } = options;
    let functions = |name: &str| runner::functions(name).ok_or(format!("'{name}' has no functions outside a slot"));
    let mut layer = runner::layer(subject).ok_or_else(|| format!("'{subject}' is not here"))?;
    let (reference, judged) = (functions(reference)?, functions(subject)?);
    let mut pair = turns::Dispatchers { layer: &mut *layer, subject: &*judged, reference: &*reference };
    let (text, good) = turns::run(subject, &mut pair, *seed, cases / 20);
    print(&text);
    Ok(good)
}

/// Runs seed and number of random cases.
type Run<Q> = fn(&outside::Pair, &mut outside::Tally<Q>, u64, u64);

/// Functions outside a slot. False: a difference, or an answer that was not met.
fn functions<Q: Question>(options: &Options, run: Run<Q>) -> Result<bool, String> {
    let Options { reference, subject, seed, cases, sample, .. } = options;
    let functions = |name: &str| runner::functions(name).ok_or(format!("'{name}' has no functions outside a slot"));
    let pair = outside::Pair { reference: functions(reference)?, subject: functions(subject)? };
    let (mut tally, start) = (outside::Tally::default(), Instant::now());
    run(&pair, &mut tally, *seed, *cases);
    if *sample {
        print(&tally.sample(&pair));
        return Ok(true);
    }
    print(&format!("{}, {subject} against {reference}, seed {seed}\n", Q::TITLE));
    print(&tally.text(start.elapsed()));
    let difference = tally.first_difference(&pair);
    if let Some(text) = &difference {
        print(&format!("{text}\n"));
    }
    Ok(difference.is_none() && tally.missing().is_empty())
}

/// What is not asked of the original: rings in doubt, turns, and the functions outside a slot.
fn beyond_calls(options: &Options) -> Result<bool, String> {
    let there = [&options.reference, &options.subject].iter().all(|name| runner::functions(name).is_some());
    if !there {
        return Ok(true);
    }
    let in_lists = options.sample || options.store.is_some() || doubt(options)? && turns(options)?;
    let (raw, settings) = (functions(options, raw::run)?, functions(options, settings::run)?);
    let (block, choices) = (functions(options, block::run)?, functions(options, choice::run)?);
    Ok(in_lists && raw && settings && block && choices)
}

fn write(folder: &Path, store: &Store, pair: &mut Pair) -> std::io::Result<()> {
    for name in store.names() {
        let folder = folder.join(Store::replay(name));
        fs::write(folder.join("stdin"), store.stdin(name))?;
        fs::write(folder.join("stdout"), store.stdout(name, pair))?;
    }
    Ok(())
}

#[cfg(test)]
mod tests {
    use super::*;

    /// A short run: of these parts, and so many random calls.
    fn short(reference: &str, subject: &str, parts: &[&str], calls: u64) {
        let (listed, narrow) = (reference == "original", subject == CRAB_USB);
        let (Some(reference), Some(subject)) = (runner::layer(reference), super::subject(subject)) else {
            return;
        };
        let mut pair = Pair { reference, subject, listed, narrow, sparse: None };
        let mut tally = Tally::default();
        for (name, part) in exhaustive::PARTS {
            if parts.contains(&name) {
                part(&mut pair, &mut tally);
            }
        }
        random::run(&mut pair, &mut tally, 1, calls);
        assert_eq!(tally.first_difference(&mut pair), None);
    }

    #[test]
    fn the_library_is_the_model() {
        short("model", "library", &["refusals", "records", "packets"], 5_000);
    }

    #[test]
    fn no_difference_from_the_original_is_unlisted() {
        short("original", "library", &["refusals", "records", "packets"], 5_000);
    }

    #[test]
    fn the_device_of_crab_usb_does_what_the_library_says() {
        short("library", CRAB_USB, &["refusals", "packets"], 3_000);
        short("original", CRAB_USB, &["packets"], 3_000);
    }

    /// What crates/replay_bring_up and its like replay is what docs/DIFFERENCES.md's command makes.
    #[test]
    fn the_stored_sample_is_the_originals() {
        let Some(reference) = runner::layer("original") else {
            return;
        };
        let subject = runner::layer("library").expect("the library");
        let mut pair = Pair { reference, subject, listed: true, narrow: false, sparse: None };
        let mut tally = Tally::default();
        tally.store = Some(Store::default());
        store::calls(&mut pair, &mut tally);
        let store = tally.store.take().expect("what was kept");
        let crates = Path::new(env!("CARGO_MANIFEST_DIR")).join("../../crates");
        assert_eq!(store.names().len(), 6);
        for name in store.names() {
            let kept = |file| fs::read_to_string(crates.join(Store::replay(name)).join(file)).expect("a file");
            assert!(store.stdin(name) == kept("stdin"));
            assert!(store.stdout(name, &mut pair) == kept("stdout"));
        }
    }
}
