//! A sample of the reference's answers, for crates/replay_bring_up and its like to replay, one for each call. It is drawn
//! by path: of each call, one with each answer and each way through its commands.
//!
//! Their `stdin` has the calls as numbers, in the order in which the program there reads them; their `stdout` has what
//! the reference left after each.

use std::collections::btree_map::Entry;
use std::collections::{BTreeMap, BTreeSet};
use std::fmt::Write;

use scenario::{Buffers, Call, Record};

use crate::case::Case;
use crate::compare::{Done, Pair, Verdict};
use crate::tally::Tally;
use crate::{exhaustive, random};

/// Calls with these are taken: so many slots, and no more hubs and rings than the program has room for.
const SLOTS: usize = 4;
const HUBS: usize = 16;
const RINGS: usize = 65;
const CONTENT: u8 = 0x5A;
const LOG_WORD: u32 = 0xA500_0000;

/// The random calls among which the sample is drawn.
const SEED: u64 = 8;
const CALLS: u64 = 40_000;

/// How the commands of a phase ended, of which a call sends one after the other: all Stops, all Resumes, one Configure.
#[derive(Clone, Copy, PartialEq, Eq, PartialOrd, Ord)]
enum End {
    Done,
    Failed,
    Cut,
}

#[derive(Clone, Copy, PartialEq, Eq, PartialOrd, Ord)]
struct Phase {
    operation: u32,
    end: End,
}

/// The phases of a call, one after the other.
fn phases(case: &Case, done: &Done) -> Vec<Phase> {
    let mut phases: Vec<Phase> = Vec::new();
    for (index, word) in done.buffers.log.iter().take(done.answer.count).enumerate() {
        let operation = word >> 28;
        let end = match case.buffers.outcomes.get(index) {
            None => End::Cut,
            Some(0) => End::Done,
            Some(_) => End::Failed,
        };
        match phases.last_mut() {
            Some(last) if last.operation == operation => last.end = last.end.max(end),
            _ => phases.push(Phase { operation, end }),
        }
    }
    phases
}

/// A call's name, the number of its answer, and its phases.
type Path = (&'static str, u8, Vec<Phase>);

/// The calls from which the sample is drawn: random ones, and then every way through each call of one device.
pub fn calls(pair: &mut Pair, tally: &mut Tally) {
    random::run(pair, tally, SEED, CALLS);
    exhaustive::paths(pair, tally);
}

#[derive(Default)]
pub struct Store {
    kept: BTreeMap<Path, Case>,
}

impl Store {
    /// Keeps a case that fits, the first of its path, over contents of its own. The program prints arrays as they stand, so
    /// both layers must leave them in rising order.
    pub fn offer(&mut self, pair: &mut Pair, case: &Case, left: &Done) {
        if matches!(case.call, Call::Ask(_) | Call::Commit(_)) || !fits(case) {
            return;
        }
        let Entry::Vacant(entry) = self.kept.entry((case.name(), left.answer.number, phases(case, left))) else {
            return;
        };
        let mut case = case.clone();
        case.buffers.ctx.fill(CONTENT);
        case.buffers.log.fill(LOG_WORD);
        if let (Ok(done), Verdict::Same) = pair.judge(&case)
            && done.returned == done.record
        {
            entry.insert(case);
        }
    }

    /// The calls by their names.
    pub fn names(&self) -> BTreeSet<&'static str> {
        self.kept.keys().map(|path| path.0).collect()
    }

    /// The crate that replays the calls of this name.
    pub fn replay(name: &str) -> &'static str {
        match name {
            "bringup" => "replay_bring_up",
            "claim" => "replay_claim",
            "release" => "replay_release",
            "setconfig" => "replay_set_configuration",
            "hubupdate" => "replay_hub_update",
            "disconnect" => "replay_disconnect",
            _ => unreachable!("no crate replays {name}"),
        }
    }

    fn cases(&self, name: &str) -> impl Iterator<Item = &Case> {
        self.kept.iter().filter(move |(path, _)| path.0 == name).map(|(_, case)| case)
    }

    pub fn stdin(&self, name: &str) -> String {
        let mut numbers = Numbers(String::new());
        numbers.put(self.cases(name).count() as u64);
        self.cases(name).for_each(|case| numbers.case(case));
        numbers.0
    }

    pub fn stdout(&self, name: &str, pair: &mut Pair) -> String {
        let mut text = String::new();
        for case in self.cases(name) {
            let left = pair.ask_reference(case).expect("an answer, as before");
            left_text(&mut text, &left);
        }
        text
    }
}

fn fits(case: &Case) -> bool {
    let Buffers { routes, log, outcomes, .. } = &case.buffers;
    let roomy = match &case.call {
        Call::BringUp(args) => args.hubs.len() <= HUBS && args.rings.len() <= RINGS,
        _ => true,
    };
    let spaced = [1056, 2112].contains(&case.buffers.ctx.len());
    let in_order = case.record == case.record.sorted();
    spaced && in_order && routes.len() == 32 * (SLOTS + 1) && log.len() == 64 && outcomes.len() <= 64 && roomy
}

/// The words of a record's image.
fn image(record: &Record) -> Vec<u64> {
    library::words::image(record).expect("room").words().to_vec()
}

fn left_text(text: &mut String, left: &Done) {
    let Done { answer, buffers, record, .. } = left;
    let _ = writeln!(text, "answer {} {} {}", answer.number, answer.code, answer.count);
    let _ = writeln!(text, "log{}", buffers.log.iter().map(|w| format!(" {w:08x}")).collect::<String>());
    let _ = writeln!(text, "ctx {}", buffers.ctx.iter().map(|b| format!("{b:02x}")).collect::<String>());
    let words = |words: &[u64]| {
        let used = words.iter().enumerate().filter(|(_, word)| **word != 0);
        used.map(|(index, word)| format!(" {index}={word:x}")).collect::<String>()
    };
    let _ = writeln!(text, "routes{}", words(&buffers.routes));
    let _ = writeln!(text, "record{}\n.", words(&image(record)));
}

struct Numbers(String);

impl Numbers {
    fn put(&mut self, number: u64) {
        let _ = writeln!(self.0, "{number:016x}");
    }

    /// The words that are not 0, with their places.
    fn words(&mut self, words: impl IntoIterator<Item = u64>) {
        let used: Vec<(usize, u64)> = words.into_iter().enumerate().filter(|(_, word)| *word != 0).collect();
        self.put(used.len() as u64);
        for (index, word) in used {
            self.put(index as u64);
            self.put(word);
        }
    }

    /// The same, and how many words there are.
    fn counted(&mut self, words: &[u64]) {
        self.words(words.iter().copied());
        self.put(words.len() as u64);
    }

    fn case(&mut self, case: &Case) {
        let Buffers { ctx, routes, outcomes, .. } = &case.buffers;
        self.put(ctx.len() as u64);
        if !matches!(case.call, Call::BringUp(_)) {
            self.words(image(&case.record));
        }
        self.words(routes.iter().copied());
        self.counted(&wide(outcomes));
        self.call(&case.call);
    }

    fn call(&mut self, call: &Call) {
        match call {
            Call::BringUp(args) => {
                self.counted(&args.rings);
                self.counted(&args.hubs);
                self.counted(&wide(&args.list));
                let parent = if args.has_parent { args.parent } else { 0 };
                let first = [args.slot.into(), args.n.into(), args.speed.into(), args.has_parent.into()];
                let second = [parent.into(), args.port.into(), args.root_port.into()];
                let third = [args.header.into(), args.packet.into(), args.config.into()];
                first.into_iter().chain(second).chain(third).for_each(|number| self.put(number));
            }
            Call::Claim(args) => {
                [args.interface, args.alternate].into_iter().for_each(|number| self.put(number.into()));
            }
            Call::Release { interface } => self.put((*interface).into()),
            Call::SetConfiguration { value } => self.put((*value).into()),
            Call::HubUpdate(args) => {
                let numbers = [args.ports.into(), args.multi.into(), args.think.into()];
                numbers.into_iter().for_each(|number| self.put(number));
            }
            Call::Disconnect => {}
            Call::Ask(_) | Call::Commit(_) | Call::Why(_) => unreachable!("not kept"),
        }
    }
}

fn wide<T: Copy + Into<u64>>(numbers: &[T]) -> Vec<u64> {
    numbers.iter().map(|number| (*number).into()).collect()
}
