//! Rings in doubt: over lists of calls no ring that a controller may hold, by the commands that were logged, is free.

mod controller;
mod random;

use std::collections::BTreeMap;
use std::fmt::Write;
use std::time::Instant;

use scenario::{Buffers, Call, Layer, Record, Scenario, scenario_text};

use crate::build::buffers;
use crate::case::Case;
use crate::compare::{Done, ask};
use crate::groups::Groups;
use crate::rng::Rng;
use controller::{Controller, reads_context};

/// A call of a list; which record it is given the calls before it say.
#[derive(Clone, Debug)]
pub struct Link {
    call: Call,
    ctx: Vec<u8>,
    outcomes: Vec<u8>,
    /// Words that calls of other slots write before it.
    others: Vec<(usize, u64)>,
    /// After a bring-up that is not accepted: whether the caller goes on with the record that he had.
    keeps: bool,
}

/// A slot as a list leaves it, and what is read from the calls alone: the groups of rings, and the controller.
pub struct Watch {
    record: Record,
    table: Vec<u64>,
    groups: Groups,
    controller: Controller,
}

/// Why a list is not as it should be.
#[derive(Clone, Copy, Debug, PartialEq, Eq)]
enum Fault {
    Free,
    Groups,
    Mismatched,
    NoAnswer,
}

impl Fault {
    fn text(self) -> &'static str {
        match self {
            Fault::Free => "a ring that the controller may hold is free",
            Fault::Groups => "the record, which is up, has other groups of rings than the calls make",
            Fault::Mismatched => "18, though nobody else wrote the slot's words",
            Fault::NoAnswer => "the layer gives no answer",
        }
    }
}

impl Watch {
    fn new(table: Vec<u64>, failed_acts: bool) -> Watch {
        let (record, groups) = (Record::default(), Groups::default());
        Watch { record, table, groups, controller: Controller::new(failed_acts) }
    }

    fn lent(&self, link: &Link) -> Buffers {
        buffers(link.ctx.clone(), self.table.clone(), link.outcomes.clone())
    }

    fn case(&self, link: &Link) -> Case {
        Case::new(link.call.clone(), &self.record, self.lent(link))
    }

    /// The words of other slots that a link's others write.
    fn write_others(&mut self, link: &Link, slot: u8) {
        for (at, word) in &link.others {
            if at / 32 != usize::from(slot)
                && let Some(place) = self.table.get_mut(*at)
            {
                *place = *word;
            }
        }
    }

    /// Makes the call, and reads it.
    fn step(&mut self, layer: &mut dyn Layer, link: &Link) -> Result<(Case, Done), Fault> {
        let case = self.case(link);
        let done = ask(layer, &case).map_err(|_| Fault::NoAnswer)?;
        for at in 0..done.answer.count {
            let word = done.buffers.log[at];
            let ctx = if reads_context(word) { context_at(layer, &case, at)? } else { Vec::new() };
            self.controller.command(word, link.outcomes.get(at).copied(), &ctx);
        }
        self.groups = std::mem::take(&mut self.groups).after(&case, &done).ok_or(Fault::Mismatched)?;
        self.table.clone_from(&done.buffers.routes);
        if !(link.keeps && matches!(link.call, Call::BringUp(_)) && done.answer.number != 0) {
            self.record = done.returned.clone();
        }
        self.judge().map(|()| (case, done))
    }

    /// Free is what the calls leave free, and what a claim of the record would draw from.
    fn judge(&self) -> Result<(), Fault> {
        let said = if self.record.up { Groups::of(&self.record) } else { self.groups.clone() };
        let is_free = |ring: &u64| self.groups.free.contains(ring) || said.free.contains(ring);
        if self.controller.rings().iter().any(is_free) {
            return Err(Fault::Free);
        }
        if said == self.groups { Ok(()) } else { Err(Fault::Groups) }
    }

    /// Whether the controller may hold a ring that only the quarantine keeps from being drawn.
    fn is_in_doubt(&self) -> bool {
        self.controller.rings().iter().any(|ring| self.groups.quarantined.contains(ring))
    }
}

/// The context that a command reads: what the same call leaves when it is cut there.
fn context_at(layer: &mut dyn Layer, case: &Case, at: usize) -> Result<Vec<u8>, Fault> {
    let mut case = case.clone();
    case.buffers.outcomes.truncate(at);
    Ok(ask(layer, &case).map_err(|_| Fault::NoAnswer)?.buffers.ctx)
}

/// By which calls rings come into quarantine.
const WAYS: [&str; 9] = [
    "a claim answered with 14",
    "a claim cut at its Configure",
    "a claim cut in a Resume after a failed Configure",
    "a claim cut at its SetInterface",
    "a claim cut at the Configure that undoes it",
    "a claim cut at the SetInterface that undoes it",
    "a set configuration answered with 14",
    "a set configuration cut at its last Evaluate",
    "an unplugging answered with 14",
];

/// The way of a call that has put rings there.
fn way(case: &Case, done: &Done) -> &'static str {
    const CONFIGURE: u32 = 3;
    const RESUME: u32 = 5;
    let words = &done.buffers.log[..done.answer.count];
    let undoes = words.iter().filter(|word| **word >> 28 == CONFIGURE).count() > 1;
    WAYS[match (&case.call, done.answer.number, words.last().map(|word| word >> 28)) {
        (Call::Disconnect, ..) => 8,
        (Call::SetConfiguration { .. }, 14, _) => 6,
        (Call::SetConfiguration { .. }, ..) => 7,
        (_, 14, _) => 0,
        (_, _, Some(RESUME)) => 2,
        (_, _, Some(CONFIGURE)) => 1 + 3 * usize::from(undoes),
        _ => 3 + 2 * usize::from(undoes),
    }]
}

/// What the run met.
#[derive(Default)]
struct Tally {
    lists: u64,
    calls: u64,
    cut: u64,
    /// Calls after which the controller may be in more than one state.
    unsure: u64,
    /// Calls after which it may hold a ring that is in quarantine.
    in_doubt: u64,
    ways: BTreeMap<&'static str, u64>,
    fault: Option<(Fault, Vec<Link>, Vec<u64>)>,
}

impl Tally {
    fn count(&mut self, before: usize, watch: &Watch, case: &Case, done: &Done) {
        self.calls += 1;
        self.cut += u64::from(done.answer.number == 15);
        self.unsure += u64::from(watch.controller.may.len() > 1);
        self.in_doubt += u64::from(watch.is_in_doubt());
        if watch.groups.quarantined.len() > before && !matches!(case.call, Call::BringUp(_)) {
            *self.ways.entry(way(case, done)).or_default() += 1;
        }
    }

    fn text(&self, subject: &str, seed: u64, seconds: f64) -> String {
        let Tally { lists, calls, cut, unsure, in_doubt, .. } = self;
        let mut text = format!("rings in doubt, {subject}, seed {seed}\n");
        let _ = writeln!(text, "{lists} lists of {calls} calls in {seconds:.1} s, {cut} of them cut");
        let _ = writeln!(text, "after {unsure} the controller may be in several states, after {in_doubt} it may hold");
        text.push_str("a ring that is in quarantine; rings came there by\n");
        for way in WAYS {
            let _ = writeln!(text, "  {:>8}  {way}", self.ways.get(way).unwrap_or(&0));
        }
        text
    }
}

/// Random lists until so many calls are made, or one is not as it should be.
fn lists(layer: &mut dyn Layer, seed: u64, calls: u64, failed_acts: bool) -> Tally {
    let (mut rng, mut tally) = (Rng::new(seed), Tally::default());
    while tally.calls < calls && tally.fault.is_none() {
        let (table, first) = random::begin(&mut rng);
        let mut watch = Watch::new(table.clone(), failed_acts);
        let slot = if let Call::BringUp(args) = &first.call { args.slot } else { 0 };
        let mut links = vec![first];
        for _ in 0..2 + rng.below(12) {
            let link = links[links.len() - 1].clone();
            watch.write_others(&link, slot);
            let before = watch.groups.quarantined.len();
            match watch.step(layer, &link) {
                Ok((case, done)) => tally.count(before, &watch, &case, &done),
                Err(Fault::NoAnswer) => break,
                Err(fault) => {
                    tally.fault = Some((fault, links, table));
                    break;
                }
            }
            links.push(random::next(&mut rng, layer, &watch, &links[0]));
        }
        tally.lists += 1;
    }
    tally
}

/// The fault of a list, with its calls as cases up to there.
fn fault_of(layer: &mut dyn Layer, links: &[Link], table: &[u64]) -> Option<(Fault, Vec<Case>)> {
    let mut watch = Watch::new(table.to_vec(), false);
    let slot = if let Call::BringUp(args) = &links.first()?.call { args.slot } else { 0 };
    let mut cases = Vec::new();
    for link in links {
        watch.write_others(link, slot);
        cases.push(watch.case(link));
        if let Err(fault) = watch.step(layer, link) {
            return Some((fault, cases));
        }
    }
    None
}

/// A list that has a fault, of which no call and no outcome at its end can be left out.
fn smallest(layer: &mut dyn Layer, fault: Fault, mut links: Vec<Link>, table: &[u64]) -> Vec<Link> {
    let mut wanted = |links: &[Link]| fault_of(layer, links, table).is_some_and(|found| found.0 == fault);
    loop {
        let without = (1..links.len()).map(|at| [&links[..at], &links[at + 1..]].concat());
        let shorter = (0..links.len()).filter(|at| !links[*at].outcomes.is_empty()).map(|at| {
            let mut links = links.clone();
            links[at].outcomes.pop();
            links
        });
        let Some(next) = without.chain(shorter).find(|links| wanted(links)) else {
            return links;
        };
        links = next;
    }
}

fn report(layer: &mut dyn Layer, (fault, links, table): (Fault, Vec<Link>, Vec<u64>)) -> String {
    let links = smallest(layer, fault, links, &table);
    let mut text = format!("DIFFERENT: {}\nthe smallest list found:\n", fault.text());
    let cases = fault_of(layer, &links, &table).map_or(Vec::new(), |found| found.1);
    let steps = cases.into_iter().flat_map(|case| case.scenario("").steps).collect();
    scenario_text(&mut text, &Scenario { name: "smallest".to_string(), steps });
    text
}

/// What it prints, and whether all is as it should be and each way was met.
pub fn run(name: &str, layer: &mut dyn Layer, seed: u64, calls: u64) -> (String, bool) {
    let start = Instant::now();
    let mut tally = lists(layer, seed, calls, false);
    let mut text = tally.text(name, seed, start.elapsed().as_secs_f64());
    let met = WAYS.iter().all(|way| tally.ways.contains_key(way));
    match tally.fault.take() {
        Some(found) => text.push_str(&report(layer, found)),
        None if met => {}
        None => text.push_str("not every way was met\n"),
    }
    let good = met && !text.contains("DIFFERENT");
    (text, good)
}

#[cfg(test)]
mod tests;
