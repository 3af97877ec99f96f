//! Random calls of several slots through a dispatcher, over one table; then each slot's calls once more, on a table of its
//! own, of which only its length and the slot's 32 words are the same.

use std::collections::BTreeMap;
use std::fmt::Write;

use scenario::{
    BringUp, Buffers, Call, Called, Cannot, Desk, Dispatched, Functions, Layer, Left, Line, Record, Served, Step,
    Submission, dispatched_text,
};

use crate::random::{bring_up, call};
use crate::rng::Rng;

/// N.
const SLOTS: u8 = 12;
const TABLE: usize = 32 * (SLOTS as usize + 1);

/// A call that was run at its turn: what it was given, and what it left.
struct Run {
    slot: u8,
    call: Call,
    record: Record,
    buffers: Buffers,
    left: Left,
}

#[derive(Default)]
pub struct Tally {
    lists: u64,
    calls: u64,
    /// How many slots were replayed, and how many calls that sent a command.
    replayed: u64,
    sent: u64,
    answers: BTreeMap<u8, u64>,
    fault: Option<(&'static str, Vec<Line>)>,
}

impl Tally {
    pub fn is_met(&self) -> bool {
        [0, 12, 13, 14, 15, 17].iter().all(|number| self.answers.contains_key(number))
    }

    pub fn text(&self, seconds: f64) -> String {
        let Tally { lists, calls, replayed, sent, .. } = self;
        let mut text = format!("{lists} lists with {calls} calls in {seconds:.1} s, {sent} of which sent commands, ");
        let _ = writeln!(text, "replayed alone for {replayed} slots");
        text
    }
}

/// Runs the call whose turn it is.
fn turned(layer: &mut dyn Layer, desk: &mut Desk) -> Result<Option<Run>, Cannot> {
    let Some(Served { slot, home, mut session, step }) = desk.turn() else {
        return Ok(None);
    };
    let (call, record, lent) = session.prepare(&step);
    let mut buffers = lent.clone();
    let called = layer.called(&record, &call, &mut buffers)?;
    let left = session.settle(&call, called, buffers);
    desk.ran(home, session);
    Ok(Some(Run { slot, call, record, buffers: lent, left }))
}

/// The runs of a scenario.
fn runs(layer: &mut dyn Layer, functions: &dyn Functions, lines: &[Line]) -> Result<Vec<Run>, Cannot> {
    let mut desk = Desk::new(functions.dispatcher());
    let mut runs = Vec::new();
    for line in lines {
        match line {
            Line::Submit(submission) => _ = desk.submit(submission),
            Line::Turn => runs.extend(turned(layer, &mut desk)?),
        }
    }
    Ok(runs)
}

fn words_of(table: &[u64], slot: u8) -> &[u64] {
    table.get(32 * usize::from(slot)..32 * usize::from(slot) + 32).unwrap_or(&[])
}

/// What is wrong, if a slot's calls leave something else alone than they left among the others'.
fn alone(layer: &mut dyn Layer, runs: &[Run], slot: u8, rng: &mut Rng) -> Result<(), &'static str> {
    let first = &runs[0].buffers.routes;
    let mut table: Vec<u64> = (0..first.len()).map(|_| rng.next()).collect();
    if let Some(own) = table.get_mut(32 * usize::from(slot)..32 * usize::from(slot) + 32) {
        own.copy_from_slice(words_of(first, slot));
    }
    for run in runs.iter().filter(|run| run.slot == slot) {
        let mut buffers = Buffers { routes: table.clone(), ..run.buffers.clone() };
        let Ok(Called { record, answer, .. }) = layer.called(&run.record, &run.call, &mut buffers) else {
            return Err("a call has no answer alone");
        };
        let same = record == run.left.record && answer == run.left.answer;
        if !same || buffers.ctx != run.left.ctx || buffers.log != run.left.log {
            return Err("a call leaves something else alone");
        }
        if words_of(&buffers.routes, slot) != words_of(&run.left.table, slot) {
            return Err("a slot's words are others alone");
        }
        let own = |at: usize| at / 32 == usize::from(slot);
        if (0..table.len()).any(|at| !own(at) && table[at] != buffers.routes[at]) {
            return Err("a call writes another slot's word");
        }
        table = buffers.routes;
    }
    Ok(())
}

fn judge(layer: &mut dyn Layer, functions: &dyn Functions, lines: &[Line]) -> Result<Vec<Run>, &'static str> {
    let runs = runs(layer, functions, lines).map_err(|_| "the layer gives no answer")?;
    let mut rng = Rng::new(lines.len() as u64);
    let mut slots: Vec<u8> = runs.iter().map(|run| run.slot).collect();
    slots.sort();
    slots.dedup();
    slots.into_iter().try_for_each(|slot| alone(layer, &runs, slot, &mut rng))?;
    Ok(runs)
}

fn outcomes(rng: &mut Rng) -> Vec<u8> {
    let len = if rng.percent(70) { 64 } else { rng.index(12) };
    let failing = rng.of(&[0, 0, 0, 10]);
    (0..len).map(|_| if rng.percent(failing) { rng.byte() } else { 0 }).collect()
}

/// A bring-up of a home whose device is not up, mostly; else a call on its record.
fn submission(rng: &mut Rng, home: u8, record: &Record) -> Submission {
    let call = if !record.up && !rng.percent(10) {
        Call::BringUp(BringUp { slot: home, n: SLOTS.into(), has_parent: false, ..bring_up(rng) })
    } else if !record.usable && rng.percent(70) || rng.percent(4) {
        Call::Disconnect
    } else {
        call(rng, record)
    };
    let spacing = if record.up { record.spacing } else { rng.of(&[32, 64]) };
    let step =
        Step { ctx: rng.bytes(33 * spacing), outcomes: outcomes(rng), routes_len: Some(TABLE), ..Step::new(call) };
    Submission { home, step }
}

/// The words of all slots, most rows empty.
fn table(rng: &mut Rng) -> Vec<(usize, u64)> {
    let mut words = Vec::new();
    for slot in 0..=usize::from(SLOTS) {
        let filled = rng.percent(15);
        words.extend((0..32).filter(|_| filled).map(|dci| (32 * slot + dci, 16 * (1 + rng.below(64)))));
    }
    words
}

/// Calls of some homes; which one is submitted next, and when one is run, is random.
fn random(layer: &mut dyn Layer, functions: &dyn Functions, rng: &mut Rng) -> Result<Vec<Line>, Cannot> {
    let mut desk = Desk::new(functions.dispatcher());
    let homes: Vec<u8> = (0..1 + rng.below(8)).map(|_| 1 + rng.below(SLOTS.into()) as u8).collect();
    let mut first = submission(rng, homes[0], &Record::default());
    first.step.routes = Some(table(rng));
    let mut lines = vec![Line::Submit(first), Line::Turn];
    for at in 0..20 + rng.index(60) {
        if at > 0 {
            let home = homes[rng.index(homes.len())];
            lines.push(match rng.percent(50) {
                true => Line::Turn,
                false => Line::Submit(submission(rng, home, &desk.record(home))),
            });
        }
        for line in if at == 0 { &lines[..] } else { &lines[lines.len() - 1..] } {
            match line {
                Line::Submit(submission) => _ = desk.submit(submission),
                Line::Turn => _ = turned(layer, &mut desk)?,
            }
        }
    }
    Ok(lines)
}

pub fn lists(layer: &mut dyn Layer, functions: &dyn Functions, seed: u64, lists: u64) -> Tally {
    let (mut rng, mut tally) = (Rng::new(seed), Tally::default());
    while tally.lists < lists && tally.fault.is_none() {
        let Ok(lines) = random(layer, functions, &mut rng) else {
            break;
        };
        match judge(layer, functions, &lines) {
            Ok(runs) => tally.count(&runs),
            Err(fault) => tally.fault = Some((fault, lines)),
        }
        tally.lists += 1;
    }
    tally
}

impl Tally {
    fn count(&mut self, runs: &[Run]) {
        let mut slots: Vec<u8> = runs.iter().map(|run| run.slot).collect();
        slots.sort();
        slots.dedup();
        self.replayed += slots.len() as u64;
        for run in runs {
            self.calls += 1;
            self.sent += u64::from(run.left.answer.count > 0);
            *self.answers.entry(run.left.answer.number).or_default() += 1;
        }
    }
}

/// The smallest scenario found that has the fault.
pub fn report(layer: &mut dyn Layer, functions: &dyn Functions, tally: &Tally) -> Option<String> {
    let (fault, mut lines) = tally.fault.clone()?;
    let mut wanted = |lines: &[Line]| judge(layer, functions, lines).err() == Some(fault);
    let without = |lines: &[Line], at: usize| [&lines[..at], &lines[at + 1..]].concat();
    while let Some(next) = (2..lines.len()).map(|at| without(&lines, at)).find(|next| wanted(next)) {
        lines = next;
    }
    let mut text = format!("DIFFERENT: {fault}\nthe smallest scenario found:\n");
    dispatched_text(&mut text, &Dispatched { name: "smallest".to_string(), lines });
    Some(text)
}
