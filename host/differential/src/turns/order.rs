//! Random lists of submissions and turns, without what the calls would do.

use std::fmt::Write;

use scenario::{Case, Entry, Functions, Turns};

use crate::rng::Rng;

/// The most that may be started between a call's submission and its start.
pub const MOST_OTHERS: u64 = 31;

/// How many slots may be taken.
const TAKEN: usize = 32;

#[derive(Default)]
pub struct Tally {
    lists: u64,
    waits: u64,
    waiting_already: u64,
    too_many: u64,
    turns: u64,
    none: u64,
    /// The most others before a start, and how often.
    most: u64,
    often: u64,
    fault: Option<(&'static str, Vec<Entry>)>,
}

impl Tally {
    pub fn is_met(&self) -> bool {
        let Tally { waits, waiting_already, too_many, turns, none, .. } = self;
        [waits, waiting_already, too_many, turns, none].iter().all(|met| **met > 0) && self.most == MOST_OTHERS
    }

    pub fn text(&self, seconds: f64) -> String {
        let Tally { lists, waits, waiting_already, too_many, turns, none, most, often, .. } = self;
        let mut text = format!("{lists} lists in {seconds:.1} s: {waits} calls waited, 27: {waiting_already}, 28: ");
        let _ = writeln!(text, "{too_many}; {turns} turns, {none} more with none waiting");
        let _ = writeln!(text, "at most {most} others were started before a call that waited, {often} times");
        text
    }

    fn others(&mut self, others: u64) {
        if others > self.most {
            (self.most, self.often) = (others, 0);
        }
        self.often += u64::from(others == self.most);
    }
}

/// What somebody knows who has seen every submission and every turn.
struct Seen {
    taken: [bool; 256],
    /// Of a waiting call, how many were started before it was submitted.
    waiting: [Option<u64>; 256],
    started: u64,
}

impl Seen {
    fn submitted(&mut self, tally: &mut Tally, slot: u8, number: u8) -> Result<(), &'static str> {
        let at = usize::from(slot);
        let full = !self.taken[at] && self.taken.iter().filter(|taken| **taken).count() == TAKEN;
        let (expected, counted) = match (self.waiting[at], full) {
            (Some(_), _) => (27, &mut tally.waiting_already),
            (None, true) => (28, &mut tally.too_many),
            (None, false) => (0, &mut tally.waits),
        };
        *counted += 1;
        if expected == 0 {
            (self.taken[at], self.waiting[at]) = (true, Some(self.started));
        }
        if number == expected { Ok(()) } else { Err("the answer to a submission") }
    }

    fn turned(&mut self, tally: &mut Tally, served: Option<u8>) -> Result<(), &'static str> {
        let Some(slot) = served else {
            tally.none += 1;
            return if self.waiting.iter().all(Option::is_none) { Ok(()) } else { Err("none is served") };
        };
        let Some(before) = self.waiting[usize::from(slot)].take() else {
            return Err("a slot is served that has no call waiting");
        };
        let others = self.started - before;
        self.started += 1;
        tally.turns += 1;
        tally.others(others);
        if others <= MOST_OTHERS { Ok(()) } else { Err("a call waits for more than 31 others") }
    }
}

/// Goes through a list; what is wrong with the subject's dispatcher, and where.
fn judge(
    reference: &dyn Functions,
    subject: &dyn Functions,
    entries: &[Entry],
    tally: &mut Tally,
) -> Result<(), &'static str> {
    let (mut right, mut judged) = (reference.dispatcher(), subject.dispatcher());
    let mut seen = Seen { taken: [false; 256], waiting: [None; 256], started: 0 };
    for entry in entries {
        match entry {
            Entry::Submit(slot) => {
                let number = judged.submit(*slot);
                seen.submitted(tally, *slot, number)?;
                if right.submit(*slot) != number {
                    return Err("the reference's dispatcher answers otherwise");
                }
            }
            Entry::Turn => {
                let served = judged.turn();
                seen.turned(tally, served)?;
                if right.turn() != served {
                    return Err("the reference's dispatcher serves another");
                }
            }
        }
    }
    Ok(())
}

/// Few slots or many, near to each other or anywhere, mostly submissions or mostly turns.
fn random(rng: &mut Rng) -> Vec<Entry> {
    let count = rng.of(&[1, 3, 8, 31, 32, 33, 40, 120]);
    let slots: Vec<u8> = if rng.percent(40) {
        let from = rng.byte();
        (0..count).map(|at| from.wrapping_add(at)).collect()
    } else {
        (0..count).map(|_| rng.byte()).collect()
    };
    let (submits, len) = (rng.of(&[20, 50, 70, 95]), rng.of(&[5, 40, 150]));
    let entry = |rng: &mut Rng| {
        if rng.percent(submits) { Entry::Submit(slots[rng.index(slots.len())]) } else { Entry::Turn }
    };
    (0..rng.below(len)).map(|_| entry(rng)).collect()
}

/// As many slots as may be taken, each submitted again as soon as it is served.
fn full(rng: &mut Rng, subject: &dyn Functions) -> Vec<Entry> {
    let (from, step) = (rng.byte(), rng.of(&[1, 3, 7]));
    let slots = (0..TAKEN as u8).map(|at| from.wrapping_add(at * step));
    let mut entries: Vec<Entry> = slots.map(Entry::Submit).collect();
    let mut dispatcher = subject.dispatcher();
    entries.iter().for_each(|entry| {
        if let Entry::Submit(slot) = entry {
            _ = dispatcher.submit(*slot)
        }
    });
    for _ in 0..rng.below(80) {
        entries.push(Entry::Turn);
        if let Some(slot) = dispatcher.turn() {
            dispatcher.submit(slot);
            entries.push(Entry::Submit(slot));
        }
    }
    entries
}

pub fn lists(reference: &dyn Functions, subject: &dyn Functions, seed: u64, lists: u64) -> Tally {
    let (mut rng, mut tally) = (Rng::new(seed), Tally::default());
    while tally.lists < lists && tally.fault.is_none() {
        let entries = if rng.percent(10) { full(&mut rng, subject) } else { random(&mut rng) };
        if let Err(fault) = judge(reference, subject, &entries, &mut tally) {
            tally.fault = Some((fault, entries));
        }
        tally.lists += 1;
    }
    tally
}

/// The smallest list found that has the fault.
pub fn report(reference: &dyn Functions, subject: &dyn Functions, tally: &Tally) -> Option<String> {
    let (fault, mut entries) = tally.fault.clone()?;
    let wanted = |entries: &[Entry]| judge(reference, subject, entries, &mut Tally::default()) == Err(fault);
    let without = |entries: &[Entry], at: usize| [&entries[..at], &entries[at + 1..]].concat();
    while let Some(next) = (0..entries.len()).map(|at| without(&entries, at)).find(|next| wanted(next)) {
        entries = next;
    }
    let case = Case { name: "smallest".to_string(), kind: Box::new(Turns { entries }) };
    let mut text = format!("DIFFERENT: {fault}\nthe smallest case found:\n");
    case.text(&mut text);
    text.push_str("the subject:\n");
    case.run(subject, &mut text);
    text.push_str("the reference:\n");
    case.run(reference, &mut text);
    Some(text)
}
