//! What the comparison met.

use std::collections::BTreeMap;
use std::collections::btree_map::Entry;
use std::fmt::Write;
use std::time::{Duration, Instant};

use scenario::{Reason, scenario_text};

use crate::case::Case;
use crate::compare::{Pair, Verdict};
use crate::rows;
use crate::shrink;
use crate::store::Store;

/// Different cases beyond this many are only counted.
const KEPT: usize = 1000;

/// Of those kept, the smallest so many are made smaller.
const SHRUNK: usize = 10;

#[derive(Default)]
pub struct Tally {
    calls: u64,
    same: u64,
    answers: BTreeMap<u8, u64>,
    /// By kind and answer.
    reasons: BTreeMap<(&'static str, u8), u64>,
    listed: BTreeMap<&'static str, u64>,
    uncompared: BTreeMap<&'static str, u64>,
    different: u64,
    kept: Vec<Case>,
    /// The first case met for each call and answer.
    sample: BTreeMap<(&'static str, u8), Case>,
    parts: Vec<(&'static str, u64, Duration)>,
    /// What is to be stored, if anything is.
    pub store: Option<Store>,
}

impl Tally {
    pub fn part(&mut self, name: &'static str, run: impl FnOnce(&mut Tally)) {
        let (calls, start) = (self.calls, Instant::now());
        run(self);
        self.parts.push((name, self.calls - calls, start.elapsed()));
    }

    pub fn calls(&self) -> u64 {
        self.calls
    }

    pub fn count(&mut self, case: &Case, number: u8, verdict: &Verdict) {
        self.calls += 1;
        *self.answers.entry(number).or_default() += 1;
        self.keep_first(case, number);
        match verdict {
            Verdict::Same => self.same += 1,
            Verdict::Listed(rule) => *self.listed.entry(rule).or_default() += 1,
            Verdict::Uncompared(why) => *self.uncompared.entry(why).or_default() += 1,
            Verdict::Different(_) => {
                self.different += 1;
                if self.kept.len() < KEPT {
                    self.kept.push(case.clone());
                }
            }
        }
    }

    pub fn reason(&mut self, reason: Reason, number: u8) {
        *self.reasons.entry((reason.kind(), number)).or_default() += 1;
    }

    /// Whether a kind of reason of an answer was met.
    #[cfg(test)]
    pub fn has_reason(&self, of: (&'static str, u8)) -> bool {
        self.reasons.contains_key(&of)
    }

    fn keep_first(&mut self, case: &Case, number: u8) {
        if let Entry::Vacant(entry) = self.sample.entry((case.name(), number)) {
            entry.insert(case.clone());
        }
    }

    /// A small scenario for each call and answer that were met, named after both.
    pub fn sample(&self, pair: &mut Pair) -> String {
        let mut text = String::new();
        for ((name, number), case) in &self.sample {
            let small = shrink::least(case, |c| c.genuine && pair.answer(c) == Some(*number));
            scenario_text(&mut text, &small.scenario(&format!("{name}-{number}")));
        }
        text
    }

    pub fn text(&self, elapsed: Duration) -> String {
        let mut text = String::new();
        for (name, calls, time) in &self.parts {
            let _ = writeln!(text, "  {name}: {calls} calls in {:.1} s", time.as_secs_f64());
        }
        let Tally { calls, same, different, .. } = self;
        let seconds = elapsed.as_secs_f64();
        let _ = writeln!(text, "{calls} calls in {seconds:.1} s: {same} the same, {different} different");
        let _ = writeln!(text, "answers: {}", counts(self.answers.iter()));
        if !self.reasons.is_empty() {
            text.push_str("reasons, and the answers that they are of:\n");
        }
        for ((kind, number), count) in &self.reasons {
            let _ = writeln!(text, "  {count:>8}  {kind}, {number}");
        }
        text.push_str("listed differences met:\n");
        for row in rows::ALL {
            let _ = writeln!(text, "  {:>8}  {row}", self.listed.get(row).unwrap_or(&0));
        }
        text.push_str("without a counterpart:\n");
        for (why, count) in &self.uncompared {
            let _ = writeln!(text, "  {count:>8}  {why}");
        }
        text
    }

    /// The smallest scenario among the different cases, with what both layers leave.
    pub fn first_difference(&self, pair: &mut Pair) -> Option<String> {
        let mut kept: Vec<&Case> = self.kept.iter().collect();
        kept.sort_by_key(|case| shrink::size(case));
        let tried = kept.iter().take(SHRUNK);
        let small = tried.map(|case| shrink::smallest(pair, case)).min_by_key(shrink::size)?;
        Some(pair.report(&small))
    }
}

fn counts<'a>(counts: impl Iterator<Item = (&'a u8, &'a u64)>) -> String {
    counts.map(|(number, count)| format!("{number}: {count}")).collect::<Vec<_>>().join(", ")
}
