//! What the comparison of functions outside a slot met.

use std::collections::BTreeMap;
use std::fmt::Write;
use std::time::Duration;

use crate::outside::{Judged, Pair, Question, least};

pub struct Tally<Q: Question> {
    cases: u64,
    answers: BTreeMap<(&'static str, u8), u64>,
    /// What is malformed for this, and what is for as little else as there can be.
    grounds: BTreeMap<Q::Ground, (u64, u64)>,
    /// Outputs that came to something.
    returned: BTreeMap<&'static str, u64>,
    different: u64,
    /// The smallest that is different.
    kept: Option<Q>,
    /// The first met for each answer, and for each ground that stands alone.
    sample: BTreeMap<(&'static str, u8, Option<Q::Ground>), Q>,
}

impl<Q: Question> Default for Tally<Q> {
    fn default() -> Tally<Q> {
        Tally {
            cases: 0,
            answers: BTreeMap::new(),
            grounds: BTreeMap::new(),
            returned: BTreeMap::new(),
            different: 0,
            kept: None,
            sample: BTreeMap::new(),
        }
    }
}

impl<Q: Question> Tally<Q> {
    pub fn count(&mut self, question: Q, judged: Judged<Q::Ground>) {
        let Judged { number, grounds, returned, fault } = judged;
        let name = question.name();
        self.cases += 1;
        *self.answers.entry((name, number)).or_default() += 1;
        *self.returned.entry(name).or_default() += u64::from(returned);
        for ground in &grounds {
            let (met, met_alone) = self.grounds.entry(*ground).or_default();
            *met += 1;
            *met_alone += u64::from(grounds.len() == Q::fewest(*ground));
        }
        if fault.is_some() {
            self.different += 1;
            self.keep(&question);
        }
        if grounds.len() <= 1 {
            self.sample.entry((name, number, grounds.first().copied())).or_insert(question);
        }
    }

    fn keep(&mut self, question: &Q) {
        if self.kept.as_ref().is_none_or(|kept| question.size() < kept.size()) {
            self.kept = Some(question.clone());
        }
    }

    /// Answers, grounds and outputs that came to something which were not met.
    pub fn missing(&self) -> Vec<String> {
        let mut missing = Vec::new();
        for (kind, answers) in Q::ANSWERS {
            let unmet = answers.iter().filter(|number| !self.answers.contains_key(&(kind, **number)));
            missing.extend(unmet.map(|number| format!("{kind} {number}")));
            if self.returned.get(kind).is_none_or(|count| *count == 0) {
                missing.push(format!("{kind}, {}", Q::RETURNED));
            }
        }
        let alone = |ground: &Q::Ground| self.grounds.get(ground).is_some_and(|(_, alone)| *alone > 0);
        missing.extend(Q::GROUNDS.iter().filter(|ground| !alone(ground)).map(|ground| format!("{ground:?} alone")));
        missing
    }

    pub fn text(&self, elapsed: Duration) -> String {
        let mut text = String::new();
        let same = self.cases - self.different;
        let _ = writeln!(
            text,
            "{} cases in {:.1} s: {same} the same, {} different",
            self.cases,
            elapsed.as_secs_f64(),
            self.different
        );
        for (kind, _) in Q::ANSWERS {
            let met = self.answers.iter().filter(|((of, _), _)| of == kind);
            let met: Vec<String> = met.map(|((_, number), count)| format!("{number}: {count}")).collect();
            let returned = self.returned.get(kind).unwrap_or(&0);
            let _ = writeln!(text, "  {kind}: answers {}; {}: {returned}", met.join(", "), Q::RETURNED);
        }
        let _ = writeln!(text, "  grounds of {}:", Q::GROUNDS_OF);
        for ground in Q::GROUNDS {
            let (met, alone) = self.grounds.get(ground).unwrap_or(&(0, 0));
            let company = match Q::fewest(*ground) {
                1 => "alone".to_string(),
                fewest => format!("with {} other", fewest - 1),
            };
            let _ = writeln!(text, "  {met:>8}  {ground:?}, {company} {alone}");
        }
        for missing in self.missing() {
            let _ = writeln!(text, "NOT MET: {missing}");
        }
        text
    }

    /// A small case for each answer, and for each ground alone, that were met.
    pub fn sample(&self, pair: &Pair) -> String {
        let mut text = String::new();
        for ((name, number, alone), question) in &self.sample {
            let wanted = |q: &Q| {
                let judged = q.judge(pair);
                judged.number == *number && alone.is_none_or(|ground| judged.grounds.iter().eq([&ground]))
            };
            let ground = alone.map_or(String::new(), |ground| format!(" {ground:?}"));
            least(question, wanted).case(&format!("{name} {number}{ground}")).text(&mut text);
        }
        text
    }

    /// The smallest case that is different, with what both layers leave.
    pub fn first_difference(&self, pair: &Pair) -> Option<String> {
        let small = least(self.kept.as_ref()?, |q| q.judge(pair).fault.is_some());
        Some(pair.report(&small))
    }
}
