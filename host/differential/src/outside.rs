//! Functions outside a slot: those of two layers, held against each other question by question.

mod tally;

use std::collections::BTreeSet;
use std::fmt::Debug;

use scenario::{Case, Functions, Kind};

pub use tally::Tally;

/// A function with what it is given.
pub trait Question: Clone {
    /// Why what is given may be malformed.
    type Ground: Copy + Ord + Debug + 'static;

    /// What the functions are about.
    const TITLE: &'static str;
    /// The functions, each with the answers that it gives.
    const ANSWERS: &'static [(&'static str, &'static [u8])];
    /// The grounds, and the answers that they are of.
    const GROUNDS: &'static [Self::Ground];
    const GROUNDS_OF: &'static str;
    /// What `returned` means.
    const RETURNED: &'static str = "there and back";

    /// How many grounds there are at least where this one is.
    fn fewest(_: Self::Ground) -> usize {
        1
    }

    fn name(&self) -> &'static str;

    /// As a case that a runner can run.
    fn kind(&self) -> Box<dyn Kind>;

    /// By this measure questions are compared.
    fn size(&self) -> usize;

    /// Questions with one thing left out.
    fn smaller(&self) -> Vec<Self>;

    fn judge(&self, pair: &Pair) -> Judged<Self::Ground>;

    fn case(&self, name: &str) -> Case {
        Case { name: name.to_string(), kind: self.kind() }
    }
}

pub struct Judged<Ground> {
    /// The subject's.
    pub number: u8,
    /// Why what was given is malformed, by the model.
    pub grounds: BTreeSet<Ground>,
    /// Whether the question was accepted, and its output brought back (of a block: is the memory that was lent; of a choice:
    /// was claimed).
    pub returned: bool,
    /// What is not as it should be.
    pub fault: Option<&'static str>,
}

pub struct Pair {
    pub reference: Box<dyn Functions>,
    pub subject: Box<dyn Functions>,
}

impl Pair {
    pub fn compare<Q: Question>(&self, tally: &mut Tally<Q>, question: Q) {
        let judged = question.judge(self);
        tally.count(question, judged);
    }

    pub fn report(&self, question: &impl Question) -> String {
        let case = question.case("smallest");
        let mut text = format!("DIFFERENT: {}\nthe smallest case found:\n", question.judge(self).fault.unwrap_or("-"));
        case.text(&mut text);
        text.push_str("the subject leaves:\n");
        case.run(&*self.subject, &mut text);
        text.push_str("the reference leaves:\n");
        case.run(&*self.reference, &mut text);
        text
    }
}

/// The smallest question that can be reached from one by leaving things out, as long as it is wanted.
pub fn least<Q: Question>(question: &Q, wanted: impl Fn(&Q) -> bool) -> Q {
    let mut best = question.clone();
    while let Some(next) = best.smaller().into_iter().find(|q| q.size() < best.size() && wanted(q)) {
        best = next;
    }
    best
}
