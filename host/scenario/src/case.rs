//! Functions that stand outside a slot, and cases: one of them with what it is given, as text.
//!
//! A new kind of case is a file like raw.rs, its line in `kind`, and its method in `Functions`.

use std::fmt::{Debug, Write};

use crate::block::{Block, Side};
use crate::call::Record;
use crate::choice::{Choice, Chosen};
use crate::dispatch::{Dispatch, Turns};
use crate::explain;
use crate::raw::{RawRead, RawWrite};
use crate::settings::{Conversion, Form};
use crate::value::{Parsed, Words};

/// 01's number, and how many words or bytes were written.
#[derive(Clone, Copy, Debug, Default, PartialEq, Eq)]
pub struct Reply {
    pub number: u8,
    pub count: usize,
}

/// Whoever answers them: the proved library, the model. What a function leaves in memory it leaves in place.
pub trait Functions {
    /// Raw configuration descriptors, at a speed, to descriptor words.
    fn read_descriptors(&self, bytes: &[u8], speed: u8, words: &mut [u32]) -> Reply;

    /// Descriptor words, at a speed, to raw configuration descriptors.
    fn write_descriptors(&self, list: &[u32], speed: u8, bytes: &mut [u8]) -> Reply;

    /// Held settings from the form of the maker's boards to the new one, by a list of descriptor words at a speed.
    fn settings_to_new(&self, settings: &[u8], list: &[u32], speed: u8, bytes: &mut [u8]) -> Reply;

    /// And back.
    fn settings_to_old(&self, settings: &[u8], list: &[u32], speed: u8, bytes: &mut [u8]) -> Reply;

    /// An endpoint's block in the input or the output context: the number, and the part of that context, empty where it is
    /// refused.
    fn endpoint_block<'a>(&self, input: &'a [u8], output: &'a [u8], from: Side, dci: u8) -> (u8, &'a [u8]);

    /// One alternate for each interface named, of which no interrupt endpoint has a longer context interval.
    fn choose(&self, record: &Record, names: &[u8], longest: u32) -> Chosen;

    /// A new dispatcher.
    fn dispatcher(&self) -> Box<dyn Dispatch>;
}

/// A function with what it is given.
pub trait Kind: Debug {
    fn name(&self) -> &'static str;

    /// Whether its keys are lines in an order, each as often as wanted.
    fn repeats(&self) -> bool {
        false
    }

    /// Takes the values of a key. False: there is no such key.
    fn key(&mut self, key: &str, words: &mut Words) -> Parsed<bool>;

    /// Its keys, a line each.
    fn keys(&self, out: &mut String);

    /// What it is answered with: 0, or the number of its first refusal.
    fn number(&self, functions: &dyn Functions) -> u8;

    /// Runs it: the lines that `go` prints.
    fn run(&self, functions: &dyn Functions, out: &mut String);

    /// Runs it: what it was given and what it did, for people.
    fn explain(&self, functions: &dyn Functions, out: &mut String);
}

/// A kind by its name, given nothing yet.
pub fn kind(name: &str) -> Option<Box<dyn Kind>> {
    Some(match name {
        RawRead::NAME => Box::new(RawRead::default()),
        RawWrite::NAME => Box::new(RawWrite::default()),
        Conversion::TO_NEW => Box::new(Conversion::to(Form::New)),
        Conversion::TO_OLD => Box::new(Conversion::to(Form::Old)),
        Block::NAME => Box::new(Block::default()),
        Choice::NAME => Box::new(Choice::default()),
        Turns::NAME => Box::new(Turns::default()),
        _ => return None,
    })
}

/// The key `room`, where it is not the usual one.
pub fn room(out: &mut String, room: usize, usual: usize) {
    if room != usual {
        let _ = writeln!(out, "room {room}");
    }
}

/// The answer in words; accepted, what was written.
pub fn explain_reply(out: &mut String, Reply { number, count }: Reply, what: &str) {
    let meaning = match number {
        0 => format!("accepted, {count} {what}"),
        3 => "refused: the room is too small".to_string(),
        _ => explain::answer(number).to_string(),
    };
    let _ = writeln!(out, "  answer {number}: {meaning}");
}

#[derive(Debug)]
pub struct Case {
    pub name: String,
    pub kind: Box<dyn Kind>,
}

impl Case {
    /// The case as a file has it.
    pub fn text(&self, out: &mut String) {
        let _ = writeln!(out, "case {}\n{}", self.name, self.kind.name());
        self.kind.keys(out);
        out.push_str("go\n");
    }

    /// What it is answered with.
    pub fn number(&self, functions: &dyn Functions) -> u8 {
        self.kind.number(functions)
    }

    /// The block that `go` prints.
    pub fn run(&self, functions: &dyn Functions, out: &mut String) {
        self.kind.run(functions, out);
        out.push_str(".\n");
    }

    pub fn explain(&self, functions: &dyn Functions, out: &mut String) {
        let _ = writeln!(out, "case {}\n", self.name);
        self.kind.explain(functions, out);
        out.push('\n');
    }
}
