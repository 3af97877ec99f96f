//! The kind `choose`: one alternate for each interface named, for a wanted polling period.

use std::fmt::Write;

use crate::call::Record;
use crate::case::{Functions, Kind};
use crate::descriptors::{endpoint_text, explain_words};
use crate::fault::{address, endpoints_from};
use crate::record_key::record_key;
use crate::settings::configuration;
use crate::sound::unusable;
use crate::value::{Parsed, Words};
use crate::{explain, print, value};

/// How many interfaces may be named, repeats counted.
pub const MOST_NAMES: usize = 8;

const ISOCHRONOUS: u32 = 1;
const BULK: u32 = 2;
const INTERRUPT: u32 = 3;

/// What a choice is made of.
#[derive(Clone, Debug, Default, PartialEq, Eq)]
pub struct Choice {
    pub record: Record,
    /// Interfaces, as named.
    pub names: Vec<u8>,
    /// The longest context interval.
    pub longest: u32,
}

/// 02's number, and where it is 0 the alternates, one for each name.
#[derive(Clone, Debug, Default, PartialEq, Eq)]
pub struct Chosen {
    pub number: u8,
    pub alternates: Vec<u8>,
}

impl Choice {
    pub const NAME: &'static str = "choose";

    pub fn ask(&self, functions: &dyn Functions) -> Chosen {
        functions.choose(&self.record, &self.names, self.longest)
    }

    /// Whether there is no choice for these names.
    fn has_none(&self, functions: &dyn Functions, names: &[u8]) -> bool {
        functions.choose(&self.record, names, self.longest).number == 30
    }

    /// The names, each once.
    fn distinct(&self) -> Vec<u8> {
        let mut distinct = Vec::new();
        for name in &self.names {
            if !distinct.contains(name) {
                distinct.push(*name);
            }
        }
        distinct
    }

    /// Names for which there is no choice, of which none can be left out.
    fn no_choice(&self, functions: &dyn Functions) -> Vec<u8> {
        let (mut names, mut at) = (self.distinct(), 0);
        while at < names.len() {
            let others = [&names[..at], &names[at + 1..]].concat();
            if self.has_none(functions, &others) {
                names = others;
            } else {
                at += 1;
            }
        }
        names
    }
}

/// The context interval of an endpoint word; None of a bulk one, which is not polled.
fn context_interval(word: u32, speed: u8) -> Option<u32> {
    let byte = word >> 2 & 0xFF;
    match (word >> 23 & 3, speed) {
        (BULK, _) => None,
        (_, 3..) => Some(byte.clamp(1, 16) - 1),
        (ISOCHRONOUS, 1) => Some(byte.clamp(1, 16) + 2),
        _ => Some(byte.max(1).ilog2() + 3),
    }
}

/// The time between two polls, in microseconds.
fn period(interval: u32) -> u64 {
    125 << interval
}

fn period_text(word: u32, speed: u8) -> String {
    context_interval(word, speed).map_or("not polled".to_string(), |interval| format!("every {} us", period(interval)))
}

/// The alternates of an interface in the first configuration, with their endpoint words, in the order of the list.
fn alternates(list: &[u32], interface: u8) -> Vec<(u8, Vec<u32>)> {
    let words = configuration(list, None).unwrap_or_default();
    let is_one = |word: u32| word >> 22 == 1 << 8 | u32::from(interface);
    let places = (0..words.len()).filter(|at| is_one(words[*at]));
    places.map(|at| ((words[at] >> 14) as u8, endpoints_from(&words[at + 1..]))).collect()
}

/// The first interrupt endpoint whose context interval is longer.
fn slow(words: &[u32], speed: u8, longest: u32) -> Option<u32> {
    let is_slow = |word: &&u32| {
        *word >> 23 & 3 == INTERRUPT && context_interval(**word, speed).is_some_and(|interval| interval > longest)
    };
    words.iter().find(is_slow).copied()
}

/// Why the alternate at a place is no candidate.
fn fault(found: &[(u8, Vec<u32>)], at: usize, speed: u8, longest: u32) -> Option<String> {
    let (alternate, words) = &found[at];
    if found[..at].iter().any(|(before, _)| before == alternate) {
        return Some("lookup finds the one before".to_string());
    }
    let word = slow(words, speed, longest)?;
    Some(format!("endpoint {:02x} is polled {}", address(word), period_text(word, speed)))
}

/// The alternates from which an interface's is chosen, with their endpoint words.
pub fn candidates(record: &Record, interface: u8, longest: u32) -> Vec<(u8, Vec<u32>)> {
    let found = alternates(&record.list, interface);
    let places = (0..found.len()).filter(|at| fault(&found, *at, record.speed, longest).is_none());
    places.map(|at| found[at].clone()).collect()
}

/// What the panel sees of an interface: its alternate, and the endpoints with their periods.
fn explain_chosen(out: &mut String, record: &Record, interface: u8, alternate: u8) {
    let _ = writeln!(out, "    interface {interface}: alternate {alternate}");
    let found = alternates(&record.list, interface);
    for word in found.iter().find(|(of, _)| *of == alternate).map_or(&[][..], |found| &found.1) {
        let _ = writeln!(out, "      {}: {}", endpoint_text(*word), period_text(*word, record.speed));
    }
}

/// An interface that has no candidate, and why each of its alternates is none.
fn explain_lacking(out: &mut String, Choice { record, longest, .. }: &Choice, interface: u8) {
    let found = alternates(&record.list, interface);
    if found.is_empty() {
        let _ = writeln!(out, "    interface {interface} has no candidate: it is not in the first configuration");
        return;
    }
    let _ = writeln!(out, "    interface {interface} has no candidate:");
    for at in 0..found.len() {
        let fault = fault(&found, at, record.speed, *longest).unwrap_or_default();
        let _ = writeln!(out, "      alternate {}: {fault}", found[at].0);
    }
}

/// Interfaces that cannot stand together, with the addresses that their candidates take.
fn explain_apart(out: &mut String, Choice { record, longest, .. }: &Choice, names: &[u8]) {
    let text: Vec<String> = names.iter().map(u8::to_string).collect();
    let Some((last, before)) = text.split_last() else {
        return;
    };
    let _ = writeln!(out, "    interfaces {} and {last} cannot stand together:", before.join(", "));
    for name in names {
        let taken = candidates(record, *name, *longest).into_iter().map(|(alternate, words)| {
            let addresses: Vec<String> = words.iter().map(|word| format!(" {:02x}", address(*word))).collect();
            format!("alternate {alternate} takes{}", addresses.concat())
        });
        let _ = writeln!(out, "      interface {name}: {}", taken.collect::<Vec<_>>().join(", "));
    }
}

/// Which names have no candidate, or, if all have one, which cannot stand together.
fn explain_no_choice(out: &mut String, choice: &Choice, functions: &dyn Functions) {
    let mut lacking = choice.distinct();
    lacking.retain(|name| choice.has_none(functions, &[*name]));
    for name in &lacking {
        explain_lacking(out, choice, *name);
    }
    if lacking.is_empty() {
        explain_apart(out, choice, &choice.no_choice(functions));
    }
}

impl Kind for Choice {
    fn name(&self) -> &'static str {
        Choice::NAME
    }

    fn key(&mut self, key: &str, words: &mut Words) -> Parsed<bool> {
        match key {
            "names" => self.names = value::list(words, value::decimal)?,
            "longest" => self.longest = value::number(words)?,
            _ => return record_key(&mut self.record, key, words),
        }
        Ok(true)
    }

    fn keys(&self, out: &mut String) {
        print::record(out, "reclist", &self.record);
        numbers(out, "names", &self.names);
        let _ = writeln!(out, "longest {}", self.longest);
    }

    fn number(&self, functions: &dyn Functions) -> u8 {
        self.ask(functions).number
    }

    fn run(&self, functions: &dyn Functions, out: &mut String) {
        let Chosen { number, alternates } = self.ask(functions);
        let _ = writeln!(out, "answer {number}");
        numbers(out, "alternates", &alternates);
    }

    fn explain(&self, functions: &dyn Functions, out: &mut String) {
        let Chosen { number, alternates } = self.ask(functions);
        let Choice { record, names, longest } = self;
        numbers(out, "choice for interfaces", names);
        let slowest = if *longest < 32 { format!(", {} us", period(*longest)) } else { String::new() };
        let _ = writeln!(out, "  speed {}, longest context interval {longest}{slowest}", record.speed);
        explain_words(out, &record.list);
        let _ = writeln!(out, "  answer {number}: {}", explain::answer(number));
        match number {
            0 => {
                names.iter().zip(alternates).for_each(|(name, alternate)| explain_chosen(out, record, *name, alternate))
            }
            12 => unusable(record).iter().for_each(|fault| _ = writeln!(out, "    {fault}")),
            29 => _ = writeln!(out, "    names: {}, and {MOST_NAMES} are allowed", names.len()),
            30 => explain_no_choice(out, self, functions),
            _ => {}
        }
    }
}

fn numbers(out: &mut String, key: &str, numbers: &[u8]) {
    out.push_str(key);
    for number in numbers {
        let _ = write!(out, " {number}");
    }
    out.push('\n');
}
