//! Many slots through one dispatcher: the order of turns, and each slot as if it were alone.

mod alone;
mod order;

use std::time::Instant;

use scenario::{Functions, Layer};

/// Whose dispatcher is judged and whose calls run, and the dispatcher that is right.
pub struct Dispatchers<'a> {
    pub layer: &'a mut dyn Layer,
    pub subject: &'a dyn Functions,
    pub reference: &'a dyn Functions,
}

/// What it prints, and whether all is as it should be and everything was met.
pub fn run(name: &str, pair: &mut Dispatchers, seed: u64, lists: u64) -> (String, bool) {
    let start = Instant::now();
    let turns = order::lists(pair.reference, pair.subject, seed, lists);
    let mut text = format!("a dispatcher, {name}, seed {seed}\n{}", turns.text(start.elapsed().as_secs_f64()));
    let start = Instant::now();
    let alone = alone::lists(pair.layer, pair.subject, seed, lists / 20);
    text.push_str(&alone.text(start.elapsed().as_secs_f64()));
    let mut good = turns.is_met() && alone.is_met();
    if let Some(report) = order::report(pair.reference, pair.subject, &turns) {
        (text, good) = (text + &report, false);
    }
    if let Some(report) = alone::report(pair.layer, pair.subject, &alone) {
        (text, good) = (text + &report, false);
    }
    (text, good)
}

#[cfg(test)]
mod tests;
