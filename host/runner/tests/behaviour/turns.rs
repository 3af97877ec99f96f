//! "Many slots, one command ring".

use library::Library;
use scenario::{Entry, Functions, turn_text};

use crate::page::{number, table};

/// `7`, `turn`, or `1..32` for each of these slots.
fn entries(cell: &str) -> Vec<Entry> {
    let of = |word: &str| match word.split_once("..") {
        _ if word == "turn" => vec![Entry::Turn],
        Some((from, to)) => (number(from)..=number(to)).map(|slot| Entry::Submit(slot as u8)).collect(),
        None => vec![Entry::Submit(number(word) as u8)],
    };
    cell.split(' ').flat_map(of).collect()
}

#[test]
fn turns() {
    for row in table("turns") {
        let mut dispatcher = Library.dispatcher();
        let told = entries(&row[0]).into_iter().map(|entry| match entry {
            Entry::Submit(slot) => dispatcher.submit(slot).to_string(),
            Entry::Turn => turn_text(dispatcher.turn()),
        });
        // What is told of a range stands there once.
        let mut told: Vec<String> = told.collect();
        if row[0].contains("..") {
            told.dedup();
        }
        assert_eq!(told.join(", "), row[1], "{row:?}");
    }
}
