//! The order of turns: submissions and turns of a new dispatcher, as a case.

use std::fmt::Write;

use crate::case::{Functions, Kind};
use crate::value::{Parsed, Words, number};

/// Whose call runs next, of the slots that have one waiting.
pub trait Dispatch {
    /// A call of the slot is to wait: 0, or the number that it is refused with.
    fn submit(&mut self, slot: u8) -> u8;

    /// The slot whose call runs now. None: none waits.
    fn turn(&mut self) -> Option<u8>;
}

#[derive(Clone, Copy, Debug, PartialEq, Eq)]
pub enum Entry {
    Submit(u8),
    Turn,
}

/// The lines of a `dispatch`, in their order.
#[derive(Clone, Debug, Default)]
pub struct Turns {
    pub entries: Vec<Entry>,
}

impl Turns {
    pub const NAME: &'static str = "dispatch";
}

/// What a submission is told, for people.
pub fn submitted(number: u8) -> &'static str {
    match number {
        0 => "it waits",
        27 => "refused, 27: a call of the slot is waiting",
        28 => "refused, 28: 32 other slots were taken",
        _ => "an answer without a name",
    }
}

/// `turn SLOT` or `turn none`.
pub fn turn_text(served: Option<u8>) -> String {
    served.map_or("turn none".to_string(), |slot| format!("turn {slot}"))
}

impl Kind for Turns {
    fn name(&self) -> &'static str {
        Turns::NAME
    }

    fn repeats(&self) -> bool {
        true
    }

    fn key(&mut self, key: &str, words: &mut Words) -> Parsed<bool> {
        match key {
            "submit" => self.entries.push(Entry::Submit(number(words)?)),
            "turn" => self.entries.push(Entry::Turn),
            _ => return Ok(false),
        }
        Ok(true)
    }

    fn keys(&self, out: &mut String) {
        for entry in &self.entries {
            let _ = match entry {
                Entry::Submit(slot) => writeln!(out, "submit {slot}"),
                Entry::Turn => writeln!(out, "turn"),
            };
        }
    }

    fn number(&self, functions: &dyn Functions) -> u8 {
        let mut dispatcher = functions.dispatcher();
        let mut answered = |entry: &Entry| match entry {
            Entry::Submit(slot) => dispatcher.submit(*slot),
            Entry::Turn => {
                dispatcher.turn();
                0
            }
        };
        self.entries.iter().map(&mut answered).find(|number| *number != 0).unwrap_or(0)
    }

    fn run(&self, functions: &dyn Functions, out: &mut String) {
        let mut dispatcher = functions.dispatcher();
        for entry in &self.entries {
            let _ = match entry {
                Entry::Submit(slot) => writeln!(out, "submit {slot} {}", dispatcher.submit(*slot)),
                Entry::Turn => writeln!(out, "{}", turn_text(dispatcher.turn())),
            };
        }
    }

    /// Behind a turn also how many others were started since the call was submitted.
    fn explain(&self, functions: &dyn Functions, out: &mut String) {
        let (mut dispatcher, mut turns) = (functions.dispatcher(), 0);
        let mut since = [0; 256];
        for entry in &self.entries {
            let _ = match entry {
                Entry::Submit(slot) => {
                    let number = dispatcher.submit(*slot);
                    if number == 0 {
                        since[usize::from(*slot)] = turns;
                    }
                    writeln!(out, "  a call of slot {slot}: {}", submitted(number))
                }
                Entry::Turn => match dispatcher.turn() {
                    None => writeln!(out, "  a turn: none waits"),
                    Some(slot) => {
                        let others = turns - since[usize::from(slot)];
                        turns += 1;
                        writeln!(out, "  a turn: slot {slot}, after {others} others")
                    }
                },
            };
        }
    }
}
