//! Why a claim got its answer: as a value, as text, and in words.

use std::fmt;

use crate::call::{Claim, Record};
use crate::explain::command;
use crate::fault::{address, alternate_words};

/// Why a claim got its answer; an ask and a commit too.
#[derive(Clone, Copy, Debug, PartialEq, Eq, PartialOrd, Ord)]
pub enum Reason {
    /// It is accepted.
    Nothing,
    /// The missing alternate.
    Alternate { interface: u8, alternate: u8 },
    /// The first endpoint word whose address another interface owns, and that interface.
    Endpoint { word: u32, owner: u8 },
    /// The ring check.
    Rings,
    /// The first failed command: its place in the log, from 0, and its log word.
    Command { place: usize, word: u32 },
    /// The answer's number says it all.
    Number(u8),
}

impl Reason {
    pub fn kind(&self) -> &'static str {
        match self {
            Reason::Nothing => "none",
            Reason::Alternate { .. } => "alternate",
            Reason::Endpoint { .. } => "endpoint",
            Reason::Rings => "rings",
            Reason::Command { .. } => "command",
            Reason::Number(_) => "number",
        }
    }
}

/// What stands behind `reason` in the text of a scenario.
impl fmt::Display for Reason {
    fn fmt(&self, f: &mut fmt::Formatter<'_>) -> fmt::Result {
        f.write_str(self.kind())?;
        match self {
            Reason::Nothing | Reason::Rings => Ok(()),
            Reason::Alternate { interface, alternate } => write!(f, " {interface} {alternate}"),
            Reason::Endpoint { word, owner } => write!(f, " {word:08x} {owner}"),
            Reason::Command { place, word } => write!(f, " {place} {word:08x}"),
            Reason::Number(number) => write!(f, " {number}"),
        }
    }
}

/// What the words of a reason name beside it.
pub struct Named<'a> {
    pub record: &'a Record,
    pub claim: &'a Claim,
    pub outcomes: &'a [u8],
}

impl Named<'_> {
    /// A reason for people.
    pub fn words(&self, reason: Reason) -> String {
        match reason {
            Reason::Nothing => "none".to_string(),
            Reason::Alternate { interface, alternate } => {
                format!("the list has no alternate {alternate} of interface {interface}")
            }
            Reason::Endpoint { word, owner } => {
                format!("word {word:08x}: endpoint {:02x} is owned by interface {owner}", address(word))
            }
            Reason::Rings => self.rings(),
            Reason::Command { place, word } => self.command(place, word),
            Reason::Number(14) => "no command failed: a route is not as it should be".to_string(),
            Reason::Number(_) => "the number says it all".to_string(),
        }
    }

    /// How many rings are free, and how many are wanted.
    fn rings(&self) -> String {
        let (free, given) = (self.record.free().len(), self.record.given.len());
        let Claim { interface, alternate } = *self.claim;
        let wanted = alternate_words(&self.record.list, interface, alternate).len();
        format!("free rings: {free} of {given}, endpoint words: {wanted}")
    }

    /// The list of commands counts from 1, the log from 0.
    fn command(&self, place: usize, word: u32) -> String {
        let code = self.outcomes.get(place).map_or(String::new(), |code| format!(", with code {code}"));
        format!(
            "command {}, {}, failed first{code} (place {place} of the log, word {word:08x})",
            place + 1,
            command(word)
        )
    }
}
