//! Why what a bring-up has read cannot be used.

use core::fmt;

use crate::{Answer, Command};

/// What a command of a bring-up has read that cannot be used, and why ([`Pending::unreadable`](crate::Pending::unreadable)).
#[derive(Clone, Copy, Debug, PartialEq, Eq, Hash)]
pub struct Unreadable {
    /// The command: ReadConfiguration, ReadDevice or ReadConfig.
    pub command: Command,
    /// Why.
    pub cause: Cause,
}

/// Why it cannot be used. The place of a word is counted from 0 in the list of all configurations, those read before
/// included.
///
/// ```
/// use xhci_device::Cause;
///
/// let told = |cause: Cause| cause.to_string();
/// assert_eq!(told(Cause::TooShort { had: 8, wanted: 18 }), "8 bytes, and 18 are needed");
/// assert_eq!(told(Cause::Malformed { place: 2 }), "the descriptors are malformed at byte 2");
/// assert_eq!(told(Cause::List { place: 1, word: 0xA384_0410 }), "word a3840410 at place 1: the descriptor list is not valid");
/// ```
#[derive(Clone, Copy, Debug, PartialEq, Eq, Hash)]
#[non_exhaustive]
pub enum Cause {
    /// Too few bytes.
    TooShort {
        /// How many there were,
        had: usize,
        /// and how many there must be at least.
        wanted: usize,
    },
    /// The device has more than 8 configurations.
    Configurations {
        /// How many.
        had: usize,
    },
    /// The configuration's bytes are malformed (20).
    Malformed {
        /// The first byte of a descriptor whose length is below its type's size or leads past the end; where all lengths are
        /// in order, the first total length, number of interfaces, number of endpoints or packets that is wrong.
        place: usize,
    },
    /// The descriptor list is not valid (4).
    List {
        /// The first word up to which it is not,
        place: usize,
        /// and that word.
        word: u32,
    },
    /// A companion is missing, misplaced or out of range (26).
    Companion {
        /// The place of an endpoint word that has none, or of the companion. In bytes that cannot be read, of the
        /// descriptor's first byte,
        place: usize,
        /// and there is no word.
        word: Option<u32>,
    },
    /// The words are not those of one configuration.
    NotOne {
        /// The place where something other than a configuration begins, or another configuration,
        place: usize,
        /// and the word there; 0 where there is none at all.
        word: u32,
    },
    /// The list has more than 256 words.
    NoRoom {
        /// How many it would have, one for each configuration that is not read yet.
        had: usize,
    },
}

impl fmt::Display for Unreadable {
    fn fmt(&self, f: &mut fmt::Formatter<'_>) -> fmt::Result {
        write!(f, "{}: {}", self.command, self.cause)
    }
}

impl fmt::Display for Cause {
    fn fmt(&self, f: &mut fmt::Formatter<'_>) -> fmt::Result {
        match *self {
            Cause::TooShort { had, wanted } => write!(f, "{had} bytes, and {wanted} are needed"),
            Cause::Configurations { had } => write!(f, "{had} configurations, and 8 are allowed"),
            Cause::Malformed { place } => write!(f, "the descriptors are malformed at byte {place}"),
            Cause::List { place, word } => write!(f, "word {word:08x} at place {place}: {}", Answer::DescriptorList),
            Cause::Companion { place, word: Some(word) } => {
                write!(f, "word {word:08x} at place {place}: {}", Answer::Companion)
            }
            Cause::Companion { place, word: None } => write!(f, "descriptor at byte {place}: {}", Answer::Companion),
            Cause::NotOne { place, word } => write!(f, "word {word:08x} at place {place}: not one configuration"),
            Cause::NoRoom { had } => write!(f, "{had} words, and 256 are allowed"),
        }
    }
}
