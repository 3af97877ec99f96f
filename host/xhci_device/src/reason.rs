//! Why a claim got its answer.

use core::fmt;

use crate::descriptor::address;
use crate::library::Why;
use crate::{Answer, Command};

/// Why a claim or a commit got its answer: the first condition that was not met, or the first command that failed
/// ([`Record::why`](crate::Record::why), [`Pending::why`](crate::Pending::why)).
///
/// ```
/// use xhci_device::Reason;
///
/// let told = |reason: Reason| reason.to_string();
/// assert_eq!(told(Reason::Alternate { interface: 2, alternate: 0 }), "the list has no alternate 0 of interface 2");
/// assert_eq!(told(Reason::Endpoint { word: 0xA384_0410, owner: 0 }), "endpoint 81 (word a3840410) is owned by interface 0");
/// assert_eq!(told(Reason::Command { place: 2, word: 0x6000_1000 }), "the command at place 2 of the log failed first: SetInterface 0, alternate 1");
/// assert_eq!(told(Reason::Number(12)), "the record is unusable or not sound");
/// ```
#[derive(Clone, Copy, Debug, PartialEq, Eq, Hash)]
#[non_exhaustive]
pub enum Reason {
    /// Nothing stood in the way: it is accepted.
    Nothing,
    /// `NotFound`: the list has no such alternate.
    Alternate {
        /// The interface that was asked for,
        interface: u8,
        /// and its alternate setting.
        alternate: u8,
    },
    /// `InvalidParameter`: the first endpoint word, in the order of the list, whose address another interface owns.
    Endpoint {
        /// The descriptor word, which [`Descriptor::of`](crate::Descriptor::of) reads.
        word: u32,
        /// The interface that owns its address.
        owner: u8,
    },
    /// `TooFewRings`: the ring check.
    Rings,
    /// `Failed` or `InterfaceBroken`: the first command that failed. Its code is the outcome at that place; the code of the
    /// answer may be that of a later command.
    Command {
        /// Its place in the log, from 0.
        place: usize,
        /// Its log word, which [`Command::of`] reads.
        word: u32,
    },
    /// The number of the answer says it all: any other refusal, a cut, or `InterfaceBroken` for the routes, where no command
    /// failed.
    Number(u8),
}

impl Reason {
    pub(crate) fn of(why: &Why) -> Reason {
        match why.kind {
            0 => Reason::Nothing,
            1 => Reason::Alternate { interface: why.interface, alternate: why.alternate },
            2 => Reason::Endpoint { word: why.word, owner: why.interface },
            3 => Reason::Rings,
            4 => Reason::Command { place: why.place, word: why.word },
            _ => Reason::Number(why.number as u8),
        }
    }
}

impl fmt::Display for Reason {
    fn fmt(&self, f: &mut fmt::Formatter<'_>) -> fmt::Result {
        match *self {
            Reason::Nothing => f.write_str("nothing stood in the way"),
            Reason::Alternate { interface, alternate } => {
                write!(f, "the list has no alternate {alternate} of interface {interface}")
            }
            Reason::Endpoint { word, owner } => {
                write!(f, "endpoint {:02x} (word {word:08x}) is owned by interface {owner}", address(word))
            }
            Reason::Rings => Answer::TooFewRings.fmt(f),
            Reason::Command { place, word } => match Command::of(word) {
                Some(command) => write!(f, "the command at place {place} of the log failed first: {command}"),
                None => write!(f, "the command at place {place} of the log failed first: {word:08x}"),
            },
            Reason::Number(number) => match Answer::of(number, 0) {
                Some(answer) => answer.fmt(f),
                None => write!(f, "answer {number}"),
            },
        }
    }
}
