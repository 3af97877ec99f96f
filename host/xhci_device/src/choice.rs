//! What a choice of settings returns ([`Record::choose`](crate::Record::choose)).

use core::fmt;

use crate::Setting;

/// How many interfaces [`Record::choose`](crate::Record::choose) is given at most, repeats counted.
pub const MOST_NAMES: usize = 8;

/// One alternate setting for each interface that was named, in the order of the names.
#[derive(Clone, Copy, Debug, PartialEq, Eq, Hash)]
pub struct Chosen {
    pub(crate) names: [u8; MOST_NAMES],
    pub(crate) alternates: [u8; MOST_NAMES],
    pub(crate) count: usize,
}

impl Chosen {
    /// The alternates, one for each name. An interface that was named twice has the same one at both places.
    pub fn alternates(&self) -> &[u8] {
        &self.alternates[..self.count]
    }

    /// The same with the interfaces, to be claimed.
    pub fn settings(&self) -> impl ExactSizeIterator<Item = Setting> + '_ {
        let of = |(interface, alternate): (&u8, &u8)| Setting { interface: *interface, alternate: *alternate };
        self.names[..self.count].iter().zip(self.alternates()).map(of)
    }
}

/// Why no settings were chosen.
///
/// ```
/// use xhci_device::{ChoiceRefusal, Record};
///
/// let refusal = Record::new().choose(&[0], 3).unwrap_err();
/// assert_eq!((refusal.number(), refusal.to_string().as_str()), (12, "the record is unusable or not sound"));
/// ```
#[derive(Clone, Copy, Debug, PartialEq, Eq, Hash)]
#[non_exhaustive]
pub enum ChoiceRefusal {
    /// The record is marked unusable or not sound.
    Unusable,
    /// More than [`MOST_NAMES`] interfaces are named.
    TooManyNames,
    /// No choice exists: an interface has no alternate that is short enough, or those that are take the same addresses.
    NoChoice,
}

impl ChoiceRefusal {
    pub(crate) fn of(number: u32) -> Option<ChoiceRefusal> {
        use ChoiceRefusal::*;
        [Unusable, TooManyNames, NoChoice].into_iter().find(|refusal| u32::from(refusal.number()) == number)
    }

    /// The number in 01 and 02.
    pub fn number(self) -> u8 {
        match self {
            ChoiceRefusal::Unusable => 12,
            ChoiceRefusal::TooManyNames => 29,
            ChoiceRefusal::NoChoice => 30,
        }
    }
}

impl fmt::Display for ChoiceRefusal {
    fn fmt(&self, f: &mut fmt::Formatter<'_>) -> fmt::Result {
        f.write_str(match self {
            ChoiceRefusal::Unusable => "the record is unusable or not sound",
            ChoiceRefusal::TooManyNames => "there are more than eight names",
            ChoiceRefusal::NoChoice => "there is no such choice",
        })
    }
}
