//! A subject that cannot be given every input: crab-usb's device, which reads raw descriptors and lends memory of its own. It is
//! slow, too, so that not every call need be judged.

use std::borrow::Cow;

use scenario::{BringUp, Call, Layer};

use crate::case::Case;

/// Judges each so many-th call. The others are made by a layer that does the same faster.
pub struct Sparse {
    pub every: u64,
    pub seen: u64,
    pub others: Box<dyn Layer>,
}

impl Sparse {
    /// Whether the next call is one of the others.
    pub fn passes_over(&mut self) -> bool {
        self.seen += 1;
        !self.seen.is_multiple_of(self.every)
    }
}

const PACKETS: u32 = 3 << 10;
const ONE_PACKET: u32 = 1 << 10;

/// A case as it can be: a device's descriptors say 1 to 3 packets per microframe.
pub fn given(case: &Case) -> Cow<'_, Case> {
    let Call::BringUp(args) = &case.call else {
        return Cow::Borrowed(case);
    };
    let said = |word: u32| if word >> 30 == 2 && word & PACKETS == 0 { word | ONE_PACKET } else { word };
    let list = args.list.iter().copied().map(said).collect();
    Cow::Owned(Case { call: Call::BringUp(BringUp { list, ..args.clone() }), ..case.clone() })
}

/// What it is not given.
pub fn uncompared(case: &Case) -> &'static str {
    match case.call {
        Call::Ask(_) | Call::Commit(_) | Call::Why(_) => "crab-usb has no asks, commits and reasons",
        Call::BringUp(_) => "a bring-up of what no device is, or over memory that crab-usb does not lend",
        _ => "memory that crab-usb does not lend, or a number that it has no room for",
    }
}
