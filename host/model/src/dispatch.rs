//! Item 13 of 02: whose call runs next.

use std::collections::BTreeSet;

use scenario::Dispatch;

/// "A dispatcher for up to 32 slots in which each slot has at most one call waiting."
#[derive(Default)]
pub struct Dispatcher {
    taken: BTreeSet<u8>,
    waiting: BTreeSet<u8>,
    served: Option<u8>,
}

impl Dispatch for Dispatcher {
    /// "27, slot already waiting; 28, a slot that would be the thirty-third distinct one since the dispatcher began, after
    /// 27."
    fn submit(&mut self, slot: u8) -> u8 {
        if self.waiting.contains(&slot) {
            return 27;
        }
        if self.taken.len() == 32 && !self.taken.contains(&slot) {
            return 28;
        }
        self.taken.insert(slot);
        self.waiting.insert(slot);
        0
    }

    /// "Turns go by rising slot after the last one served, back to the lowest, the lowest waiting slot first of all; a turn
    /// with none waiting changes nothing."
    fn turn(&mut self) -> Option<u8> {
        let lowest = self.waiting.first();
        let above = self.waiting.iter().find(|slot| self.served.is_some_and(|served| **slot > served));
        let next = above.or(lowest).copied()?;
        self.waiting.remove(&next);
        self.served = Some(next);
        Some(next)
    }
}
