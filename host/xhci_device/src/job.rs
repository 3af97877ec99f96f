//! A command that borrows nothing.

use crate::bus::flagged;
use crate::{Command, Dci, Due, SlotId};

/// As many as a slot has routes.
const DCIS: usize = 32;

/// A [`Due`] that borrows nothing, so that it may be kept while others use the routes. Its methods say what those of the
/// [`Due`] said at the step that it comes from.
///
/// ```
/// use xhci_device::{Attached, Call, Command, Dci, Job, Next, Pending, Record, SlotId};
///
/// let port = Attached { slot: SlotId(1), n: 1, speed: 3, parent: None, port: 1, root_port: 1, rings: &[0x1000], hubs: &[] };
/// let (mut record, mut ctx, mut routes) = (Record::new(), [0; 1056], [0; 64]);
/// let mut pending = Pending::new(&mut record, &mut ctx, Call::BringUp(port));
/// let Next::Send(due) = pending.next(&mut routes) else { panic!() };
/// let job: Job = due.job();
/// routes[33] = 0; // nobody waits for the job
/// assert_eq!((job.command, job.slot), (Command::Address, SlotId(1)));
/// assert!(job.added().eq([Dci::CONTROL]) && job.dropped().next().is_none());
/// assert_eq!([job.ring(Dci::CONTROL), job.route(Dci::CONTROL)], [0x1000, 0x1000]);
/// ```
#[derive(Clone, Copy, Debug, PartialEq, Eq, Hash)]
pub struct Job {
    /// The command.
    pub command: Command,
    /// The slot that it is for.
    pub slot: SlotId,
    /// Dcis, a bit for each.
    dropped: u32,
    added: u32,
    /// By Dci.
    rings: [u64; DCIS],
    routes: [u64; DCIS],
}

fn bits(dcis: impl Iterator<Item = Dci>) -> u32 {
    dcis.fold(0, |set, dci| set | 1 << dci.0)
}

fn by_dci(words: &[u64; DCIS], dci: Dci) -> u64 {
    words.get(usize::from(dci.0)).copied().unwrap_or(0)
}

impl Job {
    /// The endpoints that the controller begins by this command: [`Due::added`].
    pub fn added(&self) -> impl Iterator<Item = Dci> + use<> {
        flagged(self.added)
    }

    /// The endpoints that it gives up: [`Due::dropped`].
    pub fn dropped(&self) -> impl Iterator<Item = Dci> + use<> {
        flagged(self.dropped)
    }

    /// The ring that the context names for an endpoint.
    pub fn ring(&self, dci: Dci) -> u64 {
        by_dci(&self.rings, dci)
    }

    /// The ring that the routes named for an endpoint of the slot; 0 is none.
    pub fn route(&self, dci: Dci) -> u64 {
        by_dci(&self.routes, dci)
    }
}

impl Due<'_> {
    /// The command without what it borrows, but for the context's bytes.
    pub fn job(&self) -> Job {
        let of_each = |word: &dyn Fn(Dci) -> u64| core::array::from_fn(|dci| word(Dci(dci as u8)));
        Job {
            command: self.command,
            slot: self.slot,
            dropped: bits(self.dropped()),
            added: bits(self.added()),
            rings: of_each(&|dci| self.ring(dci)),
            routes: of_each(&|dci| self.route(dci)),
        }
    }
}
