//! The groups of a slot's rings, free, live and quarantined: what a call must make of them, read from 02 once more.

use std::collections::BTreeSet;

use scenario::{Call, Claim, Record};

use crate::build::rings_wanted;
use crate::case::Case;
use crate::compare::Done;

type Rings = BTreeSet<u64>;

/// A ring in quarantine counts only there.
#[derive(Clone, Debug, Default, PartialEq, Eq)]
pub struct Groups {
    pub free: Rings,
    pub live: Rings,
    pub quarantined: Rings,
}

impl Groups {
    /// Those that a record says.
    pub fn of(record: &Record) -> Groups {
        let given: Rings = record.given.iter().copied().collect();
        let quarantined: Rings = record.quarantined.iter().copied().collect();
        let used = record.endpoints.iter().map(|e| e.ring).chain([record.control]).filter(|ring| *ring != 0);
        let live: Rings = used.filter(|ring| !quarantined.contains(ring)).collect();
        let free = given.into_iter().filter(|ring| !live.contains(ring) && !quarantined.contains(ring)).collect();
        Groups { free, live, quarantined }
    }

    /// Those of a bring-up that passes its checks.
    fn begun(rings: &[u64]) -> Groups {
        let mut free: Rings = rings.iter().copied().collect();
        let live = free.pop_first().into_iter().collect();
        Groups { free, live, quarantined: Rings::new() }
    }

    /// Whether each given ring is in exactly one of them, and no other ring in any.
    fn add_up(&self, given: &[u64]) -> bool {
        let all: Vec<u64> = [&self.free, &self.live, &self.quarantined].into_iter().flatten().copied().collect();
        all.len() == given.len() && all.into_iter().collect::<Rings>() == given.iter().copied().collect::<Rings>()
    }

    fn free_live(&mut self, rings: &Rings) {
        self.live.retain(|ring| !rings.contains(ring));
        self.free.extend(rings);
    }

    fn quarantine(&mut self, rings: &Rings) {
        self.free.retain(|ring| !rings.contains(ring));
        self.live.retain(|ring| !rings.contains(ring));
        self.quarantined.extend(rings);
    }

    fn claim(&mut self, kept: &Rings, old: &Rings) {
        self.free.retain(|ring| !kept.contains(ring));
        self.free_live(old);
        self.live.extend(kept);
    }

    /// What a call makes of them, of a slot whose record it was given. None: somebody else wrote the routes (18).
    pub fn after(mut self, case: &Case, done: &Done) -> Option<Groups> {
        let (record, number) = (&case.record, done.answer.number);
        match &case.call {
            _ if number == 18 => return None,
            Call::BringUp(args) if done.answer.count > 0 => self = Groups::begun(&args.rings),
            Call::Claim(_) | Call::Commit(_) => {
                let args = case.call.claimed().unwrap_or_default();
                let kept = kept(record, &args, &self.free);
                match number {
                    0 => self.claim(&kept, &owned(record, Some(args.interface))),
                    14 | 15 if sent(case, done, CONFIGURE).is_some() => self.quarantine(&kept),
                    _ => {}
                }
            }
            Call::Release { interface } if number == 0 => self.free_live(&owned(record, Some(*interface))),
            Call::SetConfiguration { .. } if sent(case, done, SET_CONFIGURATION) == Some(Some(0)) => match number {
                14 | 15 => self.quarantine(&owned(record, None)),
                _ => self.free_live(&owned(record, None)),
            },
            Call::Disconnect if number == 0 => self.free_live(&self.live.clone()),
            Call::Disconnect if number == 14 => self.quarantine(&self.live.clone()),
            _ => {}
        }
        Some(self)
    }
}

const CONFIGURE: u32 = 3;
const SET_CONFIGURATION: u32 = 7;

/// The outcome of the first logged command of an operation, if there is one.
fn sent(case: &Case, done: &Done, operation: u32) -> Option<Option<u8>> {
    let at = done.buffers.log.iter().take(done.answer.count).position(|word| word >> 28 == operation)?;
    Some(case.buffers.outcomes.get(at).copied())
}

/// The drawn rings that a claim's endpoints keep: of an address that is listed twice the last one.
fn kept(record: &Record, args: &Claim, free: &Rings) -> Rings {
    let addresses = rings_wanted(&record.list, args.interface, args.alternate);
    let drawn: Vec<(u8, u64)> = addresses.into_iter().zip(free.iter().copied()).collect();
    let last = |at: usize| !drawn[at + 1..].iter().any(|(address, _)| *address == drawn[at].0);
    (0..drawn.len()).filter(|at| last(*at)).map(|at| drawn[at].1).collect()
}

fn owned(record: &Record, interface: Option<u8>) -> Rings {
    record.endpoints.iter().filter(|e| interface.is_none_or(|i| i == e.owner)).map(|e| e.ring).collect()
}

/// Whether the record that a call on a genuine record leaves has the groups that the calls so far make. (The record of
/// an accepted unplugging is used for nothing: it keeps its rings, but for the endpoints'.)
pub fn agree(case: &Case, done: &Done) -> bool {
    let Done { record, answer, .. } = done;
    match &case.call {
        Call::BringUp(args) if answer.count > 0 => {
            Groups::of(record) == Groups::begun(&args.rings) && Groups::of(record).add_up(&args.rings)
        }
        Call::BringUp(_) => record.given.is_empty() && Groups::of(record) == Groups::default(),
        Call::Disconnect if answer.number == 0 => {
            record.given == case.record.sorted().given && record.quarantined == case.record.quarantined
        }
        _ => moved_alike(case, done) && Groups::of(record).add_up(&case.record.given),
    }
}

/// Whether a call on a record, which is no accepted unplugging, makes of its groups those of the record that it leaves.
pub fn moved_alike(case: &Case, done: &Done) -> bool {
    let wanted = Groups::of(&case.record).after(case, done);
    wanted.is_none_or(|wanted| wanted == Groups::of(&done.record))
}
