//! The conditions of each call, in 01's order. An error is the number refused with.

use scenario::{Asked, BringUp, Buffers, Claim, HubUpdate, Record};

use crate::list::{EndpointWord, lookup, valid};
use crate::topology::{chain, think_time};

type Checked = Result<(), u8>;

pub fn ask(holds: bool, number: u8) -> Checked {
    if holds { Ok(()) } else { Err(number) }
}

fn is_ring(ring: u64) -> bool {
    ring != 0 && ring.is_multiple_of(16)
}

/// "A slot is given 1 to 64 rings, all meeting 01's address rules."
fn given_sound(rings: &[u64]) -> bool {
    (1..=64).contains(&rings.len()) && rings.iter().all(|ring| is_ring(*ring)) && distinct(rings)
}

fn distinct<T: Ord + Copy>(values: &[T]) -> bool {
    let mut sorted = values.to_vec();
    sorted.sort();
    sorted.windows(2).all(|pair| pair[0] != pair[1])
}

/// 1, 2, 3: the lengths of what is lent.
fn lengths(buffers: &Buffers, context_fits: bool, n: usize) -> Checked {
    ask(context_fits, 1)?;
    ask(buffers.routes.len() == 32 * (n + 1), 2)?;
    ask(buffers.log.len() >= 64, 3)
}

pub fn bring_up(args: &BringUp, buffers: &Buffers) -> Checked {
    let n = args.n as usize;
    ask((1..=255).contains(&n) && args.slot != 0 && usize::from(args.slot) <= n, 11)?;
    lengths(buffers, [1056, 2112].contains(&buffers.ctx.len()), n)?;
    ask((1..=5).contains(&args.speed), 6)?;
    valid(&args.list, args.speed)?;
    ask(chain(args).is_some(), 5)?;
    ask(given_sound(&args.rings), 10)?;
    ask(buffers.routes[32 * usize::from(args.slot) + 1] == 0, 17)
}

/// 12, then the lengths that the record was made with.
pub fn record(record: &Record, buffers: &Buffers) -> Checked {
    ask(record.usable && sound(record), 12)?;
    lengths(buffers, buffers.ctx.len() == 33 * record.spacing, record.n.into())
}

/// The same of an unplugging, which asks whether the record is up.
pub fn disconnect(record: &Record, buffers: &Buffers) -> Checked {
    ask(record.up && sound(record), 12)?;
    lengths(buffers, buffers.ctx.len() == 33 * record.spacing, record.n.into())
}

pub fn claim(record: &Record, args: &Claim) -> Checked {
    let words = lookup(&record.list, args.interface, args.alternate).ok_or(8u8)?;
    let foreign = |address: u8| record.endpoints.iter().any(|e| e.address == address && e.owner != args.interface);
    ask(!words.iter().any(|word| foreign(word.address())), 9)?;
    // A repeated address counts twice; the rings of the interface's own old setting are live.
    ask(record.free().len() >= words.len(), 21)
}

/// 22: "a commit whose ask would now return anything else is refused".
pub fn commit(record: &Record, asked: &Asked) -> Checked {
    let Asked { interface, alternate, .. } = *asked;
    claim(record, &Claim { interface, alternate })?;
    ask(ask_of(record, interface, alternate) == *asked, 22)
}

/// Bit d for Dci d; those of control and below are never set.
fn flags(words: &[EndpointWord]) -> u32 {
    words.iter().fold(0, |flags, word| flags | 1 << word.dci())
}

/// "Returns the interface, alternate, drop flags, add flags (bits 0 and 1 always 0) and drawn rings."
pub fn ask_of(record: &Record, interface: u8, alternate: u8) -> Asked {
    let held = record.held.iter().find(|held| held.0 == interface);
    let old = held.and_then(|(interface, alternate)| lookup(&record.list, *interface, *alternate)).unwrap_or_default();
    let new = lookup(&record.list, interface, alternate).unwrap_or_default();
    let rings = record.free().into_iter().take(new.len()).collect();
    Asked { interface, alternate, drops: flags(&old), adds: flags(&new), rings }
}

/// The setting that the interface holds. 25: "interface not claimed", whatever the list has.
pub fn release(record: &Record, interface: u8) -> Result<(u8, u8), u8> {
    record.held.iter().find(|held| held.0 == interface).copied().ok_or(25)
}

/// At other speeds than High no think time is refused.
pub fn hub_update(record: &Record, args: &HubUpdate) -> Checked {
    ask(record.speed != 3 || think_time(args.think).is_some(), 7)
}

/// The endpoints' rings and control's.
fn live(record: &Record) -> Vec<u64> {
    record.endpoints.iter().map(|e| e.ring).chain([record.control]).collect()
}

/// A quarantined ring may be live or control's too, and counts once.
fn rings_sound(record: &Record) -> bool {
    let (live, quarantined) = (live(record), &record.quarantined);
    let alone = quarantined.iter().filter(|ring| !live.contains(ring)).count();
    given_sound(&record.given)
        && live.iter().chain(quarantined).all(|ring| record.given.contains(ring))
        && distinct(&live)
        && distinct(quarantined)
        && live.len() + alone <= 61
        && (!record.usable || quarantined.is_empty())
}

/// docs/BEHAVIOUR.md, "A sound record".
pub fn sound(record: &Record) -> bool {
    let mut owned = Vec::new();
    for (interface, alternate) in &record.held {
        let Some(words) = lookup(&record.list, *interface, *alternate) else {
            return false;
        };
        owned.extend(words.iter().map(|word| (word.address(), *interface)));
    }
    owned.sort();
    owned.dedup();
    let mut endpoints: Vec<_> = record.endpoints.iter().map(|e| (e.address, e.owner)).collect();
    endpoints.sort();
    let interfaces: Vec<_> = record.held.iter().map(|h| h.0).collect();
    let addresses: Vec<_> = endpoints.iter().map(|e| e.0).collect();
    (1..=record.n).contains(&record.slot)
        && [32, 64].contains(&record.spacing)
        && (1..=5).contains(&record.speed)
        && valid(&record.list, record.speed).is_ok()
        && distinct(&interfaces)
        && endpoints == owned
        && distinct(&addresses)
        && rings_sound(record)
}
