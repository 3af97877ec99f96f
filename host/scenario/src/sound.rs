//! Why a record is refused with 12: how it is marked, or the first condition of docs/BEHAVIOUR.md, "A sound record",
//! that does not hold. That the counts fit their arrays is always so where a record is read from text.

use crate::call::{QUARANTINE_ROOM, Record};
use crate::companion::words_fault;
use crate::fault::{address, alternate_at, alternate_words, given_fault, list_fault};

/// Of every call on a record but an unplugging, and of a choice.
pub fn unusable(record: &Record) -> Option<String> {
    match (record.usable, record.up) {
        (false, true) => Some("the record is marked unusable; it is up, and may be unplugged".to_string()),
        (false, false) => Some("the record is marked unusable, and is not up".to_string()),
        _ => not_sound(record),
    }
}

/// Of an unplugging.
pub fn not_up(record: &Record) -> Option<String> {
    match record.up {
        false => Some("the record is not up: its bring-up was not accepted, or it was unplugged before".to_string()),
        true => not_sound(record),
    }
}

fn not_sound(record: &Record) -> Option<String> {
    let conditions: [fn(&Record) -> Option<String>; 6] = [numbers, list, held, endpoints, given, rings];
    let fault = conditions.iter().find_map(|condition| condition(record))?;
    Some(format!("the record is not sound: {fault}"))
}

fn numbers(Record { slot, n, spacing, speed, .. }: &Record) -> Option<String> {
    if !(1..=*n).contains(slot) {
        return Some(format!("slot {slot}, and n is {n}"));
    }
    if ![32, 64].contains(spacing) {
        return Some(format!("spacing {spacing}, and 32 and 64 are allowed"));
    }
    (!(1..=5).contains(speed)).then(|| format!("speed {speed}, and 1 to 5 are allowed"))
}

fn list(Record { list, speed, .. }: &Record) -> Option<String> {
    let companions = || if *speed > 3 { words_fault(list) } else { None };
    list_fault(list, *speed).or_else(companions).map(|fault| format!("its list, {fault}"))
}

fn held(Record { held, list, .. }: &Record) -> Option<String> {
    let twice = (0..held.len()).find(|at| held[..*at].iter().any(|before| before.0 == held[*at].0));
    if let Some(at) = twice {
        return Some(format!("it holds interface {} twice", held[at].0));
    }
    let (interface, alternate) =
        held.iter().find(|(interface, alternate)| alternate_at(list, *interface, *alternate).is_none())?;
    Some(format!("it holds interface {interface}, alternate {alternate}, which its list has not"))
}

/// The addresses that held settings list, each with its interface, once.
fn owned(record: &Record) -> Vec<(u8, u8)> {
    let mut owned = Vec::new();
    for (interface, alternate) in &record.held {
        for word in alternate_words(&record.list, *interface, *alternate) {
            if !owned.contains(&(address(word), *interface)) {
                owned.push((address(word), *interface));
            }
        }
    }
    owned
}

/// Why an address that a held setting lists has not its endpoint.
fn lacking(record: &Record, (address, interface): (u8, u8)) -> Option<String> {
    let found: Vec<u8> = record.endpoints.iter().filter(|e| e.address == address).map(|e| e.owner).collect();
    match (found.first(), found.iter().filter(|owner| **owner == interface).count()) {
        (None, _) => Some(format!("endpoint {address:02x} of interface {interface} is missing")),
        (Some(owner), 0) => {
            Some(format!("endpoint {address:02x} is interface {owner}'s, and interface {interface} has it"))
        }
        (_, 1) => None,
        _ => Some(format!("endpoint {address:02x} is there twice")),
    }
}

fn endpoints(record: &Record) -> Option<String> {
    let owned = owned(record);
    if let Some(fault) = owned.iter().find_map(|one| lacking(record, *one)) {
        return Some(fault);
    }
    if let Some(other) = record.endpoints.iter().find(|e| !owned.contains(&(e.address, e.owner))) {
        return Some(format!("endpoint {:02x} of interface {} is of no held setting", other.address, other.owner));
    }
    let shared = |at: &usize| owned[..*at].iter().find(|before| before.0 == owned[*at].0).map(|before| (*at, before.1));
    let (at, before) = (0..owned.len()).find_map(|at| shared(&at))?;
    Some(format!("endpoint {:02x} is of interfaces {before} and {}", owned[at].0, owned[at].1))
}

/// Control's ring and the endpoints', and whose they are.
fn live(record: &Record) -> Vec<(u64, String)> {
    let endpoints = record.endpoints.iter().map(|e| (e.ring, format!("endpoint {:02x}'s", e.address)));
    [(record.control, "control's".to_string())].into_iter().chain(endpoints).collect()
}

fn given(record: &Record) -> Option<String> {
    let quarantined = record.quarantined.iter().map(|ring| (*ring, "quarantined".to_string()));
    let other = || {
        let (ring, whose) =
            live(record).into_iter().chain(quarantined).find(|(ring, _)| !record.given.contains(ring))?;
        Some(format!("ring {ring:#x}, {whose}, is not given"))
    };
    given_fault(&record.given).or_else(other)
}

fn rings(record: &Record) -> Option<String> {
    let (live, quarantined) = (live(record), &record.quarantined);
    for (at, (ring, whose)) in live.iter().enumerate() {
        if let Some((_, before)) = live[..at].iter().find(|before| before.0 == *ring) {
            return Some(format!("ring {ring:#x} is {before} and {whose}"));
        }
    }
    if let Some(at) = (0..quarantined.len()).find(|at| quarantined[..*at].contains(&quarantined[*at])) {
        return Some(format!("ring {:#x} is quarantined twice", quarantined[at]));
    }
    let alone = quarantined.iter().filter(|ring| live.iter().all(|live| live.0 != **ring)).count();
    let count = live.len() + alone;
    if count > QUARANTINE_ROOM {
        return Some(format!("rings in use or quarantine: {count}, and {QUARANTINE_ROOM} are allowed"));
    }
    let ring = quarantined.first().filter(|_| record.usable)?;
    Some(format!("it is usable, and ring {ring:#x} is quarantined"))
}
