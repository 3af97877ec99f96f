//! Which refusal an input must meet, read from 01 once more: so that no layer refuses or accepts too much unnoticed.

use scenario::{BringUp, Buffers, Call, HubUpdate, Record};

use crate::build::{is_super, most_mult};
use crate::case::Case;
use crate::rows;

/// The number that a call must be refused with, as far as it can be told without looking into the record's endpoints.
pub fn expected(case: &Case) -> Option<u8> {
    match &case.call {
        Call::BringUp(args) => bring_up(args, &case.buffers),
        call => on_record(call, &case.record, &case.buffers),
    }
}

/// Whether `expected` knows of every refusal with that number.
pub fn is_known(case: &Case, number: u8) -> bool {
    match &case.call {
        Call::BringUp(_) => matches!(number, 1..=12 | 17 | 26),
        _ => matches!(number, 1 | 2 | 3 | 7 | 12 | 25),
    }
}

/// 11, 1, 2, 3, 6, 4, 26, 5, 10, 17.
fn bring_up(args: &BringUp, buffers: &Buffers) -> Option<u8> {
    let spacing = if buffers.ctx.len() == 2112 { 64 } else { 32 };
    let own_word = 32 * usize::from(args.slot) + 1;
    if args.slot == 0 || u32::from(args.slot) > args.n || args.n > 255 {
        return Some(11);
    }
    lengths(buffers, spacing, args.n)
        .or((args.speed == 0 || args.speed > 5).then_some(6))
        .or(list_fault(&args.list, args.speed))
        .or(chain_fault(args).map(|_| 5))
        .or(rings_fault(&args.rings).then_some(10))
        .or_else(|| (buffers.routes[own_word] != 0).then_some(17))
}

/// What is wrong with the rings that a slot is given: their number, an address, one that is there twice.
fn rings_fault(rings: &[u64]) -> bool {
    let mut sorted = rings.to_vec();
    sorted.sort();
    sorted.dedup();
    rings.is_empty()
        || rings.len() > 64
        || sorted.len() != rings.len()
        || rings.iter().any(|ring| *ring == 0 || ring & 15 != 0)
}

/// 12, 1, 2, 3, 7 of a hub update, and 25 of a release; 8 and 9 are the original's to tell, and 21 is the store's.
fn on_record(call: &Call, record: &Record, buffers: &Buffers) -> Option<u8> {
    if !allowed(call, record) {
        return Some(12);
    }
    let own = match call {
        Call::HubUpdate(args) => (record.speed == 3 && think_fault(args)).then_some(7),
        Call::Release { interface } => record.held.iter().all(|held| held.0 != *interface).then_some(25),
        _ => None,
    };
    lengths(buffers, record.spacing, record.n.into()).or(own)
}

/// The record's mark for this call: an unplugging asks whether it is up.
pub fn allowed(call: &Call, record: &Record) -> bool {
    if matches!(call, Call::Disconnect) { record.up } else { record.usable }
}

fn lengths(buffers: &Buffers, spacing: usize, n: u32) -> Option<u8> {
    if buffers.ctx.len() != 33 * spacing {
        Some(1)
    } else if buffers.routes.len() != 32 * (n as usize + 1) {
        Some(2)
    } else {
        (buffers.log.len() < 64).then_some(3)
    }
}

fn think_fault(args: &HubUpdate) -> bool {
    args.think != 0 && !(666..3330).contains(&args.think)
}

/// Fields of a hub word: present, has parent, parent, depth plus one, speed, unused.
fn hub(word: u64) -> (bool, bool, usize, u64, u64, u64) {
    let parent = (word >> 54 & 0xFF) as usize;
    (word >> 63 == 1, word >> 62 & 1 == 1, parent, word >> 43 & 7, word >> 40 & 7, word & 0x7FFF_FFFF)
}

/// What is wrong with the chain of hubs, for the name of the rule.
pub fn chain_fault(args: &BringUp) -> Option<&'static str> {
    if args.hubs.len() > 256 {
        return Some(rows::MANY_HUBS);
    }
    let mut next = args.has_parent.then_some(args.parent as usize);
    let mut expected: Option<u64> = None;
    while let Some(index) = next {
        let Some((true, has_parent, parent, depth, speed, unused)) = args.hubs.get(index).map(|w| hub(*w)) else {
            return Some(rows::HUB_MISSING);
        };
        if !(1..=5).contains(&speed) {
            return Some(rows::HUB_SPEED);
        }
        if unused != 0 || depth > 5 {
            return Some("a hub word out of its form");
        }
        if expected.is_some_and(|e| e != depth) {
            return Some(rows::DEPTHS);
        }
        if depth == 0 {
            return None;
        }
        if !has_parent {
            return Some(rows::NO_PARENT);
        }
        expected = Some(depth - 1);
        next = Some(parent);
    }
    None
}

/// What a list of descriptor words is refused with at a speed of 1 to 5: 4, and then 26.
pub fn list_fault(list: &[u32], speed: u8) -> Option<u8> {
    if rules_broken(list, speed) {
        return Some(4);
    }
    (is_super(speed) && companions_misfit(list)).then_some(26)
}

/// 01's rules; at speeds 4 and 5 words of kind 3 count among the words only.
fn rules_broken(words: &[u32], speed: u8) -> bool {
    let list: Vec<u32> = words.iter().copied().filter(|w| *w >> 30 != 3).collect();
    let kinds: Vec<u32> = list.iter().map(|w| w >> 30).collect();
    let mut interfaces: Vec<u32> = list.iter().filter(|w| *w >> 30 == 1).map(|w| w >> 22 & 0xFF).collect();
    interfaces.sort();
    interfaces.dedup();
    let runs = kinds.split(|k| *k != 2).map(<[u32]>::len).max().unwrap_or(0);
    let word_fault = |w: &u32| match w >> 30 {
        0 => w & 0x3F_FFFF != 0,
        1 => w & 0x3FFF != 0,
        2 => w & 3 != 0 || w >> 25 & 15 == 0 || w >> 23 & 3 == 0,
        _ => w & 0xFF != 0 || !is_super(speed),
    };
    let misplaced = kinds.windows(2).any(|pair| pair == [0, 2]) || words.first().is_some_and(|w| w >> 30 != 0);
    words.len() > 256
        || kinds.iter().filter(|k| **k == 0).count() > 8
        || interfaces.len() > 32
        || runs > 30
        || misplaced
        || words.iter().any(word_fault)
}

/// Whether an endpoint word and a word of kind 3 do not always stand together, in this order, or a mult is too high.
fn companions_misfit(list: &[u32]) -> bool {
    let apart = |pair: &[u32]| (pair[0] >> 30 == 2) != (pair[1] >> 30 == 3);
    let too_high = |pair: &[u32]| pair[1] >> 30 == 3 && pair[1] >> 24 & 3 > most_mult(pair[0]);
    list.windows(2).any(|pair| apart(pair) || too_high(pair)) || list.last().is_some_and(|last| last >> 30 == 2)
}
