//! What exactly a call is refused for where the answer's number leaves it open, and what an unplugging came to.

use crate::call::{BringUp, Call, GIVEN_ROOM};
use crate::companion::words_fault;
use crate::explain::Given;
use crate::{seen, sound};

const CONFIGURATION: u32 = 0;
const ALTERNATE: u32 = 1;
const ENDPOINT: u32 = 2;
const COMPANION: u32 = 3;

fn kind(word: u32) -> u32 {
    word >> 30
}

pub fn address(word: u32) -> u8 {
    ((word >> 29 & 1) << 7 | word >> 25 & 15) as u8
}

/// What is wrong with a descriptor word by itself, at a speed.
fn word_fault(word: u32, speed: u8) -> Option<&'static str> {
    let unused = match kind(word) {
        CONFIGURATION => 22,
        ALTERNATE => 14,
        ENDPOINT => 2,
        _ if matches!(speed, 4 | 5) => 8,
        _ => return Some("its kind is 3, and companions are of speeds 4 and 5"),
    };
    let endpoint = kind(word) == ENDPOINT;
    let faults = [
        (word & ((1 << unused) - 1) != 0, "unused bits are set"),
        (endpoint && address(word) & 15 == 0, "its endpoint number is 0"),
        (endpoint && word >> 23 & 3 == 0, "its endpoint type is 0"),
    ];
    faults.iter().find(|fault| fault.0).map(|fault| fault.1)
}

/// What is wrong with the last word of a list of which the words before are in order. Companions count as words only.
fn place_fault(words: &[u32]) -> Option<&'static str> {
    let (last, before) = words.split_last()?;
    let list: Vec<u32> = words.iter().copied().filter(|word| kind(*word) != COMPANION).collect();
    let after_configuration = kind(*last) == ENDPOINT && list.len() > 1 && kind(list[list.len() - 2]) == CONFIGURATION;
    let count = |sought: u32| list.iter().filter(|word| kind(**word) == sought).count();
    let mut interfaces: Vec<u32> = list.iter().filter(|w| kind(**w) == ALTERNATE).map(|w| w >> 22 & 0xFF).collect();
    interfaces.sort();
    interfaces.dedup();
    let run = list.iter().rev().take_while(|word| kind(**word) == ENDPOINT).count();
    let faults = [
        (before.is_empty() && kind(*last) != CONFIGURATION, "the list does not begin with a configuration"),
        (after_configuration, "an endpoint without an alternate"),
        (run > 30, "the alternate's endpoint 31, and 30 are allowed"),
        (interfaces.len() > 32, "the list's interface 33, and 32 are allowed"),
        (count(CONFIGURATION) > 8, "the list's configuration 9, and 8 are allowed"),
        (words.len() > 256, "256 words are allowed"),
    ];
    faults.iter().find(|fault| fault.0).map(|fault| fault.1)
}

/// The place of the first word with which a list is not valid, and why.
pub fn first_fault(list: &[u32], speed: u8) -> Option<(usize, &'static str)> {
    let fault = |at: usize| word_fault(list[at], speed).or_else(|| place_fault(&list[..=at]));
    (0..list.len()).find_map(|at| Some((at, fault(at)?)))
}

/// The same as a line.
pub fn list_fault(list: &[u32], speed: u8) -> Option<String> {
    let (at, what) = first_fault(list, speed)?;
    Some(format!("word {} of {}, {:08x}: {what}", at + 1, list.len(), list[at]))
}

/// The endpoint words that words begin with, without their companions.
pub fn endpoints_from(words: &[u32]) -> Vec<u32> {
    let endpoints = words.iter().take_while(|word| matches!(kind(**word), ENDPOINT | COMPANION));
    endpoints.copied().filter(|word| kind(*word) == ENDPOINT).collect()
}

/// Where lookup finds an alternate.
pub fn alternate_at(list: &[u32], interface: u8, alternate: u8) -> Option<usize> {
    let sought = ALTERNATE << 30 | u32::from(interface) << 22 | u32::from(alternate) << 14;
    list.iter().position(|word| *word == sought)
}

/// The endpoint words of the first matching alternate.
pub fn alternate_words(list: &[u32], interface: u8, alternate: u8) -> Vec<u32> {
    let after = alternate_at(list, interface, alternate).map_or(list.len(), |at| at + 1);
    endpoints_from(&list[after..])
}

/// Why a ring cannot be given after others.
fn ring_fault(before: &[u64], ring: u64) -> Option<String> {
    match ring {
        0 => Some("ring 0x0 is none".to_string()),
        _ if !ring.is_multiple_of(16) => Some(format!("ring {ring:#x} is not a multiple of 16")),
        _ if before.contains(&ring) => Some(format!("ring {ring:#x} is given twice")),
        _ => None,
    }
}

/// The first ring that cannot be given, unless their number does not fit.
pub fn given_fault(rings: &[u64]) -> Option<String> {
    if !(1..=GIVEN_ROOM).contains(&rings.len()) {
        return Some(format!("rings given: {}, and 1 to {GIVEN_ROOM} are allowed", rings.len()));
    }
    (0..rings.len()).find_map(|at| ring_fault(&rings[..at], rings[at]))
}

/// What Disable decided.
fn unplugging(number: u8) -> Option<String> {
    let text = match number {
        0 => "Disable was done: every held setting has ended, and the slot has no route any more",
        14 => "Disable failed: the routes stay, control's ring and every live one are in quarantine",
        15 => "Disable has not been answered: routes and rings stay as they are",
        _ => return None,
    };
    Some(text.to_string())
}

/// What a bring-up is refused for.
fn of_bring_up(number: u8, args: &BringUp, routes: &[u64]) -> Option<String> {
    match number {
        4 => list_fault(&args.list, args.speed),
        10 => given_fault(&args.rings),
        11 => seen::slot(args),
        17 => seen::control_route(args, routes),
        26 => words_fault(&args.list),
        _ => None,
    }
}

/// What a call is refused for, or how an unplugging went. None where the number says it all.
pub fn fault(number: u8, given: &Given) -> Option<String> {
    match (number, given.call) {
        (1, _) => seen::context_length(given),
        (2, _) => seen::routes_length(given),
        (_, Call::BringUp(args)) => of_bring_up(number, args, &given.buffers.routes),
        (8, call) => Some(seen::alternates(given.record, &call.claimed()?)),
        (12, Call::Disconnect) => sound::not_up(given.record),
        (12, _) => sound::unusable(given.record),
        (_, Call::Disconnect) => unplugging(number),
        _ => None,
    }
}
