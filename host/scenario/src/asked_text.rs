//! What an accepted ask shows, for people: the endpoints that go and those that come.

use std::fmt::Write;

use crate::call::{Asked, Record};
use crate::descriptors::endpoint_text;
use crate::fault::{address, alternate_words};

/// The endpoint words of the setting that an interface holds.
fn held_words(record: &Record, interface: u8) -> Vec<u32> {
    let held = record.held.iter().find(|held| held.0 == interface);
    held.map_or(Vec::new(), |(interface, alternate)| alternate_words(&record.list, *interface, *alternate))
}

/// What of an ask would be something else now.
pub fn explain_outdated(out: &mut String, asked: &Asked, now: &Asked) {
    let parts = [
        (asked.drops != now.drops, "what goes"),
        (asked.adds != now.adds, "what comes"),
        (asked.rings != now.rings, "the rings"),
    ];
    let parts: Vec<&str> = parts.iter().filter(|part| part.0).map(|part| part.1).collect();
    let _ = writeln!(out, "    an ask would now show something else: {}", parts.join(", "));
}

/// Whether no later word has the address of this one.
fn is_last(words: &[u32], at: usize) -> bool {
    words[at + 1..].iter().all(|word| address(*word) != address(words[at]))
}

/// A line for each endpoint: address, type, interval and ring. Of an address that is listed twice the last word counts.
pub fn explain_asked(out: &mut String, record: &Record, asked: &Asked) {
    let old = held_words(record, asked.interface);
    for at in (0..old.len()).filter(|at| is_last(&old, *at)) {
        let endpoint = record.endpoints.iter().find(|endpoint| endpoint.address == address(old[at]));
        let ring = endpoint.map_or(0, |endpoint| endpoint.ring);
        let _ = writeln!(out, "    goes:  {}, ring {ring:#x}", endpoint_text(old[at]));
    }
    let new = alternate_words(&record.list, asked.interface, asked.alternate);
    for (at, ring) in asked.rings.iter().enumerate().take(new.len()) {
        let kept = if is_last(&new, at) { "" } else { ", which it will not keep" };
        let _ = writeln!(out, "    comes: {}, ring {ring:#x}{kept}", endpoint_text(new[at]));
    }
    let _ = writeln!(out, "    drop flags {:08x}, add flags {:08x}", asked.drops, asked.adds);
}
