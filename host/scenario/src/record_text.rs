//! A record for people: what it says, and what is not as it was.

use std::fmt::Write;

use crate::call::{Call, Endpoint, Record};

fn usable(record: &Record) -> &'static str {
    match (record.usable, record.up) {
        (true, _) => "usable",
        (false, true) => "unusable, up",
        (false, false) => "unusable",
    }
}

fn configuration(record: &Record) -> String {
    record.config.map_or("none".to_string(), |value| value.to_string())
}

fn state(active: bool) -> &'static str {
    if active { "active" } else { "revoked" }
}

fn numbers(record: &Record) -> String {
    let Record { slot, n, spacing, speed, control, list, given, .. } = record;
    let (usable, configuration) = (usable(record), configuration(record));
    format!(
        "{usable}, slot {slot} of {n}, spacing {spacing}, speed {speed}, configuration {configuration}, control's ring {control:#x} of {}, {} words",
        given.len(),
        list.len()
    )
}

fn endpoint(endpoint: Option<&Endpoint>) -> String {
    endpoint.map_or("none".to_string(), |Endpoint { ring, owner, active, .. }| {
        format!("interface {owner}, ring {ring:#x}, {}", state(*active))
    })
}

fn alternate(setting: Option<&(u8, u8)>) -> String {
    setting.map_or("none".to_string(), |(_, alternate)| format!("alternate {alternate}"))
}

/// Each key of two maps with what both have for it.
fn beside<'a, T>(was: &'a [T], is: &'a [T], key: impl Fn(&T) -> u8) -> Vec<(u8, Option<&'a T>, Option<&'a T>)> {
    let mut keys: Vec<u8> = was.iter().chain(is).map(&key).collect();
    keys.sort();
    keys.dedup();
    let find = |map: &'a [T], sought: u8| map.iter().find(|entry| key(entry) == sought);
    keys.into_iter().map(|sought| (sought, find(was, sought), find(is, sought))).collect()
}

/// Free rings, which a claim draws from, rising.
fn store(lines: &mut Vec<String>, was: &Record, is: &Record) {
    let text = |record: &Record| {
        let free = record.free();
        let first = free.first().map_or(String::new(), |ring| format!(", the lowest {ring:#x}"));
        format!("{} of {}{first}", free.len(), record.given.len())
    };
    if was.free() != is.free() {
        lines.push(format!("free rings: {} -> {}", text(was), text(is)));
    }
}

/// Why a call puts rings into quarantine.
fn doubt(call: &Call) -> &'static str {
    match call {
        Call::Claim(_) | Call::Commit(_) => "a Configure that adds it was sent before the call was lost",
        Call::SetConfiguration { .. } => "its setting ended before the call was lost",
        _ => "Disable failed, and the controller may hold it",
    }
}

fn maps(lines: &mut Vec<String>, call: &Call, was: &Record, is: &Record) {
    for (interface, before, after) in beside(&was.held, &is.held, |held| held.0) {
        if before != after {
            lines.push(format!("interface {interface} holds {} -> {}", alternate(before), alternate(after)));
        }
    }
    for (address, before, after) in beside(&was.endpoints, &is.endpoints, |e| e.address) {
        if before != after {
            lines.push(format!("endpoint {address:02x}: {} -> {}", endpoint(before), endpoint(after)));
        }
    }
    for ring in is.quarantined.iter().filter(|ring| !was.quarantined.contains(ring)) {
        lines.push(format!("ring {ring:#x} is quarantined: {}", doubt(call)));
    }
    for ring in was.quarantined.iter().filter(|ring| !is.quarantined.contains(ring)) {
        lines.push(format!("ring {ring:#x} is quarantined no more"));
    }
}

fn changes(call: &Call, was: &Record, is: &Record) -> Vec<String> {
    let mut lines = Vec::new();
    let mut number = |name: &str, was: String, is: String| {
        if was != is {
            lines.push(format!("{name}{was} -> {is}"));
        }
    };
    number("", usable(was).to_string(), usable(is).to_string());
    number("slot ", was.slot.to_string(), is.slot.to_string());
    number("n ", was.n.to_string(), is.n.to_string());
    number("spacing ", was.spacing.to_string(), is.spacing.to_string());
    number("speed ", was.speed.to_string(), is.speed.to_string());
    number("configuration ", configuration(was), configuration(is));
    number("control's ring ", format!("{:#x}", was.control), format!("{:#x}", is.control));
    let control = |record: &Record| state(!record.control_revoked).to_string();
    number("control ", control(was), control(is));
    if was.list != is.list {
        lines.push(format!("another list: {} words -> {}", was.list.len(), is.list.len()));
    }
    maps(&mut lines, call, was, is);
    store(&mut lines, was, is);
    lines
}

/// The record that a call returns: of a bring-up, which was given none, its numbers, otherwise what has changed.
pub fn explain_record(out: &mut String, call: &Call, was: &Record, is: &Record) {
    if matches!(call, Call::BringUp(_)) {
        let _ = writeln!(out, "  record: {}", numbers(is));
        return;
    }
    let lines = changes(call, was, is);
    let after = if lines.is_empty() { ", as it came" } else { "; changed:" };
    let _ = writeln!(out, "  record: {}{after}", usable(is));
    for line in lines {
        let _ = writeln!(out, "    {line}");
    }
}
