//! Scenarios and what calls leave, as text.

use std::fmt::Write;

use crate::call::*;
use crate::desk::{Dispatched, Line, Submission};
use crate::session::Left;

const DIGITS: &[u8; 16] = b"0123456789abcdef";

pub fn bytes(out: &mut String, key: &str, bytes: &[u8]) {
    out.push_str(key);
    if !bytes.is_empty() {
        out.push(' ');
    }
    for byte in bytes {
        out.push(DIGITS[usize::from(byte >> 4)] as char);
        out.push(DIGITS[usize::from(byte & 15)] as char);
    }
    out.push('\n');
}

fn digits(out: &mut String, value: u64, count: u32) {
    for place in (0..count).rev() {
        out.push(DIGITS[(value >> (4 * place)) as usize & 15] as char);
    }
}

pub fn words(out: &mut String, key: &str, words: &[u32]) {
    out.push_str(key);
    for word in words {
        out.push(' ');
        digits(out, u64::from(*word), 8);
    }
    out.push('\n');
}

fn nonzero(out: &mut String, key: &str, words: impl Iterator<Item = (usize, u64)>) {
    out.push_str(key);
    for (index, word) in words.filter(|w| w.1 != 0) {
        let _ = write!(out, " {index}={word:x}");
    }
    out.push('\n');
}

fn numbers(out: &mut String, key: &str, numbers: &[u64]) {
    out.push_str(key);
    for number in numbers {
        let _ = write!(out, " {number}");
    }
    out.push('\n');
}

fn lifecycle(active: bool) -> &'static str {
    if active { "active" } else { "revoked" }
}

/// A record, its list under a key of its own.
pub fn record(out: &mut String, list_key: &str, record: &Record) {
    let _ = write!(
        out,
        "record usable={} up={} slot={} n={} spacing={} speed={} config=",
        u8::from(record.usable),
        u8::from(record.up),
        record.slot,
        record.n,
        record.spacing,
        record.speed
    );
    match record.config {
        Some(value) => {
            let _ = write!(out, "{value}");
        }
        None => out.push_str("NONE"),
    }
    let _ = writeln!(out, " control={:x}/{}", record.control, lifecycle(!record.control_revoked));
    words(out, list_key, &record.list);
    out.push_str("eps");
    for e in &record.endpoints {
        let _ = write!(out, " {:02x}:{:x}:{}:{}", e.address, e.ring, e.owner, lifecycle(e.active));
    }
    out.push_str("\nheld");
    for (interface, alternate) in &record.held {
        let _ = write!(out, " {interface}:{alternate}");
    }
    out.push('\n');
    rings(out, "quarantined", &record.quarantined);
    rings(out, "given", &record.given);
}

fn asked(out: &mut String, asked: &Asked) {
    let _ = write!(out, "asked {} {} {:08x} {:08x}", asked.interface, asked.alternate, asked.drops, asked.adds);
    rings(out, "", &asked.rings);
}

fn rings(out: &mut String, key: &str, rings: &[u64]) {
    out.push_str(key);
    for ring in rings {
        let _ = write!(out, " {ring:x}");
    }
    out.push('\n');
}

/// What `go` prints.
pub fn left_text(out: &mut String, left: &Left) {
    let Answer { number, code, count } = left.answer;
    let _ = writeln!(out, "answer {number} {code} {count}");
    match &left.reason {
        None => memory(out, left),
        Some(reason) => _ = writeln!(out, "reason {reason}"),
    }
    out.push_str(".\n");
}

/// What a call leaves beside its answer.
fn memory(out: &mut String, left: &Left) {
    words(out, "log", &left.log);
    bytes(out, "ctx", &left.ctx);
    nonzero(out, "routes", left.table.iter().copied().enumerate());
    record(out, "list", &left.record.sorted());
    match &left.asked {
        None => {}
        Some(None) => out.push_str("asked\n"),
        Some(Some(returned)) => asked(out, returned),
    }
}

/// Its list is that which raw descriptors stand for, where there are any.
fn bring_up(out: &mut String, args: &BringUp, raw: Option<&[u8]>) {
    let _ = write!(
        out,
        "bringup\nslot {}\nn {}\nspeed {}\nparent {} {}\nport {}\nrootport {}\nheader {} {}\nconfig {}\n",
        args.slot,
        args.n,
        args.speed,
        u8::from(args.has_parent),
        args.parent,
        args.port,
        args.root_port,
        args.header,
        args.packet,
        args.config
    );
    numbers(out, "rings", &args.rings);
    match raw {
        Some(raw) => bytes(out, "raw", raw),
        None => words(out, "list", &args.list),
    }
    out.push_str("hubs");
    for hub in &args.hubs {
        out.push(' ');
        digits(out, *hub, 16);
    }
    out.push('\n');
}

/// A call's name and its arguments.
fn arguments(out: &mut String, step: &Step) {
    match &step.call {
        Call::BringUp(args) => bring_up(out, args, step.raw.as_deref()),
        Call::Claim(args) => {
            let _ = writeln!(out, "claim\ninterface {}\nalternate {}", args.interface, args.alternate);
        }
        Call::Ask(args) => {
            let _ = writeln!(out, "ask\ninterface {}\nalternate {}", args.interface, args.alternate);
        }
        Call::Why(args) => {
            let _ = writeln!(out, "why\ninterface {}\nalternate {}", args.interface, args.alternate);
        }
        Call::Commit(given) => {
            out.push_str("commit\n");
            given.iter().for_each(|given| asked(out, given));
        }
        Call::Release { interface } => {
            let _ = writeln!(out, "release\ninterface {interface}");
        }
        Call::SetConfiguration { value } => {
            let _ = writeln!(out, "setconfig\nvalue {value}");
        }
        Call::HubUpdate(args) => {
            let HubUpdate { ports, multi, think } = args;
            let _ = writeln!(out, "hubupdate\nports {ports}\nmulti {}\nthink {think}", u8::from(*multi));
        }
        Call::Disconnect => out.push_str("disconnect\n"),
    }
}

/// A call as a scenario has it, without its last line.
fn call_text(out: &mut String, step: &Step) {
    arguments(out, step);
    if let Some(given) = &step.record {
        record(out, "reclist", given);
    }
    bytes(out, "ctx", &step.ctx);
    if let Some(given) = &step.routes {
        nonzero(out, "routes", given.iter().copied());
    }
    if let Some(len) = step.routes_len {
        let _ = writeln!(out, "routeslen {len}");
    }
    if step.log_len != LOG_LEN {
        let _ = writeln!(out, "loglen {}", step.log_len);
    }
    bytes(out, "outcomes", &step.outcomes);
}

/// A call as a scenario has it, from its name to `go`.
pub fn step_text(out: &mut String, step: &Step) {
    call_text(out, step);
    out.push_str("go\n");
}

/// A scenario with a dispatcher.
pub fn dispatched_text(out: &mut String, scenario: &Dispatched) {
    let _ = writeln!(out, "scenario {}\ndispatcher", scenario.name);
    for line in &scenario.lines {
        match line {
            Line::Turn => out.push_str("turn\n"),
            Line::Submit(Submission { home, step }) => {
                call_text(out, step);
                if !matches!(step.call, Call::BringUp(_)) {
                    let _ = writeln!(out, "on {home}");
                }
                out.push_str("submit\n");
            }
        }
    }
    out.push_str("end\n");
}

pub fn scenario_text(out: &mut String, scenario: &Scenario) {
    let _ = writeln!(out, "scenario {}", scenario.name);
    for step in &scenario.steps {
        step_text(out, step);
    }
    out.push_str("end\n");
}
