//! Contexts (xHCI 1.2, section 6.2) for people: what a command reads of an input context, and an endpoint's block.

use std::fmt::Write;

/// How a field's value is told.
#[derive(Clone, Copy)]
enum Told {
    Number,
    Hexadecimal,
    EndpointState,
    EndpointType,
    /// The upper 60 bits of an address.
    Address,
}
use Told::{Address, EndpointState, EndpointType, Hexadecimal, Number};

/// A field of a context block: its name, doubleword, lowest bit and width.
type Field = (&'static str, usize, u32, u32, Told);

const DROP_FLAGS: Field = ("drop flags", 0, 0, 32, Hexadecimal);
const ADD_FLAGS: Field = ("add flags", 1, 0, 32, Hexadecimal);

/// But for the flags.
const CONTROL: [Field; 3] = [
    ("configuration value", 7, 0, 8, Number),
    ("interface number", 7, 8, 8, Number),
    ("alternate setting", 7, 16, 8, Number),
];

const SLOT: [Field; 12] = [
    ("route string", 0, 0, 20, Hexadecimal),
    ("speed", 0, 20, 4, Number),
    ("multi-TT", 0, 25, 1, Number),
    ("hub", 0, 26, 1, Number),
    ("context entries", 0, 27, 5, Number),
    ("max exit latency", 1, 0, 16, Number),
    ("root hub port number", 1, 16, 8, Number),
    ("number of ports", 1, 24, 8, Number),
    ("parent hub slot", 2, 0, 8, Number),
    ("parent port number", 2, 8, 8, Number),
    ("TT think time", 2, 16, 2, Number),
    ("interrupter target", 2, 22, 10, Number),
];

const TYPE: Field = ("type", 1, 3, 3, EndpointType);
const INTERVAL: Field = ("interval", 0, 16, 8, Number);

const ENDPOINT: [Field; 15] = [
    ("state", 0, 0, 3, EndpointState),
    TYPE,
    ("ring", 2, 4, 60, Address),
    ("cycle state", 2, 0, 1, Number),
    ("max packet size", 1, 16, 16, Number),
    ("max burst size", 1, 8, 8, Number),
    ("mult", 0, 8, 2, Number),
    INTERVAL,
    ("average TRB length", 4, 0, 16, Number),
    ("max ESIT payload low", 4, 16, 16, Number),
    ("max ESIT payload high", 0, 24, 8, Number),
    ("error count", 1, 1, 2, Number),
    ("max primary streams", 0, 10, 5, Number),
    ("linear stream array", 0, 15, 1, Number),
    ("host initiate disable", 1, 7, 1, Number),
];

const STATES: [&str; 8] =
    ["disabled", "running", "halted", "stopped", "error", "reserved (5)", "reserved (6)", "reserved (7)"];

const TYPES: [&str; 8] =
    ["none", "isochronous OUT", "bulk OUT", "interrupt OUT", "control", "isochronous IN", "bulk IN", "interrupt IN"];

/// The block size of a context; none where the length is no context's.
fn spacing(ctx: &[u8]) -> Option<usize> {
    match ctx.len() {
        1056 => Some(32),
        2112 => Some(64),
        _ => None,
    }
}

/// A field's value in the block that begins at a byte.
fn read(ctx: &[u8], block: usize, (_, dword, low, width, _): Field) -> u64 {
    let mut bytes = [0; 8];
    let len = if low + width > 32 { 8 } else { 4 };
    let at = block + 4 * dword;
    bytes[..len].copy_from_slice(&ctx[at..at + len]);
    u64::from_le_bytes(bytes) >> low & (u64::MAX >> (64 - width))
}

fn value(value: u64, told: Told) -> String {
    match told {
        Number => value.to_string(),
        Hexadecimal => format!("{value:x}"),
        EndpointState => STATES[value as usize & 7].to_string(),
        EndpointType => TYPES[value as usize & 7].to_string(),
        Address => format!("{:#x}", value << 4),
    }
}

/// An endpoint by its address.
pub fn endpoint(dci: usize) -> String {
    match dci {
        1 => "control".to_string(),
        _ => format!("endpoint {:02x} (Dci {dci})", (dci & 1) << 7 | dci >> 1),
    }
}

/// Flags by what they stand for, of which the first two may be something else.
fn flagged(flags: u64, first: [&str; 2]) -> Vec<String> {
    let name = |dci: usize| if dci < 2 { first[dci].to_string() } else { endpoint(dci) };
    (0..32).filter(|dci| flags >> dci & 1 != 0).map(name).collect()
}

/// A line of a name and its parts, broken where it gets long.
fn line(out: &mut String, name: &str, parts: &[String]) {
    const WIDTH: usize = 110;
    let mut line = format!("        {name}:");
    for (at, part) in parts.iter().enumerate() {
        if line.len() + part.len() > WIDTH {
            let _ = writeln!(out, "{line}");
            line = " ".repeat(11);
        }
        let end = if at + 1 < parts.len() { "," } else { "" };
        let _ = write!(line, " {part}{end}");
    }
    if !parts.is_empty() {
        let _ = writeln!(out, "{line}");
    }
}

fn changed(out: &mut String, name: &str, fields: &[Field], before: &[u8], after: &[u8], block: usize) {
    let of = |field: &Field| {
        let (was, is) = (read(before, block, *field), read(after, block, *field));
        (was != is).then(|| format!("{} {} -> {}", field.0, value(was, field.4), value(is, field.4)))
    };
    let changes: Vec<String> = fields.iter().filter_map(of).collect();
    line(out, name, &changes);
}

/// The flags of a context.
pub fn explain_flags(out: &mut String, ctx: &[u8]) {
    if spacing(ctx).is_some() {
        line(out, "drop flags", &flagged(read(ctx, 0, DROP_FLAGS), ["bit 0", "bit 1"]));
        line(out, "add flags", &flagged(read(ctx, 0, ADD_FLAGS), ["the slot", "control"]));
    }
}

/// The fields that are not as they were, a line for each block.
pub fn explain_changes(out: &mut String, before: &[u8], after: &[u8]) {
    let Some(spacing) = spacing(after).filter(|_| before.len() == after.len()) else {
        return;
    };
    changed(out, "input control", &CONTROL, before, after, 0);
    changed(out, "slot", &SLOT, before, after, spacing);
    for dci in 1..32 {
        changed(out, &endpoint(dci), &ENDPOINT, before, after, (1 + dci) * spacing);
    }
}

/// How often an endpoint is served, where its type has a period: the interval counts in powers of two of 125 us.
fn period(block: &[u8]) -> Option<String> {
    let periodic = [1, 3, 5, 7].contains(&read(block, 0, TYPE));
    let interval = read(block, 0, INTERVAL);
    (periodic && interval <= 18).then(|| format!(", every {} us", 125u64 << interval))
}

/// The bits of a doubleword that no field names.
fn unnamed(block: &[u8], dword: usize) -> u32 {
    let named = |bit: &u32| {
        let at = 32 * dword as u32 + bit;
        ENDPOINT
            .iter()
            .any(|(_, of, low, width, _)| (32 * *of as u32 + low..32 * *of as u32 + low + width).contains(&at))
    };
    let rest = (0..32).filter(|bit| !named(bit)).fold(0, |bits, bit| bits | 1 << bit);
    read(block, 0, ("", dword, 0, 32, Hexadecimal)) as u32 & rest
}

/// An endpoint's block of 32 or 64 bytes, a line for each field; then the doublewords that are reserved and not 0.
pub fn explain_block(out: &mut String, block: &[u8]) {
    for field in &ENDPOINT {
        let value = value(read(block, 0, *field), field.4);
        let period = if field.0 == INTERVAL.0 { period(block) } else { None };
        // In the output context it is where the controller stands on it.
        let name = if matches!(field.4, Address) { "ring (dequeue pointer)" } else { field.0 };
        let _ = writeln!(out, "    {name:<22} {value}{}", period.unwrap_or_default());
    }
    for dword in 0..block.len() / 4 {
        let rest = unnamed(block, dword);
        if rest != 0 {
            let _ = writeln!(out, "    reserved, doubleword {dword}: {rest:08x}");
        }
    }
}
