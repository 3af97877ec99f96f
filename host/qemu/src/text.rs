//! Contexts, commands and events for people.

use xhci_device::Dci;

use crate::block::{Endpoint, Slot};
use crate::controller::Completion;

fn code(code: u8) -> String {
    let name = match code {
        1 => "success",
        4 => "transaction error",
        5 => "TRB error",
        6 => "stall",
        13 => "short packet",
        19 => "context state error",
        26 => "stopped",
        _ => return format!("code {code}"),
    };
    format!("{name} ({code})")
}

/// The outcome of a command.
pub fn outcome(outcome: u8) -> String {
    if outcome == 0 { "done".into() } else { format!("failed, {}", code(outcome)) }
}

pub fn completion(completion: &Completion) -> String {
    let Completion { slot, dci, trb, ring, .. } = completion;
    let to = if *ring == 0 { "to no ring".into() } else { format!("to ring {ring:x}") };
    format!("slot {}, Dci {}, TRB {trb:x}, {}, {to}", slot.0, dci.0, code(completion.code))
}

pub fn dcis(dcis: impl Iterator<Item = Dci>) -> String {
    let dcis: Vec<String> = dcis.map(|dci| dci.0.to_string()).collect();
    if dcis.is_empty() { "none".into() } else { dcis.join(" ") }
}

pub fn slot(slot: &Slot) -> String {
    let mut text = format!("route {:x}, speed {}, entries {}", slot.route, slot.speed, slot.entries);
    text += &format!(", root port {}", slot.root_port);
    for (name, value) in [
        ("hub", slot.hub),
        ("multi", slot.multi),
        ("ports", slot.ports),
        ("translator's slot", slot.translator_slot),
        ("translator's port", slot.translator_port),
        ("think time", slot.think_time),
    ] {
        if value != 0 {
            text += &format!(", {name} {value}");
        }
    }
    text
}

pub fn endpoint(endpoint: &Endpoint) -> String {
    let kinds = ["none", "isoch OUT", "bulk OUT", "interrupt OUT", "control", "isoch IN", "bulk IN", "interrupt IN"];
    let mut text = format!("{}, packet {}", kinds[endpoint.kind as usize & 7], endpoint.packet);
    for (name, value) in [
        ("interval", endpoint.interval),
        ("burst", endpoint.burst),
        ("mult", endpoint.mult),
        ("payload", endpoint.payload),
    ] {
        if value != 0 {
            text += &format!(", {name} {value}");
        }
    }
    text + &format!(", errors {}, average {}, dequeue {:x}", endpoint.errors, endpoint.average, endpoint.dequeue)
}

pub fn state(endpoint: &Endpoint) -> &'static str {
    ["disabled", "running", "halted", "stopped", "error"].get(endpoint.state as usize).unwrap_or(&"?")
}
