//! What was asked for and what was seen, where a call is refused for a length, a slot, a route or an alternate.

use crate::call::{BringUp, Call, Claim, Record};
use crate::explain::Given;

/// 1.
pub fn context_length(given: &Given) -> Option<String> {
    let got = given.buffers.ctx.len();
    let (fits, wanted) = match given.call {
        Call::BringUp(_) => ([1056, 2112].contains(&got), "1056 or 2112".to_string()),
        _ => {
            let spacing = given.record.spacing;
            let wanted = spacing.saturating_mul(33);
            (got == wanted, format!("{wanted} (33 blocks at spacing {spacing})"))
        }
    };
    (!fits).then(|| format!("context length {got}, wanted {wanted}"))
}

/// 2.
pub fn routes_length(given: &Given) -> Option<String> {
    let got = given.buffers.routes.len();
    let n = match given.call {
        Call::BringUp(args) => args.n as usize,
        _ => given.record.n.into(),
    };
    let wanted = 32 * (n + 1);
    (got != wanted).then(|| format!("routes length {got}, wanted {wanted} (32 for each slot from 0 to {n})"))
}

/// 11.
pub fn slot(BringUp { slot, n, .. }: &BringUp) -> Option<String> {
    let is_one = (1..=255).contains(n) && (1..=*n).contains(&u32::from(*slot));
    (!is_one).then(|| format!("slot {slot}, n {n}; wanted n from 1 to 255, and a slot from 1 to n"))
}

/// 17.
pub fn control_route(args: &BringUp, routes: &[u64]) -> Option<String> {
    let at = 32 * usize::from(args.slot) + 1;
    let route = routes.get(at).filter(|route| **route != 0)?;
    Some(format!("the route of slot {}, Dci 1, word {at}, is ring {route:#x}", args.slot))
}

/// 8: the alternates of the interface that there are.
pub fn alternates(record: &Record, Claim { interface, .. }: &Claim) -> String {
    let of_interface = record.list.iter().filter(|word| **word >> 22 == 1 << 8 | u32::from(*interface));
    let mut found: Vec<String> = Vec::new();
    for alternate in of_interface.map(|word| (word >> 14 & 0xFF).to_string()) {
        if !found.contains(&alternate) {
            found.push(alternate);
        }
    }
    match found.is_empty() {
        true => format!("the list has no interface {interface}"),
        false => format!("alternates of interface {interface} in the list: {}", found.join(", ")),
    }
}
