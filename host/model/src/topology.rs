//! Hub words and the chain of hubs (docs/FORMATS.md, "Hub word").

use scenario::BringUp;

#[derive(Clone, Copy)]
pub struct Hub {
    present: bool,
    has_parent: bool,
    parent: usize,
    slot: u8,
    depth_plus_one: u64,
    speed: u64,
    port: u8,
    multi: bool,
    unused: u64,
}

fn hub(word: u64) -> Hub {
    let bits = |from: u32, width: u32| (word >> (64 - from - width)) & ((1 << width) - 1);
    Hub {
        present: bits(0, 1) == 1,
        has_parent: bits(1, 1) == 1,
        parent: bits(2, 8) as usize,
        slot: bits(10, 8) as u8,
        depth_plus_one: bits(18, 3),
        speed: bits(21, 3),
        port: bits(24, 8) as u8,
        multi: bits(32, 1) == 1,
        unused: bits(33, 31),
    }
}

/// A hub that may stand on a chain, its place there apart.
fn in_order(hub: &Hub) -> bool {
    hub.present && (1..=5).contains(&hub.speed) && hub.unused == 0 && hub.depth_plus_one <= 5
}

/// The hubs from the device's parent to the one of depth -1; none where the answer is 5.
pub fn chain(args: &BringUp) -> Option<Vec<Hub>> {
    if args.hubs.len() > 256 {
        return None;
    }
    let mut chain: Vec<Hub> = Vec::new();
    let mut next = args.has_parent.then_some(args.parent as usize);
    while let Some(index) = next {
        let at = hub(*args.hubs.get(index)?);
        let depth_fits = chain.last().is_none_or(|below| at.depth_plus_one + 1 == below.depth_plus_one);
        if !in_order(&at) || !depth_fits {
            return None;
        }
        chain.push(at);
        if at.depth_plus_one == 0 {
            return Some(chain);
        }
        if !at.has_parent {
            return None;
        }
        next = Some(at.parent);
    }
    Some(chain)
}

/// Four bits for each hub that is no root hub: the port on it, 15 at most.
pub fn route_string(chain: &[Hub], port: u8) -> u32 {
    let mut route = 0;
    let mut port = port;
    for hub in chain.iter().filter(|hub| hub.depth_plus_one > 0) {
        route |= u32::from(port.min(15)) << (4 * (hub.depth_plus_one - 1));
        port = hub.port;
    }
    route
}

pub struct Translator {
    pub slot: u8,
    pub multi: bool,
    pub port: u8,
}

/// Of the nearest High speed hub that is no root hub, for a Low or Full speed device; the port as it is.
pub fn translator(chain: &[Hub], speed: u8, port: u8) -> Option<Translator> {
    let mut port = port;
    for hub in chain.iter().filter(|hub| hub.depth_plus_one > 0) {
        if hub.speed == 3 {
            return (speed <= 2).then_some(Translator { slot: hub.slot, multi: hub.multi, port });
        }
        port = hub.port;
    }
    None
}

/// The value of the think time field; none where it is refused.
pub fn think_time(ns: u32) -> Option<u32> {
    match ns {
        0 => Some(0),
        666..=3329 => Some(ns / 666 - 1),
        _ => None,
    }
}
