//! House words of 01 and what is made of them.

use scenario::{BringUp, Buffers, LOG_LEN, filled_words};

pub const ISOCHRONOUS: u32 = 1;
pub const BULK: u32 = 2;
pub const INTERRUPT: u32 = 3;

pub fn configuration(value: u8) -> u32 {
    u32::from(value) << 22
}

pub fn alternate(interface: u8, alternate: u8) -> u32 {
    1 << 30 | u32::from(interface) << 22 | u32::from(alternate) << 14
}

pub fn endpoint(address: u8, kind: u32, size: u32, packets: u32, interval: u8) -> u32 {
    let input = u32::from(address >> 7);
    let number = u32::from(address & 15);
    2 << 30 | input << 29 | number << 25 | kind << 23 | size << 12 | packets << 10 | u32::from(interval) << 2
}

pub fn companion(burst: u32, mult: u32, bytes: u32) -> u32 {
    3 << 30 | burst << 26 | mult << 24 | bytes << 8
}

/// Whether endpoints have companions.
pub fn is_super(speed: u8) -> bool {
    matches!(speed, 4 | 5)
}

/// The most that a companion of an endpoint word may say as mult.
pub fn most_mult(word: u32) -> u32 {
    if word >> 23 & 3 == ISOCHRONOUS { 2 } else { 0 }
}

/// A list as it is at a speed: at 4 and 5 with a companion behind each endpoint word that has none. Each says something else.
pub fn at_speed(speed: u8, list: &[u32]) -> Vec<u32> {
    let mut words = Vec::new();
    for (at, word) in list.iter().enumerate() {
        words.push(*word);
        let has_one = list.get(at + 1).is_some_and(|next| next >> 30 == 3);
        if is_super(speed) && word >> 30 == 2 && !has_one {
            let place = at as u32;
            words.push(companion(
                (7 * place + 3) % 16,
                (place + 1) % (most_mult(*word) + 1),
                5 + 1031 * place % 0xFFFF,
            ));
        }
    }
    words
}

#[derive(Clone, Copy, Debug)]
pub struct Hub {
    pub present: bool,
    pub parent: Option<u8>,
    pub slot: u8,
    /// Depth plus one.
    pub depth: u8,
    pub speed: u8,
    pub port: u8,
    pub multi: bool,
}

impl Hub {
    pub fn word(&self) -> u64 {
        u64::from(self.present) << 63
            | u64::from(self.parent.is_some()) << 62
            | u64::from(self.parent.unwrap_or(0)) << 54
            | u64::from(self.slot) << 46
            | u64::from(self.depth) << 43
            | u64::from(self.speed) << 40
            | u64::from(self.port) << 32
            | u64::from(self.multi) << 31
    }
}

/// The alternates of a list in its order: interface, alternate, addresses of its endpoint words.
pub fn alternates(list: &[u32]) -> Vec<(u8, u8, Vec<u8>)> {
    let mut found: Vec<(u8, u8, Vec<u8>)> = Vec::new();
    for word in list {
        match word >> 30 {
            1 => found.push(((word >> 22) as u8, (word >> 14) as u8, Vec::new())),
            2 => {
                if let Some(last) = found.last_mut() {
                    last.2.push(((word >> 29 & 1) << 7 | word >> 25 & 15) as u8);
                }
            }
            _ => {}
        }
    }
    found
}

/// The addresses that a claim draws rings for, in the order of the endpoint words.
pub fn rings_wanted(list: &[u32], interface: u8, alternate: u8) -> Vec<u8> {
    let first = alternates(list).into_iter().find(|a| (a.0, a.1) == (interface, alternate));
    first.map_or(Vec::new(), |a| a.2)
}

/// As many rings as a slot may be given, rising.
pub fn all_rings() -> Vec<u64> {
    (1..=64).map(|at| 0x1000 * at).collect()
}

pub fn buffers(ctx: Vec<u8>, routes: Vec<u64>, outcomes: Vec<u8>) -> Buffers {
    Buffers { ctx, routes, log: filled_words(LOG_LEN), outcomes }
}

/// A plain bring-up of slot 1 of 2 with a list, which gets its companions. Control's ring is 0x1000.
pub fn plain(speed: u8, list: &[u32]) -> BringUp {
    BringUp {
        slot: 1,
        n: 2,
        speed,
        port: 1,
        root_port: 1,
        rings: all_rings(),
        header: 8,
        packet: if speed > 3 { 9 } else { 64 },
        list: at_speed(speed, list),
        ..BringUp::default()
    }
}
