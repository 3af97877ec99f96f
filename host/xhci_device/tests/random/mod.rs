//! Random devices, records and calls.

use xhci_device::{Asked, Attached, BringUp, Call, Memory, Record, SlotId};

/// Of each slot's words in the table, and the slots.
pub const N: usize = 3;
pub const ROUTES: usize = 32 * (N + 1);

/// xorshift64*.
pub struct Rng(u64);

impl Rng {
    pub fn new(seed: u64) -> Rng {
        Rng(seed)
    }

    pub fn next(&mut self) -> u64 {
        self.0 ^= self.0 >> 12;
        self.0 ^= self.0 << 25;
        self.0 ^= self.0 >> 27;
        self.0.wrapping_mul(0x2545_F491_4F6C_DD1D)
    }

    pub fn below(&mut self, n: usize) -> usize {
        ((self.next() >> 33) % n as u64) as usize
    }

    pub fn byte(&mut self) -> u8 {
        (self.next() >> 56) as u8
    }

    /// Whether it is one time in so many.
    pub fn once_in(&mut self, times: usize) -> bool {
        self.below(times) == 0
    }

    pub fn of<T: Copy>(&mut self, choices: &[T]) -> T {
        choices[self.below(choices.len())]
    }
}

/// One slot's record and context, and the table of all slots.
#[derive(Clone)]
pub struct World {
    pub record: Record,
    pub ctx: Vec<u8>,
    pub routes: Vec<u64>,
}

/// What a device sends when it is read.
#[derive(Clone)]
pub struct Device {
    pub speed: u8,
    pub header: Vec<u8>,
    pub value: Vec<u8>,
    pub configurations: Vec<Vec<u32>>,
}

impl Device {
    pub fn packet(&self) -> u8 {
        self.header.get(7).copied().unwrap_or(0)
    }

    pub fn descriptor(&self) -> [u8; 18] {
        let mut descriptor = [0; 18];
        descriptor[17] = self.configurations.len() as u8;
        descriptor
    }

    /// The list when so many configurations are read: a word for each other one.
    pub fn list(&self, read: usize) -> Vec<u32> {
        let unread = self.configurations.len() - read;
        self.configurations[..read].iter().flatten().copied().chain(std::iter::repeat_n(0, unread)).collect()
    }
}

fn endpoint(rng: &mut Rng) -> u32 {
    let number = 1 + rng.below(6) as u32;
    let (input, kind) = (rng.below(2) as u32, 1 + rng.below(3) as u32);
    let (size, packets, interval) = (rng.of(&[8, 64, 512]), rng.below(4) as u32, rng.below(20) as u32);
    2 << 30 | input << 29 | number << 25 | kind << 23 | size << 12 | packets << 10 | interval << 2
}

/// An endpoint word, at speeds 4 and 5 with its companion behind it.
fn endpoint_words(rng: &mut Rng, speed: u8) -> Vec<u32> {
    let word = endpoint(rng);
    if !matches!(speed, 4 | 5) {
        return vec![word];
    }
    let mult = if word >> 23 & 3 == 1 { rng.below(3) as u32 } else { 0 };
    vec![word, 3 << 30 | (rng.below(16) as u32) << 26 | mult << 24 | (rng.below(1 << 16) as u32) << 8]
}

fn configuration(rng: &mut Rng, speed: u8, value: u32) -> Vec<u32> {
    let mut words = vec![value << 22];
    for interface in 0..rng.below(4) as u32 {
        for alternate in 0..1 + rng.below(3) as u32 {
            words.push(1 << 30 | interface << 22 | alternate << 14);
            (0..rng.below(4)).for_each(|_| words.extend(endpoint_words(rng, speed)));
        }
    }
    words
}

/// A configuration that cannot be used, now or together with the others.
fn spoilt(rng: &mut Rng, mut words: Vec<u32>) -> Vec<u32> {
    match rng.below(7) {
        0 => words.clear(),
        1 => words.push(3 << 30),
        2 => match words.iter().position(|word| word >> 30 == 3) {
            Some(at) => drop(words.remove(at)),
            None => words.insert(1, 3 << 30),
        },
        3 => words.insert(1, endpoint(rng)),
        4 => words.push(7 << 22),
        5 => words.extend((0..250).map(|i| 1 << 30 | i << 14)),
        _ => drop(words.remove(0)),
    }
    words
}

/// At a speed.
pub fn device(rng: &mut Rng, speed: u8) -> Device {
    let header_len = if rng.once_in(20) { rng.below(20) } else { 8 };
    let header = (0..header_len).map(|_| rng.of(&[0, 8, 9, 64])).collect();
    let value = if rng.once_in(40) { vec![] } else { vec![rng.below(3) as u8] };
    let count = if rng.once_in(20) { rng.below(256) } else { rng.of(&[0, 1, 1, 2, 3, 8]) };
    let mut configurations: Vec<_> = (0..count).map(|i| configuration(rng, speed, 1 + i as u32)).collect();
    if count > 0 && rng.once_in(6) {
        let i = rng.below(count);
        configurations[i] = spoilt(rng, std::mem::take(&mut configurations[i]));
    }
    Device { speed, header, value, configurations }
}

fn ring(rng: &mut Rng) -> u64 {
    0x1000 + 16 * rng.below(1 << 16) as u64
}

fn ctx(rng: &mut Rng) -> Vec<u8> {
    let len = if rng.once_in(60) { rng.of(&[0, 31, 1055, 2111, 4000]) } else { rng.of(&[1056, 2112]) };
    let mut bytes = vec![rng.of(&[0, 0, 0x5A, 0xFF]); len];
    for _ in 0..rng.below(6).min(len) {
        bytes[rng.below(len)] = rng.byte();
    }
    bytes
}

/// A slot that is free, or one with a device.
pub fn world(rng: &mut Rng) -> World {
    let mut world = World { record: Record::new(), ctx: ctx(rng), routes: vec![0; ROUTES] };
    for _ in 0..rng.below(4) {
        world.routes[32 + 32 * 2 + rng.below(32)] = ring(rng);
    }
    if rng.once_in(3) {
        return world;
    }
    let rings = rings(rng);
    let speed = 1 + rng.below(5) as u8;
    let words = configuration(rng, speed, 1);
    let list: Vec<u32> = words.into_iter().chain(configuration(rng, speed, 2)).collect();
    let args = BringUp {
        slot: SlotId(1),
        n: N,
        speed,
        parent: None,
        port: 1,
        root_port: 1,
        rings: &rings,
        header: 8,
        packet: 9,
        value: 0,
        hubs: &[],
        list: &list,
    };
    let (mut log, outcomes) = ([0; 64], [0; 64]);
    let memory = Memory { ctx: &mut world.ctx, routes: &mut world.routes, log: &mut log, outcomes: &outcomes };
    world.record = Record::bring_up(memory, &args).0;
    world
}

/// A root hub and a hub on it.
pub fn hubs(rng: &mut Rng) -> Vec<u64> {
    let root = 1 << 63 | 3 << 40;
    let port = 1 + rng.below(20) as u64;
    let hub = 1 << 63 | 1 << 62 | 2 << 46 | 1 << 43 | rng.of(&[3, 3, 1, 6]) << 40 | port << 32;
    vec![root, hub]
}

/// The alternates of a list.
fn alternates(list: &[u32]) -> Vec<(u8, u8)> {
    let words = list.iter().filter(|word| **word >> 30 == 1);
    words.map(|word| ((word >> 22) as u8, (word >> 14) as u8)).collect()
}

/// An interface and an alternate that the record's list has more often than not.
fn claim<'a>(rng: &mut Rng, record: &Record) -> Call<'a> {
    let list: Vec<u32> = record.list().collect();
    let found = alternates(&list);
    let (interface, alternate) =
        if found.is_empty() || rng.once_in(10) { (rng.byte(), rng.byte()) } else { rng.of(&found) };
    Call::Claim { interface, alternate }
}

/// Rings that fit more often than not.
pub fn rings(rng: &mut Rng) -> Vec<u64> {
    let count = if rng.once_in(3) { rng.below(4) } else { rng.below(66) };
    let base = ring(rng);
    let mut rings: Vec<u64> = (0..count as u64).map(|at| base + 16 * (at ^ 5)).collect();
    if let Some(last) = rings.last_mut().filter(|_| rng.once_in(30)) {
        *last = rng.of(&[0, base, *last + 8]);
    }
    rings
}

pub fn attached<'a>(rng: &mut Rng, rings: &'a [u64], hubs: &'a [u64]) -> Attached<'a> {
    Attached {
        slot: SlotId(if rng.once_in(30) { rng.byte() } else { 1 }),
        n: if rng.once_in(30) { rng.below(300) } else { N },
        speed: if rng.once_in(30) { rng.byte() } else { 1 + rng.below(5) as u8 },
        parent: rng.of(&[None, None, Some(0), Some(1), Some(2)]),
        port: rng.below(20) as u8,
        root_port: rng.byte(),
        rings,
        hubs,
    }
}

/// A call that fits the record more often than not.
pub fn call<'a>(rng: &mut Rng, record: &Record, rings: &'a [u64], hubs: &'a [u64]) -> Call<'a> {
    if rng.once_in(if record.is_usable() { 20 } else { 2 }) && record.is_up() {
        return Call::Disconnect;
    }
    if if record.is_usable() { rng.once_in(30) } else { !rng.once_in(10) } {
        return Call::BringUp(attached(rng, rings, hubs));
    }
    match rng.below(10) {
        0..5 => claim(rng, record),
        5 | 6 => Call::Release { interface: rng.below(4) as u8 },
        7 | 8 => Call::SetConfiguration { value: rng.below(3) as u8 },
        _ => Call::HubUpdate { ports: rng.byte(), multi: rng.once_in(2), ns: rng.of(&[0, 666, 1332, 3329, 665, 3330]) },
    }
}

/// In the place of every second claim a commit of its ask, or of the ask before it.
pub fn committed<'a>(rng: &mut Rng, world: &World, call: Call<'a>, before: &mut Option<Asked>) -> Call<'a> {
    let Call::Claim { interface, alternate } = call else { return call };
    let asked = world.record.ask_driven(&world.ctx, &world.routes, interface, alternate).ok();
    let old = std::mem::replace(before, asked.clone());
    match if rng.once_in(8) { old } else { asked } {
        Some(asked) if rng.once_in(2) => Call::Commit(asked),
        _ => call,
    }
}

/// Outcomes: all done, one failed, several failed, or not enough.
pub fn outcomes(rng: &mut Rng) -> Vec<u8> {
    let mut outcomes = vec![0; if rng.once_in(4) { rng.below(20) } else { 64 }];
    let failures = rng.of(&[0, 0, 1, 1, 2, 8]);
    for _ in 0..failures {
        if let Some(outcome) = outcomes.get_mut(rng.below(16)) {
            *outcome = rng.byte();
        }
    }
    outcomes
}
