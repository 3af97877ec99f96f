//! Random choices: lists of which the interfaces share addresses, and names of what the lists have and have not.

use scenario::{Choice, Claim, Layer, Record};

use crate::build::{BULK, INTERRUPT, ISOCHRONOUS, alternate, buffers, configuration, endpoint};
use crate::choice::record;
use crate::outside::{Pair, Tally};
use crate::random::{broken_list, companied};
use crate::rng::Rng;

/// The model tries every combination, of which there may be so many.
const MOST_COMBINATIONS: usize = 2_000;

pub fn run(pair: &Pair, tally: &mut Tally<Choice>, seed: u64, cases: u64) {
    let mut rng = Rng::new(seed);
    for _ in 0..cases {
        let speed = 1 + rng.below(5) as u8;
        let list = if rng.percent(2) { broken_list(&mut rng, speed) } else { list(&mut rng, speed) };
        let names = names(&mut rng, &list);
        let mut record = Record { list: list.clone(), ..record(speed, Vec::new()) };
        if rng.percent(20) {
            hold(&mut rng, &mut record);
        }
        if rng.percent(4) {
            damage(&mut rng, &mut record);
        }
        let longest = match rng.below(20) {
            0 => 16 + rng.next() as u32,
            _ => rng.below(17) as u32,
        };
        pair.compare(tally, Choice { record, names, longest });
    }
}

/// A first configuration and now and then others; interfaces whose alternates take the same few addresses.
fn list(rng: &mut Rng, speed: u8) -> Vec<u32> {
    let mut list = Vec::new();
    let (interfaces, addresses) = (1 + rng.below(8), 1 + rng.below(15));
    let long = rng.of(&[1, 10, 60]);
    for _ in 0..rng.of(&[0, 1, 1, 1, 1, 1, 2, 2, 3, 8]) {
        list.push(configuration(rng.byte()));
        for _ in 0..rng.below(3 * interfaces + 3) {
            list.push(alternate(interface(rng, interfaces), rng.of(&[0, 0, 1, 2, 3, 77, 255])));
            for _ in 0..rng.of(&[0, 1, 1, 1, 1, 2, 2, 3, 5]) {
                list.push(word(rng, addresses, long));
            }
        }
    }
    list.truncate(256);
    companied(rng, speed, list)
}

fn interface(rng: &mut Rng, interfaces: u64) -> u8 {
    if rng.percent(3) { 255 } else { rng.below(interfaces) as u8 }
}

/// So many of a hundred intervals are any byte.
fn word(rng: &mut Rng, addresses: u64, long: u64) -> u32 {
    let address = rng.of(&[0, 0x80]) | (1 + rng.below(addresses)) as u8;
    let kind = rng.of(&[INTERRUPT, INTERRUPT, BULK, ISOCHRONOUS]);
    let interval = if rng.percent(long) { rng.byte() } else { rng.below(8) as u8 };
    endpoint(address, kind, rng.below(2048) as u32, rng.below(4) as u32, interval)
}

/// 0 to 9 names: some of the list's interfaces, now and then one twice, or one that the list has not.
fn names(rng: &mut Rng, list: &[u32]) -> Vec<u8> {
    let mut there: Vec<u8> = list.iter().filter(|word| *word >> 30 == 1).map(|word| (word >> 22) as u8).collect();
    let count = |name: u8| list.iter().filter(|word| *word >> 22 == 1 << 8 | u32::from(name)).count();
    let mut combinations = 1;
    let mut names = Vec::new();
    let wanted = if rng.percent(3) { 9 } else { rng.index(9) };
    while names.len() < wanted {
        let name = match rng.below(40) {
            0 => rng.byte(),
            1..=5 if !names.is_empty() => names[rng.index(names.len())],
            _ if !there.is_empty() => there.swap_remove(rng.index(there.len())),
            _ if !names.is_empty() => names[rng.index(names.len())],
            _ => 0,
        };
        let more = combinations * count(name).max(1);
        let is_new = !names.contains(&name);
        match is_new && more > MOST_COMBINATIONS {
            true => there.retain(|other| *other != name),
            false => {
                combinations = if is_new { more } else { combinations };
                names.push(name);
            }
        }
    }
    names
}

/// Some of the list's alternates are claimed.
fn hold(rng: &mut Rng, record: &mut Record) {
    let alternates: Vec<u32> = record.list.iter().filter(|word| *word >> 30 == 1).copied().collect();
    let mut routes = vec![0; 64];
    routes[33] = record.control;
    for _ in 0..rng.below(4) {
        if alternates.is_empty() {
            return;
        }
        let word = alternates[rng.index(alternates.len())];
        let args = Claim { interface: (word >> 22) as u8, alternate: (word >> 14) as u8 };
        let mut memory = buffers(vec![0; 1056], routes.clone(), vec![0; 64]);
        if let Ok((left, answer)) = model::Model.claim(record, &args, &mut memory)
            && answer.number == 0
        {
            (*record, routes) = (left, memory.routes);
        }
    }
}

/// One thing of a record is made another, so that most are unusable or not sound.
fn damage(rng: &mut Rng, record: &mut Record) {
    match rng.below(16) {
        0 | 1 => record.usable = false,
        2 => (record.usable, record.up) = (false, false),
        3 => record.slot = rng.byte() & 3,
        4 => record.n = rng.byte() & 1,
        5 => record.spacing = rng.of(&[0, 32, 33, 64, 128]),
        6 => record.speed = rng.byte() & 7,
        7 => record.control = rng.of(&[0, 0x1000, 0x1008, 0x2000, 0x9_0000]),
        8 => record.quarantined.push(rng.of(&[0x1000, 0x2000, 0x4000, 0x9_0000])),
        9 => drop(record.given.drain(rng.index(64)..)),
        10 => record.held.push((rng.below(4) as u8, rng.below(2) as u8)),
        11 => drop(record.held.pop()),
        12 => drop(record.endpoints.pop()),
        13 if !record.endpoints.is_empty() => {
            let at = rng.index(record.endpoints.len());
            match rng.below(3) {
                0 => record.endpoints[at].address ^= 1,
                1 => record.endpoints[at].owner ^= 1,
                _ => record.endpoints[at].ring ^= 0x3008,
            }
        }
        14 if !record.list.is_empty() => {
            let at = rng.index(record.list.len());
            record.list[at] ^= 1 << rng.below(32);
        }
        _ => record.up = !record.up,
    }
}
