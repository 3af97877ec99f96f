//! Choices that go through something whole.

use scenario::{Choice, Record};

use crate::build::{BULK, INTERRUPT, ISOCHRONOUS, alternate, configuration, endpoint};
use crate::choice::record;

type Ask<'a> = &'a mut dyn FnMut(Choice);

const KINDS: [u32; 3] = [ISOCHRONOUS, BULK, INTERRUPT];

pub fn run(ask: Ask) {
    intervals(ask);
    all_names(ask);
    addresses(ask);
    three_interfaces(ask);
    later(ask);
    damaged(ask);
}

fn word(address: u8, kind: u32, interval: u8) -> u32 {
    endpoint(address, kind, 64, 1, interval)
}

/// Every interval byte of every type at every speed, with every longest context interval that there can be, and more.
fn intervals(ask: Ask) {
    for speed in 1..=5 {
        for interval in 0..=255 {
            for kind in KINDS {
                let list = vec![configuration(1), alternate(0, 0), word(0x81, kind, interval)];
                for longest in [0, 1, 2, 3, 4, 5, 6, 7, 8, 9, 10, 11, 12, 13, 14, 15, 16, u32::MAX] {
                    ask(Choice { record: record(speed, list.clone()), names: vec![0], longest });
                }
            }
        }
    }
}

/// Two interfaces with two alternates each, and one of a later configuration.
fn sample() -> Vec<u32> {
    vec![
        configuration(1),
        alternate(1, 1),
        word(0x81, INTERRUPT, 4),
        alternate(0, 3),
        word(0x81, INTERRUPT, 4),
        word(0x02, BULK, 0),
        alternate(0, 0),
        word(0x82, INTERRUPT, 2),
        alternate(1, 0),
        word(0x82, INTERRUPT, 3),
        word(0x83, ISOCHRONOUS, 9),
        configuration(2),
        alternate(2, 0),
    ]
}

/// Every list of up to nine names of three, one of which is not in the first configuration, with each longest interval that
/// matters.
fn all_names(ask: Ask) {
    for len in 0..=9 {
        for code in 0..3usize.pow(len) {
            let names: Vec<u8> = (0..len).map(|at| (code / 3usize.pow(at) % 3) as u8).collect();
            // The later configuration's name alone, and first and last, are enough of the longer ones.
            if len > 5 && names[1..len as usize - 1].contains(&2) {
                continue;
            }
            for longest in [1, 2, 3] {
                ask(Choice { record: record(3, sample()), names: names.clone(), longest });
            }
        }
    }
}

/// The alternate of an interface that takes some of three addresses, with endpoints of different types.
fn taking(interface: u8, number: u8, addresses: usize) -> Vec<u32> {
    let taken = [(0x81, INTERRUPT), (0x02, BULK), (0x83, ISOCHRONOUS)].into_iter().enumerate();
    let words = taken.filter(|(at, _)| addresses >> at & 1 == 1).map(|(_, (address, kind))| word(address, kind, 1));
    [alternate(interface, number)].into_iter().chain(words).collect()
}

/// Two interfaces with two alternates each, which take every set of three addresses, in both orders.
fn addresses(ask: Ask) {
    for code in 0..8usize.pow(4) {
        let sets: Vec<usize> = (0..4).map(|at| code >> (3 * at) & 7).collect();
        // Alternate numbers fall in the list.
        let alternates = [taking(0, 1, sets[0]), taking(1, 1, sets[1]), taking(1, 0, sets[2]), taking(0, 0, sets[3])];
        let list = [vec![configuration(1)], alternates.concat()].concat();
        for (speed, names) in [(3, vec![0, 1]), (3, vec![1, 0]), (4, vec![0, 1]), (5, vec![1, 0])] {
            ask(Choice { record: record(speed, list.clone()), names, longest: 0 });
        }
    }
}

/// Three interfaces with two alternates each, which take every set of two addresses, in every order.
fn three_interfaces(ask: Ask) {
    for code in 0..4usize.pow(6) {
        let of = |at: usize| taking(at as u8 % 3, at as u8 / 3, code >> (2 * at) & 3);
        let list: Vec<u32> = [configuration(1)].into_iter().chain((0..6).flat_map(of)).collect();
        for names in [[0, 1, 2], [0, 2, 1], [1, 0, 2], [1, 2, 0], [2, 0, 1], [2, 1, 0]] {
            ask(Choice { record: record(3, list.clone()), names: names.to_vec(), longest: 0 });
        }
    }
}

/// Four alternate words of one interface, each short or not, with every two numbers, and a configuration word anywhere between
/// them.
fn later(ask: Ask) {
    for code in 0..256 {
        for at in 0..=4 {
            let of = |place: usize| {
                let (number, long) = ((code >> place & 1) as u8, code >> (4 + place) & 1 == 1);
                [alternate(0, number), word(0x81, INTERRUPT, if long { 9 } else { 1 })]
            };
            let mut list: Vec<u32> = [configuration(1)].into_iter().chain((0..4).flat_map(of)).collect();
            list.insert(1 + 2 * at, configuration(1));
            ask(Choice { record: record(3, list), names: vec![0], longest: 3 });
        }
    }
}

/// Every bit of a list turned, every word of it left out, doubled, moved; a record with each of its numbers another.
pub fn damaged(ask: Ask) {
    let list = sample();
    let mut with = |names: &[u8], change: &dyn Fn(&mut Record)| {
        let mut record = record(3, list.clone());
        change(&mut record);
        ask(Choice { record, names: names.to_vec(), longest: 3 });
    };
    for names in [&[0, 1][..], &[1, 0], &[2], &[0; 9]] {
        for at in 0..list.len() {
            for bit in 0..32 {
                with(names, &|record| record.list[at] ^= 1 << bit);
            }
            for to in 0..list.len() {
                with(names, &|record| record.list.swap(at, to));
                with(names, &|record| record.list.insert(to, list[at]));
            }
            with(names, &|record| _ = record.list.remove(at));
            with(names, &|record| record.list.truncate(at));
        }
        for byte in 0..=255 {
            with(names, &|record| record.speed = byte);
            with(names, &|record| record.slot = byte);
            with(names, &|record| record.n = byte);
            with(names, &|record| record.spacing = byte.into());
        }
        for state in 0..4 {
            with(names, &|record| (record.usable, record.up) = (state & 1 == 1, state & 2 == 2));
        }
        for given in 0..=64 {
            with(names, &|record| record.given.truncate(given));
        }
        for ring in [0, 0x1000, 0x1008, 0x2000, 0x9_0000] {
            with(names, &|record| record.control = ring);
            with(names, &|record| record.quarantined.push(ring));
        }
        for (interface, number) in [(0, 0), (1, 0), (2, 0), (2, 1), (7, 0)] {
            with(names, &|record| record.held.push((interface, number)));
        }
    }
}
