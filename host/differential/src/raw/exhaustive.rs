//! Bytes and lists that can be gone through whole.

use scenario::{BYTES_ROOM, RawRead, RawWrite, WORDS_ROOM};

use crate::build;
use crate::outside::{Pair, Tally};
use crate::raw::bytes::*;
use crate::raw::judge::Raw;

pub fn run(pair: &Pair, tally: &mut Tally<Raw>) {
    let mut ask = |question| pair.compare(tally, question);
    short(&mut ask);
    for sample in [one_endpoint(), two_configurations(), camera()] {
        changed(3, &sample, &mut ask);
    }
    for (speed, sample) in [(3, super_camera()), (4, super_camera()), (5, super_camera()), (4, one_endpoint())] {
        changed(speed, &sample, &mut ask);
    }
    pairs(3, &one_endpoint(), &mut ask);
    pairs(5, &super_endpoint(), &mut ask);
    endpoints(&mut ask);
    companions(&mut ask);
    speeds(&mut ask);
    limits(&mut ask);
    rooms(&mut ask);
    lists(&mut ask);
}

pub type Ask<'a> = &'a mut dyn FnMut(Raw);

/// At High speed.
fn read(ask: Ask, bytes: Vec<u8>) {
    read_at(ask, 3, bytes);
}

fn read_at(ask: Ask, speed: u8, bytes: Vec<u8>) {
    ask(Raw::Read(RawRead { speed, bytes, room: WORDS_ROOM }));
}

fn write_at(ask: Ask, speed: u8, list: Vec<u32>) {
    ask(Raw::Write(RawWrite { speed, list, room: BYTES_ROOM }));
}

fn super_endpoint() -> Vec<u8> {
    settled([configuration(1), interface(0, 0), endpoint(0x81, 3, 8, 4), companion(3, 0, 8)].concat())
}

/// Other types between an endpoint and its companion too; isochronous with a mult, bulk, an address twice.
fn super_camera() -> Vec<u8> {
    let images = [endpoint(0x82, 1, 1024, 1), other(11, 1), companion(15, 0xF2, 0xC000), endpoint(0x82, 2, 512, 0)];
    let rest = [companion(7, 31, 0), interface(1, 1), other(49, 6), endpoint(0x01, 3, 64, 9), companion(0, 3, 64)];
    settled([configuration(1), interface(1, 0), images.concat(), rest.concat()].concat())
}

fn one_endpoint() -> Vec<u8> {
    settled([configuration(1), interface(0, 0), endpoint(0x81, 3, 8, 4)].concat())
}

fn two_configurations() -> Vec<u8> {
    let first = [configuration(1), interface(0, 0), endpoint(0x83, 2, 64, 0)];
    let second = [configuration(2), interface(0, 0), other(41, 1)];
    settled([first.concat(), second.concat()].concat())
}

/// Other types between, alternates, isochronous.
fn camera() -> Vec<u8> {
    let keypad = [interface(0, 0), other(33, 7), endpoint(0x81, 3, 8, 10)];
    let images = [interface(1, 0), interface(1, 1), endpoint(0x82, 1, 0x1000 | 1020, 1), endpoint(0x02, 2, 512, 0)];
    settled([other(11, 6), configuration(1), keypad.concat(), images.concat()].concat())
}

/// Bytes that mean something.
const TELLING: [u8; 16] = [0, 1, 2, 3, 4, 5, 6, 7, 8, 9, 10, 16, 24, 25, 0x80, 0xFF];

/// Every string of at most two bytes, and every one of three bytes that mean something.
fn short(ask: Ask) {
    read(ask, Vec::new());
    for first in 0..=255 {
        read(ask, vec![first]);
        for second in 0..=255 {
            read(ask, vec![first, second]);
        }
    }
    for first in TELLING {
        for second in TELLING {
            for third in TELLING {
                read(ask, vec![first, second, third]);
            }
        }
    }
}

/// Every byte made every other, left out, doubled; every end.
fn changed(speed: u8, sample: &[u8], ask: Ask) {
    let mut with = |change: &dyn Fn(&mut Vec<u8>)| {
        let mut bytes = sample.to_vec();
        change(&mut bytes);
        read_at(ask, speed, bytes);
    };
    for at in 0..sample.len() {
        for byte in 0..=255 {
            with(&|bytes| bytes[at] = byte);
        }
        with(&|bytes| bytes.truncate(at));
        with(&|bytes| _ = bytes.remove(at));
        with(&|bytes| bytes.insert(at, bytes[at]));
    }
    for byte in 0..=255 {
        with(&|bytes| bytes.push(byte));
    }
}

/// Every two bytes made every two that mean something.
fn pairs(speed: u8, sample: &[u8], ask: Ask) {
    for first in 0..sample.len() {
        for second in first + 1..sample.len() {
            for (one, other) in TELLING.iter().flat_map(|one| TELLING.iter().map(move |other| (*one, *other))) {
                let mut bytes = sample.to_vec();
                (bytes[first], bytes[second]) = (one, other);
                read_at(ask, speed, bytes);
            }
        }
    }
}

/// Every packet size field, and every address with every attributes byte.
fn endpoints(ask: Ask) {
    let of = |endpoint: Vec<u8>| settled([configuration(1), interface(0, 0), endpoint].concat());
    for field in 0..=0xFFFF {
        let [low, high] = u16::to_le_bytes(field);
        read(ask, of(endpoint(0x81, low % 4, field, low)));
        read(ask, of(endpoint(low, high, 64, high)));
    }
}

/// Every companion's bytes per interval, and every burst with every attributes byte, behind each type of endpoint.
fn companions(ask: Ask) {
    for kind in 0..=3 {
        let of = |companion: Vec<u8>| {
            settled([configuration(1), interface(0, 0), endpoint(0x81, kind, 64, 4), companion].concat())
        };
        for bytes in 0..=0xFFFF {
            read_at(ask, 4, of(companion(3, 0, bytes)));
            let [burst, attributes] = u16::to_le_bytes(bytes);
            read_at(ask, 5, of(companion(burst, attributes, 0x1234)));
        }
    }
}

/// Every speed, with bytes and words of either kind.
fn speeds(ask: Ask) {
    for speed in 0..=255 {
        for bytes in [Vec::new(), one_endpoint(), super_endpoint(), super_camera(), vec![2, COMPANION], vec![1]] {
            read_at(ask, speed, bytes);
        }
        for list in [Vec::new(), sample_list(), super_list(), without_packets(), vec![build::alternate(0, 0)]] {
            write_at(ask, speed, list);
        }
    }
}

/// So many descriptors behind a configuration.
fn inside(descriptors: impl Iterator<Item = Vec<u8>>) -> Vec<u8> {
    settled([configuration(1), descriptors.flatten().collect()].concat())
}

/// Around 256 words, 8 configurations, 32 interfaces, 30 endpoints, counts of 255 and total lengths of 65,535.
pub fn limits(ask: Ask) {
    for count in 250..=260 {
        read(ask, inside((0..count).map(|_| interface(0, 0))));
        read(ask, inside((0..count).map(|i| interface(i as u8, 0))));
        let endpoints = (0..count).map(|_| endpoint(0x81, 2, 8, 0));
        read(ask, inside([interface(0, 0)].into_iter().chain(endpoints)));
        let paired = (0..count / 2).flat_map(|_| [endpoint(0x81, 2, 8, 0), companion(0, 0, 0)]);
        let paired = settled([configuration(1), interface(0, 0), paired.flatten().collect()].concat());
        (4..=5).for_each(|speed| read_at(ask, speed, paired.clone()));
        let alone = settled([configuration(1), (0..count).flat_map(|i| interface(i as u8 % 32, 0)).collect()].concat());
        read_at(ask, 4, alone);
        let mixed = (0..count).map(|i| if i % 9 == 0 { interface(0, 0) } else { endpoint(1, 2, 8, 0) });
        read(ask, inside(mixed));
    }
    for count in 0..=40 {
        read(ask, settled((0..count).flat_map(configuration).collect()));
        read(ask, inside((0..count).map(|i| interface(i, 0))));
        let with_companion =
            (0..count).map(|i| [endpoint(1 + i % 15, 2, 8, 0), companion(i % 16, i, i.into())].concat());
        let with_companion = [interface(0, 0)].into_iter().chain(with_companion);
        read_at(ask, 5, inside(with_companion));
        let endpoints = (0..count).map(|i| endpoint(1 + i % 15, 2, 8, 0));
        read(ask, inside([interface(0, 0)].into_iter().chain(endpoints)));
        let apart = |i: u8| [configuration(i), interface(i, 0)].concat();
        read(ask, settled((0..count).flat_map(apart).collect()));
    }
    for total in 65_530..=65_540_usize {
        let others = (total - 9) / 100;
        let first = other(0, (total - 9 - 100 * (others - 1) - 2) as u8);
        read(ask, inside([first].into_iter().chain((1..others).map(|_| other(0, 98)))));
    }
}

/// Every room around what is asked for, with questions of every answer.
fn rooms(ask: Ask) {
    let bytes = [Vec::new(), one_endpoint(), vec![1], settled([interface(0, 0), configuration(1)].concat())];
    let lists = [Vec::new(), sample_list(), vec![build::alternate(0, 0)], without_packets()];
    for room in (0..=300).chain([2303, 2304, 2305, 5000]) {
        for bytes in &bytes {
            (3..=6).for_each(|speed| ask(Raw::Read(RawRead { speed, bytes: bytes.clone(), room })));
        }
        for list in &lists {
            (3..=6).for_each(|speed| ask(Raw::Write(RawWrite { speed, list: list.clone(), room })));
        }
    }
}

fn sample_list() -> Vec<u32> {
    vec![
        build::configuration(2),
        build::alternate(0, 0),
        build::endpoint(0x81, build::INTERRUPT, 8, 1, 10),
        build::alternate(0, 255),
        build::endpoint(0x0F, build::ISOCHRONOUS, 1023, 3, 1),
        build::endpoint(0x8E, build::BULK, 512, 2, 0),
        build::configuration(255),
        build::alternate(255, 1),
    ]
}

fn super_list() -> Vec<u32> {
    build::at_speed(4, &sample_list())
}

fn without_packets() -> Vec<u32> {
    vec![build::configuration(1), build::alternate(0, 0), build::endpoint(0x81, build::BULK, 512, 0, 0)]
}

/// Every endpoint word's fields and every companion's, lists edited word by word, the limits.
fn lists(ask: Ask) {
    let of = |word: u32| vec![build::configuration(1), build::alternate(0, 0), word];
    for field in 0..=0x1FFF_u32 {
        write_at(ask, 3, of(2 << 30 | 1 << 25 | 2 << 23 | field << 10));
    }
    for top in 0..=0xFFFF_u32 {
        write_at(ask, 3, of(top << 16 | 1 << 10));
        // Every top of a companion behind each type of endpoint.
        for kind in 1..=3 {
            let endpoint = build::endpoint(0x81, kind, 64, 1, 4);
            write_at(ask, 4, [of(endpoint), vec![top << 16 | 0x3400]].concat());
        }
    }
    let samples = [(3, sample_list()), (4, super_list()), (5, super_list()), (3, super_list())];
    for (speed, sample) in &samples {
        edited(ask, *speed, sample);
    }
    for count in 0..=260_u32 {
        let words =
            |word: &dyn Fn(u32) -> u32| [build::configuration(1)].into_iter().chain((0..count).map(word)).collect();
        write_at(ask, 3, words(&|_| build::configuration(9)));
        write_at(ask, 3, words(&|i| build::alternate(i as u8, 0)));
        write_at(ask, 3, words(&|i| build::alternate(i as u8 % 32, 0)));
        let endpoint = build::endpoint(1, build::BULK, 8, 1, 0);
        let run = words(&|i| if i == 0 { build::alternate(0, 0) } else { endpoint });
        write_at(ask, 5, build::at_speed(5, &run));
        write_at(ask, 3, run);
    }
}

/// Every bit of a list turned, every word of it left out, doubled, moved.
fn edited(ask: Ask, speed: u8, sample: &[u32]) {
    for at in 0..sample.len() {
        let mut with = |change: &dyn Fn(&mut Vec<u32>)| {
            let mut list = sample.to_vec();
            change(&mut list);
            write_at(ask, speed, list);
        };
        for bit in 0..32 {
            with(&|list| list[at] ^= 1 << bit);
        }
        for to in 0..sample.len() {
            with(&|list| list.swap(at, to));
            with(&|list| list.insert(to, list[at]));
        }
        with(&|list| _ = list.remove(at));
        with(&|list| list.truncate(at));
    }
}
