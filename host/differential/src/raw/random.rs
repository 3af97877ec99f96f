//! Random questions: bytes of all sorts, most of them built and then damaged, and lists.

use scenario::{BYTES_ROOM, RawRead, RawWrite, WORDS_ROOM};

use crate::build::is_super;
use crate::outside::{Pair, Tally};
use crate::random::{broken_list, list};
use crate::raw::bytes::*;
use crate::raw::judge::Raw;
use crate::rng::Rng;

pub fn run(pair: &Pair, tally: &mut Tally<Raw>, seed: u64, cases: u64) {
    let mut rng = Rng::new(seed);
    for _ in 0..cases {
        let speed = speed(&mut rng);
        let question = if rng.percent(70) {
            let bytes = bytes(&mut rng, speed);
            Raw::Read(RawRead { speed, bytes, room: room(&mut rng, WORDS_ROOM) })
        } else {
            let list = words(&mut rng, speed);
            Raw::Write(RawWrite { speed, list, room: room(&mut rng, BYTES_ROOM) })
        };
        pair.compare(tally, question);
    }
}

/// Now and then one that there is not.
fn speed(rng: &mut Rng) -> u8 {
    if rng.percent(98) { 1 + rng.below(5) as u8 } else { rng.of(&[0, 6, 7, 255]) }
}

/// Now and then too small, or more than is asked for.
fn room(rng: &mut Rng, usual: usize) -> usize {
    match rng.below(100) {
        0 => rng.index(usual),
        1 => usual + rng.index(100),
        _ => usual,
    }
}

fn bytes(rng: &mut Rng, speed: u8) -> Vec<u8> {
    let len = rng.index(60);
    match rng.below(20) {
        0 => rng.bytes(len),
        1 | 2 => (0..len).map(|_| rng.of(&[0, 1, 2, 2, 3, 4, 4, 5, 5, 6, 7, 9, 9, 18, 25, 48])).collect(),
        3..=7 => built(rng, speed),
        _ => {
            let mut bytes = built(rng, speed);
            for _ in 0..rng.of(&[1, 1, 1, 2, 3]) {
                damage(rng, &mut bytes);
            }
            bytes
        }
    }
}

/// Bytes that are not malformed; mostly they yield a list that is valid at the speed.
fn built(rng: &mut Rng, speed: u8) -> Vec<u8> {
    let mut bytes = Vec::new();
    others(rng, speed, &mut bytes);
    let strange = rng.percent(10);
    if strange && rng.percent(30) {
        setting(rng, speed, &mut bytes, strange);
    }
    for _ in 0..rng.of(&[0, 1, 1, 1, 1, 2, 3, if strange { 9 } else { 8 }]) {
        let first = configuration(rng.byte());
        descriptor(rng, speed, &mut bytes, first);
        if strange && rng.percent(10) {
            bytes.extend(endpoint(0x81, 2, 8, 0));
        }
        for _ in 0..rng.below(5) {
            setting(rng, speed, &mut bytes, strange);
        }
    }
    if rng.percent(1) {
        large(rng, &mut bytes);
    }
    settled(bytes)
}

/// A descriptor, now and then longer than it need be, and others behind it.
fn descriptor(rng: &mut Rng, speed: u8, bytes: &mut Vec<u8>, mut descriptor: Vec<u8>) {
    if rng.percent(4) {
        let rest = 1 + rng.index(4);
        descriptor.extend(rng.bytes(rest));
        descriptor[0] += rest as u8;
    }
    if rng.percent(20) && matches!(descriptor[1], CONFIGURATION | INTERFACE) {
        let ignored = if descriptor[1] == CONFIGURATION { 6..9 } else { 5..9 };
        ignored.for_each(|at| descriptor[at] = rng.byte());
    }
    bytes.extend(descriptor);
    others(rng, speed, bytes);
}

/// Of other types; at speeds 4 and 5 companions are none of them.
fn others(rng: &mut Rng, speed: u8, bytes: &mut Vec<u8>) {
    while rng.percent(12) {
        let companion = if is_super(speed) { 49 } else { COMPANION };
        let kind = rng.of(&[0, 1, 3, 6, 7, 11, 33, 36, 41, companion, 255]);
        bytes.extend(other(kind, rng.of(&[0, 0, 1, 5, 7, 7, 30])));
    }
}

/// An interface descriptor and its endpoints; strange ones break a rule of lists now and then.
fn setting(rng: &mut Rng, speed: u8, bytes: &mut Vec<u8>, strange: bool) {
    let number = if strange { rng.byte() % 40 } else { rng.of(&[0, 0, 1, 1, 2, 255]) };
    let first = interface(number, rng.of(&[0, 0, 1, 2, 77]));
    descriptor(rng, speed, bytes, first);
    let most = if rng.percent(2) { 32 } else { 4 };
    for _ in 0..rng.below(most) {
        let (address, attributes) = (rng.byte(), rng.byte());
        let sound = address & 15 != 0 && attributes & 3 != 0;
        let (address, attributes) = if sound || strange { (address, attributes) } else { (0x81, 2) };
        let field = rng.next() as u16;
        let field = if field >> 11 & 3 == 3 { field ^ 0x800 } else { field };
        let next = endpoint(address, attributes, field, rng.byte());
        descriptor(rng, speed, bytes, next);
        if is_super(speed) && !(strange && rng.percent(10)) {
            let next = companion_for(rng, attributes, strange);
            descriptor(rng, speed, bytes, next);
        }
    }
}

/// A companion for an endpoint of these attributes; of other than isochronous ones its own may be any.
fn companion_for(rng: &mut Rng, attributes: u8, strange: bool) -> Vec<u8> {
    let any = rng.byte();
    let mult = if attributes & 3 == 1 && any & 3 == 3 && !strange { any ^ 1 } else { any };
    let burst = if strange && rng.percent(10) { rng.byte() } else { rng.below(16) as u8 };
    companion(burst, mult, rng.next() as u16)
}

/// Many descriptors of one type.
fn large(rng: &mut Rng, bytes: &mut Vec<u8>) {
    let kind = rng.below(3);
    for i in 0..rng.of(&[100, 250, 256, 260, 600]) {
        bytes.extend(match kind {
            0 => interface(if rng.percent(2) { i as u8 } else { 0 }, i as u8),
            1 => endpoint(0x81, 2, 8, 0),
            _ => other(33, 7),
        });
    }
}

fn damage(rng: &mut Rng, bytes: &mut Vec<u8>) {
    if bytes.is_empty() {
        return bytes.push(rng.byte());
    }
    let at = rng.index(bytes.len());
    match rng.below(12) {
        0 => bytes[at] = rng.byte(),
        1 => bytes[at] ^= 1 << rng.below(8),
        2 => bytes[at] = bytes[at].wrapping_add(rng.of(&[1, 255])),
        3 => drop(bytes.remove(at)),
        4 => bytes.insert(at, rng.byte()),
        5 => bytes.truncate(at),
        6 => bytes.extend(other(rng.byte(), rng.byte() % 8)),
        7..=9 => field(rng, bytes),
        _ => {
            moved(rng, bytes);
            if rng.percent(50) {
                *bytes = settled(std::mem::take(bytes));
            }
        }
    }
}

/// Another length, total length or count, all bits of packets, or a burst or mult that is too high.
fn field(rng: &mut Rng, bytes: &mut [u8]) {
    let places = places(bytes);
    if places.is_empty() {
        return;
    }
    let at = rng.of(&places);
    let burst_or_mult = bytes[at + 1] == COMPANION;
    let change = rng.of(&[1, 1, 2, 7, 9, 247, 249, 255, 255]);
    let place = at
        + match bytes[at + 1] {
            CONFIGURATION => rng.of(&[0, 2, 2, 3, 4, 4]),
            INTERFACE => rng.of(&[0, 2, 4, 4]),
            ENDPOINT => rng.of(&[0, 5, 5]),
            COMPANION => rng.of(&[0, 2, 3, 3]),
            _ => rng.of(&[0, 1]),
        };
    match bytes.get_mut(place) {
        Some(byte) if place == at + 5 => *byte |= 0x18,
        Some(byte) if place == at + 3 && burst_or_mult => *byte |= 3,
        Some(byte) if place == at + 2 && burst_or_mult => *byte |= 16,
        Some(byte) => *byte = byte.wrapping_add(change),
        None => {}
    }
}

/// A descriptor left out, doubled, or moved elsewhere.
fn moved(rng: &mut Rng, bytes: &mut Vec<u8>) {
    let places = places(bytes);
    if places.is_empty() {
        return;
    }
    let (from, to) = (rng.of(&places), rng.of(&places));
    let descriptor = bytes[from..from + usize::from(bytes[from])].to_vec();
    match rng.below(3) {
        0 => drop(bytes.drain(from..from + descriptor.len())),
        1 => drop(bytes.splice(to..to, descriptor)),
        _ => {
            bytes.splice(to..to, descriptor.iter().copied());
            let from = if to <= from { from + descriptor.len() } else { from };
            bytes.drain(from..from + descriptor.len());
        }
    }
}

/// Lists that are valid at a speed, with packets or without, or that are not.
fn words(rng: &mut Rng, speed: u8) -> Vec<u32> {
    match rng.below(20) {
        0 => (0..rng.below(6)).map(|_| rng.next() as u32).collect(),
        1..=3 => broken_list(rng, speed),
        4..=6 => list(rng, speed),
        _ => list(rng, speed).into_iter().map(|word| with_packets(rng, word)).collect(),
    }
}

fn with_packets(rng: &mut Rng, word: u32) -> u32 {
    let without = word >> 30 == 2 && word >> 10 & 3 == 0;
    if without { word | (1 + rng.below(3) as u32) << 10 } else { word }
}
