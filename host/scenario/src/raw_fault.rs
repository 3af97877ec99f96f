//! The first descriptor for which bytes that are well formed are refused: the words are no valid list (4), or companions
//! do not fit (26).

use crate::companion::{Piece, companion_fault};
use crate::descriptors::{COMPANION, CONFIGURATION, Descriptor, ENDPOINT, INTERFACE, Walk, is_companion};
use crate::fault::first_fault;

/// The descriptors that stand for words.
fn read(bytes: &[u8], speed: u8) -> Vec<Descriptor<'_>> {
    let makes_word =
        |d: &Descriptor| matches!(d.kind(), CONFIGURATION | INTERFACE | ENDPOINT) || is_companion(d.kind(), speed);
    Walk::of(bytes, speed).found.into_iter().filter(makes_word).collect()
}

fn is_isochronous(descriptor: &Descriptor) -> bool {
    descriptor.kind() == ENDPOINT && descriptor.bytes[3] & 3 == 1
}

/// The mult of a companion; of another than an isochronous endpoint's the attributes are not read.
fn mult(found: &[Descriptor], at: usize) -> u32 {
    if at > 0 && is_isochronous(&found[at - 1]) { u32::from(found[at].bytes[3] & 3) } else { 0 }
}

fn word(found: &[Descriptor], at: usize) -> u32 {
    let this = &found[at];
    let byte = |at: usize| u32::from(this.bytes[at]);
    match this.kind() {
        CONFIGURATION => byte(5) << 22,
        INTERFACE => 1 << 30 | byte(2) << 22 | byte(3) << 14,
        ENDPOINT => {
            let (size, packets) = (this.field(4) & 0x7FF, (this.field(4) >> 11 & 3) + 1);
            let place = (byte(2) >> 7) << 29 | (byte(2) & 15) << 25 | (byte(3) & 3) << 23;
            2 << 30 | place | size << 12 | (packets & 3) << 10 | byte(6) << 2
        }
        _ => 3 << 30 | (byte(2) & 15) << 26 | mult(found, at) << 24 | this.field(4) << 8,
    }
}

/// The descriptor with whose word the list is not valid.
pub fn bytes_list_fault(bytes: &[u8], speed: u8) -> Option<String> {
    let found = read(bytes, speed);
    let list: Vec<u32> = (0..found.len()).map(|at| word(&found, at)).collect();
    let (at, what) = first_fault(&list, speed)?;
    let (place, count, word) = (found[at].at, list.len(), list[at]);
    Some(format!("the descriptor at byte {place}, word {} of {count}, {word:08x}: {what}", at + 1))
}

/// The descriptor with which companions do not fit.
pub fn bytes_companion_fault(bytes: &[u8], speed: u8) -> Option<String> {
    let found = read(bytes, speed);
    let piece = |at: usize| match found[at].kind() {
        ENDPOINT => Piece::Endpoint { isochronous: is_isochronous(&found[at]) },
        COMPANION => Piece::Companion { burst: found[at].bytes[2].into(), mult: mult(&found, at) },
        _ => Piece::Other,
    };
    let pieces: Vec<Piece> = (0..found.len()).map(piece).collect();
    let (at, what) = companion_fault(&pieces)?;
    Some(format!("the descriptor at byte {}: {what}", found[at].at))
}

/// The ground of an answer of the reader, where the number leaves it open.
pub fn raw_fault(number: u8, bytes: &[u8], speed: u8) -> Option<String> {
    match number {
        4 => bytes_list_fault(bytes, speed),
        26 => bytes_companion_fault(bytes, speed),
        _ => None,
    }
}
