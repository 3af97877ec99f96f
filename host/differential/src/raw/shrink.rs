//! Smaller questions.

use scenario::{BYTES_ROOM, RawRead, RawWrite, WORDS_ROOM};

use crate::raw::bytes::places;
use crate::raw::judge::Raw;

/// By this measure questions are compared.
pub fn size(question: &Raw) -> usize {
    match question {
        Raw::Read(read) => {
            let nonzero = read.bytes.iter().filter(|byte| **byte != 0).count();
            2 * read.bytes.len() + nonzero + usize::from(read.room != WORDS_ROOM)
        }
        Raw::Write(write) => {
            let bits: u32 = write.list.iter().map(|word| word.count_ones()).sum();
            33 * write.list.len() + bits as usize + usize::from(write.room != BYTES_ROOM)
        }
    }
}

/// Questions with one thing left out.
pub fn smaller(question: &Raw) -> Vec<Raw> {
    match question {
        Raw::Read(read) => smaller_read(read).into_iter().map(Raw::Read).collect(),
        Raw::Write(write) => smaller_write(write).into_iter().map(Raw::Write).collect(),
    }
}

fn smaller_read(read: &RawRead) -> Vec<RawRead> {
    let mut found = vec![RawRead { room: WORDS_ROOM, ..read.clone() }];
    let mut with = |change: &dyn Fn(&mut Vec<u8>)| {
        let mut bytes = read.bytes.clone();
        change(&mut bytes);
        found.push(RawRead { bytes, ..read.clone() });
    };
    with(&|bytes| bytes.truncate(bytes.len() / 2));
    for at in places(&read.bytes) {
        let end = at + usize::from(read.bytes[at]);
        with(&|bytes| _ = bytes.drain(at..end));
    }
    for at in 0..read.bytes.len() {
        with(&|bytes| _ = bytes.remove(at));
        with(&|bytes| bytes[at] = 0);
    }
    found
}

fn smaller_write(write: &RawWrite) -> Vec<RawWrite> {
    let mut found = vec![RawWrite { room: BYTES_ROOM, ..write.clone() }];
    let mut with = |change: &dyn Fn(&mut Vec<u32>)| {
        let mut list = write.list.clone();
        change(&mut list);
        found.push(RawWrite { list, ..write.clone() });
    };
    with(&|list| list.truncate(list.len() / 2));
    for at in 0..write.list.len() {
        with(&|list| _ = list.remove(at));
        // An endpoint with its companion.
        with(&|list| _ = list.drain(at..(at + 2).min(list.len())));
        for bit in 0..32 {
            with(&|list| list[at] &= !(1 << bit));
        }
    }
    found
}
