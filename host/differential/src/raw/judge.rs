//! Raw descriptors as questions, and how they are judged.

use std::collections::BTreeSet;
use std::fmt;

use model::{CompanionGround, Ground, companion_grounds, grounds, raw_companion_grounds};
use scenario::{BYTES_ROOM, Functions, Kind, RawRead, RawWrite, Reply, WORDS_ROOM};

use crate::outside::{Judged, Pair, Question};
use crate::raw::shrink;
use crate::refusal::list_fault;

#[derive(Clone, Debug)]
pub enum Raw {
    Read(RawRead),
    Write(RawWrite),
}

/// Why bytes are malformed, or why companions do not fit.
#[derive(Clone, Copy, PartialEq, Eq, PartialOrd, Ord)]
pub enum Why {
    Malformed(Ground),
    Companion(CompanionGround),
}

impl fmt::Debug for Why {
    fn fmt(&self, f: &mut fmt::Formatter<'_>) -> fmt::Result {
        match self {
            Why::Malformed(ground) => ground.fmt(f),
            Why::Companion(ground) => ground.fmt(f),
        }
    }
}

const GROUNDS: [Why; 10] = {
    let mut all = [Why::Malformed(Ground::Length); 10];
    let mut at = 0;
    while at < 5 {
        all[at] = Why::Malformed(Ground::ALL[at]);
        all[5 + at] = Why::Companion(CompanionGround::ALL[at]);
        at += 1;
    }
    all
};

impl Question for Raw {
    type Ground = Why;

    const TITLE: &'static str = "raw descriptors";
    const ANSWERS: &'static [(&'static str, &'static [u8])] =
        &[(RawRead::NAME, &[0, 3, 4, 6, 20, 26]), (RawWrite::NAME, &[0, 3, 4, 6, 20, 26])];
    const GROUNDS: &'static [Why] = &GROUNDS;
    const GROUNDS_OF: &'static str = "20 and 26";

    fn name(&self) -> &'static str {
        match self {
            Raw::Read(_) => RawRead::NAME,
            Raw::Write(_) => RawWrite::NAME,
        }
    }

    fn kind(&self) -> Box<dyn Kind> {
        match self.clone() {
            Raw::Read(read) => Box::new(read),
            Raw::Write(write) => Box::new(write),
        }
    }

    fn size(&self) -> usize {
        shrink::size(self)
    }

    fn smaller(&self) -> Vec<Raw> {
        shrink::smaller(self)
    }

    fn judge(&self, pair: &Pair) -> Judged<Why> {
        match self {
            Raw::Read(read) => judge_read(pair, read),
            Raw::Write(write) => judge_write(pair, write),
        }
    }
}

fn is_speed(speed: u8) -> bool {
    (1..=5).contains(&speed)
}

/// Why bytes are refused that are read at a speed, into enough room: malformed ones, and of others with which 01's rules are
/// kept those whose companions do not fit.
fn read_grounds(read: &RawRead, number: u8) -> BTreeSet<Why> {
    if read.room < WORDS_ROOM || !is_speed(read.speed) {
        return BTreeSet::new();
    }
    let malformed: BTreeSet<Why> = grounds(&read.bytes, read.speed).into_iter().map(Why::Malformed).collect();
    if !malformed.is_empty() || number == 4 {
        return malformed;
    }
    raw_companion_grounds(&read.bytes, read.speed).into_iter().map(Why::Companion).collect()
}

/// What bytes with these grounds are refused with, and what is not.
fn is_of(grounds: &BTreeSet<Why>, number: u8) -> bool {
    match grounds.first() {
        None => !matches!(number, 20 | 26),
        Some(Why::Malformed(_)) => number == 20,
        Some(Why::Companion(_)) => number == 26,
    }
}

fn judge_read(pair: &Pair, read: &RawRead) -> Judged<Why> {
    let (reply, words) = read.ask(&*pair.subject);
    let (expected_reply, expected) = read.ask(&*pair.reference);
    let grounds = read_grounds(read, expected_reply.number);
    let returned = reply.number == 0
        && words.get(..reply.count).is_some_and(|words| read_again(&*pair.subject, read.speed, words));
    let fault = if (reply, words) != (expected_reply, expected) {
        Some("the layers")
    } else if !is_of(&grounds, reply.number) {
        Some("the grounds of 20 and 26")
    } else if reply.number == 0 && !returned {
        Some("bytes read, written and read again")
    } else {
        None
    };
    Judged { number: reply.number, grounds, returned, fault }
}

fn judge_write(pair: &Pair, write: &RawWrite) -> Judged<Why> {
    let (reply, bytes) = write.ask(&*pair.subject);
    let (expected_reply, expected) = write.ask(&*pair.reference);
    let returned = reply.number == 0 && reads(&*pair.subject, write.speed, &bytes[..reply.count], &write.list);
    let misfit = if expected_reply.number == 26 { companion_grounds(&write.list) } else { BTreeSet::new() };
    let fault = if (reply, bytes) != (expected_reply, expected) {
        Some("the layers")
    } else if reply.number != refusal(write) {
        Some("the refusal")
    } else if reply.number == 0 && !returned {
        Some("a list written and read")
    } else {
        None
    };
    Judged { number: reply.number, grounds: misfit.into_iter().map(Why::Companion).collect(), returned, fault }
}

/// Whether the subject writes words, and reads them from what it wrote.
fn read_again(subject: &dyn Functions, speed: u8, list: &[u32]) -> bool {
    let write = RawWrite { speed, list: list.to_vec(), room: BYTES_ROOM };
    let (Reply { number, count }, bytes) = write.ask(subject);
    number == 0 && reads(subject, speed, &bytes[..count], list)
}

fn reads(subject: &dyn Functions, speed: u8, bytes: &[u8], list: &[u32]) -> bool {
    let read = RawRead { speed, bytes: bytes.to_vec(), room: WORDS_ROOM };
    let (Reply { number, count }, words) = read.ask(subject);
    number == 0 && words[..count] == *list
}

/// What the writer must answer, read from 01 and 02 once more.
fn refusal(write: &RawWrite) -> u8 {
    let packets_0 = |word: &u32| word >> 30 == 2 && word >> 10 & 3 == 0;
    if write.room < BYTES_ROOM {
        3
    } else if !is_speed(write.speed) {
        6
    } else if let Some(number) = list_fault(&write.list, write.speed) {
        number
    } else if write.list.iter().any(packets_0) {
        20
    } else {
        0
    }
}
