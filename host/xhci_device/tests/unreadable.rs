//! What a bring-up has read that it cannot use: each cause, with its place.

use xhci_device::{
    Answer, Attached, Bus, Call, Cause, Command, Due, Outcome, Pending, READ_WORDS, RawRefusal, Read, Record, SlotId,
    UNREADABLE, Unreadable, read_descriptors,
};

/// Configuration 1: interface 0, alternate 0 with 0x81, interrupt.
const BYTES: [u8; 25] = [9, 2, 25, 0, 1, 1, 0, 0x80, 50, 9, 4, 0, 0, 1, 3, 0, 0, 0, 7, 5, 0x81, 3, 64, 0, 4];

const WORDS: [u32; 3] = [0x0040_0000, 0x4000_0000, 0xA384_0410];

/// The same at SuperSpeed.
const SUPER_BYTES: [u8; 31] =
    [9, 2, 31, 0, 1, 1, 0, 0x80, 50, 9, 4, 0, 0, 1, 3, 0, 0, 0, 7, 5, 0x81, 3, 64, 0, 4, 6, 48, 3, 0, 8, 0];

/// A device by what it sends.
struct Device<'a> {
    speed: u8,
    value: &'a [u8],
    /// The bytes of its descriptor, and how many configurations it says.
    descriptor: usize,
    count: u8,
    configurations: &'a [Read<'a>],
    sent: [u8; 18],
}

impl<'a> Device<'a> {
    fn of(speed: u8, configurations: &'a [Read<'a>]) -> Device<'a> {
        let (value, descriptor, count) = (&[1], 18, configurations.len() as u8);
        Device { speed, value, descriptor, count, configurations, sent: [0; 18] }
    }

    /// Brings it up: the answer, the last outcome, and why.
    fn brought_up(mut self) -> (Answer, Option<u8>, Option<Unreadable>) {
        let packet = if self.speed > 3 { 9 } else { 64 };
        self.sent = [18, 1, 0, 2, 0, 0, 0, packet, 0, 0, 0, 0, 0, 0, 0, 0, 0, self.count];
        let (mut record, mut ctx, mut routes) = (Record::new(), [0; 1056], [0; 64]);
        let attached = Attached {
            slot: SlotId(1),
            n: 1,
            speed: self.speed,
            parent: None,
            port: 1,
            root_port: 1,
            rings: &[0x1000],
            hubs: &[],
        };
        let mut pending = Pending::new(&mut record, &mut ctx, Call::BringUp(attached));
        let answer = pending.run(&mut routes, &mut self);
        let comment = pending.unreadable().map(|unreadable| format!("# {unreadable}"));
        assert_eq!(pending.scenario().to_string().lines().find(|line| line.starts_with('#')), comment.as_deref());
        (answer, pending.outcomes().last().copied(), pending.unreadable())
    }

    fn cause(self, command: Command) -> Cause {
        let (answer, outcome, unreadable) = self.brought_up();
        assert_eq!((answer, outcome), (Answer::Failed(UNREADABLE.get()), Some(UNREADABLE.get())));
        let unreadable = unreadable.expect("a cause");
        assert_eq!(unreadable.command, command, "{unreadable}");
        unreadable.cause
    }
}

impl Bus for Device<'_> {
    fn send(&mut self, due: &Due<'_>) -> Outcome<'_> {
        Ok(match due.command {
            Command::ReadHeader => Read::Bytes(&self.sent[..8]),
            Command::ReadConfiguration => Read::Bytes(self.value),
            Command::ReadDevice => Read::Bytes(&self.sent[..self.descriptor]),
            Command::ReadConfig(index) => self.configurations[usize::from(index)],
            _ => Read::Nothing,
        })
    }
}

/// Of a device whose one configuration reads so.
fn cause_at(speed: u8, read: Read<'_>) -> Cause {
    Device::of(speed, &[read]).cause(Command::ReadConfig(0))
}

/// Of one with another configuration before it, of three words, at SuperSpeed of four.
fn cause_behind(speed: u8, read: Read<'_>) -> Cause {
    let first = Read::Bytes(if speed > 3 { &SUPER_BYTES } else { &BYTES });
    Device::of(speed, &[first, read]).cause(Command::ReadConfig(1))
}

fn with<const N: usize>(mut bytes: [u8; N], changes: &[(usize, u8)]) -> [u8; N] {
    changes.iter().for_each(|(at, byte)| bytes[*at] = *byte);
    bytes
}

#[test]
fn what_can_be_used_has_no_cause() {
    for (speed, read) in [(3, Read::Bytes(&BYTES)), (3, Read::Words(&WORDS)), (4, Read::Bytes(&SUPER_BYTES))] {
        assert_eq!(Device::of(speed, &[read]).brought_up(), (Answer::Accepted, Some(0), None));
    }
}

#[test]
fn too_few_bytes() {
    let device = Device { value: &[], ..Device::of(3, &[]) };
    assert_eq!(device.cause(Command::ReadConfiguration), Cause::TooShort { had: 0, wanted: 1 });
    for had in [0, 8, 17] {
        let device = Device { descriptor: had, ..Device::of(3, &[]) };
        assert_eq!(device.cause(Command::ReadDevice), Cause::TooShort { had, wanted: 18 });
    }
    for read in [Read::Nothing, Read::Bytes(&[]), Read::Words(&[])] {
        assert_eq!(cause_at(3, read), Cause::TooShort { had: 0, wanted: 9 });
    }
}

#[test]
fn too_many_configurations() {
    for count in [9, 255] {
        let device = Device { count, ..Device::of(3, &[]) };
        assert_eq!(device.cause(Command::ReadDevice), Cause::Configurations { had: count.into() });
    }
}

#[test]
fn malformed_descriptors() {
    for (changes, place) in [
        (&[(0, 8)][..], 0),
        (&[(9, 8)], 9),
        (&[(18, 6)], 18),
        (&[(18, 8)], 18),
        (&[(2, 26)], 2),
        (&[(3, 1)], 2),
        (&[(4, 2)], 4),
        (&[(13, 0)], 13),
        (&[(23, 0x18)], 23),
        // The first in the order of the bytes, and a length before all others.
        (&[(23, 0x18), (13, 2), (4, 0)], 4),
        (&[(23, 0x18), (13, 2)], 13),
        (&[(2, 26), (18, 6)], 18),
    ] {
        let bytes = with(BYTES, changes);
        assert_eq!(read_descriptors(&bytes, 3, &mut [0; READ_WORDS]), Err(RawRefusal::Malformed));
        for cause in [cause_at(3, Read::Bytes(&bytes)), cause_behind(3, Read::Bytes(&bytes))] {
            assert_eq!(cause, Cause::Malformed { place }, "{changes:?}");
        }
    }
    let half = [&BYTES[..], &[2]].concat();
    assert_eq!(cause_at(3, Read::Bytes(&half)), Cause::Malformed { place: 25 });
    // A companion's length counts at SuperSpeed.
    assert_eq!(cause_at(4, Read::Bytes(&with(SUPER_BYTES, &[(25, 5)]))), Cause::Malformed { place: 25 });
}

#[test]
fn lists_that_are_not_valid() {
    // An endpoint number 0, in bytes, which the reader refuses, and in words, which the call does.
    let (bytes, word) = (with(BYTES, &[(20, 0x80)]), 0xA184_0410);
    for read in [Read::Bytes(&bytes), Read::Words(&[WORDS[0], WORDS[1], word])] {
        assert_eq!(cause_at(3, read), Cause::List { place: 2, word });
        assert_eq!(cause_behind(3, read), Cause::List { place: 5, word });
    }
    assert_eq!(cause_at(3, Read::Bytes(&BYTES[9..])), Cause::List { place: 0, word: WORDS[1] });
    assert_eq!(cause_at(3, Read::Words(&[0x0040_0001])), Cause::List { place: 0, word: 0x0040_0001 });
    // The list's interface 33 is the last one's, though each configuration is in order.
    let interfaces = |from: u32, to: u32| (from..to).map(|interface| 1 << 30 | interface << 22);
    let words: Vec<u32> = [0x0080_0000].into_iter().chain(interfaces(1, 33)).collect();
    assert_eq!(cause_behind(3, Read::Words(&words)), Cause::List { place: 35, word: words[32] });
    // At speed 3 a companion is of no kind.
    let words = [WORDS[0], WORDS[1], WORDS[2], 0xCC00_0800];
    assert_eq!(cause_at(3, Read::Words(&words)), Cause::List { place: 3, word: words[3] });
}

#[test]
fn companions_that_do_not_fit() {
    let endpoint = 0xA384_0410;
    for (changes, place) in [
        (&[(26, 49)][..], 18),      // none behind the endpoint
        (&[(27, 16)], 25),          // its burst
        (&[(21, 1), (28, 3)], 25),  // its mult
        (&[(19, 49), (13, 0)], 25), // behind no endpoint
    ] {
        let bytes = with(SUPER_BYTES, changes);
        for cause in [cause_at(4, Read::Bytes(&bytes)), cause_behind(5, Read::Bytes(&bytes))] {
            assert_eq!(cause, Cause::Companion { place, word: None }, "{changes:?}");
        }
    }
    for (words, place) in [
        (&[WORDS[0], WORDS[1], endpoint][..], 2),
        (&[WORDS[0], WORDS[1], 0xCC00_0800], 2),
        (&[WORDS[0], WORDS[1], endpoint, 0xC100_0000], 3),
        (&[WORDS[0], WORDS[1], endpoint, 0xC000_0000, 0xC000_0000], 4),
        (&[WORDS[0], WORDS[1], endpoint, 0xC000_0000, endpoint, WORDS[1]], 4),
    ] {
        let word = Some(words[place]);
        assert_eq!(cause_at(4, Read::Words(words)), Cause::Companion { place, word });
        assert_eq!(cause_behind(5, Read::Words(words)), Cause::Companion { place: 4 + place, word });
    }
}

#[test]
fn what_is_not_one_configuration() {
    let two = [&BYTES[..], &with(BYTES, &[(5, 2)])].concat();
    let (place, word) = (3, 0x0080_0000);
    assert_eq!(cause_at(3, Read::Bytes(&two)), Cause::NotOne { place, word });
    let words = [&WORDS[..], &[word]].concat();
    assert_eq!(cause_at(3, Read::Words(&words)), Cause::NotOne { place, word });
    assert_eq!(cause_behind(3, Read::Words(&words)), Cause::NotOne { place: 6, word });
    assert_eq!(cause_behind(3, Read::Words(&WORDS[1..])), Cause::NotOne { place: 3, word: WORDS[1] });
    assert_eq!(cause_behind(3, Read::Bytes(&[4, 3, 65, 0])), Cause::NotOne { place: 3, word: 0 });
}

#[test]
fn no_room() {
    let alternates = |count: u32| (0..count).map(|at| 1 << 30 | (at >> 8) << 22 | (at & 255) << 14);
    let words: Vec<u32> = [WORDS[0]].into_iter().chain(alternates(256)).collect();
    assert_eq!(cause_at(3, Read::Words(&words)), Cause::NoRoom { had: 257 });
    assert_eq!(Device::of(3, &[Read::Words(&words[..256])]).brought_up().0, Answer::Accepted);
    assert_eq!(cause_behind(3, Read::Words(&words[..254])), Cause::NoRoom { had: 257 });
    // One word is kept free for each configuration that is not read yet.
    let full = [Read::Words(&words[..256])];
    let device = Device { count: 3, ..Device::of(3, &full) };
    assert_eq!(device.cause(Command::ReadConfig(0)), Cause::NoRoom { had: 258 });
    let mut bytes = vec![9, 2, 9, 9, 1, 1, 0, 0x80, 50];
    (0..=255).for_each(|alternate| bytes.extend([9, 4, 0, alternate, 0, 3, 0, 0, 0]));
    assert_eq!(cause_at(3, Read::Bytes(&bytes)), Cause::NoRoom { had: 257 });
    assert_eq!(cause_behind(3, Read::Bytes(&bytes)), Cause::NoRoom { had: 260 });
}

#[test]
fn causes_are_told_in_words() {
    for (cause, words) in [
        (Cause::TooShort { had: 8, wanted: 18 }, "8 bytes, and 18 are needed"),
        (Cause::Configurations { had: 9 }, "9 configurations, and 8 are allowed"),
        (Cause::Malformed { place: 23 }, "the descriptors are malformed at byte 23"),
        (Cause::List { place: 5, word: 0xA184_0410 }, "word a1840410 at place 5: the descriptor list is not valid"),
        (
            Cause::Companion { place: 2, word: Some(0xA384_0410) },
            "word a3840410 at place 2: a companion is missing, misplaced or out of range",
        ),
        (
            Cause::Companion { place: 18, word: None },
            "descriptor at byte 18: a companion is missing, misplaced or out of range",
        ),
        (Cause::NotOne { place: 3, word: 0x0080_0000 }, "word 00800000 at place 3: not one configuration"),
        (Cause::NoRoom { had: 257 }, "257 words, and 256 are allowed"),
    ] {
        assert_eq!(Unreadable { command: Command::ReadConfig(1), cause }.to_string(), format!("ReadConfig 1: {words}"));
    }
}
