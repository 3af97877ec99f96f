//! Raw descriptors of a device with one endpoint, read and written, and each refusal.

use xhci_device::{READ_WORDS, RawRefusal, WRITE_BYTES, read_descriptors, write_descriptors};

const BYTES: [u8; 25] = [9, 2, 25, 0, 1, 1, 0, 0x80, 0x32, 9, 4, 0, 0, 1, 3, 0, 0, 0, 7, 5, 0x81, 3, 8, 0, 4];

const LIST: [u32; 3] = [0x0040_0000, 0x4000_0000, 0xa380_8410];

/// The same at SuperSpeed, with a companion of burst 3 and 8 bytes per interval.
const SUPER_BYTES: [u8; 31] =
    [9, 2, 31, 0, 1, 1, 0, 0x80, 0x32, 9, 4, 0, 0, 1, 3, 0, 0, 0, 7, 5, 0x81, 3, 8, 0, 4, 6, 0x30, 3, 0, 8, 0];
const SUPER_LIST: [u32; 4] = [LIST[0], LIST[1], LIST[2], 0xcc00_0800];

/// Words that were lent, and what reading left there.
fn read_at(speed: u8, bytes: &[u8], room: usize) -> (Result<usize, RawRefusal>, Vec<u32>) {
    let mut words: Vec<u32> = (0..room as u32).map(|i| 0xa500_0000 + i).collect();
    let answer = read_descriptors(bytes, speed, &mut words);
    (answer, words)
}

fn write_at(speed: u8, list: &[u32], room: usize) -> (Result<usize, RawRefusal>, Vec<u8>) {
    let mut bytes: Vec<u8> = (0..room).map(|i| (0xa5 + i) as u8).collect();
    let answer = write_descriptors(list, speed, &mut bytes);
    (answer, bytes)
}

fn read(bytes: &[u8], room: usize) -> (Result<usize, RawRefusal>, Vec<u32>) {
    read_at(3, bytes, room)
}

fn write(list: &[u32], room: usize) -> (Result<usize, RawRefusal>, Vec<u8>) {
    write_at(3, list, room)
}

fn untouched_words(words: &[u32], from: usize) -> bool {
    words.iter().enumerate().skip(from).all(|(i, &word)| word == 0xa500_0000 + i as u32)
}

fn untouched_bytes(bytes: &[u8], from: usize) -> bool {
    bytes.iter().enumerate().skip(from).all(|(i, &byte)| byte == (0xa5 + i) as u8)
}

#[test]
fn bytes_are_read() {
    let (answer, words) = read(&BYTES, 300);
    assert_eq!(answer, Ok(3));
    assert_eq!(words[..3], LIST);
    assert!(untouched_words(&words, 3));
    assert_eq!(read(&[], READ_WORDS).0, Ok(0));
    assert_eq!(read(&[2, 0x0b, 3, 3, 1], READ_WORDS).0, Ok(0));
}

#[test]
fn a_list_is_written() {
    let (answer, bytes) = write(&LIST, 2400);
    assert_eq!(answer, Ok(25));
    let mut plain = BYTES;
    plain[8] = 0;
    plain[14] = 0;
    assert_eq!(bytes[..25], plain);
    assert!(untouched_bytes(&bytes, 25));
    assert_eq!(read(&bytes[..25], READ_WORDS).1[..3], LIST);
    assert_eq!(write(&[], WRITE_BYTES).0, Ok(0));
}

#[test]
fn the_first_refusal_is_the_answer_and_changes_nothing() {
    let mut malformed = BYTES;
    malformed[2] = 26;
    let no_configuration = &BYTES[18..];
    for (bytes, room, refusal) in [
        (&malformed[..], READ_WORDS - 1, RawRefusal::TooShort),
        (&malformed[..], READ_WORDS, RawRefusal::Malformed),
        (&BYTES[..24], READ_WORDS, RawRefusal::Malformed),
        (no_configuration, READ_WORDS, RawRefusal::DescriptorList),
    ] {
        let (answer, words) = read(bytes, room);
        assert_eq!(answer, Err(refusal));
        assert!(untouched_words(&words, 0));
    }
    let no_packets = [LIST[0], LIST[1], 0xa380_8010];
    let invalid = [LIST[0], 0xa380_8010];
    for (list, room, refusal) in [
        (&invalid[..], WRITE_BYTES - 1, RawRefusal::TooShort),
        (&invalid[..], WRITE_BYTES, RawRefusal::DescriptorList),
        (&no_packets[..], WRITE_BYTES, RawRefusal::Malformed),
    ] {
        let (answer, bytes) = write(list, room);
        assert_eq!(answer, Err(refusal));
        assert!(untouched_bytes(&bytes, 0));
    }
}

/// At speeds 1 to 3 a companion is skipped; at 4 and 5 it is a word.
#[test]
fn companions_are_read_and_written() {
    for speed in [1, 2, 3] {
        let (answer, words) = read_at(speed, &SUPER_BYTES, READ_WORDS);
        assert_eq!((answer, &words[..3]), (Ok(3), &LIST[..]));
        assert_eq!(write_at(speed, &SUPER_LIST, WRITE_BYTES).0, Err(RawRefusal::DescriptorList));
    }
    for speed in [4, 5] {
        let (answer, words) = read_at(speed, &SUPER_BYTES, READ_WORDS);
        assert_eq!((answer, &words[..4]), (Ok(4), &SUPER_LIST[..]));
        assert!(untouched_words(&words, 4));
        let (answer, bytes) = write_at(speed, &SUPER_LIST, WRITE_BYTES);
        assert_eq!((answer, bytes[2], &bytes[25..31]), (Ok(31), 31, &SUPER_BYTES[25..]));
        assert!(untouched_bytes(&bytes, 31));
        assert_eq!(read_at(speed, &bytes[..31], READ_WORDS).1[..4], SUPER_LIST);
    }
}

#[test]
fn companions_that_do_not_fit_are_refused() {
    let with = |at: usize, byte: u8| {
        let mut bytes = SUPER_BYTES;
        bytes[at] = byte;
        bytes
    };
    for (speed, bytes, room, refusal) in [
        (6, &SUPER_BYTES[..30], READ_WORDS - 1, RawRefusal::TooShort),
        (6, &SUPER_BYTES[..30], READ_WORDS, RawRefusal::Speed),
        (4, &SUPER_BYTES[..30], READ_WORDS, RawRefusal::Malformed),
        (4, &BYTES, READ_WORDS, RawRefusal::Companion),
        (4, &with(27, 16), READ_WORDS, RawRefusal::Companion),
        (4, &with(20, 0x80), READ_WORDS, RawRefusal::DescriptorList),
        (4, &SUPER_BYTES[25..], READ_WORDS, RawRefusal::DescriptorList),
    ] {
        let (answer, words) = read_at(speed, bytes, room);
        assert_eq!(answer, Err(refusal));
        assert!(untouched_words(&words, 0));
    }
    // Of an interrupt endpoint the attributes are not read; of an isochronous one they say its mult.
    assert_eq!(read_at(5, &with(28, 3), READ_WORDS).1[..4], SUPER_LIST);
    let mut images = with(28, 2);
    images[21] = 1;
    assert_eq!(read_at(5, &images, READ_WORDS).1[3], 0xce00_0800);
    images[28] = 3;
    assert_eq!(read_at(5, &images, READ_WORDS).0, Err(RawRefusal::Companion));
    let no_packets = [LIST[0], LIST[1], 0xa380_8010];
    for (speed, list, refusal) in [
        (0, &LIST[1..], RawRefusal::Speed),
        (5, &LIST[1..], RawRefusal::DescriptorList),
        (5, &no_packets[..], RawRefusal::Companion),
        (5, &[&no_packets[..], &[0xc100_0000]].concat(), RawRefusal::Companion),
        (5, &[&no_packets[..], &[0xcc00_0800]].concat(), RawRefusal::Malformed),
    ] {
        let (answer, bytes) = write_at(speed, list, WRITE_BYTES);
        assert_eq!(answer, Err(refusal));
        assert!(untouched_bytes(&bytes, 0));
    }
}

#[test]
fn numbers_are_those_of_the_papers() {
    use RawRefusal::*;
    assert_eq!([TooShort, DescriptorList, Speed, Malformed, Companion].map(RawRefusal::number), [3, 4, 6, 20, 26]);
}
