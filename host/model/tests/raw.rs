//! Items 2 and 11 of 02, asked of the model: every ground of 20 and of 26, the order of the refusals, what is ignored, and
//! round trips.

use std::collections::BTreeSet;

use model::{CompanionGround, Ground, Model, companion_grounds, grounds, raw_companion_grounds};
use scenario::{Functions, Reply, filled_bytes, filled_words};

const CONFIGURATION: [u8; 9] = [9, 2, 25, 0, 1, 1, 0, 0x80, 50];
const INTERFACE: [u8; 9] = [9, 4, 0, 0, 1, 3, 0, 0, 0];
const ENDPOINT: [u8; 7] = [7, 5, 0x81, 3, 8, 0, 4];
const OTHER: [u8; 3] = [3, 33, 0xFF];

const ONE_ENDPOINT: [u32; 3] = [0x0040_0000, 0x4000_0000, 0xA380_8410];

/// A total length and a number of interfaces.
fn configuration(total: u16, interfaces: u8, value: u8) -> Vec<u8> {
    let [low, high] = total.to_le_bytes();
    vec![9, 2, low, high, interfaces, value, 0, 0x80, 50]
}

fn interface(number: u8, alternate: u8, endpoints: u8) -> Vec<u8> {
    vec![9, 4, number, alternate, endpoints, 3, 0, 0, 0]
}

fn endpoint(address: u8, attributes: u8, field: u16, interval: u8) -> Vec<u8> {
    let [low, high] = field.to_le_bytes();
    vec![7, 5, address, attributes, low, high, interval]
}

fn one_endpoint() -> Vec<u8> {
    [&CONFIGURATION[..], &INTERFACE, &ENDPOINT].concat()
}

/// The example with one byte changed.
fn changed(at: usize, byte: u8) -> Vec<u8> {
    let mut bytes = one_endpoint();
    bytes[at] = byte;
    bytes
}

/// The words, or the refusal; what lies past the output, or all of it where refused, must be as it was.
fn read_at(speed: u8, bytes: &[u8], room: usize) -> Result<Vec<u32>, u8> {
    let mut words = filled_words(room);
    let Reply { number, count } = Model.read_descriptors(bytes, speed, &mut words);
    assert_eq!(words[count..], filled_words(room)[count..]);
    if number == 0 {
        return Ok(words[..count].to_vec());
    }
    assert_eq!(count, 0);
    Err(number)
}

/// At High speed.
fn read(bytes: &[u8]) -> Result<Vec<u32>, u8> {
    read_into(bytes, 256)
}

fn read_into(bytes: &[u8], room: usize) -> Result<Vec<u32>, u8> {
    read_at(3, bytes, room)
}

fn write(list: &[u32]) -> Result<Vec<u8>, u8> {
    write_into(list, 2304)
}

fn write_into(list: &[u32], room: usize) -> Result<Vec<u8>, u8> {
    write_at(3, list, room)
}

fn write_at(speed: u8, list: &[u32], room: usize) -> Result<Vec<u8>, u8> {
    let mut bytes = filled_bytes(room);
    let Reply { number, count } = Model.write_descriptors(list, speed, &mut bytes);
    assert_eq!(bytes[count..], filled_bytes(room)[count..]);
    if number == 0 {
        return Ok(bytes[..count].to_vec());
    }
    assert_eq!(count, 0);
    Err(number)
}

fn malformed(bytes: &[u8], ground: Ground) {
    assert_eq!((read(bytes), grounds(bytes, 3)), (Err(20), BTreeSet::from([ground])), "{bytes:?}");
}

#[test]
fn one_endpoint_and_back() {
    assert_eq!(read(&one_endpoint()), Ok(ONE_ENDPOINT.to_vec()));
    let written = [[9, 2, 25, 0, 1, 1, 0, 0x80, 0].as_slice(), &[9, 4, 0, 0, 1, 0, 0, 0, 0], &[7, 5, 0x81, 3, 8, 0, 4]];
    assert_eq!(write(&ONE_ENDPOINT), Ok(written.concat()));
    let mut memory = filled_bytes(2304);
    Model.write_descriptors(&ONE_ENDPOINT, 3, &mut memory);
    assert_eq!(memory[25..28], [0xBE, 0xBF, 0xC0]);
}

#[test]
fn nothing_is_the_empty_list() {
    assert_eq!(read(&[]), Ok(vec![]));
    assert_eq!(write(&[]), Ok(vec![]));
    assert_eq!(read(&[2, 7, 3, 0, 0, 2, 255]), Ok(vec![]));
}

#[test]
fn a_length_that_is_malformed() {
    malformed(&[9], Ground::Length);
    malformed(&[0, 0], Ground::Length);
    malformed(&[1, 33], Ground::Length);
    for (at, least) in [(0, 9), (9, 9), (18, 7)] {
        for length in 0..least {
            malformed(&changed(at, length), Ground::Length);
        }
        malformed(&changed(at, 255), Ground::Length);
    }
    let whole = one_endpoint();
    for end in [1, 8, 10, 17, 19, 24] {
        malformed(&whole[..end], Ground::Length);
    }
    malformed(&[&whole[..], &[2]].concat(), Ground::Length);
    malformed(&[&whole[..], &[3, 33]].concat(), Ground::Length);
}

#[test]
fn a_total_length_that_is_malformed() {
    for total in [0, 9, 24, 26, 255] {
        malformed(&changed(2, total), Ground::TotalLength);
    }
    malformed(&changed(3, 1), Ground::TotalLength);
    let two = |first, second| [configuration(first, 0, 1), OTHER.to_vec(), configuration(second, 0, 2)].concat();
    assert_eq!(read(&two(12, 9)), Ok(vec![0x0040_0000, 0x0080_0000]));
    malformed(&two(9, 9), Ground::TotalLength);
    malformed(&two(21, 9), Ground::TotalLength);
    malformed(&two(12, 8), Ground::TotalLength);
    let late = |total| [OTHER.to_vec(), configuration(total, 0, 1)].concat();
    assert_eq!(read(&late(9)), Ok(vec![0x0040_0000]));
    malformed(&late(12), Ground::TotalLength);
}

#[test]
fn a_count_of_interfaces_that_is_malformed() {
    for count in [0, 2, 255] {
        malformed(&changed(4, count), Ground::InterfaceCount);
    }
    let with = |count, numbers: &[u8]| {
        let interfaces: Vec<u8> = numbers.iter().flat_map(|number| interface(*number, 0, 0)).collect();
        [configuration(9 + interfaces.len() as u16, count, 1), interfaces].concat()
    };
    assert_eq!(read(&with(2, &[5, 0, 5, 5, 0])).map(|words| words.len()), Ok(6));
    malformed(&with(5, &[5, 0, 5, 5, 0]), Ground::InterfaceCount);
    malformed(&with(1, &[5, 0, 5, 5, 0]), Ground::InterfaceCount);
    let all: Vec<u8> = (0..=255).collect();
    malformed(&with(0, &all), Ground::InterfaceCount);
    let second = [with(1, &[0]), with(0, &[])].concat();
    assert_eq!(read(&second), Ok(vec![0x0040_0000, 0x4000_0000, 0x0040_0000]));
    malformed(&[with(1, &[0]), with(1, &[])].concat(), Ground::InterfaceCount);
}

#[test]
fn a_count_of_endpoints_that_is_malformed() {
    for count in [0, 2, 255] {
        malformed(&changed(13, count), Ground::EndpointCount);
    }
    // Without a configuration the words are no list, but the count comes first.
    assert_eq!(read(&INTERFACE[..]), Err(20));
    assert_eq!(read(&[&INTERFACE[..], &ENDPOINT].concat()), Err(4));
    // Repeated addresses and address 0 count; other types between do not.
    let twice =
        [interface(0, 0, 3), ENDPOINT.to_vec(), OTHER.to_vec(), ENDPOINT.to_vec(), endpoint(0, 2, 8, 0)].concat();
    assert_eq!(read(&[configuration(42, 1, 1), twice.clone()].concat()), Err(4));
    assert!(grounds(&[configuration(42, 1, 1), twice].concat(), 3).is_empty());
    let many = |count: u8| [interface(0, 0, count), ENDPOINT.repeat(256)].concat();
    malformed(&many(0), Ground::EndpointCount);
    malformed(&many(255), Ground::EndpointCount);
    // The endpoints of the next interface, or of the next configuration, are not counted.
    let next = [configuration(34, 1, 1), interface(0, 0, 0), interface(0, 1, 1), ENDPOINT.to_vec()].concat();
    assert_eq!(read(&next).map(|words| words.len()), Ok(4));
    let apart = [configuration(18, 1, 1), interface(0, 0, 0), configuration(16, 0, 2), ENDPOINT.to_vec()].concat();
    assert_eq!((read(&apart), grounds(&apart, 3).len()), (Err(4), 0));
}

#[test]
fn packets_that_are_malformed() {
    for kind in 0..4 {
        let bytes = |field| [&CONFIGURATION[..], &INTERFACE, &endpoint(0x81, kind, field, 4)].concat();
        malformed(&bytes(0x1808), Ground::Packets);
        malformed(&bytes(0xFFFF), Ground::Packets);
        let expected = if kind == 0 { Err(4) } else { Ok(3) };
        assert_eq!(read(&bytes(0x1008)).map(|words| words.len()), expected);
    }
    // Wherever it stands.
    malformed(&endpoint(0, 0, 0x1800, 0), Ground::Packets);
}

#[test]
fn packets_are_the_bits_plus_one() {
    for (bits, packets) in [(0, 1), (1, 2), (2, 3)] {
        let bytes = [&CONFIGURATION[..], &INTERFACE, &endpoint(0x0F, 2, bits << 11 | 0x7FF, 255)].concat();
        let word = 2 << 30 | 15 << 25 | 2 << 23 | 0x7FF << 12 | packets << 10 | 255 << 2;
        assert_eq!(read(&bytes).map(|words| words[2]), Ok(word));
    }
}

#[test]
fn what_the_words_do_not_carry_is_ignored() {
    let longer = |bytes: &[u8]| {
        let mut bytes = [bytes, &[0xFF, 0xFF]].concat();
        bytes[0] += 2;
        bytes
    };
    let configuration = longer(&[9, 2, 34, 0, 1, 1, 0xFF, 0xFF, 0xFF]);
    let interface = longer(&[9, 4, 0, 0, 1, 0xFF, 0xFF, 0xFF, 0xFF]);
    let endpoint = longer(&[7, 5, 0x81 | 0x70, 3 | 0xFC, 8, 0xE0, 4]);
    let bytes = [OTHER.to_vec(), configuration, interface, OTHER.to_vec(), endpoint].concat();
    assert_eq!(read(&bytes), Ok(ONE_ENDPOINT.to_vec()));
}

#[test]
fn the_order_of_the_readers_refusals() {
    let malformed = changed(2, 0);
    let no_list = [interface(0, 0, 0), configuration(9, 0, 1)].concat();
    let both = [no_list.clone(), vec![1]].concat();
    for room in [0, 1, 255] {
        for bytes in [&malformed, &no_list, &both, &one_endpoint()] {
            assert_eq!(read_into(bytes, room), Err(3));
        }
    }
    assert_eq!(read(&no_list), Err(4));
    assert_eq!(read(&both), Err(20));
    assert_eq!(read_into(&one_endpoint(), 300), Ok(ONE_ENDPOINT.to_vec()));
}

#[test]
fn list_rules_give_4() {
    let of = |count: u8, inside: Vec<u8>| [configuration(9 + inside.len() as u16, count, 1), inside].concat();
    let valued = |words: Result<Vec<u32>, u8>| words.map(|words| words.len());
    let settings = |count: usize| of(1, interface(0, 0, 0).repeat(count));
    assert_eq!(valued(read(&settings(255))), Ok(256));
    assert_eq!(valued(read(&settings(256))), Err(4));
    assert_eq!(valued(read_into(&settings(256), 300)), Err(4));
    assert_eq!(valued(read(&configuration(9, 0, 1).repeat(8))), Ok(8));
    assert_eq!(valued(read(&configuration(9, 0, 1).repeat(9))), Err(4));
    let interfaces = |count: u8| of(count, (0..count).flat_map(|number| interface(number, 0, 0)).collect());
    assert_eq!(valued(read(&interfaces(32))), Ok(33));
    assert_eq!(valued(read(&interfaces(33))), Err(4));
    let endpoints = |count: u8| of(1, [interface(0, 0, count), ENDPOINT.repeat(count.into())].concat());
    assert_eq!(valued(read(&endpoints(30))), Ok(32));
    assert_eq!(valued(read(&endpoints(31))), Err(4));
    let one = |address: u8| of(1, [interface(0, 0, 1), endpoint(address, 2, 8, 0)].concat());
    for address in [0, 0x80] {
        assert_eq!(read(&one(address)), Err(4));
    }
    assert_eq!(valued(read(&one(0x8F))), Ok(3));
    assert_eq!(read(&of(1, [interface(0, 0, 1), endpoint(0x81, 0, 8, 0)].concat())), Err(4));
    assert_eq!(read(&ENDPOINT), Err(4));
    assert_eq!(read(&of(0, ENDPOINT.to_vec())), Err(4));
}

#[test]
fn the_order_of_the_writers_refusals() {
    let without_packets = [0x0040_0000, 0x4000_0000, 0xA380_8010];
    let no_list = [0x4000_0000, 0xA380_8010];
    for room in [0, 25, 2303] {
        for list in [&ONE_ENDPOINT[..], &without_packets, &no_list] {
            assert_eq!(write_into(list, room), Err(3));
        }
    }
    assert_eq!(write(&no_list), Err(4));
    assert_eq!(write(&[without_packets[0], without_packets[1], without_packets[2], 0xC000_0000]), Err(4));
    assert_eq!(write(&without_packets), Err(20));
    assert_eq!(write(&[0x0040_0000; 9]), Err(4));
}

#[test]
fn lengths_and_counts_are_written() {
    let list = [
        0x0080_0000, // configuration 2
        0x4000_0000, // interface 0, alternate 0
        0x4000_4000, // interface 0, alternate 1
        0x82FF_FC0C, // endpoint 1, isochronous, size 2047, packets 3, interval 3
        0xBD00_0800, // endpoint 14 IN, bulk, size 0, packets 2, interval 0
        0x7FC0_0000, // interface 255, alternate 0
        0x0040_0000, // configuration 1
    ];
    let expected = [
        [9, 2, 50, 0, 2, 2, 0, 0x80, 0].as_slice(),
        &[9, 4, 0, 0, 0, 0, 0, 0, 0],
        &[9, 4, 0, 1, 2, 0, 0, 0, 0],
        &[7, 5, 0x01, 1, 0xFF, 0x17, 3],
        &[7, 5, 0x8E, 2, 0, 0x08, 0],
        &[9, 4, 255, 0, 0, 0, 0, 0, 0],
        &[9, 2, 9, 0, 0, 1, 0, 0x80, 0],
    ];
    assert_eq!(write(&list), Ok(expected.concat()));
    assert_eq!(read(&expected.concat()), Ok(list.to_vec()));
}

#[test]
fn the_longest_list_fills_the_memory() {
    let list: Vec<u32> = [0x0040_0000].into_iter().chain([0x4000_0000; 255]).collect();
    let bytes = write(&list).expect("bytes");
    assert_eq!((bytes.len(), &bytes[2..5]), (2304, &[0, 9, 1][..]));
    assert_eq!(read(&bytes), Ok(list));
}

/// Burst, attributes and bytes per interval.
fn companion(burst: u8, attributes: u8, bytes: u16) -> Vec<u8> {
    let [low, high] = bytes.to_le_bytes();
    vec![6, 48, burst, attributes, low, high]
}

/// One interface with these descriptors inside it, of which so many are endpoints.
fn inside(endpoints: u8, descriptors: &[Vec<u8>]) -> Vec<u8> {
    let behind = descriptors.concat();
    [configuration(18 + behind.len() as u16, 1, 1), interface(0, 0, endpoints), behind].concat()
}

/// Their words behind those of configuration and interface.
fn words(speed: u8, endpoints: u8, descriptors: &[Vec<u8>]) -> Result<Vec<u32>, u8> {
    read_at(speed, &inside(endpoints, descriptors), 256).map(|words| words[2..].to_vec())
}

/// What answers 26, for one ground alone.
fn misfit(endpoints: u8, descriptors: &[Vec<u8>], ground: CompanionGround) {
    let bytes = inside(endpoints, descriptors);
    for speed in [4, 5] {
        let found = raw_companion_grounds(&bytes, speed);
        assert_eq!((read_at(speed, &bytes, 256), found), (Err(26), BTreeSet::from([ground])), "{bytes:?}");
    }
    assert_eq!(raw_companion_grounds(&bytes, 3), BTreeSet::new());
    assert_eq!(words(3, endpoints, descriptors).map(|words| words.len()), Ok(endpoints.into()));
}

/// docs/SCENARIOS.md's example, and the fields one by one.
#[test]
fn companions_are_read() {
    let pair = [ENDPOINT.to_vec(), companion(3, 0, 8)];
    for speed in [4, 5] {
        assert_eq!(words(speed, 1, &pair), Ok(vec![ONE_ENDPOINT[2], 0xCC00_0800]));
    }
    for speed in [1, 2, 3] {
        assert_eq!(words(speed, 1, &pair), Ok(vec![ONE_ENDPOINT[2]]));
    }
    let second = |descriptors: &[Vec<u8>]| words(4, 1, descriptors).map(|words| words[1]);
    let (bulk, images) = (endpoint(0x81, 2, 8, 0), endpoint(0x81, 1, 8, 1));
    assert_eq!(second(&[bulk.clone(), companion(15, 0xFF, 0xABCD)]), Ok(0xFCAB_CD00));
    assert_eq!(second(&[images.clone(), companion(0, 0xFE, 1)]), Ok(0xC200_0100));
    // Bytes past the sixth, and another descriptor between.
    assert_eq!(second(&[bulk.clone(), OTHER.to_vec(), vec![8, 48, 1, 0, 2, 0, 9, 9]]), Ok(0xC400_0200));
    // Interrupt and bulk ones may say anything in their attributes; type 49 is another type.
    assert_eq!(second(&[ENDPOINT.to_vec(), companion(0, 3, 0), vec![8, 49, 1, 2, 3, 4, 5, 6]]), Ok(0xC000_0000));
}

#[test]
fn each_ground_of_26() {
    let pair = [ENDPOINT.to_vec(), companion(3, 0, 8)];
    let images = endpoint(0x81, 1, 8, 1);
    misfit(1, &[ENDPOINT.to_vec()], CompanionGround::Missing);
    misfit(2, &[ENDPOINT.to_vec(), ENDPOINT.to_vec(), companion(0, 0, 0)], CompanionGround::Missing);
    misfit(1, &[pair.concat(), companion(0, 0, 0)], CompanionGround::Misplaced);
    misfit(0, &[companion(0, 0, 0)], CompanionGround::Misplaced);
    misfit(1, &[images.clone(), companion(0, 3, 0)], CompanionGround::HighMult);
    misfit(1, &[ENDPOINT.to_vec(), companion(16, 0, 0)], CompanionGround::RawBurst);
    // A mult behind another endpoint's word is not read from bytes.
    let other = [ONE_ENDPOINT[0], ONE_ENDPOINT[1], ONE_ENDPOINT[2], 0xC100_0000];
    assert_eq!(companion_grounds(&other), BTreeSet::from([CompanionGround::OtherMult]));
    assert_eq!(write_at(4, &other, 2304), Err(26));
    // Between the endpoint and its companion stands another word.
    let apart = [&ONE_ENDPOINT[..], &[0x4000_4000, 0xC000_0000]].concat();
    assert_eq!(companion_grounds(&apart), BTreeSet::from([CompanionGround::Missing, CompanionGround::Misplaced]));
    assert_eq!(companion_grounds(&[]), BTreeSet::new());
}

#[test]
fn the_speed_comes_behind_the_room() {
    for speed in [0, 6, 255] {
        assert_eq!((read_at(speed, &[1], 255), read_at(speed, &[1], 256)), (Err(3), Err(6)));
        assert_eq!((write_at(speed, &[1], 2303), write_at(speed, &[1], 2304)), (Err(3), Err(6)));
    }
}

/// 20, 4 and 26 by the reader; 4, 26 and 20 by the writer.
#[test]
fn where_26_stands() {
    let short = vec![5, 48, 0, 0, 0];
    let one = |rest: &[Vec<u8>]| words(4, 1, &[&[ENDPOINT.to_vec()], rest].concat());
    assert_eq!(one(&[short.clone()]), Err(20));
    assert_eq!(words(3, 1, &[ENDPOINT.to_vec(), short]).map(|words| words.len()), Ok(1));
    // Malformed and without a companion; an endpoint that no list may have and without one.
    assert_eq!(words(4, 2, &[ENDPOINT.to_vec()]), Err(20));
    assert_eq!(words(4, 1, &[endpoint(0x80, 2, 8, 0)]), Err(4));
    // "A first word that is not of kind 0", a companion neither.
    assert_eq!(read_at(4, &companion(0, 0, 0), 256), Err(4));
    // A burst above 15 counts as a word: 31 endpoints and 257 words are 4.
    let pairs = |count: u8| vec![[ENDPOINT.to_vec(), companion(16, 0, 0)].concat(); count.into()];
    assert_eq!((words(4, 30, &pairs(30)), words(4, 31, &pairs(31))), (Err(26), Err(4)));
    let without_packets = [ONE_ENDPOINT[0], ONE_ENDPOINT[1], 0xA380_8010];
    let with = |companion: u32| [&without_packets[..], &[companion]].concat();
    assert_eq!(write_at(4, &without_packets, 2304), Err(26));
    assert_eq!(write_at(4, &with(0xC100_0000), 2304), Err(26));
    assert_eq!(write_at(4, &with(0xC100_0001), 2304), Err(4));
    assert_eq!(write_at(4, &with(0xC000_0000), 2304), Err(20));
    assert_eq!(write_at(3, &with(0xC000_0000), 2304), Err(4));
}

/// "01's other rules with words of kind 3 passed over"; they count among the 256, and not among the 30.
#[test]
fn companions_are_passed_over() {
    let run = |endpoints: usize| [&ONE_ENDPOINT[..2], &[ONE_ENDPOINT[2], 0xC000_0000].repeat(endpoints)].concat();
    assert_eq!(write_at(4, &run(30), 2304).map(|bytes| bytes.len()), Ok(18 + 30 * 13));
    assert_eq!(write_at(4, &run(31), 2304), Err(4));
    let full = [ONE_ENDPOINT[0]].into_iter().chain((0..9).flat_map(|_| run(14)[1..].to_vec())).collect::<Vec<u32>>();
    assert_eq!(full.len(), 262);
    assert_eq!(write_at(5, &full[..256], 2304).map(|_| ()), Ok(()));
    assert_eq!(write_at(5, &full[..258], 2304), Err(4));
}

#[test]
fn companions_are_written() {
    let list = [
        0x0080_0000, // configuration 2
        0x4000_0000, // interface 0, alternate 0
        0x82FF_FC0C, // endpoint 1, isochronous, size 2047, packets 3, interval 3
        0xFE12_3400, // burst 15, mult 2, bytes per interval 0x1234
        0xBD00_0800, // endpoint 14 IN, bulk, size 0, packets 2, interval 0
        0xC400_0000, // burst 1
        0x4000_4000, // interface 0, alternate 1
    ];
    let expected = [
        [9, 2, 53, 0, 1, 2, 0, 0x80, 0].as_slice(),
        &[9, 4, 0, 0, 2, 0, 0, 0, 0],
        &[7, 5, 0x01, 1, 0xFF, 0x17, 3],
        &[6, 48, 15, 2, 0x34, 0x12],
        &[7, 5, 0x8E, 2, 0, 0x08, 0],
        &[6, 48, 1, 0, 0, 0],
        &[9, 4, 0, 1, 0, 0, 0, 0, 0],
    ];
    for speed in [4, 5] {
        assert_eq!(write_at(speed, &list, 2304), Ok(expected.concat()));
        assert_eq!(read_at(speed, &expected.concat(), 256), Ok(list.to_vec()));
    }
}
