//! Settings in either form, there and back, and each refusal.

use xhci_device::{SETTINGS_BYTES, SettingsRefusal, settings_to_new, settings_to_old};

/// Configuration 7: interface 0, alternates 0 and 1; interface 3; interface 255, alternate 128. Configuration 9: interface
/// 0, alternate 5.
const LIST: [u32; 7] = [0x01c0_0000, 0x4000_0000, 0x4000_4000, 0x40c0_0000, 0x7fe0_0000, 0x0240_0000, 0x4001_4000];

const OLD: [u8; 6] = [0, 1, 3, 0, 255, 128];

/// 7 and 3, then each byte two bits later than in the old form.
const NEW: [u8; 8] = [7, 3 << 2, 0, 1 << 2, 3 << 2, 0b11, 0b1111_1110, 0];

type Converts = fn(&[u8], &[u32], u8, &mut [u8]) -> Result<usize, SettingsRefusal>;

/// Bytes that were lent, and what a conversion left there, by a list of a speed.
fn converted_at(
    speed: u8,
    convert: Converts,
    settings: &[u8],
    list: &[u32],
    room: usize,
) -> (Result<usize, SettingsRefusal>, Vec<u8>) {
    let mut bytes: Vec<u8> = (0..room).map(|i| (0xa5 + i) as u8).collect();
    let answer = convert(settings, list, speed, &mut bytes);
    (answer, bytes)
}

fn converted(
    convert: Converts,
    settings: &[u8],
    list: &[u32],
    room: usize,
) -> (Result<usize, SettingsRefusal>, Vec<u8>) {
    converted_at(3, convert, settings, list, room)
}

fn untouched(bytes: &[u8], from: usize) -> bool {
    bytes.iter().enumerate().skip(from).all(|(i, &byte)| byte == (0xa5 + i) as u8)
}

fn accepted(convert: Converts, settings: &[u8], expected: &[u8]) {
    for room in [SETTINGS_BYTES, 100] {
        let (answer, bytes) = converted(convert, settings, &LIST, room);
        assert_eq!(answer, Ok(expected.len()));
        assert_eq!(bytes[..expected.len()], *expected);
        assert!(untouched(&bytes, expected.len()));
    }
}

#[test]
fn settings_are_converted() {
    accepted(settings_to_new, &OLD, &NEW);
    accepted(settings_to_old, &NEW, &OLD);
    accepted(settings_to_new, &[], &[7, 0]);
    accepted(settings_to_old, &[7, 0], &[]);
}

/// 32 pairs fill the memory, and there and back they are the same.
#[test]
fn the_most_pairs() {
    let list: Vec<u32> = [0x3fc0_0000].into_iter().chain((0..32).map(|at| 0x4000_4000 | at << 22)).collect();
    let old: Vec<u8> = (0..32).flat_map(|interface| [interface, 1]).collect();
    let (answer, new) = converted(settings_to_new, &old, &list, SETTINGS_BYTES);
    assert_eq!((answer, new[0], new[1], new[65]), (Ok(66), 255, 32 << 2, 1 << 2));
    let (answer, back) = converted(settings_to_old, &new, &list, SETTINGS_BYTES);
    assert_eq!((answer, &back[..64]), (Ok(64), &old[..]));
    assert!(untouched(&back, 64));
}

#[test]
fn the_first_refusal_is_the_answer_and_changes_nothing() {
    use SettingsRefusal::*;
    let refused = |convert: Converts, settings: &[u8], list: &[u32], room: usize, refusal: SettingsRefusal| {
        let (answer, bytes) = converted(convert, settings, list, room);
        assert_eq!(answer, Err(refusal), "{settings:02x?}");
        assert!(untouched(&bytes, 0), "{settings:02x?}");
    };
    let invalid = &LIST[1..2];
    for convert in [settings_to_new as Converts, settings_to_old] {
        refused(convert, &[1], invalid, SETTINGS_BYTES - 1, TooShort);
        refused(convert, &[1], invalid, SETTINGS_BYTES, DescriptorList);
        refused(convert, &[1], &LIST, SETTINGS_BYTES, Settings);
        refused(convert, &[7, 0], &[], SETTINGS_BYTES, Settings);
    }
    for settings in [&OLD[..5], &[3, 0, 3, 0], &[3, 0, 0, 1], &[0, 5]] {
        refused(settings_to_new, settings, &LIST, SETTINGS_BYTES, Settings);
    }
    refused(settings_to_new, &[], &[], SETTINGS_BYTES, Settings);
    // Too short, too long, padded, of no configuration of the list, and of another one that has not the pair.
    for settings in [&NEW[..7], &[7, 0, 0], &[7, 1], &[8, 0], &[9, 4, 0, 4]] {
        refused(settings_to_old, settings, &LIST, SETTINGS_BYTES, Settings);
    }
    for settings in [&[9, 4, 0, 20][..], &[9, 0]] {
        refused(settings_to_old, settings, &LIST, SETTINGS_BYTES, OtherConfiguration);
        refused(settings_to_old, settings, &LIST, 0, TooShort);
    }
}

/// The list is judged at the speed: with a companion behind its endpoint at 4 and 5, without at the others.
#[test]
fn the_list_is_of_a_speed() {
    use SettingsRefusal::*;
    let (endpoint, companion) = (0xa380_8410, 0xcc00_0800);
    let with = |words: &[u32]| [&LIST[..2], words, &LIST[2..]].concat();
    let (plain, whole) = (with(&[endpoint]), with(&[endpoint, companion]));
    for speed in 0..=7 {
        let expected = |fits: bool, refusal: SettingsRefusal| match speed {
            1..=5 if fits => Ok(NEW.len()),
            1..=5 => Err(refusal),
            _ => Err(Speed),
        };
        let is_super = speed > 3;
        let answer = |list: &[u32]| converted_at(speed, settings_to_new, &OLD, list, SETTINGS_BYTES).0;
        assert_eq!(answer(&plain), expected(!is_super, Companion));
        assert_eq!(answer(&whole), expected(is_super, DescriptorList));
        assert_eq!(answer(&with(&[companion])), expected(false, if is_super { Companion } else { DescriptorList }));
        assert_eq!(converted_at(speed, settings_to_old, &NEW, &LIST, 0).0, Err(TooShort));
        let back = converted_at(speed, settings_to_old, &NEW, &whole, SETTINGS_BYTES).0;
        assert_eq!(back, expected(is_super, DescriptorList).map(|_| OLD.len()));
    }
}

#[test]
fn numbers_are_those_of_the_papers() {
    use SettingsRefusal::*;
    let all = [TooShort, DescriptorList, Speed, Settings, OtherConfiguration, Companion];
    assert_eq!(all.map(|refusal| refusal.number()), [3, 4, 6, 23, 24, 26]);
}
