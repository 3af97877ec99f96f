//! Item 8 of 02, asked of the model: every ground of 23, the order of the refusals, which configuration is meant, and both
//! forms bit by bit.

use std::collections::BTreeSet;

use model::{Model, SettingsGround, settings_grounds};
use scenario::{Form, Functions, Reply, filled_bytes};

/// Configuration 1: interface 0 with alternates 0 and 1, interface 3.
const ONE: [u32; 4] = [0x0040_0000, 0x4000_0000, 0x4000_4000, 0x40C0_0000];
const OLD: [u8; 4] = [0, 1, 3, 0];
const NEW: [u8; 6] = [1, 8, 0, 4, 0x0C, 0];

fn configuration(value: u32) -> u32 {
    value << 22
}

fn alternate(interface: u32, alternate: u32) -> u32 {
    1 << 30 | interface << 22 | alternate << 14
}

/// The bytes, or the refusal; what lies past the output, or all of it where refused, must be as it was. The list is of High
/// speed.
fn converted(to: Form, settings: &[u8], list: &[u32], room: usize) -> Result<Vec<u8>, u8> {
    converted_at(3, to, settings, list, room)
}

fn converted_at(speed: u8, to: Form, settings: &[u8], list: &[u32], room: usize) -> Result<Vec<u8>, u8> {
    let mut bytes = filled_bytes(room);
    let Reply { number, count } = match to {
        Form::New => Model.settings_to_new(settings, list, speed, &mut bytes),
        Form::Old => Model.settings_to_old(settings, list, speed, &mut bytes),
    };
    assert_eq!(bytes[count..], filled_bytes(room)[count..]);
    if number == 0 {
        return Ok(bytes[..count].to_vec());
    }
    assert_eq!(count, 0);
    Err(number)
}

fn to_new(settings: &[u8], list: &[u32]) -> Result<Vec<u8>, u8> {
    converted(Form::New, settings, list, 66)
}

fn to_old(settings: &[u8], list: &[u32]) -> Result<Vec<u8>, u8> {
    converted(Form::Old, settings, list, 66)
}

/// In either form, each for this alone.
fn refused(form: Form, settings: &[u8], list: &[u32], grounds: &[SettingsGround]) {
    let answer = converted(form.other(), settings, list, 66);
    let found = settings_grounds(form, settings, list);
    assert_eq!((answer, found), (Err(23), BTreeSet::from_iter(grounds.iter().copied())), "{settings:02x?}");
}

#[test]
fn the_worked_example() {
    assert_eq!(to_new(&OLD, &ONE), Ok(NEW.to_vec()));
    assert_eq!(to_old(&NEW, &ONE), Ok(OLD.to_vec()));
    let mut memory = filled_bytes(66);
    Model.settings_to_new(&OLD, &ONE, 3, &mut memory);
    assert_eq!(memory[6..8], [0xAB, 0xAC]);
    Model.settings_to_old(&NEW, &ONE, 3, &mut memory);
    assert_eq!((&memory[..4], &memory[4..8]), (&OLD[..], &[0x0C, 0, 0xAB, 0xAC][..]));
}

/// Each bit of value, count, interface and alternate by itself.
#[test]
fn each_bit_has_its_place() {
    for place in 0..8 {
        let value = 0x80 >> place;
        let list = [configuration(value)];
        assert_eq!(to_new(&[], &list), Ok(vec![value as u8, 0]));
        let interfaces = [configuration(0), alternate(value, 0)];
        let bits = 1_u32 << (31 - 14 - place);
        let [_, low, middle, high] = (1 << 26 >> 8 | bits).to_be_bytes();
        assert_eq!(to_new(&[value as u8, 0], &interfaces), Ok(vec![0, 4 | low & 3, middle, high]), "bit {place}");
        let alternates = [configuration(0), alternate(0, value)];
        let [third, fourth] = ((value as u16) << 2).to_be_bytes();
        assert_eq!(to_new(&[0, value as u8], &alternates), Ok(vec![0, 4, third, fourth]), "bit {place}");
    }
    for count in 0..=32 {
        let list: Vec<u32> = [configuration(0)].into_iter().chain((0..count).map(|i| alternate(i, 0))).collect();
        let old: Vec<u8> = (0..count as u8).flat_map(|interface| [interface, 0]).collect();
        let new = to_new(&old, &list).expect("the new form");
        assert_eq!((new.len(), u32::from(new[1] >> 2)), (old.len() + 2, count));
        assert_eq!(to_old(&new, &list), Ok(old));
    }
}

#[test]
fn no_pairs_are_settings() {
    assert_eq!(to_new(&[], &ONE), Ok(vec![1, 0]));
    assert_eq!(to_old(&[1, 0], &ONE), Ok(vec![]));
    refused(Form::Old, &[], &[], &[SettingsGround::NoConfiguration]);
    refused(Form::New, &[0, 0], &[], &[SettingsGround::NoConfiguration]);
    refused(Form::New, &[1, 0], &[], &[SettingsGround::NoConfiguration]);
}

#[test]
fn lengths_and_padding() {
    refused(Form::Old, &[0], &ONE, &[SettingsGround::OddLength]);
    refused(Form::Old, &[0, 1, 3], &ONE, &[SettingsGround::OddLength]);
    refused(Form::New, &[], &ONE, &[SettingsGround::TooShort]);
    refused(Form::New, &[1], &ONE, &[SettingsGround::TooShort]);
    for end in 2..6 {
        refused(Form::New, &NEW[..end], &ONE, &[SettingsGround::TooShort]);
    }
    for past in 1..=3 {
        refused(Form::New, &[&NEW[..], &vec![0; past]].concat(), &ONE, &[SettingsGround::BytesPast]);
    }
    refused(Form::New, &[1, 0, 0, 0], &ONE, &[SettingsGround::BytesPast]);
    for bit in 1..=3 {
        refused(Form::New, &[1, 8, 0, 4, 0x0C, bit], &ONE, &[SettingsGround::Padding]);
        refused(Form::New, &[1, bit], &ONE, &[SettingsGround::Padding]);
    }
    // A count that is not borne out.
    refused(Form::New, &[1, 12, 0, 4, 0x0C, 0], &ONE, &[SettingsGround::TooShort]);
    refused(Form::New, &[1, 4, 0, 4, 0, 0], &ONE, &[SettingsGround::BytesPast]);
}

#[test]
fn interfaces_rise() {
    refused(Form::Old, &[3, 0, 0, 1], &ONE, &[SettingsGround::Rising]);
    refused(Form::Old, &[0, 0, 0, 1], &ONE, &[SettingsGround::Rising]);
    refused(Form::Old, &[3, 0, 3, 0], &ONE, &[SettingsGround::Rising]);
    refused(Form::New, &[1, 8, 12, 0, 0, 4], &ONE, &[SettingsGround::Rising]);
    refused(Form::New, &[1, 8, 0, 0, 0, 4], &ONE, &[SettingsGround::Rising]);
}

#[test]
fn pairs_are_found() {
    refused(Form::Old, &[0, 2], &ONE, &[SettingsGround::NotFound]);
    refused(Form::Old, &[1, 0], &ONE, &[SettingsGround::NotFound]);
    refused(Form::Old, &[0, 1, 3, 1], &ONE, &[SettingsGround::NotFound]);
    refused(Form::New, &[1, 4, 0, 8], &ONE, &[SettingsGround::NotFound]);
    refused(Form::New, &[2, 0], &ONE, &[SettingsGround::NoConfiguration]);
    refused(Form::New, &[0, 0], &ONE, &[SettingsGround::NoConfiguration]);
}

/// 33 pairs rise and are all found in no list: one of them is there twice, or one is not found.
#[test]
fn there_are_at_most_32_pairs() {
    let list: Vec<u32> = [configuration(1)].into_iter().chain((0..32).map(|i| alternate(i, 0))).collect();
    let pairs = |interfaces: &[u8]| -> Vec<u8> { interfaces.iter().flat_map(|interface| [*interface, 0]).collect() };
    let rising: Vec<u8> = (0..33).collect();
    let twice: Vec<u8> = [0].into_iter().chain(0..32).collect();
    let new = |old: &[u8]| {
        let mut bytes = vec![1, 33 << 2];
        for byte in old {
            *bytes.last_mut().expect("a byte") |= byte >> 6;
            bytes.push(byte << 2);
        }
        bytes
    };
    for (interfaces, other) in [(rising, SettingsGround::NotFound), (twice, SettingsGround::Rising)] {
        let old = pairs(&interfaces);
        refused(Form::Old, &old, &list, &[SettingsGround::TooMany, other]);
        refused(Form::New, &new(&old), &list, &[SettingsGround::TooMany, other]);
        assert_eq!(to_new(&old[2..], &list).is_ok(), other == SettingsGround::Rising);
    }
}

/// "The named configuration, the first of that value in the list": not another one, nor a second of that value.
#[test]
fn the_configuration_that_is_meant() {
    let list = [
        configuration(5),
        alternate(0, 0),
        configuration(6),
        alternate(0, 0),
        alternate(1, 0),
        configuration(5),
        alternate(2, 0),
        configuration(6),
        alternate(3, 0),
    ];
    assert_eq!(to_new(&[0, 0], &list), Ok(vec![5, 4, 0, 0]));
    for interface in 1..=3 {
        refused(Form::Old, &[interface, 0], &list, &[SettingsGround::NotFound]);
        refused(Form::New, &[5, 4, interface << 2, 0], &list, &[SettingsGround::NotFound]);
    }
    assert_eq!(to_old(&[6, 4, 4, 0], &list), Err(24));
    assert_eq!(to_old(&[6, 8, 0, 0, 4, 0], &list), Err(24));
    assert_eq!(to_old(&[6, 0], &list), Err(24));
    for interface in 2..=3 {
        refused(Form::New, &[6, 4, interface << 2, 0], &list, &[SettingsGround::NotFound]);
    }
    // Which endpoints an alternate has does not matter, nor whether two share an address.
    let shared = [configuration(1), alternate(0, 0), 0xA384_0410, alternate(1, 0), 0xA384_0410];
    assert_eq!(to_new(&[0, 0, 1, 0], &shared), Ok(vec![1, 8, 0, 0, 4, 0]));
}

#[test]
fn the_order_of_the_refusals() {
    let (invalid, other) = ([alternate(0, 0)], [configuration(1), configuration(2)]);
    for room in [0, 2, 65] {
        for list in [&ONE[..], &invalid] {
            assert_eq!(converted(Form::New, &[1], list, room), Err(3));
            assert_eq!(converted(Form::Old, &[1], list, room), Err(3));
            assert_eq!(converted(Form::New, &OLD, list, room), Err(3));
        }
        assert_eq!(converted(Form::Old, &[2, 0], &other, room), Err(3));
    }
    assert_eq!((to_new(&[1], &invalid), to_old(&[1], &invalid)), (Err(4), Err(4)));
    assert_eq!((to_new(&[], &invalid), to_old(&[0, 0], &invalid)), (Err(4), Err(4)));
    assert_eq!(to_old(&[2, 1], &other), Err(23));
    assert_eq!(to_old(&[2, 4, 0, 0], &other), Err(23));
    assert_eq!(to_old(&[2, 0], &other), Err(24));
    assert_eq!(converted(Form::New, &OLD, &ONE, 100), Ok(NEW.to_vec()));
}

/// Item 11: 3, 6, 4, 26, 23. The list is judged at the speed.
#[test]
fn the_list_is_of_a_speed() {
    let with = |words: &[u32]| [&ONE[..2], words, &ONE[2..]].concat();
    let (endpoint, companion) = (0xA384_0410, 0xCC00_0800);
    let (plain, whole) = (with(&[endpoint]), with(&[endpoint, companion]));
    for (form, settings, written) in [(Form::New, &OLD[..], &NEW[..]), (Form::Old, &NEW, &OLD)] {
        for speed in 1..=5 {
            let is_super = speed > 3;
            let answer = |list: &[u32]| converted_at(speed, form, settings, list, 66);
            let accepted = Ok(written.to_vec());
            assert_eq!(answer(&plain), if is_super { Err(26) } else { accepted.clone() });
            assert_eq!(answer(&whole), if is_super { accepted.clone() } else { Err(4) });
            assert_eq!(answer(&ONE), accepted);
            // Behind 4, and before 23.
            assert_eq!(answer(&with(&[companion | 1, endpoint])), Err(4));
            assert_eq!(converted_at(speed, form, &[1], &plain, 66), Err(if is_super { 26 } else { 23 }));
        }
        for speed in [0, 6, 255] {
            assert_eq!(converted_at(speed, form, &[1], &[1], 66), Err(6));
            assert_eq!(converted_at(speed, form, settings, &ONE, 65), Err(3));
        }
    }
}
