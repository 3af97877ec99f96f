//! Item 8 of 02: held settings of old boards in the new form, and back. Errors are 01's and 02's numbers.

use std::collections::BTreeSet;

use scenario::Form;

use crate::check::ask;
use crate::list::{Word, configurations, valid, word};

/// "The target has 66 bytes or more, else 3, which comes first."
const ROOM: usize = 66;

/// "There are at most 32 pairs."
const MOST_PAIRS: usize = 32;

/// "Configuration value 8 and count 6 bits, then pairs of 8 and 8."
const VALUE: usize = 8;
const COUNT: usize = 6;
const PAIR: usize = 16;

type Pair = (u8, u8);

/// Why settings are malformed or not found.
#[derive(Clone, Copy, Debug, PartialEq, Eq, PartialOrd, Ord)]
pub enum SettingsGround {
    /// "An odd old length."
    OddLength,
    /// Fewer bytes than the value, the count and its pairs take.
    TooShort,
    /// "Bytes past the last pair."
    BytesPast,
    /// "Nonzero padding."
    Padding,
    /// "There are at most 32 pairs." As a list has at most 32 interfaces, no 33 pairs rise and are all found: this ground
    /// never stands alone.
    TooMany,
    /// "Interfaces that don't rise."
    Rising,
    /// "A configuration absent from the list included, and any settings with an empty list."
    NoConfiguration,
    /// "Each pair must be found in the named configuration, the first of that value in the list."
    NotFound,
}

impl SettingsGround {
    pub const ALL: [SettingsGround; 8] = [
        SettingsGround::OddLength,
        SettingsGround::TooShort,
        SettingsGround::BytesPast,
        SettingsGround::Padding,
        SettingsGround::TooMany,
        SettingsGround::Rising,
        SettingsGround::NoConfiguration,
        SettingsGround::NotFound,
    ];
}

/// "Most significant first."
fn bits_of(number: usize, width: usize) -> Vec<bool> {
    (0..width).rev().map(|place| number >> place & 1 == 1).collect()
}

fn number_of(bits: &[bool]) -> usize {
    bits.iter().fold(0, |number, bit| 2 * number + usize::from(*bit))
}

/// The next so many bits. None: there are fewer.
fn take(bits: &mut &[bool], width: usize) -> Option<usize> {
    let (taken, rest) = bits.split_at_checked(width)?;
    *bits = rest;
    Some(number_of(taken))
}

/// "Padded with zeros to a byte."
fn padded(mut bits: Vec<bool>) -> Vec<u8> {
    bits.resize(bits.len().next_multiple_of(8), false);
    bits.chunks(8).map(|byte| number_of(byte) as u8).collect()
}

fn new_form(value: u8, pairs: &[Pair]) -> Vec<u8> {
    let numbers = pairs.iter().flat_map(|(interface, alternate)| [*interface, *alternate]);
    let fields = [(value.into(), VALUE), (pairs.len(), COUNT)];
    let fields = fields.into_iter().chain(numbers.map(|number| (number.into(), 8)));
    padded(fields.flat_map(|(number, width)| bits_of(number, width)).collect())
}

fn old_form(pairs: &[Pair]) -> Vec<u8> {
    pairs.iter().flat_map(|(interface, alternate)| [*interface, *alternate]).collect()
}

/// What bytes hold: the pairs that are there whole, and what is wrong with the bytes whatever the list.
#[derive(Default)]
struct Held {
    /// In the new form, where there is a byte for it.
    value: Option<u8>,
    pairs: Vec<Pair>,
    grounds: BTreeSet<SettingsGround>,
}

fn from_old(bytes: &[u8]) -> Held {
    let pairs = bytes.chunks_exact(2).map(|pair| (pair[0], pair[1])).collect();
    let odd = (!bytes.len().is_multiple_of(2)).then_some(SettingsGround::OddLength);
    Held { value: None, pairs, grounds: odd.into_iter().collect() }
}

fn from_new(bytes: &[u8]) -> Held {
    let all: Vec<bool> = bytes.iter().flat_map(|byte| bits_of((*byte).into(), 8)).collect();
    let mut bits = &all[..];
    let mut held = Held { value: take(&mut bits, VALUE).map(|value| value as u8), ..Held::default() };
    let Some(count) = take(&mut bits, COUNT) else {
        held.grounds.insert(SettingsGround::TooShort);
        return held;
    };
    for _ in 0..count {
        match take(&mut bits, PAIR) {
            Some(pair) => held.pairs.push(((pair >> 8) as u8, pair as u8)),
            None => {
                held.grounds.insert(SettingsGround::TooShort);
                return held;
            }
        }
    }
    // What is left of the last pair's byte, and then whole bytes.
    let (padding, past) = bits.split_at(bits.len() % 8);
    if padding.contains(&true) {
        held.grounds.insert(SettingsGround::Padding);
    }
    if !past.is_empty() {
        held.grounds.insert(SettingsGround::BytesPast);
    }
    held
}

fn held(form: Form, bytes: &[u8]) -> Held {
    match form {
        Form::Old => from_old(bytes),
        Form::New => from_new(bytes),
    }
}

/// "The old ones always mean the first configuration"; of a valid list.
fn first_value(list: &[u32]) -> Option<u8> {
    Some(configurations(list).first()?.0)
}

/// "The first of that value in the list": its alternates.
fn alternates_of(list: &[u32], value: u8) -> Option<Vec<Pair>> {
    let (_, words) = configurations(list).into_iter().find(|(of, _)| *of == value)?;
    let alternate = |w: &u32| match word(*w) {
        Some(Word::Alternate(interface, alternate)) => Some((interface, alternate)),
        _ => None,
    };
    Some(words.iter().filter_map(alternate).collect())
}

/// Everything for which settings of a form are malformed or not found in a valid list. Where a configuration is absent
/// no pair is sought.
pub fn settings_grounds(form: Form, bytes: &[u8], list: &[u32]) -> BTreeSet<SettingsGround> {
    let Held { value, pairs, mut grounds } = held(form, bytes);
    if pairs.len() > MOST_PAIRS {
        grounds.insert(SettingsGround::TooMany);
    }
    if pairs.windows(2).any(|two| two[0].0 >= two[1].0) {
        grounds.insert(SettingsGround::Rising);
    }
    // A new form without a byte names no configuration; nothing else is wrong with it.
    let named = if form == Form::Old { first_value(list) } else { value };
    match named.map(|value| alternates_of(list, value)) {
        None if form == Form::New => {}
        None | Some(None) => _ = grounds.insert(SettingsGround::NoConfiguration),
        Some(Some(alternates)) if pairs.iter().any(|pair| !alternates.contains(pair)) => {
            grounds.insert(SettingsGround::NotFound);
        }
        Some(Some(_)) => {}
    }
    grounds
}

/// 3; "conversions now take the speed; one outside 1 to 5 gives 6, directly after 3"; 4 and 26.
fn checked(list: &[u32], speed: u8, room: usize) -> Result<(), u8> {
    ask(room >= ROOM, 3)?;
    ask((1..=5).contains(&speed), 6)?;
    valid(list, speed)
}

/// "Convert old to new": 3, 6, 4, 26, 23.
pub fn to_new(settings: &[u8], list: &[u32], speed: u8, room: usize) -> Result<Vec<u8>, u8> {
    checked(list, speed, room)?;
    ask(settings_grounds(Form::Old, settings, list).is_empty(), 23)?;
    Ok(new_form(first_value(list).ok_or(23u8)?, &from_old(settings).pairs))
}

/// "And back": 3, 6, 4, 26, 23; "24, a well-formed new form with another configuration going back, after 23".
pub fn to_old(settings: &[u8], list: &[u32], speed: u8, room: usize) -> Result<Vec<u8>, u8> {
    checked(list, speed, room)?;
    ask(settings_grounds(Form::New, settings, list).is_empty(), 23)?;
    let Held { value, pairs, .. } = from_new(settings);
    ask(value == first_value(list), 24)?;
    Ok(old_form(&pairs))
}
