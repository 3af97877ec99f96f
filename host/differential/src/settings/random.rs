//! Random settings: most of them built from what a list has, and then damaged.

use scenario::{Conversion, Form, SETTINGS_ROOM};

use crate::build::{BULK, alternate, configuration, endpoint};
use crate::outside::{Pair, Tally};
use crate::random::{broken_list, companied};
use crate::rng::Rng;
use crate::settings::form::{self, configurations};

pub fn run(pair: &Pair, tally: &mut Tally<Conversion>, seed: u64, cases: u64) {
    let mut rng = Rng::new(seed);
    for _ in 0..cases {
        let to = rng.of(&[Form::Old, Form::New]);
        let speed = speed(&mut rng);
        let list = if rng.percent(3) { broken_list(&mut rng, speed) } else { list(&mut rng, speed) };
        let mut settings = settings(&mut rng, to.other(), &list);
        if rng.percent(50) {
            damage(&mut rng, to.other(), &mut settings);
        }
        pair.compare(tally, Conversion { to, speed, list, settings, room: room(&mut rng) });
    }
}

/// Now and then too small, or more than is asked for.
fn room(rng: &mut Rng) -> usize {
    match rng.below(100) {
        0 => rng.index(SETTINGS_ROOM),
        1 => SETTINGS_ROOM + rng.index(100),
        _ => SETTINGS_ROOM,
    }
}

/// Now and then one that there is not.
pub fn speed(rng: &mut Rng) -> u8 {
    if rng.percent(98) { 1 + rng.below(5) as u8 } else { rng.of(&[0, 6, 7, 255]) }
}

/// Configurations of values and alternates that repeat.
fn list(rng: &mut Rng, speed: u8) -> Vec<u32> {
    let mut list = Vec::new();
    let many = rng.percent(5);
    for _ in 0..rng.of(&[0, 1, 1, 2, 2, 2, 3, 8]) {
        list.push(configuration(rng.of(&[1, 1, 2, 2, 3, 255])));
        for at in 0..if many { rng.of(&[30, 32]) } else { rng.below(6) } {
            let interface = if many { at as u8 } else { rng.of(&[0, 1, 2, 3, 64, 200, 255]) };
            list.push(alternate(interface, rng.of(&[0, 0, 1, 3, 64, 255])));
            if !many && rng.percent(20) {
                list.push(endpoint(rng.of(&[0x81, 0x01, 0x8F]), BULK, 512, 1, 0));
            }
        }
    }
    list.truncate(256);
    companied(rng, speed, list)
}

/// Settings of a configuration of the list, now and then of one that it has not.
fn settings(rng: &mut Rng, form: Form, list: &[u32]) -> Vec<u8> {
    let found = configurations(list);
    let place = if form == Form::Old || rng.percent(50) { 0 } else { rng.index(found.len().max(1)) };
    let (value, alternates) = found.into_iter().nth(place).unwrap_or((rng.byte(), Vec::new()));
    let pairs = form::old(&chosen(rng, alternates));
    match form {
        Form::Old => pairs,
        Form::New => form::new(value, &pairs),
    }
}

/// Some alternates, one of an interface, by rising interface.
fn chosen(rng: &mut Rng, mut alternates: Vec<(u8, u8)>) -> Vec<(u8, u8)> {
    let share = rng.of(&[0, 50, 80, 100]);
    alternates.retain(|_| rng.percent(share));
    alternates.sort_by_key(|pair| pair.0);
    alternates.dedup_by_key(|pair| pair.0);
    alternates
}

/// Makes a byte another, if there is one at that place.
fn change(settings: &mut [u8], at: usize, to: impl FnOnce(u8) -> u8) {
    if let Some(byte) = settings.get_mut(at) {
        *byte = to(*byte);
    }
}

fn damage(rng: &mut Rng, form: Form, settings: &mut Vec<u8>) {
    let last = settings.len().wrapping_sub(1);
    match rng.below(10) {
        0 => *settings = (0..rng.below(8)).map(|_| rng.of(&[0, 1, 2, 3, 4, 8, 12, 64, 200, 255])).collect(),
        1 => settings.push(if rng.percent(50) { 0 } else { rng.byte() }),
        2 => _ = settings.pop(),
        3 if !settings.is_empty() => {
            let at = rng.index(settings.len());
            change(settings, at, |byte| byte ^ 1 << rng.below(8));
        }
        4 if form == Form::New => change(settings, last, |byte| byte | rng.of(&[1, 2, 3])),
        5 if form == Form::New => change(settings, 0, |_| rng.of(&[1, 2, 3, 4, 255])),
        6 if form == Form::New => {
            let more = rng.of(&[4, 4, 8, 252, 248, 0x80]);
            change(settings, 1, |count| count.wrapping_add(more));
        }
        _ => moved(rng, form, settings),
    }
}

/// A pair doubled, moved, made another, or put behind; or as many as there can be.
fn moved(rng: &mut Rng, form: Form, settings: &mut Vec<u8>) {
    let (value, mut pairs) = match form {
        Form::Old => (0, settings.chunks_exact(2).map(|pair| [pair[0], pair[1]]).collect::<Vec<_>>()),
        Form::New => (settings.first().copied().unwrap_or(1), across(settings)),
    };
    let (from, to) = (rng.index(pairs.len().max(1)), rng.index(pairs.len().max(1)));
    match rng.below(5) {
        0 if !pairs.is_empty() => pairs.insert(to, pairs[from]),
        1 if !pairs.is_empty() => pairs.swap(from, to),
        2 if !pairs.is_empty() => pairs[from][1] = rng.of(&[0, 1, 2, 3, 64, 255]),
        3 if !pairs.is_empty() => {
            while pairs.len() < rng.of(&[32, 33, 33, 40, 63]) {
                pairs.insert(from, pairs[from]);
            }
        }
        _ => pairs.push([rng.of(&[4, 201, 255, 255]), rng.of(&[0, 0, 1])]),
    }
    let old = pairs.concat();
    *settings = if form == Form::Old { old } else { form::new(value, &old) };
}

/// The pairs of a new form.
fn across(settings: &[u8]) -> Vec<[u8; 2]> {
    let byte = |at: usize| settings[at] << 6 | settings[at + 1] >> 2;
    (0..settings.len().saturating_sub(2) / 2).map(|place| [byte(2 * place + 1), byte(2 * place + 2)]).collect()
}
