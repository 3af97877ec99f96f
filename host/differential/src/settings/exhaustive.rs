//! Settings, lists and rooms that can be gone through whole.

use scenario::{Conversion, Form, SETTINGS_ROOM};

use crate::build::{BULK, alternate, at_speed, configuration, endpoint};
use crate::outside::{Pair, Tally};
use crate::settings::form;

pub fn run(pair: &Pair, tally: &mut Tally<Conversion>) {
    let mut ask = |question| pair.compare(tally, question);
    short(&mut ask);
    pairs(&mut ask);
    changed(&mut ask);
    limits(&mut ask);
    rooms(&mut ask);
    lists(&mut ask);
    speeds(&mut ask);
}

pub type Ask<'a> = &'a mut dyn FnMut(Conversion);

const FORMS: [Form; 2] = [Form::Old, Form::New];

/// Settings of a form, to be brought into the other one, by a list at High speed.
fn convert(ask: Ask, form: Form, settings: Vec<u8>, list: &[u32]) {
    convert_at(ask, 3, form, settings, list);
}

fn convert_at(ask: Ask, speed: u8, form: Form, settings: Vec<u8>, list: &[u32]) {
    ask(Conversion { to: form.other(), speed, list: list.to_vec(), settings, room: SETTINGS_ROOM });
}

/// Configurations 1, 2, and 1 again; interface 3 stands in the first only, 4 in the second, 5 in the third.
fn sample() -> Vec<u32> {
    let shared = [alternate(0, 0), alternate(0, 1)];
    [
        &[configuration(1)][..],
        &shared,
        &[alternate(3, 0), alternate(200, 64)],
        &[configuration(2)],
        &shared,
        &[alternate(4, 255), configuration(1), alternate(5, 0)],
    ]
    .concat()
}

/// As many interfaces as a list may have.
fn many() -> Vec<u32> {
    [configuration(7)].into_iter().chain((0..32).map(|interface| alternate(interface, 0))).collect()
}

/// Every string of at most two bytes, with a list and without.
fn short(ask: Ask) {
    for list in [sample(), Vec::new()] {
        for form in FORMS {
            convert(ask, form, Vec::new(), &list);
            for first in 0..=255 {
                convert(ask, form, vec![first], &list);
                for second in 0..=255 {
                    convert(ask, form, vec![first, second], &list);
                }
            }
        }
    }
}

/// Every pair, alone and behind another, of either value and of one that the list has not.
fn pairs(ask: Ask) {
    let list = sample();
    for interface in 0..=255 {
        for setting in 0..=255 {
            for value in 1..=3 {
                convert(ask, Form::New, form::new(value, &[interface, setting]), &list);
            }
            let two = [0, 1, interface, setting];
            convert(ask, Form::Old, two.to_vec(), &list);
            convert(ask, Form::New, form::new(1, &two), &list);
        }
    }
}

/// Every byte made every other, left out, doubled; every end; every two bits turned.
fn changed(ask: Ask) {
    let (list, old) = (sample(), [0, 1, 3, 0, 200, 64]);
    for (form, settings) in
        [(Form::Old, old.to_vec()), (Form::New, form::new(1, &old)), (Form::New, form::new(2, &old[..2]))]
    {
        let mut with = |change: &dyn Fn(&mut Vec<u8>)| {
            let mut settings = settings.clone();
            change(&mut settings);
            convert(ask, form, settings, &list);
        };
        for at in 0..settings.len() {
            for byte in 0..=255 {
                with(&|settings| settings[at] = byte);
                with(&|settings| settings.insert(at, byte));
            }
            with(&|settings| settings.truncate(at));
            with(&|settings| _ = settings.remove(at));
        }
        for byte in 0..=255 {
            with(&|settings| settings.push(byte));
            with(&|settings| settings.extend([byte, 0]));
            with(&|settings| settings.extend([0, byte]));
        }
        for one in 0..8 * settings.len() {
            for other in 0..one {
                with(&|settings| [one, other].iter().for_each(|bit| settings[bit / 8] ^= 0x80 >> (bit % 8)));
            }
        }
    }
}

/// Every number of pairs around the most, rising, with one twice, and with one that is not found; every count with every
/// length.
pub fn limits(ask: Ask) {
    let list = many();
    let of = |interfaces: &mut dyn Iterator<Item = u8>| -> Vec<u8> { interfaces.flat_map(|at| [at, 0]).collect() };
    for number in 0..=70 {
        let rising = of(&mut (0..number));
        let last_twice = of(&mut (0..number).map(|at| at.min(31)));
        let first_twice = of(&mut (0..number).map(|at| at.saturating_sub(1)));
        for old in [rising, last_twice, first_twice] {
            convert(ask, Form::Old, old.clone(), &list);
            convert(ask, Form::New, form::new(7, &old), &list);
            convert(ask, Form::Old, [&old[..], &[9]].concat(), &list);
        }
    }
    for count in 0..64 {
        for len in 0..=140 {
            let old = of(&mut (0..32));
            let mut settings = form::counted(7, count, &old[..old.len().min(2 * count)]);
            settings.resize(len, 0);
            convert(ask, Form::New, settings, &list);
        }
    }
}

/// Every room around what is asked for, with questions of every answer.
fn rooms(ask: Ask) {
    let invalid = vec![alternate(0, 0)];
    for room in (0..=200).chain([2304, 5000]) {
        for (form, settings, list) in [
            (Form::Old, vec![0, 1, 3, 0], sample()),
            (Form::Old, vec![0], sample()),
            (Form::Old, vec![], invalid.clone()),
            (Form::New, form::new(1, &[0, 1, 3, 0]), sample()),
            (Form::New, form::new(2, &[4, 255]), sample()),
            (Form::New, vec![1], sample()),
            (Form::New, vec![1, 0], invalid.clone()),
        ] {
            ask(Conversion { to: form.other(), speed: 3, list, settings, room });
        }
    }
}

/// Every bit of a list turned, every word of it left out, doubled, moved.
fn lists(ask: Ask) {
    let (list, old) = (sample(), [0, 1, 3, 0]);
    for (form, settings) in
        [(Form::Old, old.to_vec()), (Form::New, form::new(1, &old)), (Form::New, form::new(2, &[4, 255]))]
    {
        for at in 0..list.len() {
            let mut with = |change: &dyn Fn(&mut Vec<u32>)| {
                let mut list = list.clone();
                change(&mut list);
                convert(ask, form, settings.clone(), &list);
            };
            for bit in 0..32 {
                with(&|list| list[at] ^= 1 << bit);
            }
            for to in 0..list.len() {
                with(&|list| list.swap(at, to));
                with(&|list| list.insert(to, list[at]));
            }
            with(&|list| _ = list.remove(at));
            with(&|list| list.truncate(at));
        }
    }
}

/// Every speed, with lists that have companions and lists that have not, and at the SuperSpeeds every word of one left out,
/// doubled, moved, and every bit of it turned.
fn speeds(ask: Ask) {
    let mut plain = sample();
    plain.splice(2..2, [endpoint(0x81, BULK, 512, 1, 0), endpoint(0x02, BULK, 512, 1, 0)]);
    let (super_list, old) = (at_speed(4, &plain), [0, 1, 3, 0]);
    for (form, settings) in [(Form::Old, old.to_vec()), (Form::New, form::new(1, &old)), (Form::New, vec![1, 1])] {
        for speed in 0..=255 {
            for list in [&plain, &super_list, &sample(), &Vec::new()] {
                convert_at(ask, speed, form, settings.clone(), list);
            }
        }
        for (speed, at) in [4, 5].into_iter().flat_map(|speed| (0..super_list.len()).map(move |at| (speed, at))) {
            let mut with = |change: &dyn Fn(&mut Vec<u32>)| {
                let mut list = super_list.clone();
                change(&mut list);
                convert_at(ask, speed, form, settings.clone(), &list);
            };
            (0..32).for_each(|bit| with(&|list| list[at] ^= 1 << bit));
            for to in 0..super_list.len() {
                with(&|list| list.swap(at, to));
                with(&|list| list.insert(to, list[at]));
            }
            with(&|list| _ = list.remove(at));
            with(&|list| list.truncate(at));
        }
    }
}
