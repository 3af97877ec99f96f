//! Smaller conversions.

use scenario::{Conversion, SETTINGS_ROOM};

pub fn size(conversion: &Conversion) -> usize {
    let Conversion { list, settings, room, .. } = conversion;
    let bits: u32 = list.iter().map(|word| word.count_ones()).sum();
    let nonzero = settings.iter().filter(|byte| **byte != 0).count();
    33 * list.len() + bits as usize + 2 * settings.len() + nonzero + usize::from(*room != SETTINGS_ROOM)
}

pub fn smaller(conversion: &Conversion) -> Vec<Conversion> {
    let mut found = vec![Conversion { room: SETTINGS_ROOM, ..conversion.clone() }];
    let mut with = |change: &dyn Fn(&mut Conversion)| {
        let mut next = conversion.clone();
        change(&mut next);
        found.push(next);
    };
    with(&|next| next.settings.truncate(conversion.settings.len() / 2));
    for at in 0..conversion.settings.len() {
        with(&|next| _ = next.settings.drain(at..(at + 2).min(next.settings.len())));
        with(&|next| _ = next.settings.remove(at));
        with(&|next| next.settings[at] = 0);
    }
    with(&|next| next.list.truncate(conversion.list.len() / 2));
    for at in 0..conversion.list.len() {
        with(&|next| _ = next.list.remove(at));
        for bit in 0..32 {
            with(&|next| next.list[at] &= !(1 << bit));
        }
    }
    found
}
