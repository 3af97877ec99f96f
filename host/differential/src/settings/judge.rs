//! Conversions as questions, and how they are judged.

use std::collections::BTreeSet;

use model::{SettingsGround, settings_grounds};
use scenario::{Conversion, Form, Functions, Kind, Reply, SETTINGS_ROOM};

use crate::outside::{Judged, Pair, Question};
use crate::refusal::list_fault;
use crate::settings::shrink;

impl Question for Conversion {
    type Ground = SettingsGround;

    const TITLE: &'static str = "settings of old boards";
    const ANSWERS: &'static [(&'static str, &'static [u8])] =
        &[(Conversion::TO_NEW, &[0, 3, 4, 6, 23, 26]), (Conversion::TO_OLD, &[0, 3, 4, 6, 23, 24, 26])];
    const GROUNDS: &'static [SettingsGround] = &SettingsGround::ALL;
    const GROUNDS_OF: &'static str = "23";

    /// 33 pairs do not rise, or one of them is not found.
    fn fewest(ground: SettingsGround) -> usize {
        if ground == SettingsGround::TooMany { 2 } else { 1 }
    }

    fn name(&self) -> &'static str {
        Kind::name(self)
    }

    fn kind(&self) -> Box<dyn Kind> {
        Box::new(self.clone())
    }

    fn size(&self) -> usize {
        shrink::size(self)
    }

    fn smaller(&self) -> Vec<Conversion> {
        shrink::smaller(self)
    }

    fn judge(&self, pair: &Pair) -> Judged<SettingsGround> {
        let (reply, bytes) = self.ask(&*pair.subject);
        let (expected_reply, expected) = self.ask(&*pair.reference);
        let grounds = grounds(self);
        let returned = reply.number == 0 && is_back(self, &*pair.subject, &bytes[..reply.count]);
        let fault = if (reply, bytes) != (expected_reply, expected) {
            Some("the layers")
        } else if reply.number != refusal(self, &grounds) {
            Some("the refusal")
        } else if reply.number == 0 && !returned {
            Some("settings there and back")
        } else {
            None
        };
        Judged { number: reply.number, grounds, returned, fault }
    }
}

/// Those that are judged: of settings with enough room, a speed and a valid list.
fn grounds(conversion: &Conversion) -> BTreeSet<SettingsGround> {
    let Conversion { to, speed, list, settings, room } = conversion;
    if *room < SETTINGS_ROOM || !(1..=5).contains(speed) || list_fault(list, *speed).is_some() {
        return BTreeSet::new();
    }
    settings_grounds(to.other(), settings, list)
}

/// Whether the subject brings an output back.
fn is_back(conversion: &Conversion, subject: &dyn Functions, output: &[u8]) -> bool {
    let back = Conversion {
        to: conversion.to.other(),
        speed: conversion.speed,
        list: conversion.list.clone(),
        settings: output.to_vec(),
        room: SETTINGS_ROOM,
    };
    let (Reply { number, count }, bytes) = back.ask(subject);
    number == 0 && bytes[..count] == *conversion.settings
}

/// What must be answered, read from 01 and 02 once more, but for the grounds.
fn refusal(conversion: &Conversion, grounds: &BTreeSet<SettingsGround>) -> u8 {
    let Conversion { to, speed, list, settings, room } = conversion;
    let is_other = || settings.first().zip(list.first()).is_none_or(|(byte, word)| word >> 22 != u32::from(*byte));
    if *room < SETTINGS_ROOM {
        3
    } else if !(1..=5).contains(speed) {
        6
    } else if let Some(number) = list_fault(list, *speed) {
        number
    } else if !grounds.is_empty() {
        23
    } else if *to == Form::Old && is_other() {
        24
    } else {
        0
    }
}
