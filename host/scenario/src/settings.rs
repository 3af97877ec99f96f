//! The kinds `tonew` and `toold`: held settings as the maker's boards store them, and in the new form.

use std::fmt::Write;

use crate::case::{Functions, Kind, Reply, explain_reply, room};
use crate::companion::words_fault;
use crate::descriptors::explain_words;
use crate::memory::filled_bytes;
use crate::value::{Parsed, Words};
use crate::{print, value};

/// What memory must have room for, in both directions.
pub const SETTINGS_ROOM: usize = 66;

/// The most pairs.
const MOST_PAIRS: usize = 32;

#[derive(Clone, Copy, Debug, PartialEq, Eq, PartialOrd, Ord)]
pub enum Form {
    Old,
    New,
}

impl Form {
    pub fn other(self) -> Form {
        match self {
            Form::Old => Form::New,
            Form::New => Form::Old,
        }
    }

    fn name(self) -> &'static str {
        match self {
            Form::Old => "old",
            Form::New => "new",
        }
    }
}

/// Settings, to be brought into the other form.
#[derive(Clone, Debug, PartialEq, Eq)]
pub struct Conversion {
    pub to: Form,
    pub speed: u8,
    pub list: Vec<u32>,
    pub settings: Vec<u8>,
    pub room: usize,
}

impl Conversion {
    pub const TO_NEW: &'static str = "tonew";
    pub const TO_OLD: &'static str = "toold";

    pub fn to(to: Form) -> Conversion {
        Conversion { to, speed: 0, list: Vec::new(), settings: Vec::new(), room: SETTINGS_ROOM }
    }

    /// The reply and the memory.
    pub fn ask(&self, functions: &dyn Functions) -> (Reply, Vec<u8>) {
        let mut bytes = filled_bytes(self.room);
        let reply = match self.to {
            Form::New => functions.settings_to_new(&self.settings, &self.list, self.speed, &mut bytes),
            Form::Old => functions.settings_to_old(&self.settings, &self.list, self.speed, &mut bytes),
        };
        (reply, bytes)
    }
}

/// Settings as they were read from either form, as far as there are bytes for them.
struct Settings {
    /// The configuration that the pairs are of, and their number, as the new form says them.
    value: Option<u8>,
    count: Option<usize>,
    pairs: Vec<(u8, u8)>,
}

impl Settings {
    fn of(form: Form, bytes: &[u8]) -> Settings {
        match form {
            Form::Old => Settings {
                value: None,
                count: None,
                pairs: bytes.chunks_exact(2).map(|pair| (pair[0], pair[1])).collect(),
            },
            Form::New => {
                // Six bits of the count stand before the first pair, so each byte of a pair lies across two.
                let across = |at: usize| Some(bytes.get(at)? << 6 | bytes.get(at + 1)? >> 2);
                let count = bytes.get(1).map(|byte| usize::from(byte >> 2));
                let pair = |place: usize| Some((across(2 * place + 1)?, across(2 * place + 2)?));
                let pairs = (0..count.unwrap_or(0)).map_while(pair).collect();
                Settings { value: bytes.first().copied(), count, pairs }
            }
        }
    }
}

/// The configuration that settings of a form are of, with its words: in the old one the first, else the first of the value.
pub fn configuration(list: &[u32], value: Option<u8>) -> Option<&[u32]> {
    let is_it = |word: &u32| word >> 30 == 0 && value.is_none_or(|value| word >> 22 == u32::from(value));
    let from = &list[list.iter().position(is_it)?..];
    let end = from.iter().skip(1).position(|word| word >> 30 == 0).map_or(from.len(), |behind| behind + 1);
    Some(&from[..end])
}

/// What is wrong with the length of bytes, or with what stands past the last pair.
fn form_fault(form: Form, bytes: &[u8], settings: &Settings) -> Option<String> {
    let len = bytes.len();
    match (form, settings.count) {
        (Form::Old, _) => (!len.is_multiple_of(2)).then(|| format!("bytes: {len}, an odd number")),
        (Form::New, None) => Some(format!("bytes: {len}, and value and count take 2")),
        (Form::New, Some(count)) if len != 2 * count + 2 => {
            Some(format!("bytes: {len}, and a count of {count} takes {}", 2 * count + 2))
        }
        (Form::New, Some(_)) => (bytes[len - 1] & 3 != 0).then(|| "the bits past the last pair are not 0".to_string()),
    }
}

/// What is wrong with a pair behind others, of a configuration.
fn pair_fault(configuration: &[u32], before: &[(u8, u8)], (interface, alternate): (u8, u8)) -> Option<String> {
    let word = 1 << 30 | u32::from(interface) << 22 | u32::from(alternate) << 14;
    match before.last() {
        Some((last, _)) if interface <= *last => Some(format!("interface {interface} behind interface {last}")),
        _ if !configuration.contains(&word) => {
            let value = configuration[0] >> 22;
            Some(format!("configuration {value} has no interface {interface}, alternate {alternate}"))
        }
        _ => None,
    }
}

/// The first ground on which settings are malformed or not found (23).
pub fn settings_fault(form: Form, bytes: &[u8], list: &[u32]) -> Option<String> {
    let settings = Settings::of(form, bytes);
    let pairs = &settings.pairs;
    if let Some(fault) = form_fault(form, bytes, &settings) {
        return Some(fault);
    }
    if pairs.len() > MOST_PAIRS {
        return Some(format!("pairs: {}, and {MOST_PAIRS} are allowed", pairs.len()));
    }
    let Some(words) = configuration(list, settings.value) else {
        let value = settings.value.map_or(String::new(), |value| format!(" {value}"));
        return Some(format!("the list has no configuration{value}"));
    };
    let fault = |place: usize| pair_fault(words, &pairs[..place], pairs[place]);
    (0..pairs.len()).find_map(|place| Some(format!("pair {}: {}", place + 1, fault(place)?)))
}

/// Settings for people: value and count of the new form, and the pairs.
fn explain_settings(out: &mut String, form: Form, bytes: &[u8]) {
    let settings = Settings::of(form, bytes);
    print::bytes(out, &format!("  {} settings", form.name()), bytes);
    if let Some(value) = settings.value {
        let count = settings.count.map_or(String::new(), |count| format!(", pairs {count}"));
        let _ = writeln!(out, "    configuration {value}{count}");
    }
    for (interface, alternate) in settings.pairs {
        let _ = writeln!(out, "      interface {interface}, alternate {alternate}");
    }
}

impl Kind for Conversion {
    fn name(&self) -> &'static str {
        match self.to {
            Form::New => Conversion::TO_NEW,
            Form::Old => Conversion::TO_OLD,
        }
    }

    fn key(&mut self, key: &str, words: &mut Words) -> Parsed<bool> {
        match key {
            "speed" => self.speed = value::number(words)?,
            "list" => self.list = value::list(words, value::hex32)?,
            "settings" => self.settings = value::bytes(words)?,
            "room" => self.room = value::length(words)?,
            _ => return Ok(false),
        }
        Ok(true)
    }

    fn keys(&self, out: &mut String) {
        let _ = writeln!(out, "speed {}", self.speed);
        print::words(out, "list", &self.list);
        print::bytes(out, "settings", &self.settings);
        room(out, self.room, SETTINGS_ROOM);
    }

    fn number(&self, functions: &dyn Functions) -> u8 {
        self.ask(functions).0.number
    }

    fn run(&self, functions: &dyn Functions, out: &mut String) {
        let (Reply { number, count }, bytes) = self.ask(functions);
        let _ = writeln!(out, "answer {number} {count}");
        print::bytes(out, "bytes", &bytes);
    }

    fn explain(&self, functions: &dyn Functions, out: &mut String) {
        let (replied, bytes) = self.ask(functions);
        let from = self.to.other();
        let Conversion { to, speed, room, .. } = self;
        let _ = writeln!(out, "{} settings to {} ones at speed {speed}, room for {room}", from.name(), to.name());
        explain_words(out, &self.list);
        explain_settings(out, from, &self.settings);
        explain_reply(out, replied, "bytes");
        match replied.number {
            0 => explain_settings(out, self.to, &bytes[..replied.count]),
            23 => {
                let fault = settings_fault(from, &self.settings, &self.list);
                let _ = writeln!(out, "    {}", fault.unwrap_or_default());
            }
            26 => _ = writeln!(out, "    {}", words_fault(&self.list).unwrap_or_default()),
            _ => {}
        }
    }
}
