//! Descriptor words and their lists (docs/FORMATS.md, "Descriptor word").

use std::collections::BTreeSet;

use crate::check::ask;

/// `width` bits after the `from` highest ones.
fn bits(word: u32, from: u32, width: u32) -> u32 {
    (word >> (32 - from - width)) & ((1 << width) - 1)
}

pub const ISOCHRONOUS: u32 = 1;
pub const BULK: u32 = 2;
pub const INTERRUPT: u32 = 3;

/// Speeds 4 and 5, SuperSpeed and SuperSpeedPlus.
pub fn is_super(speed: u8) -> bool {
    matches!(speed, 4 | 5)
}

/// "At speeds 4 and 5 only, each endpoint in the list gains a second word of kind 3."
#[derive(Clone, Copy)]
pub struct Companion {
    pub burst: u32,
    pub mult: u32,
    pub bytes_per_interval: u32,
}

#[derive(Clone, Copy)]
pub struct EndpointWord {
    /// As the list has it.
    pub word: u32,
    /// The one behind it, where an alternate's endpoints are looked up.
    pub companion: Option<Companion>,
    pub input: bool,
    pub number: u8,
    pub kind: u32,
    pub packet_size: u32,
    pub packets: u32,
    pub interval: u8,
}

impl EndpointWord {
    pub fn address(&self) -> u8 {
        u8::from(self.input) << 7 | self.number
    }

    pub fn dci(&self) -> u8 {
        dci(self.address())
    }

    pub fn periodic(&self) -> bool {
        self.kind != BULK
    }

    /// "Mult 2 (0 to 2 if isochronous, else 0)."
    pub fn most_mult(&self) -> u32 {
        if self.kind == ISOCHRONOUS { 2 } else { 0 }
    }
}

/// Of an endpoint address.
pub fn dci(address: u8) -> u8 {
    2 * (address & 15) + (address >> 7)
}

pub enum Word {
    Configuration(u8),
    Alternate(u8, u8),
    Endpoint(EndpointWord),
    Companion(Companion),
}

/// None where no list may have the word, at whichever speed.
pub fn word(word: u32) -> Option<Word> {
    let (read, used) = match bits(word, 0, 2) {
        0 => (Word::Configuration(bits(word, 2, 8) as u8), 10),
        1 => (Word::Alternate(bits(word, 2, 8) as u8, bits(word, 10, 8) as u8), 18),
        2 => {
            let endpoint = EndpointWord {
                word,
                companion: None,
                input: bits(word, 2, 1) == 1,
                number: bits(word, 3, 4) as u8,
                kind: bits(word, 7, 2),
                packet_size: bits(word, 9, 11),
                packets: bits(word, 20, 2),
                interval: bits(word, 22, 8) as u8,
            };
            if endpoint.number == 0 || endpoint.kind == 0 {
                return None;
            }
            (Word::Endpoint(endpoint), 30)
        }
        _ => {
            let companion =
                Companion { burst: bits(word, 2, 4), mult: bits(word, 6, 2), bytes_per_interval: bits(word, 8, 16) };
            (Word::Companion(companion), 24)
        }
    };
    (bits(word, used, 32 - used) == 0).then_some(read)
}

/// 01's rules over the whole list, docs/FORMATS.md, "Descriptor list". Words of kind 3 are passed over at speeds 4 and 5,
/// but count among the 256; at the other speeds no list has one.
fn rules_hold(list: &[u32], speed: u8) -> bool {
    let mut configurations = 0;
    let mut interfaces = Vec::new();
    let mut endpoints = None;
    for &w in list {
        match word(w) {
            None => return false,
            Some(Word::Configuration(_)) => {
                configurations += 1;
                endpoints = None;
            }
            Some(Word::Alternate(interface, _)) => {
                if !interfaces.contains(&interface) {
                    interfaces.push(interface);
                }
                endpoints = Some(0);
            }
            Some(Word::Endpoint(_)) => match &mut endpoints {
                None => return false,
                Some(count) => *count += 1,
            },
            Some(Word::Companion(_)) if is_super(speed) => {}
            Some(Word::Companion(_)) => return false,
        }
        if configurations == 0 || endpoints > Some(30) {
            return false;
        }
    }
    list.len() <= 256 && configurations <= 8 && interfaces.len() <= 32
}

/// "26, companion missing, misplaced or out of range."
#[derive(Clone, Copy, Debug, PartialEq, Eq, PartialOrd, Ord)]
pub enum CompanionGround {
    /// An endpoint word with no word of kind 3 directly behind it.
    Missing,
    /// A word of kind 3 that is not directly behind an endpoint word.
    Misplaced,
    /// A mult above 2 behind an isochronous endpoint word.
    HighMult,
    /// A mult that is not 0 behind another endpoint word.
    OtherMult,
    /// "A raw burst above 15 is out of range."
    RawBurst,
}

impl CompanionGround {
    pub const ALL: [CompanionGround; 5] = [
        CompanionGround::Missing,
        CompanionGround::Misplaced,
        CompanionGround::HighMult,
        CompanionGround::OtherMult,
        CompanionGround::RawBurst,
    ];
}

/// Every ground of 26 in a list that keeps 01's rules, at speed 4 or 5.
pub fn companion_grounds(list: &[u32]) -> BTreeSet<CompanionGround> {
    let mut found = BTreeSet::new();
    // The endpoint word for which a companion is due.
    let mut due: Option<EndpointWord> = None;
    for &w in list {
        match (due.take(), word(w)) {
            (Some(endpoint), Some(Word::Companion(companion))) if companion.mult > endpoint.most_mult() => {
                let isochronous = endpoint.kind == ISOCHRONOUS;
                found.insert(if isochronous { CompanionGround::HighMult } else { CompanionGround::OtherMult });
            }
            (None, Some(Word::Companion(_))) => _ = found.insert(CompanionGround::Misplaced),
            (Some(_), Some(Word::Companion(_))) => {}
            (missing, other) => {
                if missing.is_some() {
                    found.insert(CompanionGround::Missing);
                }
                if let Some(Word::Endpoint(endpoint)) = other {
                    due = Some(endpoint);
                }
            }
        }
    }
    if due.is_some() {
        found.insert(CompanionGround::Missing);
    }
    found
}

/// Whether a list is valid at a speed of 1 to 5: 4, and "26 directly after 4; such a list isn't valid".
pub fn valid(list: &[u32], speed: u8) -> Result<(), u8> {
    ask(rules_hold(list, speed), 4)?;
    ask(!is_super(speed) || companion_grounds(list).is_empty(), 26)
}

/// Of a valid list: the first alternate with these numbers, in whichever configuration.
pub fn lookup(list: &[u32], interface: u8, alternate: u8) -> Option<Vec<EndpointWord>> {
    let sought = |w: &u32| matches!(word(*w), Some(Word::Alternate(i, a)) if (i, a) == (interface, alternate));
    let at = list.iter().position(sought)?;
    Some(endpoints_from(&list[at + 1..]))
}

/// The endpoint words that words begin with, each with the companion behind it.
pub fn endpoints_from(words: &[u32]) -> Vec<EndpointWord> {
    let mut found: Vec<EndpointWord> = Vec::new();
    for &w in words {
        match word(w) {
            Some(Word::Endpoint(endpoint)) => found.push(endpoint),
            Some(Word::Companion(companion)) => {
                if let Some(endpoint) = found.last_mut() {
                    endpoint.companion = Some(companion);
                }
            }
            _ => break,
        }
    }
    found
}

/// The values of the configurations, and the words of each.
pub fn configurations(list: &[u32]) -> Vec<(u8, Vec<u32>)> {
    let mut found: Vec<(u8, Vec<u32>)> = Vec::new();
    for &w in list {
        if let Some(Word::Configuration(value)) = word(w) {
            found.push((value, Vec::new()));
        }
        if let Some((_, words)) = found.last_mut() {
            words.push(w);
        }
    }
    found
}
