//! Items 2 and 11 of 02: raw configuration descriptors (USB 2.0 section 9.6; the companion: USB 3.2 section 9.6) to 01's
//! words, and back. Errors are 01's and 02's numbers.

use std::collections::BTreeSet;

use crate::check::ask;
use crate::list::{
    Companion, CompanionGround, EndpointWord, ISOCHRONOUS, Word, companion_grounds, is_super, valid, word,
};

const CONFIGURATION: u8 = 2;
const INTERFACE: u8 = 4;
const ENDPOINT: u8 = 5;
const COMPANION: u8 = 48;

/// "The writer's buffer has 2,304 bytes or more and the reader's 256 words or more, else 3, which comes first."
const WORDS_ROOM: usize = 256;
const BYTES_ROOM: usize = 2304;

/// Why bytes are malformed.
#[derive(Clone, Copy, Debug, PartialEq, Eq, PartialOrd, Ord)]
pub enum Ground {
    /// "A length below its type's size (2 for other types) or past the end."
    Length,
    /// "A total length that doesn't end at the next configuration descriptor or the end."
    TotalLength,
    /// "A count (distinct interfaces) that the bytes don't bear out."
    InterfaceCount,
    /// "A count (endpoints) that the bytes don't bear out."
    EndpointCount,
    /// "Bits 12 and 11 of the packet size field: their value 3 is malformed."
    Packets,
}

impl Ground {
    pub const ALL: [Ground; 5] =
        [Ground::Length, Ground::TotalLength, Ground::InterfaceCount, Ground::EndpointCount, Ground::Packets];
}

#[derive(Clone, Copy)]
struct Descriptor<'a> {
    offset: usize,
    bytes: &'a [u8],
}

impl Descriptor<'_> {
    fn kind(&self) -> u8 {
        self.bytes[1]
    }

    /// A two-byte field, low byte first.
    fn field(&self, at: usize) -> u32 {
        u32::from(self.bytes[at]) + 256 * u32::from(self.bytes[at + 1])
    }
}

/// "At speeds 4 and 5 the raw reader takes the companion; at the others it is skipped."
fn is_companion(kind: u8, speed: u8) -> bool {
    kind == COMPANION && is_super(speed)
}

/// "Other descriptor types are skipped by their length."
fn size(kind: u8, speed: u8) -> usize {
    match kind {
        CONFIGURATION | INTERFACE => 9,
        ENDPOINT => 7,
        _ if is_companion(kind, speed) => 6,
        _ => 2,
    }
}

/// Each descriptor at the end of the one before, until no byte is left. None: `Ground::Length`.
fn descriptors(bytes: &[u8], speed: u8) -> Option<Vec<Descriptor<'_>>> {
    let mut found = Vec::new();
    let mut offset = 0;
    while offset < bytes.len() {
        let rest = &bytes[offset..];
        let (length, kind) = (usize::from(rest[0]), *rest.get(1)?);
        if length < size(kind, speed) || length > rest.len() {
            return None;
        }
        found.push(Descriptor { offset, bytes: &rest[..length] });
        offset += length;
    }
    Some(found)
}

/// The descriptors behind one, up to the first of one of these types or the end.
fn until<'a>(behind: &'a [Descriptor<'a>], kinds: &[u8]) -> &'a [Descriptor<'a>] {
    let end = behind.iter().position(|d| kinds.contains(&d.kind())).unwrap_or(behind.len());
    &behind[..end]
}

fn distinct(numbers: impl Iterator<Item = u8>) -> usize {
    numbers.collect::<BTreeSet<u8>>().len()
}

/// What is wrong with a descriptor, of which the ones behind it are given.
fn faults(this: &Descriptor, behind: &[Descriptor], end: usize, found: &mut BTreeSet<Ground>) {
    match this.kind() {
        CONFIGURATION => {
            let inside = until(behind, &[CONFIGURATION]);
            let next = behind.get(inside.len()).map_or(end, |next| next.offset);
            if this.offset + this.field(2) as usize != next {
                found.insert(Ground::TotalLength);
            }
            let interfaces = inside.iter().filter(|d| d.kind() == INTERFACE).map(|d| d.bytes[2]);
            if usize::from(this.bytes[4]) != distinct(interfaces) {
                found.insert(Ground::InterfaceCount);
            }
        }
        INTERFACE => {
            let inside = until(behind, &[CONFIGURATION, INTERFACE]);
            if usize::from(this.bytes[4]) != inside.iter().filter(|d| d.kind() == ENDPOINT).count() {
                found.insert(Ground::EndpointCount);
            }
        }
        ENDPOINT if this.field(4) >> 11 & 3 == 3 => {
            found.insert(Ground::Packets);
        }
        _ => {}
    }
}

/// Everything for which bytes are malformed. Where a length is wrong nothing behind it can be told, and nothing else is.
pub fn grounds(bytes: &[u8], speed: u8) -> BTreeSet<Ground> {
    let Some(walk) = descriptors(bytes, speed) else {
        return BTreeSet::from([Ground::Length]);
    };
    let mut found = BTreeSet::new();
    for (at, this) in walk.iter().enumerate() {
        faults(this, &walk[at + 1..], bytes.len(), &mut found);
    }
    found
}

/// "House words are packed most significant bit first, unused low bits zero": values and their widths.
fn packed(fields: &[(u32, u32)]) -> u32 {
    let width: u32 = fields.iter().map(|field| field.1).sum();
    let value = fields.iter().fold(0, |packed, (value, width)| packed << width | value);
    value << (32 - width)
}

/// "Mult for isochronous ones only": what stands behind another word than an isochronous endpoint's has mult 0.
fn companion_word(descriptor: &Descriptor, before: Option<u32>) -> u32 {
    // A word that no list may have, as one of endpoint number 0, counts by its kind and type all the same.
    let isochronous = before.is_some_and(|before| before >> 30 == 2 && before >> 23 & 3 == ISOCHRONOUS);
    let mult = if isochronous { u32::from(descriptor.bytes[3]) & 3 } else { 0 };
    packed(&[(3, 2), (u32::from(descriptor.bytes[2]) & 15, 4), (mult, 2), (descriptor.field(4), 16)])
}

/// The word of a descriptor, if its type has one, behind the last word before. "Bits 12 and 11 of the packet size field
/// plus one become packets per microframe."
fn word_of(descriptor: &Descriptor, speed: u8, before: Option<u32>) -> Option<u32> {
    let byte = |at: usize| u32::from(descriptor.bytes[at]);
    match descriptor.kind() {
        CONFIGURATION => Some(packed(&[(0, 2), (byte(5), 8)])),
        INTERFACE => Some(packed(&[(1, 2), (byte(2), 8), (byte(3), 8)])),
        ENDPOINT => {
            let (address, attributes, field) = (byte(2), byte(3), descriptor.field(4));
            let (input, number, kind) = (address >> 7, address & 15, attributes & 3);
            let (size, packets) = (field & 0x7FF, (field >> 11 & 3) + 1);
            Some(packed(&[(2, 2), (input, 1), (number, 4), (kind, 2), (size, 11), (packets, 2), (byte(6), 8)]))
        }
        kind => is_companion(kind, speed).then(|| companion_word(descriptor, before)),
    }
}

/// The words of descriptors, of which each may look back at the one before.
fn words_of(walk: &[Descriptor], speed: u8) -> Vec<u32> {
    let mut words = Vec::new();
    for descriptor in walk {
        words.extend(word_of(descriptor, speed, words.last().copied()));
    }
    words
}

/// Every ground of 26 in bytes that are not malformed and whose words keep 01's rules: those of the words, and a burst that
/// no word can hold.
pub fn raw_companion_grounds(bytes: &[u8], speed: u8) -> BTreeSet<CompanionGround> {
    if !is_super(speed) {
        return BTreeSet::new();
    }
    let walk = descriptors(bytes, speed).unwrap_or_default();
    let mut found = companion_grounds(&words_of(&walk, speed));
    if walk.iter().any(|d| is_companion(d.kind(), speed) && d.bytes[2] > 15) {
        found.insert(CompanionGround::RawBurst);
    }
    found
}

/// "One outside 1 to 5 gives 6, directly after 3."
fn lent(room: usize, least: usize, speed: u8) -> Result<(), u8> {
    ask(room >= least, 3)?;
    ask((1..=5).contains(&speed), 6)
}

/// "Add a reader that yields 01's words": 3, 6, 20, 4, 26.
pub fn read(bytes: &[u8], speed: u8, room: usize) -> Result<Vec<u32>, u8> {
    lent(room, WORDS_ROOM, speed)?;
    ask(grounds(bytes, speed).is_empty(), 20)?;
    let words = words_of(&descriptors(bytes, speed).ok_or(20u8)?, speed);
    valid(&words, speed)?;
    ask(raw_companion_grounds(bytes, speed).is_empty(), 26)?;
    Ok(words)
}

fn is_configuration(word: &Word) -> bool {
    matches!(word, Word::Configuration(_))
}

fn written_size(word: &Word) -> usize {
    match word {
        Word::Endpoint(_) => 7,
        Word::Companion(_) => 6,
        _ => 9,
    }
}

/// "Fields the words don't carry are written as 0, a configuration's attributes as 0x80."
fn configuration(value: u8, behind: &[Word]) -> Vec<u8> {
    let end = behind.iter().position(is_configuration).unwrap_or(behind.len());
    let inside = &behind[..end];
    let [low, high] = (9 + inside.iter().map(written_size).sum::<usize>() as u16).to_le_bytes();
    let interface = |word: &Word| if let Word::Alternate(interface, _) = word { Some(*interface) } else { None };
    let interfaces = distinct(inside.iter().filter_map(interface)) as u8;
    vec![9, CONFIGURATION, low, high, interfaces, value, 0, 0x80, 0]
}

fn interface(interface: u8, alternate: u8, behind: &[Word]) -> Vec<u8> {
    let inside = behind.iter().take_while(|word| matches!(word, Word::Endpoint(_) | Word::Companion(_)));
    let endpoints = inside.filter(|word| matches!(word, Word::Endpoint(_))).count() as u8;
    vec![9, INTERFACE, interface, alternate, endpoints, 0, 0, 0, 0]
}

fn endpoint(word: &EndpointWord) -> Vec<u8> {
    let [low, high] = (word.packet_size as u16 | (word.packets as u16 - 1) << 11).to_le_bytes();
    vec![7, ENDPOINT, word.address(), word.kind as u8, low, high, word.interval]
}

/// "The writer writes it back (mult for isochronous ones only)"; in a valid list the others' is 0.
fn companion(word: &Companion) -> Vec<u8> {
    let [low, high] = (word.bytes_per_interval as u16).to_le_bytes();
    vec![6, COMPANION, word.burst as u8, word.mult as u8, low, high]
}

/// "A writer back to configuration, interface and endpoint descriptors": 3, 6, 4, 26, and 20 for "packets 0 given to the
/// writer".
pub fn write(list: &[u32], speed: u8, room: usize) -> Result<Vec<u8>, u8> {
    lent(room, BYTES_ROOM, speed)?;
    valid(list, speed)?;
    let words: Vec<Word> = list.iter().filter_map(|w| word(*w)).collect();
    ask(!words.iter().any(|word| matches!(word, Word::Endpoint(word) if word.packets == 0)), 20)?;
    let descriptor = |(at, word): (usize, &Word)| match word {
        Word::Configuration(value) => configuration(*value, &words[at + 1..]),
        Word::Alternate(number, alternate) => interface(*number, *alternate, &words[at + 1..]),
        Word::Endpoint(word) => endpoint(word),
        Word::Companion(word) => companion(word),
    };
    Ok(words.iter().enumerate().flat_map(descriptor).collect())
}
