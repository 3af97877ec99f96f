//! What the commands of a bring-up have read so far.

use crate::refused::{invalid_at, malformed_at, misfit, misfit_at, words_of};
use crate::{Answer, Cause, Command, READ_WORDS, RawRefusal, Read, read_descriptors};

const LIST: usize = 256;

/// How many bytes are needed of a configuration value, of a device descriptor, and of a configuration descriptor at least.
const CONFIGURATION_VALUE: usize = 1;
const DEVICE_DESCRIPTOR: usize = 18;
const CONFIGURATION_DESCRIPTOR: usize = 9;

/// Where the descriptors of a device have these bytes (USB 2.0, table 9-8).
const MAX_PACKET_SIZE: usize = 7;
const NUM_CONFIGURATIONS: usize = 17;

/// What was read, but for the words of the list.
#[derive(Clone, Copy)]
pub struct Numbers {
    pub header: usize,
    pub packet: u8,
    pub value: u8,
    /// Words of the configurations read, and how many were not.
    read: usize,
    unread: usize,
}

/// Each configuration that the device has and that was not read yet stands in the list as one word, 0, so that
/// the call sends a ReadConfig for it.
pub struct Learned {
    /// The device's, at which its descriptors are read.
    speed: u8,
    words: [u32; LIST],
    now: Numbers,
    /// At the last step.
    before: Numbers,
}

impl Learned {
    pub fn nothing(speed: u8) -> Learned {
        let now = Numbers { header: 0, packet: 0, value: 0, read: 0, unread: 0 };
        Learned { speed, words: [0; LIST], now, before: now }
    }

    pub fn numbers(&self) -> Numbers {
        self.now
    }

    pub fn list(&self) -> &[u32] {
        &self.words[..self.now.read + self.now.unread]
    }

    /// What was known at the last step.
    pub fn before(&self) -> (Numbers, impl Iterator<Item = u32>) {
        let Numbers { read, unread, .. } = self.before;
        (self.before, self.words[..read].iter().copied().chain(core::iter::repeat_n(0, unread)))
    }

    /// A step has been made.
    pub fn stepped(&mut self) {
        self.before = self.now;
    }

    /// Takes what a command read, or says why it cannot be used.
    pub fn take(&mut self, command: Command, read: Read<'_>) -> Result<(), Cause> {
        let bytes = if let Read::Bytes(bytes) = read { bytes } else { &[] };
        match command {
            Command::ReadHeader => {
                self.now.header = bytes.len();
                self.now.packet = bytes.get(MAX_PACKET_SIZE).copied().unwrap_or(0);
            }
            Command::ReadConfiguration => {
                let [value]: [u8; CONFIGURATION_VALUE] = first(bytes)?;
                self.now.value = value;
            }
            Command::ReadDevice => {
                let descriptor: [u8; DEVICE_DESCRIPTOR] = first(bytes)?;
                self.now.unread = descriptor[NUM_CONFIGURATIONS].into();
            }
            Command::ReadConfig(_) => match read {
                Read::Words(words) if !words.is_empty() => self.append(words)?,
                _ => self.append_bytes(bytes)?,
            },
            _ => (),
        }
        Ok(())
    }

    /// One configuration takes the place of its word.
    fn append(&mut self, words: &[u32]) -> Result<(), Cause> {
        let Numbers { read, unread, .. } = self.now;
        if let Some((at, word)) = other_than_one(words) {
            return Err(Cause::NotOne { place: read + at, word });
        }
        let (end, unread) = (read + words.len(), unread.saturating_sub(1));
        if end + unread > LIST {
            return Err(Cause::NoRoom { had: end + unread });
        }
        self.words[read..end].copy_from_slice(words);
        (self.now.read, self.now.unread) = (end, unread);
        Ok(())
    }

    /// The same from the bytes of its descriptors.
    fn append_bytes(&mut self, bytes: &[u8]) -> Result<(), Cause> {
        if bytes.is_empty() {
            return Err(Cause::TooShort { had: 0, wanted: CONFIGURATION_DESCRIPTOR });
        }
        let mut words = [0; READ_WORDS];
        match read_descriptors(bytes, self.speed, &mut words) {
            Ok(count) => self.append(&words[..count]),
            Err(refusal) => Err(self.bytes_refused(refusal, bytes)),
        }
    }

    /// Why the reader refuses bytes.
    fn bytes_refused(&self, refusal: RawRefusal, bytes: &[u8]) -> Cause {
        let Numbers { read, unread, .. } = self.now;
        match refusal {
            RawRefusal::DescriptorList => {
                let mut list = [0; LIST];
                let words = words_of(bytes, self.speed).map(|(_, word)| word);
                let count = list.iter_mut().zip(words).map(|(place, word)| *place = word).count();
                match invalid_at(&list[..count], self.speed) {
                    Some(at) => Cause::List { place: read + at, word: list[at] },
                    None => Cause::NoRoom { had: read + words_of(bytes, self.speed).count() + unread - 1 },
                }
            }
            RawRefusal::Companion => {
                Cause::Companion { place: misfit_at(bytes, self.speed).unwrap_or_default(), word: None }
            }
            _ => Cause::Malformed { place: malformed_at(bytes, self.speed).unwrap_or_default() },
        }
    }

    /// Why the call refuses the list with what the last command, this one, has read.
    pub fn list_refused(&self, command: Command, answer: Answer) -> Cause {
        let list = self.list();
        match (command, answer) {
            (Command::ReadDevice, _) => Cause::Configurations { had: self.now.unread },
            (_, Answer::Companion) => {
                let (place, word) = misfit(list.iter().copied().enumerate()).unwrap_or_default();
                Cause::Companion { place, word: Some(word) }
            }
            _ => {
                let place = invalid_at(list, self.speed).unwrap_or_default();
                Cause::List { place, word: self.words[place] }
            }
        }
    }

    /// Puts the list back as it was at the last step.
    pub fn forget(&mut self) {
        self.now = self.before;
        self.words[self.now.read..].fill(0);
    }
}

/// As many bytes as are needed.
fn first<const N: usize>(bytes: &[u8]) -> Result<[u8; N], Cause> {
    bytes.first_chunk().copied().ok_or(Cause::TooShort { had: bytes.len(), wanted: N })
}

/// The first word, with its place, that is not the one that one configuration has there. Of no words it is 0.
fn other_than_one(words: &[u32]) -> Option<(usize, u32)> {
    let is_other = |(at, word): &(usize, u32)| (word >> 30 == 0) != (*at == 0);
    if words.is_empty() { Some((0, 0)) } else { words.iter().copied().enumerate().find(is_other) }
}
