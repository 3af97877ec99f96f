//! Raw configuration descriptors (USB 2.0 section 9.6; companions: USB 3.2 section 9.6) to descriptor words, and back.

use core::fmt;

use crate::library;

/// How many words the reader, [`read_descriptors`], is lent at least.
pub const READ_WORDS: usize = 256;

/// How many bytes the writer, [`write_descriptors`], is lent at least.
pub const WRITE_BYTES: usize = 2304;

/// Why descriptors were not read or written. Nothing that was lent has changed.
///
/// ```
/// use xhci_device::{READ_WORDS, read_descriptors};
///
/// let refusal = read_descriptors(&[9, 2, 25], 3, &mut [0; READ_WORDS]).unwrap_err();
/// assert_eq!((refusal.number(), refusal.to_string().as_str()), (20, "the descriptors are malformed"));
/// ```
#[derive(Clone, Copy, Debug, PartialEq, Eq, Hash)]
#[non_exhaustive]
pub enum RawRefusal {
    /// Less than `READ_WORDS` words or `WRITE_BYTES` bytes are lent.
    TooShort,
    /// The words are no valid list.
    DescriptorList,
    /// The speed is not 1 to 5.
    Speed,
    /// The bytes are malformed, or an endpoint word has packets 0.
    Malformed,
    /// At speeds 4 and 5: a companion is missing, misplaced or out of range.
    Companion,
}

impl RawRefusal {
    pub(crate) fn of(number: u32) -> Option<RawRefusal> {
        use RawRefusal::*;
        [TooShort, DescriptorList, Speed, Malformed, Companion]
            .into_iter()
            .find(|refusal| u32::from(refusal.number()) == number)
    }

    /// The number in 01 and 02.
    pub fn number(self) -> u8 {
        match self {
            RawRefusal::TooShort => 3,
            RawRefusal::DescriptorList => 4,
            RawRefusal::Speed => 6,
            RawRefusal::Malformed => 20,
            RawRefusal::Companion => 26,
        }
    }
}

impl fmt::Display for RawRefusal {
    fn fmt(&self, f: &mut fmt::Formatter<'_>) -> fmt::Result {
        f.write_str(match self {
            RawRefusal::TooShort => "there is too little room",
            RawRefusal::DescriptorList => "the descriptor list is not valid",
            RawRefusal::Speed => "the speed is unknown",
            RawRefusal::Malformed => "the descriptors are malformed",
            RawRefusal::Companion => "a companion is missing, misplaced or out of range",
        })
    }
}

/// Reads descriptors into the first of `words`. Says how many; the other words stay as they are. At speeds 4 and 5 an
/// endpoint's companion is a word of its own behind the endpoint's.
///
/// ```
/// use xhci_device::{READ_WORDS, RawRefusal, read_descriptors};
///
/// let mut bytes = [
///     9, 2, 25, 0, 1, 1, 0, 0x80, 50, // configuration 1
///     9, 4, 0, 0, 1, 3, 0, 0, 0, // interface 0, alternate 0
///     7, 5, 0x81, 3, 64, 0, 4, // endpoint 0x81, interrupt, size 64, interval 4
/// ];
/// let mut words = [0; READ_WORDS];
/// assert_eq!(read_descriptors(&bytes, 3, &mut words), Ok(3));
/// assert_eq!(words[..3], [0x0040_0000, 0x4000_0000, 0xA384_0410]);
/// assert_eq!(read_descriptors(&bytes, 4, &mut words), Err(RawRefusal::Companion)); // the endpoint has none
/// bytes[18] = 6; // too short for an endpoint descriptor
/// assert_eq!(read_descriptors(&bytes, 3, &mut words), Err(RawRefusal::Malformed));
/// ```
pub fn read_descriptors(bytes: &[u8], speed: u8, words: &mut [u32]) -> Result<usize, RawRefusal> {
    library::read_descriptors(bytes, speed, words)
}

/// Writes a list of descriptor words into the first of `bytes`. Says how many; the other bytes stay as they are.
///
/// ```
/// use xhci_device::{WRITE_BYTES, write_descriptors};
///
/// let mut bytes = [0; WRITE_BYTES];
/// assert_eq!(write_descriptors(&[0x0040_0000, 0x4000_0000, 0xA384_0410], 3, &mut bytes), Ok(25));
/// assert_eq!(bytes[18..25], [7, 5, 0x81, 3, 64, 0, 4]);
/// // At SuperSpeed, with a companion: burst 3, 8 bytes per interval.
/// assert_eq!(write_descriptors(&[0x0040_0000, 0x4000_0000, 0xA384_0410, 0xCC00_0800], 4, &mut bytes), Ok(31));
/// assert_eq!(bytes[25..31], [6, 48, 3, 0, 8, 0]);
/// ```
pub fn write_descriptors(list: &[u32], speed: u8, bytes: &mut [u8]) -> Result<usize, RawRefusal> {
    library::write_descriptors(list, speed, bytes)
}
