//! Held settings as the maker's boards store them, pairs of bytes by rising interface, and in the new form: configuration
//! value 8 bits, count 6, pairs of 8 and 8, zeros to a byte, the most significant bit first.

use core::fmt;

use crate::library;

/// How many bytes [`settings_to_new`] and [`settings_to_old`] are lent at least.
pub const SETTINGS_BYTES: usize = 66;

/// Why settings were not converted. Nothing that was lent has changed.
///
/// ```
/// use xhci_device::{SETTINGS_BYTES, settings_to_new};
///
/// let refusal = settings_to_new(&[0, 1, 3], &[0x0040_0000], 3, &mut [0; SETTINGS_BYTES]).unwrap_err();
/// assert_eq!((refusal.number(), refusal.to_string().as_str()), (23, "the settings are malformed or not found"));
/// ```
#[derive(Clone, Copy, Debug, PartialEq, Eq, Hash)]
#[non_exhaustive]
pub enum SettingsRefusal {
    /// Less than `SETTINGS_BYTES` bytes are lent.
    TooShort,
    /// The words are no valid list.
    DescriptorList,
    /// The speed is not 1 to 5.
    Speed,
    /// The settings are malformed, or the configuration that they are of is not in the list or has not each of the pairs.
    Settings,
    /// Of the new form only: the settings are of another configuration than the list's first.
    OtherConfiguration,
    /// At speeds 4 and 5: a companion of the list is missing, misplaced or out of range.
    Companion,
}

impl SettingsRefusal {
    pub(crate) fn of(number: u32) -> Option<SettingsRefusal> {
        use SettingsRefusal::*;
        [TooShort, DescriptorList, Speed, Settings, OtherConfiguration, Companion]
            .into_iter()
            .find(|refusal| u32::from(refusal.number()) == number)
    }

    /// The number in 01 and 02.
    pub fn number(self) -> u8 {
        match self {
            SettingsRefusal::TooShort => 3,
            SettingsRefusal::DescriptorList => 4,
            SettingsRefusal::Speed => 6,
            SettingsRefusal::Settings => 23,
            SettingsRefusal::OtherConfiguration => 24,
            SettingsRefusal::Companion => 26,
        }
    }
}

impl fmt::Display for SettingsRefusal {
    fn fmt(&self, f: &mut fmt::Formatter<'_>) -> fmt::Result {
        f.write_str(match self {
            SettingsRefusal::TooShort => "there is too little room",
            SettingsRefusal::DescriptorList => "the descriptor list is not valid",
            SettingsRefusal::Speed => "the speed is unknown",
            SettingsRefusal::Settings => "the settings are malformed or not found",
            SettingsRefusal::OtherConfiguration => "the settings are of another configuration than the first",
            SettingsRefusal::Companion => "a companion is missing, misplaced or out of range",
        })
    }
}

/// Converts settings of the old form, which are of the first configuration of a list of descriptor words at a speed, into the
/// first of `bytes`. Says how many; the other bytes stay as they are.
///
/// ```
/// use xhci_device::{SETTINGS_BYTES, SettingsRefusal, settings_to_new};
///
/// // Configuration 1: interface 0 with alternates 0 and 1, interface 3 with alternate 0.
/// let list = [0x0040_0000, 0x4000_0000, 0x4000_4000, 0x40c0_0000];
/// let mut bytes = [0; SETTINGS_BYTES];
/// assert_eq!(settings_to_new(&[0, 1, 3, 0], &list, 3, &mut bytes), Ok(6));
/// assert_eq!(bytes[..6], [1, 8, 0, 4, 0x0c, 0]);
/// // Interfaces must rise.
/// assert_eq!(settings_to_new(&[3, 0, 0, 1], &list, 3, &mut bytes), Err(SettingsRefusal::Settings));
/// ```
pub fn settings_to_new(settings: &[u8], list: &[u32], speed: u8, bytes: &mut [u8]) -> Result<usize, SettingsRefusal> {
    library::settings_to_new(settings, list, speed, bytes)
}

/// Converts settings of the new form into the first of `bytes`. Says how many; the other bytes stay as they are.
///
/// ```
/// use xhci_device::{SETTINGS_BYTES, SettingsRefusal, settings_to_old};
///
/// // As above, and configuration 2 with interface 0.
/// let list = [0x0040_0000, 0x4000_0000, 0x4000_4000, 0x40c0_0000, 0x0080_0000, 0x4000_0000];
/// let mut bytes = [0; SETTINGS_BYTES];
/// assert_eq!(settings_to_old(&[1, 8, 0, 4, 0x0c, 0], &list, 3, &mut bytes), Ok(4));
/// assert_eq!(bytes[..4], [0, 1, 3, 0]);
/// // The old form has no place for a configuration's value.
/// assert_eq!(settings_to_old(&[2, 4, 0, 0], &list, 3, &mut bytes), Err(SettingsRefusal::OtherConfiguration));
/// ```
pub fn settings_to_old(settings: &[u8], list: &[u32], speed: u8, bytes: &mut [u8]) -> Result<usize, SettingsRefusal> {
    library::settings_to_old(settings, list, speed, bytes)
}
