//! The commands of a call, as its log has them.

use core::fmt;

use crate::Dci;
use crate::library::{self, Logged};

/// A command: what a word of the log says.
///
/// ```
/// use xhci_device::{Command, Dci};
///
/// assert_eq!(Command::of(0x4030_0000), Some(Command::Stop(Dci(3))));
/// assert_eq!(Command::of(0x6000_1000).unwrap().to_string(), "SetInterface 0, alternate 1");
/// assert_eq!(Command::of(0), None);
/// ```
#[derive(Clone, Copy, Debug, PartialEq, Eq, Hash)]
#[non_exhaustive]
pub enum Command {
    /// The Address Device Command, over the input context.
    Address,
    /// The Evaluate Context Command, over the input context.
    Evaluate,
    /// The Configure Endpoint Command, over the input context.
    Configure,
    /// An endpoint is stopped.
    Stop(Dci),
    /// A stopped endpoint goes on.
    Resume(Dci),
    /// The request SET_INTERFACE to the device.
    SetInterface {
        /// The interface.
        interface: u8,
        /// Its alternate setting.
        alternate: u8,
    },
    /// The request SET_CONFIGURATION with a value.
    SetConfiguration(u8),
    /// The first 8 bytes of the device descriptor are read.
    ReadHeader,
    /// The configuration value that is set is read.
    ReadConfiguration,
    /// The device descriptor is read.
    ReadDevice,
    /// The configuration descriptor of an index is read, with all that follows it.
    ReadConfig(u8),
    /// The Disable Slot Command.
    Disable,
}

impl Command {
    /// The command of a log word; none where no call logs that word.
    pub fn of(word: u32) -> Option<Command> {
        let Logged { operation, first, second } = library::command_of(word);
        Some(match operation {
            1 => Command::Address,
            2 => Command::Evaluate,
            3 => Command::Configure,
            4 => Command::Stop(Dci(first)),
            5 => Command::Resume(Dci(first)),
            6 => Command::SetInterface { interface: first, alternate: second },
            7 => Command::SetConfiguration(first),
            8 => Command::ReadHeader,
            9 => Command::ReadConfiguration,
            10 => Command::ReadDevice,
            11 => Command::ReadConfig(first),
            12 => Command::Disable,
            _ => return None,
        })
    }

    /// The log word.
    pub fn word(self) -> u32 {
        let (operation, first, second) = match self {
            Command::Address => (1, 0, 0),
            Command::Evaluate => (2, 0, 0),
            Command::Configure => (3, 0, 0),
            Command::Stop(dci) => (4, dci.0, 0),
            Command::Resume(dci) => (5, dci.0, 0),
            Command::SetInterface { interface, alternate } => (6, interface, alternate),
            Command::SetConfiguration(value) => (7, value, 0),
            Command::ReadHeader => (8, 0, 0),
            Command::ReadConfiguration => (9, 0, 0),
            Command::ReadDevice => (10, 0, 0),
            Command::ReadConfig(index) => (11, index, 0),
            Command::Disable => (12, 0, 0),
        };
        operation << 28 | u32::from(first) << 20 | u32::from(second) << 12
    }

    /// Whether the controller reads the input context for it.
    pub fn reads_context(self) -> bool {
        matches!(self, Command::Address | Command::Evaluate | Command::Configure)
    }
}

impl fmt::Display for Command {
    fn fmt(&self, f: &mut fmt::Formatter<'_>) -> fmt::Result {
        match self {
            Command::Address => f.write_str("Address"),
            Command::Evaluate => f.write_str("Evaluate"),
            Command::Configure => f.write_str("Configure"),
            Command::Stop(dci) => write!(f, "Stop {dci}"),
            Command::Resume(dci) => write!(f, "Resume {dci}"),
            Command::SetInterface { interface, alternate } => {
                write!(f, "SetInterface {interface}, alternate {alternate}")
            }
            Command::SetConfiguration(value) => write!(f, "SetConfiguration {value}"),
            Command::ReadHeader => f.write_str("ReadHeader"),
            Command::ReadConfiguration => f.write_str("ReadConfiguration"),
            Command::ReadDevice => f.write_str("ReadDevice"),
            Command::ReadConfig(index) => write!(f, "ReadConfig {index}"),
            Command::Disable => f.write_str("Disable"),
        }
    }
}

#[cfg(test)]
mod tests {
    use super::Command;

    /// Every word whose unused bits are 0, and each unused bit.
    #[test]
    fn words_name_the_commands() {
        let mut commands = 0;
        for word in (0..1 << 20).map(|high: u32| high << 12) {
            if let Some(command) = Command::of(word) {
                assert_eq!(command.word(), word);
                commands += 1;
            }
        }
        assert_eq!(commands, 7 + 4 * 256 + 65536);
        for bit in 0..12 {
            assert_eq!(Command::of(1 << 28 | 1 << bit), None);
        }
    }
}
