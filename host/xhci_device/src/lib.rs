#![doc = include_str!("../README.md")]
#![no_std]
#![deny(unsafe_code, missing_docs)]

use core::fmt;

mod answer;
mod asked;
mod asynchronous;
mod block;
mod bus;
mod call;
mod choice;
mod command;
mod debug;
mod descriptor;
mod dispatcher;
mod driven;
mod driver;
mod error;
mod hub;
mod job;
pub mod layout;
mod learned;
mod library;
mod raw;
mod reason;
mod record;
mod refused;
mod settings;
mod unreadable;

pub use answer::{Answer, Answered};
pub use asked::Asked;
pub use asynchronous::{AsyncBus, Routes};
pub use block::{BlockRefusal, Context, endpoint_block};
pub use bus::{Bus, Due, Outcome, Read, UNREADABLE};
pub use call::{BringUp, Memory};
pub use choice::{ChoiceRefusal, Chosen, MOST_NAMES};
pub use command::Command;
pub use descriptor::Descriptor;
pub use dispatcher::{Dispatcher, MOST_SLOTS, Order, Ran, SubmitRefusal, Waiting};
pub use driven::{Attached, Call};
pub use driver::{Next, Pending};
pub use hub::Hub;
pub use job::Job;
pub use raw::{READ_WORDS, RawRefusal, WRITE_BYTES, read_descriptors, write_descriptors};
pub use reason::Reason;
pub use record::{Configuration, Endpoint, Record, Setting};
pub use settings::{SETTINGS_BYTES, SettingsRefusal, settings_to_new, settings_to_old};
pub use unreadable::{Cause, Unreadable};

/// The version of this crate and of the header for C.
pub const VERSION: &str = env!("CARGO_PKG_VERSION");

/// A device slot: the number that Enable Slot gave. [`route_index`] shows where its routes stand.
#[derive(Clone, Copy, Debug, PartialEq, Eq, PartialOrd, Ord, Hash)]
pub struct SlotId(pub u8);

/// A device context index: 1 control, 2 × number + IN of another endpoint.
///
/// ```
/// use xhci_device::Dci;
///
/// assert_eq!((Dci::of_address(0x81), Dci::of_address(0x02)), (Dci(3), Dci(4)));
/// assert_eq!(Dci(3).to_string(), "Dci 3");
/// ```
#[derive(Clone, Copy, Debug, PartialEq, Eq, PartialOrd, Ord, Hash)]
pub struct Dci(pub u8);

impl Dci {
    /// The control endpoint's.
    pub const CONTROL: Dci = Dci(1);

    /// The index of an endpoint's address.
    pub fn of_address(address: u8) -> Dci {
        Dci(2 * (address & 15) + (address >> 7))
    }
}

impl fmt::Display for SlotId {
    fn fmt(&self, f: &mut fmt::Formatter<'_>) -> fmt::Result {
        write!(f, "slot {}", self.0)
    }
}

impl fmt::Display for Dci {
    fn fmt(&self, f: &mut fmt::Formatter<'_>) -> fmt::Result {
        write!(f, "Dci {}", self.0)
    }
}

/// Where the ring of a slot's endpoint stands in the routes.
///
/// ```
/// use xhci_device::{Dci, SlotId, route_index};
///
/// assert_eq!(route_index(SlotId(2), Dci(3)), 67);
/// ```
pub fn route_index(slot: SlotId, dci: Dci) -> usize {
    32 * usize::from(slot.0) + usize::from(dci.0)
}
