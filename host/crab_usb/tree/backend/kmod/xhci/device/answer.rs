//! The layer's answers as crab-usb's errors.

use alloc::vec::Vec;

use usb_if::err::{TransferError, USBError};
use xhci_device::{Answer, Unreadable};

use crate::err::Result;

/// The errors of the commands that failed; one's code is its place, counted from 1. And what a bring-up could not use, if so.
pub(super) fn result(answer: Answer, mut errors: Vec<TransferError>, unreadable: Option<Unreadable>) -> Result {
    Err(match answer {
        Answer::Accepted => return Ok(()),
        Answer::NotFound | Answer::NotClaimed => USBError::NotFound,
        Answer::InvalidParameter => USBError::InvalidParameter,
        Answer::SlotLimitReached => USBError::SlotLimitReached,
        Answer::TooFewRings => USBError::NoMemory,
        Answer::Unusable | Answer::InterfaceBroken | Answer::Cut => USBError::InterfaceBroken,
        Answer::QueueFull => TransferError::QueueFull.into(),
        Answer::InvalidEndpoint => TransferError::InvalidEndpoint.into(),
        Answer::Failed(code) if (1..=errors.len()).contains(&code.into()) => {
            errors.swap_remove(usize::from(code) - 1).into()
        }
        other => USBError::Other(unreadable.map_or_else(|| anyhow!("{other}"), |unreadable| anyhow!("{unreadable}"))),
    })
}
