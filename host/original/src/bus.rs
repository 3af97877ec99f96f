//! The scripted bus: every command is logged and takes the next outcome.

use std::cell::RefCell;
use std::future;

use usb_if::descriptor::ConfigurationDescriptor;
use usb_if::err::TransferError;

pub const ADDRESS: u32 = 1;
pub const EVALUATE: u32 = 2;
pub const CONFIGURE: u32 = 3;
pub const STOP: u32 = 4;
pub const RESUME: u32 = 5;
pub const SET_INTERFACE: u32 = 6;
pub const SET_CONFIGURATION: u32 = 7;
pub const READ_HEADER: u32 = 8;
pub const READ_CONFIGURATION: u32 = 9;
pub const READ_DEVICE: u32 = 10;
pub const READ_CONFIG: u32 = 11;
pub const DISABLE: u32 = 12;
/// Of no call: the reset of a halted endpoint.
pub const RESET: u32 = 13;

/// What a call's commands meet.
#[derive(Default)]
pub struct Script {
    pub outcomes: Vec<u8>,
    pub rings: Vec<u64>,
    pub header: (usize, u8),
    pub configuration_value: u8,
    pub configurations: Vec<ConfigurationDescriptor>,
    /// Their bytes.
    pub raw: Vec<Vec<u8>>,
    pub sent: Vec<u32>,
    /// The targets that the doorbell was rung with.
    pub rung: Vec<u8>,
    pub rings_taken: usize,
}

thread_local! {
    static SCRIPT: RefCell<Script> = RefCell::default();
}

pub fn begin(script: Script) {
    SCRIPT.set(script);
}

pub fn end() -> Script {
    SCRIPT.take()
}

/// A log word of 01.
pub fn word(operation: u32, first: u8, second: u8) -> u32 {
    operation << 28 | u32::from(first) << 20 | u32::from(second) << 12
}

/// Logs a command and gives its outcome; without one it is pending for ever.
pub async fn send(word: u32) -> Result<(), TransferError> {
    let outcome = SCRIPT.with_borrow_mut(|script| {
        let outcome = script.outcomes.get(script.sent.len()).copied();
        script.sent.push(word);
        outcome
    });
    match outcome {
        Some(0) => Ok(()),
        Some(code) => Err(TransferError::Scripted(code)),
        None => future::pending().await,
    }
}

/// The next ring that may be drawn, 0 if there are too few.
pub fn next_ring() -> u64 {
    SCRIPT.with_borrow_mut(|script| {
        script.rings_taken += 1;
        script.rings.get(script.rings_taken - 1).copied().unwrap_or(0)
    })
}

pub fn header() -> (usize, u8) {
    SCRIPT.with_borrow(|script| script.header)
}

pub fn configuration_value() -> u8 {
    SCRIPT.with_borrow(|script| script.configuration_value)
}

pub fn configuration_count() -> u8 {
    SCRIPT.with_borrow(|script| script.configurations.len() as u8)
}

pub fn configuration(index: u8) -> ConfigurationDescriptor {
    SCRIPT.with_borrow(|script| script.configurations[usize::from(index)].clone())
}

/// As many bytes of a configuration as there are, and have room.
pub fn raw(index: u8, buff: &mut [u8]) -> usize {
    SCRIPT.with_borrow(|script| {
        let bytes = script.raw.get(usize::from(index)).map_or(&[][..], Vec::as_slice);
        let read = bytes.len().min(buff.len());
        buff[..read].copy_from_slice(&bytes[..read]);
        read
    })
}

pub fn ring(target: u8) {
    SCRIPT.with_borrow_mut(|script| script.rung.push(target));
}
