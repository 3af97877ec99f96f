//! The types of the crate usb_if that the original's device layer names.
#![forbid(unsafe_code)]

pub mod descriptor;
pub mod endpoint;
pub mod err;
pub mod host;
pub mod transfer;

pub use host::hub::Speed;
