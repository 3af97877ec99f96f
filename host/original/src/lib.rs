//! crab-usb 0.12.1's device layer as a `Layer`: its own files, over stand-ins for what is not there.
//! build.rs finds the files; without them there is no original to ask.

use scenario::Layer;

#[cfg(crab_usb)]
#[macro_use]
mod macros;

#[cfg(crab_usb)]
mod bus;
#[cfg(crab_usb)]
mod words;

#[cfg(crab_usb)]
include!("root.rs");

/// The original, if it was there when this was built.
pub fn layer() -> Option<Box<dyn Layer>> {
    #[cfg(crab_usb)]
    return Some(Box::new(queue::layer::Original::new()));
    #[cfg(not(crab_usb))]
    None
}
