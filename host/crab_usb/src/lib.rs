//! crab-usb 0.12.1's device over the proved layer, as a `Layer`. tree/ has the files that take the place of crab-usb's, added/ what
//! follows its files; docs/CRAB-USB.md says how both come into crab-usb. Here they stand among crab-usb's own files, over the
//! stand-ins of host/original; without those files there is no such device to ask.

use scenario::Layer;

#[cfg(crab_usb)]
#[macro_use]
#[path = "../../original/src/macros.rs"]
mod macros;

#[cfg(crab_usb)]
#[allow(dead_code)]
#[path = "../../original/src/bus.rs"]
mod bus;
#[cfg(crab_usb)]
#[allow(dead_code)]
#[path = "../../original/src/words.rs"]
mod words;

#[cfg(crab_usb)]
include!("../../original/src/root.rs");

/// crab-usb's device over the library, if crab-usb was there when this was built.
pub fn layer() -> Option<Box<dyn Layer>> {
    #[cfg(crab_usb)]
    return Some(Box::new(queue::layer::CrabUsb::new()));
    #[cfg(not(crab_usb))]
    None
}
