// What the original's files find at their crate's root.
extern crate alloc;
pub(crate) extern crate usb_if;

include!(concat!(env!("OUT_DIR"), "/tree/modules.rs"));

pub(crate) use backend::kmod::{DeviceAddressInfo, osal, queue};

define_int_type!(BusAddr, u64);

pub struct Mmio;

#[allow(dead_code)]
pub struct USBHost {
    backend: Box<backend::kmod::queue::Core>,
    initialized: bool,
}
