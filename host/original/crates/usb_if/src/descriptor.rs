use core::num::NonZeroU8;

use crate::err::Text;
use crate::transfer::Direction;

#[derive(Clone, Copy, Debug, PartialEq, Eq)]
pub struct DescriptorType(pub u8);

impl DescriptorType {
    pub const DEVICE: Self = Self(1);
    pub const CONFIGURATION: Self = Self(2);
    pub const STRING: Self = Self(3);
}

/// The first eight bytes of a device descriptor (USB 2.0, 9.6.1).
#[derive(Clone, Copy, Debug)]
#[repr(C)]
pub struct DeviceDescriptorBase {
    pub length: u8,
    pub descriptor_type: u8,
    pub usb_version: [u8; 2],
    pub class: u8,
    pub subclass: u8,
    pub protocol: u8,
    pub max_packet_size_0: u8,
}

#[derive(Clone, Debug)]
pub struct DeviceDescriptor {
    pub vendor_id: u16,
    pub product_id: u16,
    pub manufacturer_string_index: Option<NonZeroU8>,
    pub num_configurations: u8,
}

#[derive(Clone, Debug)]
pub struct ConfigurationDescriptor {
    pub configuration_value: u8,
    pub interfaces: Vec<InterfaceDescriptors>,
}

#[derive(Clone, Debug)]
pub struct InterfaceDescriptors {
    pub interface_number: u8,
    pub alt_settings: Vec<InterfaceDescriptor>,
}

#[derive(Clone, Debug)]
pub struct InterfaceDescriptor {
    pub alternate_setting: u8,
    pub endpoints: Vec<EndpointDescriptor>,
}

#[derive(Clone, Copy, Debug, PartialEq, Eq)]
pub enum EndpointType {
    Control,
    Isochronous,
    Bulk,
    Interrupt,
}

#[derive(Clone, Debug)]
pub struct EndpointDescriptor {
    pub address: u8,
    pub max_packet_size: u16,
    pub transfer_type: EndpointType,
    pub direction: Direction,
    pub packets_per_microframe: usize,
    pub interval: u8,
}

impl EndpointDescriptor {
    /// The index of its context (xHCI 1.2, 4.5.1).
    pub fn dci(&self) -> u8 {
        2 * (self.address & 15) + u8::from(self.direction == Direction::In)
    }
}

#[derive(Clone, Copy, Debug, Default)]
pub struct LanguageId(u16);

impl From<LanguageId> for u16 {
    fn from(id: LanguageId) -> u16 {
        id.0
    }
}

/// No call reads a string.
pub fn decode_string_descriptor(_bytes: &[u8]) -> Result<String, Text> {
    Err(Text("strings are not read".to_string()))
}
