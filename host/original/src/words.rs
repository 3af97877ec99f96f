//! House words as the original's types. None where a word has no counterpart there.

use usb_if::Speed;
use usb_if::descriptor::*;
use usb_if::transfer::Direction;

/// `width` bits of a 32-bit word, the highest of them `from` bits below the top.
fn bits(word: u32, from: u32, width: u32) -> u32 {
    word << from >> (32 - width)
}

fn endpoint(word: u32) -> Option<EndpointDescriptor> {
    let into = bits(word, 2, 1) == 1;
    let number = bits(word, 3, 4) as u8;
    let transfer_type = match bits(word, 7, 2) {
        1 => EndpointType::Isochronous,
        2 => EndpointType::Bulk,
        3 => EndpointType::Interrupt,
        _ => return None,
    };
    if number == 0 || bits(word, 30, 2) != 0 {
        return None;
    }
    Some(EndpointDescriptor {
        address: number | u8::from(into) << 7,
        max_packet_size: bits(word, 9, 11) as u16,
        transfer_type,
        direction: if into { Direction::In } else { Direction::Out },
        packets_per_microframe: bits(word, 20, 2) as usize,
        interval: bits(word, 22, 8) as u8,
    })
}

/// Alternates of one interface stand together in the original.
fn add_alternate(configuration: &mut ConfigurationDescriptor, interface_number: u8, alternate: InterfaceDescriptor) {
    let same = |i: &&mut InterfaceDescriptors| i.interface_number == interface_number;
    match configuration.interfaces.iter_mut().find(same) {
        Some(interface) => interface.alt_settings.push(alternate),
        None => configuration.interfaces.push(InterfaceDescriptors { interface_number, alt_settings: vec![alternate] }),
    }
}

/// Whether a word is one that the original does not know and has no need of: an endpoint's companion.
fn is_companion(word: u32, speed: u8) -> bool {
    matches!(speed, 4 | 5) && bits(word, 0, 2) == 3 && bits(word, 24, 8) == 0
}

/// The configurations of a list of descriptor words at a speed, without its companions.
pub fn configurations(list: &[u32], speed: u8) -> Option<Vec<ConfigurationDescriptor>> {
    let mut configurations: Vec<ConfigurationDescriptor> = Vec::new();
    let mut last_interface = None;
    for &word in list {
        match bits(word, 0, 2) {
            0 if bits(word, 10, 22) == 0 => {
                let configuration_value = bits(word, 2, 8) as u8;
                configurations.push(ConfigurationDescriptor { configuration_value, interfaces: Vec::new() });
                last_interface = None;
            }
            1 if bits(word, 18, 14) == 0 => {
                let number = bits(word, 2, 8) as u8;
                let alternate_setting = bits(word, 10, 8) as u8;
                let alternate = InterfaceDescriptor { alternate_setting, endpoints: Vec::new() };
                add_alternate(configurations.last_mut()?, number, alternate);
                last_interface = Some(number);
            }
            2 => {
                let number = last_interface?;
                let interfaces = &mut configurations.last_mut()?.interfaces;
                let interface = interfaces.iter_mut().find(|i| i.interface_number == number)?;
                interface.alt_settings.last_mut()?.endpoints.push(endpoint(word)?);
            }
            _ if is_companion(word, speed) && !configurations.is_empty() => {}
            _ => return None,
        }
    }
    Some(configurations)
}

/// The words of the first so many configurations.
pub fn first_configurations(list: &[u32], count: usize) -> Vec<u32> {
    let mut seen = 0;
    let within = |word: &&u32| {
        seen += usize::from(bits(**word, 0, 2) == 0);
        seen <= count
    };
    list.iter().take_while(within).copied().collect()
}

pub fn speed(number: u8) -> Option<Speed> {
    Some(match number {
        1 => Speed::Full,
        2 => Speed::Low,
        3 => Speed::High,
        4 => Speed::SuperSpeed,
        5 => Speed::SuperSpeedPlus,
        6 => Speed::Wireless,
        _ => return None,
    })
}

/// A hub word's fields.
pub struct HubWord {
    pub present: bool,
    pub parent: Option<usize>,
    pub slot: u8,
    pub depth: isize,
    pub speed: Option<Speed>,
    pub port: u8,
    pub multi: bool,
    pub unused: u64,
}

pub fn hub(word: u64) -> HubWord {
    let bits = |from: u32, width: u32| word << from >> (64 - width);
    HubWord {
        present: bits(0, 1) == 1,
        parent: (bits(1, 1) == 1).then_some(bits(2, 8) as usize),
        slot: bits(10, 8) as u8,
        depth: bits(18, 3) as isize - 1,
        speed: speed(bits(21, 3) as u8),
        port: bits(24, 8) as u8,
        multi: bits(32, 1) == 1,
        unused: bits(33, 31),
    }
}
