//! Descriptor bytes (USB 2.0, section 9.6; companions: USB 3.2, section 9.6) as a device would send them.

pub const CONFIGURATION: u8 = 2;
pub const INTERFACE: u8 = 4;
pub const ENDPOINT: u8 = 5;
pub const COMPANION: u8 = 48;

/// Total length and number of interfaces are 0 until `settle`.
pub fn configuration(value: u8) -> Vec<u8> {
    vec![9, CONFIGURATION, 0, 0, 0, value, 0, 0x80, 50]
}

/// The number of endpoints is 0 until `settle`.
pub fn interface(number: u8, alternate: u8) -> Vec<u8> {
    vec![9, INTERFACE, number, alternate, 0, 3, 0, 0, 0]
}

pub fn endpoint(address: u8, attributes: u8, field: u16, interval: u8) -> Vec<u8> {
    let [low, high] = field.to_le_bytes();
    vec![7, ENDPOINT, address, attributes, low, high, interval]
}

pub fn companion(burst: u8, attributes: u8, bytes_per_interval: u16) -> Vec<u8> {
    let [low, high] = bytes_per_interval.to_le_bytes();
    vec![6, COMPANION, burst, attributes, low, high]
}

/// A descriptor of that type, with so many bytes behind type and length.
pub fn other(kind: u8, rest: u8) -> Vec<u8> {
    let mut bytes = vec![0xFF; 2 + usize::from(rest)];
    bytes[..2].copy_from_slice(&[2 + rest, kind]);
    bytes
}

/// Where descriptors begin, as far as each is there whole.
pub fn places(bytes: &[u8]) -> Vec<usize> {
    let mut places = Vec::new();
    let mut at = 0;
    while at + 1 < bytes.len() && bytes[at] >= 2 && at + usize::from(bytes[at]) <= bytes.len() {
        places.push(at);
        at += usize::from(bytes[at]);
    }
    places
}

/// Bytes with the total lengths and counts that they bear out, as far as those have room for them.
pub fn settled(mut bytes: Vec<u8>) -> Vec<u8> {
    let mut end = bytes.len();
    let mut interfaces: Vec<u8> = Vec::new();
    let mut endpoints = 0;
    for at in places(&bytes).into_iter().rev() {
        match bytes[at + 1] {
            CONFIGURATION | INTERFACE if bytes[at] < 9 => {}
            CONFIGURATION => {
                interfaces.sort();
                interfaces.dedup();
                let [low, high] = ((end - at) as u16).to_le_bytes();
                bytes[at + 2..at + 5].copy_from_slice(&[low, high, interfaces.len() as u8]);
                (end, endpoints) = (at, 0);
                interfaces.clear();
            }
            INTERFACE => {
                interfaces.push(bytes[at + 2]);
                bytes[at + 4] = endpoints as u8;
                endpoints = 0;
            }
            ENDPOINT => endpoints += 1,
            _ => {}
        }
    }
    bytes
}
