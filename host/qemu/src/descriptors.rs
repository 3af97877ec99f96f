//! What a device's own descriptors ask of its blocks (USB 2.0, 9.6; USB 3.2, 9.6.7; xHCI 1.2, 6.2.3): a reading of its own,
//! apart from the library's.

use std::collections::BTreeMap;

use crate::block::Endpoint;

/// An endpoint's descriptor, and the companion that stands behind it.
#[derive(Clone, Copy)]
pub struct Descriptor {
    endpoint: [u8; 7],
    companion: Option<[u8; 6]>,
}

/// The endpoints of an alternate in a configuration descriptor, by address. None where there is no such alternate.
pub fn alternate(raw: &[u8], interface: u8, alternate: u8) -> Option<BTreeMap<u8, Descriptor>> {
    const INTERFACE: u8 = 4;
    const ENDPOINT: u8 = 5;
    const COMPANION: u8 = 48;
    let (mut rest, mut found, mut inside) = (raw, None::<BTreeMap<u8, Descriptor>>, false);
    let mut last = None;
    while let &[length, kind, first, second, ..] = rest {
        if kind == INTERFACE {
            (inside, last) = ((first, second) == (interface, alternate), None);
            if inside {
                found.get_or_insert_default();
            }
        } else if let (ENDPOINT, true, Some(endpoint)) = (kind, inside, rest.first_chunk()) {
            last = Some(first);
            found.get_or_insert_default().insert(first, Descriptor { endpoint: *endpoint, companion: None });
        } else if let (COMPANION, Some(address)) = (kind, last) {
            let endpoint = found.as_mut().and_then(|found| found.get_mut(&address));
            endpoint.into_iter().for_each(|of| of.companion = rest.first_chunk().copied());
        }
        rest = rest.get(usize::from(length).max(1)..)?;
    }
    found
}

const ISOCHRONOUS: u8 = 1;
const INTERRUPT: u8 = 3;

/// The context's interval (xHCI 1.2, 6.2.3.6).
fn interval(speed: u8, transfer: u8, byte: u8) -> u32 {
    let exponent = u32::from(byte.clamp(1, 16));
    match (speed, transfer) {
        (1 | 2, ISOCHRONOUS) => exponent + 2,
        (1 | 2, INTERRUPT) => (u32::from(byte.max(1)) * 8).ilog2().clamp(3, 10),
        (_, ISOCHRONOUS | INTERRUPT) => exponent - 1,
        _ => 0,
    }
}

/// What a companion says, as far as a block has a place for it: burst, mult, bytes per interval. (Streams are not used.)
#[derive(Clone, Copy, Default)]
struct Said {
    burst: u32,
    mult: u32,
    bytes: u32,
}

fn said(companion: &[u8; 6], transfer: u8) -> Said {
    let [_, _, burst, attributes, low, high] = *companion;
    let mult = if transfer == ISOCHRONOUS { attributes & 3 } else { 0 };
    Said { burst: burst.into(), mult: mult.into(), bytes: u16::from_le_bytes([low, high]).into() }
}

/// The block that a descriptor asks for, at SuperSpeed with its companion; average length, state and pointer left out.
pub fn asked(descriptor: &Descriptor, speed: u8) -> Endpoint {
    let [_, _, address, attributes, low, high, byte] = descriptor.endpoint;
    let (transfer, is_in) = (attributes & 3, address & 0x80 != 0);
    let size = u32::from(u16::from_le_bytes([low, high]));
    let is_periodic = matches!(transfer, ISOCHRONOUS | INTERRUPT);
    let packet = size & 0x7FF;
    let Said { burst, mult, bytes } = match descriptor.companion {
        Some(companion) if speed >= 4 => said(&companion, transfer),
        _ => {
            let burst = if is_periodic && speed == 3 { size >> 11 & 3 } else { 0 };
            Said { burst, mult: 0, bytes: packet * (burst + 1) }
        }
    };
    Endpoint {
        state: 0,
        mult: if is_periodic { mult } else { 0 },
        streams: 0,
        interval: interval(speed, transfer, byte),
        errors: if transfer == ISOCHRONOUS { 0 } else { 3 },
        kind: u32::from(transfer) + if is_in { 4 } else { 0 },
        burst,
        packet,
        dequeue: 0,
        average: 0,
        payload: if is_periodic { bytes } else { 0 },
    }
}

#[cfg(test)]
mod tests {
    use super::{alternate, asked, interval};

    #[test]
    fn an_alternate_has_its_endpoints() {
        let raw = [9, 4, 0, 0, 1, 3, 1, 1, 0, 7, 5, 0x81, 3, 8, 0, 7, 9, 4, 0, 1, 0, 3, 1, 1, 0, 2, 9];
        let found = |wanted| alternate(&raw, 0, wanted).map(|found| found.into_keys().collect::<Vec<_>>());
        assert_eq!([found(0), found(1), found(2)], [Some(vec![0x81]), Some(vec![]), None]);
    }

    /// USB 3.2, 9.6.7: of each endpoint the one behind it.
    #[test]
    fn an_endpoint_has_its_companion() {
        let endpoints = [7, 5, 0x81, 2, 0, 4, 0, 6, 48, 15, 31, 0, 0, 7, 5, 0x82, 1, 0, 4, 1, 6, 48, 2, 1, 0, 0x18];
        let raw = [&[9, 4, 0, 0, 2, 8, 6, 80, 0][..], &endpoints].concat();
        let found = alternate(&raw, 0, 0).expect("the alternate");
        let block = |address: u8, speed: u8| {
            let block = asked(&found[&address], speed);
            (block.burst, block.mult, block.payload)
        };
        assert_eq!([block(0x81, 4), block(0x82, 5)], [(15, 0, 0), (2, 1, 0x1800)]);
        assert_eq!([block(0x81, 3), block(0x82, 3)], [(0, 0, 0), (0, 0, 1024)]);
    }

    #[test]
    fn intervals_are_those_of_the_document() {
        let cases =
            [(1, 1, 1, 3), (1, 1, 4, 6), (1, 3, 10, 6), (1, 3, 255, 10), (2, 3, 0, 3), (3, 3, 7, 6), (3, 1, 0, 0)];
        for (speed, transfer, byte, wanted) in cases {
            assert_eq!(interval(speed, transfer, byte), wanted, "{speed} {transfer} {byte}");
        }
        assert_eq!(interval(3, 2, 9), 0);
    }
}
