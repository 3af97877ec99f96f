//! Records of scenarios as words of the library's image (host/include/xhci_device.h), and back.

use scenario::{ENDPOINT_ROOM, Endpoint, GIVEN_ROOM, HELD_ROOM, LIST_ROOM, QUARANTINE_ROOM, Record};
use xhci_device::layout;

type Words = [u64; layout::WORDS];

/// The image of a record, sound or not. None where an array has no room for it.
pub fn image(record: &Record) -> Option<xhci_device::Record> {
    let fits = record.list.len() <= LIST_ROOM
        && record.endpoints.len() <= ENDPOINT_ROOM
        && record.held.len() <= HELD_ROOM
        && record.quarantined.len() <= QUARANTINE_ROOM
        && record.given.len() <= GIVEN_ROOM;
    if !fits {
        return None;
    }
    let mut words = [0; layout::WORDS];
    put_numbers(&mut words, record);
    put_arrays(&mut words, record);
    Some(xhci_device::Record::from_words(words))
}

fn put_numbers(words: &mut Words, record: &Record) {
    words[layout::USABLE] = record.usable.into();
    words[layout::UP] = record.up.into();
    words[layout::CONFIGURED] = record.config.is_some().into();
    words[layout::CONTROL_REVOKED] = record.control_revoked.into();
    words[layout::SLOT] = record.slot.into();
    words[layout::MAX_SLOTS] = record.n.into();
    words[layout::PORT_SPEED] = record.speed.into();
    words[layout::CURRENT_CONFIG_VALUE] = record.config.unwrap_or(0).into();
    words[layout::SPACING] = record.spacing as u64;
    words[layout::LIST_LEN] = record.list.len() as u64;
    words[layout::EP_COUNT] = record.endpoints.len() as u64;
    words[layout::HELD_COUNT] = record.held.len() as u64;
    words[layout::QUARANTINED_COUNT] = record.quarantined.len() as u64;
    words[layout::GIVEN_COUNT] = record.given.len() as u64;
    words[layout::CONTROL] = record.control;
}

fn put_arrays(words: &mut Words, record: &Record) {
    for (i, e) in record.endpoints.iter().enumerate() {
        words[layout::EP_REVOKED + i] = (!e.active).into();
        words[layout::EP_ADDRESSES + i] = e.address.into();
        words[layout::EP_INTERFACES + i] = e.owner.into();
        words[layout::EP_RINGS + i] = e.ring;
    }
    for (i, (interface, alternate)) in record.held.iter().enumerate() {
        words[layout::INTERFACES + i] = u64::from(*interface);
        words[layout::ALTERNATES + i] = u64::from(*alternate);
    }
    for (i, word) in record.list.iter().enumerate() {
        words[layout::LIST + i] = u64::from(*word);
    }
    words[layout::QUARANTINED..][..record.quarantined.len()].copy_from_slice(&record.quarantined);
    words[layout::GIVEN..][..record.given.len()].copy_from_slice(&record.given);
}

pub fn record(image: &xhci_device::Record) -> Record {
    let endpoint =
        |e: xhci_device::Endpoint| Endpoint { address: e.address, ring: e.ring, owner: e.interface, active: e.active };
    Record {
        usable: image.is_usable(),
        up: image.is_up(),
        slot: image.slot().0,
        n: image.n(),
        spacing: image.spacing(),
        speed: image.port_speed(),
        config: image.configuration().map(|value| value.0),
        control: image.control(),
        control_revoked: image.control_revoked(),
        list: image.list().collect(),
        endpoints: image.endpoints().map(endpoint).collect(),
        held: image.held().map(|s| (s.interface, s.alternate)).collect(),
        quarantined: image.quarantined().collect(),
        given: image.given().collect(),
    }
}
