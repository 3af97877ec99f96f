//! What a bring-up is told of the hubs above a device.

use alloc::vec::Vec;

use xhci_device::Hub;

use crate::DeviceAddressInfo;

/// No chain that the layer accepts has more: depths fall by one, from 4 to -1.
const MOST_HUBS: usize = 6;

/// Where the hub next above the device stands among the words.
pub(super) const NEAREST: usize = 0;

/// The words of the hubs above the device, the nearest first, each on the next. One that is missing has no word, and the layer
/// refuses the chain.
pub(super) fn hub_words(info: &DeviceAddressInfo) -> Vec<u64> {
    let mut words = Vec::new();
    let mut next = info.parent_hub;
    while let Some(hub) = next.and_then(|id| info.infos.get(&id)).filter(|_| words.len() < MOST_HUBS) {
        let hub_word = Hub {
            parent: hub.parent.map(|_| words.len() as u8 + 1),
            slot: xhci_device::SlotId(hub.slot_id),
            depth: i8::try_from(hub.hub_depth).unwrap_or(i8::MAX),
            speed: hub.speed.to_xhci_slot_value(),
            port: hub.port_id,
            multi: hub.tt.multi,
        };
        words.push(hub_word.word());
        next = hub.parent.filter(|_| hub.hub_depth != -1);
    }
    words
}
