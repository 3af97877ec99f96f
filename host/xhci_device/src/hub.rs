//! Hubs above a device.

use crate::SlotId;

/// A hub, as a bring-up is told of it.
///
/// ```
/// use xhci_device::{Hub, SlotId};
///
/// let root = Hub { parent: None, slot: SlotId(0), depth: -1, speed: 3, port: 0, multi: false };
/// let hub = Hub { parent: Some(0), slot: SlotId(2), depth: 0, speed: 3, port: 4, multi: false };
/// assert_eq!([root.word(), hub.word()], [0x8000_0300_0000_0000, 0xC000_8B04_0000_0000]);
/// ```
#[derive(Clone, Copy, Debug, PartialEq, Eq, Hash)]
pub struct Hub {
    /// The hub that it is on: its place among the hubs.
    pub parent: Option<u8>,
    /// Its own slot.
    pub slot: SlotId,
    /// -1 for a root hub, otherwise one more than its parent's, at most 4.
    pub depth: i8,
    /// xHCI's speed id, 1 to 5.
    pub speed: u8,
    /// The port that it is on.
    pub port: u8,
    /// Whether each of its ports has its own transaction translator.
    pub multi: bool,
}

impl Hub {
    /// The hub word: from the highest bit on a 1 for present, whether it has a parent, the parent's place in 8 bits, slot
    /// in 8, depth plus one in 3, speed in 3, port in 8, multi; the rest 0. A depth or a speed that has no such bits is
    /// written as 7, which a bring-up refuses.
    pub fn word(self) -> u64 {
        let (depth, speed) = (self.depth.wrapping_add(1) as u8, self.speed);
        1 << 63
            | u64::from(self.parent.is_some()) << 62
            | u64::from(self.parent.unwrap_or(0)) << 54
            | u64::from(self.slot.0) << 46
            | u64::from(depth.min(7)) << 43
            | u64::from(speed.min(7)) << 40
            | u64::from(self.port) << 32
            | u64::from(self.multi) << 31
    }
}
