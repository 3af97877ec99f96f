// Registers, of which only doorbells are seen.
use xhci::registers::doorbell;

use crate::bus;

#[derive(Clone)]
pub struct XhciRegistersShared;

pub struct SlotBell;

impl SlotBell {
    pub fn ring(&mut self, bell: doorbell::Register) {
        bus::ring(bell.target());
    }
}
