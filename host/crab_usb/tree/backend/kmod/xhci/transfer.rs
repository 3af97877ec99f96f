//! The routes of all slots: which ring the completions of an endpoint go to.

use alloc::{collections::BTreeMap, sync::Arc, vec::Vec};

use xhci::ring::trb::event::{CompletionCode, TransferEvent};
use xhci_device::Routes;

use super::{SlotId, reg::XhciRegistersShared, ring::SendRing, sync::IrqLock};
use crate::{BusAddr, queue::Finished};

#[derive(Clone, Copy, Debug, PartialEq, Eq, PartialOrd, Ord, Hash)]
pub struct TransferId(pub(crate) BusAddr);

/// Words of the table that are one slot's.
const SLOT_WORDS: usize = 32;

/// The table that the layer writes, and the queue of every ring that a slot was given.
struct Table {
    words: Vec<u64>,
    queues: BTreeMap<u64, Finished<TransferEvent>>,
}

#[derive(Clone)]
pub struct TransferResultHandler {
    inner: Arc<IrqLock<Table>>,
}

impl TransferResultHandler {
    pub fn new(reg: XhciRegistersShared) -> Self {
        let table = Table { words: Vec::new(), queues: BTreeMap::new() };
        Self { inner: Arc::new(IrqLock::new(table, reg)) }
    }

    /// Makes room for so many slots, once.
    pub fn serve(&self, slots: usize) {
        let mut table = self.inner.lock();
        let len = SLOT_WORDS * (slots + 1);
        if table.words.len() < len {
            table.words.resize(len, 0);
        }
    }

    /// Makes the queue of a ring known.
    pub fn register_queue(&self, ring: &SendRing<TransferEvent>) {
        self.inner.lock().queues.insert(ring.bus_addr().raw(), ring.finished_handle());
    }

    /// Forgets the queue of a ring that no controller uses.
    pub fn forget_queue(&self, ring: u64) {
        self.inner.lock().queues.remove(&ring);
    }

    /// Clears the routes of a slot that is disabled.
    pub fn clear(&self, slot: SlotId) {
        let first = SLOT_WORDS * slot.as_usize();
        if let Some(words) = self.inner.lock().words.get_mut(first..first + SLOT_WORDS) {
            words.fill(0);
        }
    }

    /// Hands a completion to the ring that the table names for its endpoint. False: it goes nowhere.
    ///
    /// # Safety
    /// Called from the interrupt path alone, which `IrqLock::lock` keeps out.
    pub unsafe fn set_finished(&self, slot_id: u8, ep_id: u8, ptr: BusAddr, res: TransferEvent) -> bool {
        if let Ok(CompletionCode::RingUnderrun | CompletionCode::RingOverrun) = res.completion_code() {
            trace!("xhci: slot {slot_id}, Dci {ep_id}: the isochronous ring has nothing to do");
            return true;
        }
        // SAFETY: as above.
        let table = unsafe { self.inner.force_use() };
        let routed = table.queue(slot_id, ep_id).is_some_and(|queue| queue.try_set_finished(ptr, res));
        if !routed {
            error!("xhci: slot {slot_id}, Dci {ep_id}: no ring waits for the completion at {:#x}", ptr.raw());
        }
        routed
    }
}

impl Table {
    fn queue(&self, slot: u8, dci: u8) -> Option<&Finished<TransferEvent>> {
        let ring = self.words.get(SLOT_WORDS * usize::from(slot) + usize::from(dci))?;
        self.queues.get(ring)
    }
}

/// Interrupts wait while a step runs.
impl Routes for TransferResultHandler {
    fn with<R>(&self, step: impl FnOnce(&mut [u64]) -> R) -> R {
        step(&mut self.inner.lock().words)
    }
}
