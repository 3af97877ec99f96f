// A completion queue is known by its ring's address.
use core::marker::PhantomData;

use crate::BusAddr;

// What the rest of the crate names of a module that is private there.
pub(crate) use super::kcore::Core;
pub(crate) use super::xhci::Dci;
pub(crate) use super::xhci::device::layer;

pub struct Finished<C> {
    pub(crate) ring: BusAddr,
    completion: PhantomData<fn() -> C>,
}

impl<C> Finished<C> {
    pub(crate) fn new(ring: BusAddr) -> Self {
        Self { ring, completion: PhantomData }
    }

    pub(crate) fn same_queue(&self, other: &Self) -> bool {
        self.ring == other.ring
    }

    pub(crate) fn try_set_finished(&self, _trb: BusAddr, _event: C) -> bool {
        false
    }
}

impl<C> Clone for Finished<C> {
    fn clone(&self) -> Self {
        Self::new(self.ring)
    }
}
