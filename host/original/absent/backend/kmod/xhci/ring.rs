// A ring is its address.
use core::marker::PhantomData;

use crate::BusAddr;
use crate::backend::kmod::queue::Finished;

pub struct SendRing<C> {
    address: BusAddr,
    completion: PhantomData<fn() -> C>,
}

impl<C> SendRing<C> {
    pub(crate) fn at(address: BusAddr) -> Self {
        Self { address, completion: PhantomData }
    }

    pub fn bus_addr(&self) -> BusAddr {
        self.address
    }

    pub fn finished_handle(&self) -> Finished<C> {
        Finished::new(self.address)
    }
}
