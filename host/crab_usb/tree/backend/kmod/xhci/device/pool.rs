//! The rings that a slot is given. Each stays in its own endpoint of endpoint.rs for the slot's life, and has one holder at a time.

use alloc::{boxed::Box, collections::BTreeMap, sync::Arc, vec::Vec};
use core::task::Context;

use ax_sync::SpinLock as Mutex;
use usb_if::{
    endpoint::{RequestId, TransferCompletion, TransferRequest},
    err::TransferError,
};

use super::super::{
    SlotId, cmd::CommandRing, endpoint::Endpoint as XhciEndpoint, reg::SlotBell, transfer::TransferResultHandler,
};
use crate::{
    backend::{
        Dci,
        ty::ep::{EndpointOp, EndpointResetFuture},
    },
    err::Result,
    osal::Kernel,
};

struct Shared {
    endpoint: XhciEndpoint,
    /// The number of its holder; earlier ones may do nothing.
    holder: u64,
    /// Whether the record calls the holder's endpoint active.
    active: bool,
}

type Ring = Arc<Mutex<Shared>>;

/// By bus address.
pub(super) struct Pool(BTreeMap<u64, Ring>);

impl Pool {
    pub(super) fn new(
        slot: SlotId,
        count: usize,
        kernel: &Kernel,
        bell: Arc<Mutex<SlotBell>>,
        cmd: &CommandRing,
    ) -> Result<Self> {
        let mut rings = BTreeMap::new();
        for _ in 0..count {
            let endpoint = XhciEndpoint::new(slot, Dci::CTRL, kernel, bell.clone(), cmd.clone())?;
            let address = endpoint.bus_addr().raw();
            rings.insert(address, Arc::new(Mutex::new(Shared { endpoint, holder: 0, active: false })));
        }
        Ok(Self(rings))
    }

    pub(super) fn addresses(&self) -> Vec<u64> {
        self.0.keys().copied().collect()
    }

    pub(super) fn register(&self, routes: &TransferResultHandler) {
        for ring in self.0.values() {
            routes.register_queue(ring.lock().endpoint.ring());
        }
    }

    pub(super) fn forget(&self, routes: &TransferResultHandler) {
        for address in self.0.keys() {
            routes.forget_queue(*address);
        }
    }

    fn with<R>(&self, ring: u64, f: impl FnOnce(&mut Shared) -> R) -> Option<R> {
        self.0.get(&ring).map(|ring| f(&mut ring.lock()))
    }

    /// The endpoint over a ring.
    pub(super) fn endpoint<R>(&self, ring: u64, f: impl FnOnce(&mut XhciEndpoint) -> R) -> Option<R> {
        self.with(ring, |shared| f(&mut shared.endpoint))
    }

    /// Gives a ring to a new holder. None where the slot has no such ring.
    pub(super) fn lease(&self, ring: u64) -> Option<Lease> {
        let holder = self.with(ring, |shared| {
            shared.endpoint.forget_requests();
            (shared.holder, shared.active) = (shared.holder + 1, true);
            shared.holder
        })?;
        Some(Lease { ring: self.0.get(&ring)?.clone(), holder })
    }

    /// Takes a ring from its holder.
    pub(super) fn end(&self, ring: u64) {
        self.with(ring, |shared| (shared.holder, shared.active) = (shared.holder + 1, false));
    }

    pub(super) fn set_active(&self, ring: u64, active: bool) {
        self.with(ring, |shared| shared.active = active);
    }

    /// Of a slot that is disabled: nothing is under way on any ring.
    pub(super) fn retire_all(&self) {
        for ring in self.0.values() {
            ring.lock().endpoint.retire_all_after_stop();
        }
    }
}

/// What stands behind the handle of an endpoint: a ring, for as long as it is this holder's. A handle may be made active again by
/// code that knows of no record; nothing is sent even so, unless the record calls the endpoint active.
pub(super) struct Lease {
    ring: Ring,
    holder: u64,
}

impl Lease {
    fn with<R>(&self, f: impl FnOnce(&mut Shared) -> R) -> Option<R> {
        let mut shared = self.ring.lock();
        (shared.holder == self.holder).then(|| f(&mut shared))
    }
}

impl EndpointOp for Lease {
    fn submit_request(&mut self, request: TransferRequest) -> core::result::Result<RequestId, TransferError> {
        let submit = |shared: &mut Shared| match shared.active {
            true => shared.endpoint.submit_request(request),
            false => Err(TransferError::EndpointRevoked),
        };
        self.with(submit).unwrap_or(Err(TransferError::EndpointRevoked))
    }

    fn reclaim_request(&mut self, id: RequestId) -> Option<core::result::Result<TransferCompletion, TransferError>> {
        self.with(|shared| shared.endpoint.reclaim_request(id)).unwrap_or(Some(Err(TransferError::Cancelled)))
    }

    fn register_waker(&self, id: RequestId, cx: &mut Context<'_>) {
        if self.with(|shared| shared.endpoint.register_waker(id, cx)).is_none() {
            cx.waker().wake_by_ref();
        }
    }

    fn cancel_request(&mut self, id: RequestId) -> core::result::Result<(), TransferError> {
        self.with(|shared| shared.endpoint.cancel_request(id)).unwrap_or(Err(TransferError::InvalidEndpoint))
    }

    fn reset(&mut self) -> EndpointResetFuture {
        let reset = self.with(|shared| shared.endpoint.reset());
        reset.unwrap_or_else(|| Box::pin(async { Err(TransferError::EndpointRevoked) }))
    }
}
