// An endpoint as its Dci and its ring; the ring is the next one that may be drawn.
use std::sync::Arc;

use ax_sync::SpinLock as Mutex;
use usb_if::{
    descriptor::{self, EndpointDescriptor},
    endpoint::{RequestId, TransferCompletion, TransferRequest},
    err::TransferError,
};
use xhci::ring::trb::{command, event::TransferEvent};

use super::{SlotId, cmd::CommandRing, reg::SlotBell, ring::SendRing};
use crate::{
    BusAddr,
    backend::{
        Dci,
        kmod::osal::Kernel,
        ty::ep::{EndpointOp, EndpointResetFuture},
    },
    bus,
};

pub struct Endpoint {
    slot_id: SlotId,
    dci: Dci,
    ring: SendRing<TransferEvent>,
    cmd: CommandRing,
}

impl Endpoint {
    pub fn new(
        slot_id: SlotId,
        dci: Dci,
        _kernel: &Kernel,
        _bell: Arc<Mutex<SlotBell>>,
        cmd: CommandRing,
    ) -> crate::err::Result<Self> {
        Ok(Self::at(slot_id, dci, bus::next_ring(), cmd))
    }

    pub(crate) fn at(slot_id: SlotId, dci: Dci, ring: u64, cmd: CommandRing) -> Self {
        Self { slot_id, dci, ring: SendRing::at(ring.into()), cmd }
    }

    pub fn configure_periodic(&mut self, _max_packet_size: usize, _max_burst_size: usize, _interval: u8) {}

    pub fn bus_addr(&self) -> BusAddr {
        self.ring.bus_addr()
    }

    pub fn ring(&self) -> &SendRing<TransferEvent> {
        &self.ring
    }

    pub(crate) fn stop_future(&self) -> EndpointResetFuture {
        let stop =
            *command::StopEndpoint::default().set_endpoint_id(self.dci.as_u8()).set_slot_id(self.slot_id.as_u8());
        self.request(command::Allowed::StopEndpoint(stop))
    }

    pub(crate) fn retire_all_after_stop(&mut self) {}

    pub(crate) fn resume_future(&self) -> EndpointResetFuture {
        let resume = *command::SetTrDequeuePointer::default()
            .set_endpoint_id(self.dci.as_u8())
            .set_slot_id(self.slot_id.as_u8());
        self.request(command::Allowed::SetTrDequeuePointer(resume))
    }

    fn request(&self, command: command::Allowed) -> EndpointResetFuture {
        let mut cmd = self.cmd.clone();
        Box::pin(async move {
            cmd.cmd_request(command).await?;
            Ok(())
        })
    }
}

// No transfer is submitted: what goes over the control endpoint is in ctrl.rs.
impl EndpointOp for Endpoint {
    fn submit_request(&mut self, _request: TransferRequest) -> Result<RequestId, TransferError> {
        Err(TransferError::NotSupported)
    }

    fn reclaim_request(&mut self, _id: RequestId) -> Option<Result<TransferCompletion, TransferError>> {
        None
    }

    fn register_waker(&self, _id: RequestId, _cx: &mut core::task::Context<'_>) {}
}
