//! Sends the commands of a call.

use alloc::{collections::BTreeMap, vec::Vec};
use core::{mem, num::NonZeroU8};

use mbarrier::mb;
use usb_if::{
    descriptor::{ConfigurationDescriptor, DeviceDescriptor},
    endpoint::EndpointInfo,
    err::TransferError,
};
use xhci::ring::trb::command;
use xhci_device::{AsyncBus, Command, Dci, Job, Outcome, Read, Record};

use super::super::{SlotId, cmd::CommandRing, context::ContextData, endpoint::Endpoint as XhciEndpoint};
use super::{handles::Published, pool::Pool};
use crate::backend::ty::ep::EndpointHandle;

pub(super) type Done = core::result::Result<(), TransferError>;

/// What a call's commands are sent over, and what they have read.
pub(super) struct Wire {
    id: SlotId,
    pub(super) memory: ContextData,
    cmd: CommandRing,
    pub(super) pool: Pool,
    pub(super) control: Option<EndpointHandle>,
    /// By address.
    pub(super) eps: BTreeMap<u8, Published>,
    /// The record's rings by Dci.
    pub(super) rings: [u64; 32],
    pub(super) desc: Option<DeviceDescriptor>,
    pub(super) configurations: Vec<ConfigurationDescriptor>,
    /// What the last command read.
    pub(super) read: Vec<u8>,
    /// Of the commands of this call that failed.
    errors: Vec<TransferError>,
}

impl AsyncBus for Wire {
    async fn send(&mut self, job: Job, ctx: &[u8]) -> Outcome<'_> {
        self.read.clear();
        if let Err(error) = self.carry_out(job, ctx).await {
            self.errors.push(error);
            let place = u8::try_from(self.errors.len()).ok().and_then(NonZeroU8::new);
            return Err(place.unwrap_or(NonZeroU8::MAX));
        }
        Ok(Read::Bytes(&self.read))
    }

    fn stepped(&mut self, record: &Record) {
        self.follow(record);
    }
}

impl Wire {
    pub(super) fn new(id: SlotId, memory: ContextData, cmd: CommandRing, pool: Pool) -> Self {
        Self {
            id,
            memory,
            cmd,
            pool,
            control: None,
            eps: BTreeMap::new(),
            rings: [0; 32],
            desc: None,
            configurations: Vec::new(),
            read: Vec::new(),
            errors: Vec::new(),
        }
    }

    /// Those of this call, for the next one to begin with none.
    pub(super) fn take_errors(&mut self) -> Vec<TransferError> {
        mem::take(&mut self.errors)
    }

    async fn carry_out(&mut self, job: Job, ctx: &[u8]) -> Done {
        match job.command {
            Command::Address | Command::Evaluate | Command::Configure => self.over_context(job, ctx).await,
            Command::Stop(dci) => self.stop(dci).await,
            Command::Resume(dci) => self.resume(dci).await,
            Command::Disable => self.disable().await,
            request => self.request(request).await,
        }
    }

    async fn over_context(&mut self, job: Job, ctx: &[u8]) -> Done {
        for dci in job.added() {
            self.begin(dci, job.ring(dci));
        }
        self.memory.write_input(ctx);
        mb();
        let (slot, input) = (self.id.into(), self.memory.input_bus_addr());
        let trb = match job.command {
            Command::Address => command::Allowed::AddressDevice(
                *command::AddressDevice::new().set_slot_id(slot).set_input_context_pointer(input),
            ),
            Command::Evaluate => command::Allowed::EvaluateContext(
                *command::EvaluateContext::default().set_slot_id(slot).set_input_context_pointer(input),
            ),
            _ => command::Allowed::ConfigureEndpoint(
                *command::ConfigureEndpoint::default().set_slot_id(slot).set_input_context_pointer(input),
            ),
        };
        self.cmd.cmd_request(trb).await?;
        Ok(())
    }

    /// Before the command that adds an endpoint.
    pub(super) fn begin(&mut self, dci: Dci, ring: u64) {
        self.pool.endpoint(ring, |raw| raw.begin_anew(dci.0.into()));
        if dci == Dci::CONTROL {
            let lease = self.pool.lease(ring);
            self.control = lease.map(|lease| EndpointHandle::new(EndpointInfo::control(), lease));
        }
    }

    async fn stop(&mut self, dci: Dci) -> Done {
        let ring = self.ring(dci);
        let stopped = self.pool.endpoint(ring, |raw| raw.stop_future());
        stopped.ok_or(TransferError::InvalidEndpoint)?.await?;
        self.pool.endpoint(ring, XhciEndpoint::retire_all_after_stop);
        Ok(())
    }

    /// An endpoint that the output context calls running was added again by a Configure: it takes no new dequeue pointer.
    async fn resume(&mut self, dci: Dci) -> Done {
        let ring = self.ring(dci);
        if self.memory.is_running(dci.0) {
            return self.pool.endpoint(ring, XhciEndpoint::go_on).ok_or(TransferError::InvalidEndpoint);
        }
        let resumed = self.pool.endpoint(ring, |raw| raw.resume_future());
        resumed.ok_or(TransferError::InvalidEndpoint)?.await
    }

    pub(super) async fn disable(&mut self) -> Done {
        let disable = *command::DisableSlot::default().set_slot_id(self.id.into());
        self.cmd.cmd_request(command::Allowed::DisableSlot(disable)).await?;
        self.pool.retire_all();
        Ok(())
    }

    fn ring(&self, dci: Dci) -> u64 {
        self.rings.get(usize::from(dci.0)).copied().unwrap_or(0)
    }
}
