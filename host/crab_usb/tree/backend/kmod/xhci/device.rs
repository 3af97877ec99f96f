//! crab-usb's device on a slot, over the proved layer. Contexts, routes, lifecycles and the order of commands are the layer's;
//! here its commands are sent, and its record is shown as crab-usb shows a device.

use alloc::{boxed::Box, collections::BTreeMap, sync::Arc};
use core::mem::ManuallyDrop;

use ax_sync::SpinLock as Mutex;
use futures::{FutureExt, future::BoxFuture};
use usb_if::descriptor::{ConfigurationDescriptor, DeviceDescriptor};
use xhci_device::{Answer, Attached, Call, Pending, Record};

use super::{SlotId, Xhci, transfer::TransferResultHandler};
use crate::{
    DeviceAddressInfo,
    backend::ty::{DeviceOp, HubParams, ep::EndpointHandle},
    err::Result,
};

mod answer;
mod attach;
mod handles;
mod pool;
mod request;
mod wire;

use pool::Pool;
use wire::Wire;

/// How many rings a device is given: one for control, and two for each of eight endpoints, since a switch needs the rings of
/// the new setting while those of the old one are in use. The layer takes 1 to 64.
const RINGS: usize = 1 + 2 * 8;

pub struct Device {
    id: SlotId,
    /// How many slots the routes serve.
    slots: usize,
    record: Box<Record>,
    routes: TransferResultHandler,
    wire: ManuallyDrop<Wire>,
    /// What the last call answered.
    answer: Answer,
    /// Whether the controller may use the contexts and rings.
    in_use: bool,
}

impl Device {
    pub(crate) async fn new(host: &mut Xhci) -> Result<Self> {
        Self::with_rings(host, RINGS).await
    }

    /// A device with another number of rings.
    pub(crate) async fn with_rings(host: &mut Xhci, count: usize) -> Result<Self> {
        let id = host.device_slot_assignment().await?;
        let is_64 = host.is_64bit_ctx();
        let kernel = host.kernel.clone();
        let contexts = host.dev_mut()?;
        let slots = contexts.max_slots();
        let memory = contexts.new_ctx(id, is_64, &kernel)?;
        let bell = Arc::new(Mutex::new(host.new_slot_bell(id)));
        let pool = Pool::new(id, count, &kernel, bell, &host.cmd)?;
        let routes = host.transfer_result_handler.clone();
        routes.serve(slots);
        pool.register(&routes);
        let wire = ManuallyDrop::new(Wire::new(id, memory, host.cmd.clone(), pool));
        Ok(Self { id, slots, record: Box::new(Record::new()), routes, wire, answer: Answer::Unusable, in_use: false })
    }

    pub(crate) async fn init(&mut self, _host: &mut Xhci, info: &DeviceAddressInfo) -> Result {
        let brought_up = self.bring_up(info).await;
        if brought_up.is_err() {
            self.end_slot().await;
        }
        brought_up
    }

    pub(crate) async fn bring_up(&mut self, info: &DeviceAddressInfo) -> Result {
        let (rings, hubs) = (self.wire.pool.addresses(), attach::hub_words(info));
        self.in_use = true;
        let attached = Attached {
            slot: xhci_device::SlotId(self.id.as_u8()),
            n: self.slots,
            speed: info.port_speed.to_xhci_slot_value(),
            parent: info.parent_hub.map(|_| attach::NEAREST),
            port: info.port_id,
            root_port: info.root_port_id,
            rings: &rings,
            hubs: &hubs,
        };
        self.run(Call::BringUp(attached)).await
    }

    /// After a bring-up that failed no call can end the slot. Its routes stand until it is disabled.
    async fn end_slot(&mut self) {
        match self.wire.disable().await {
            Ok(()) => {
                self.routes.clear(self.id);
                self.in_use = false;
            }
            Err(err) => warn!("slot {}: Disable Slot failed after a failed bring-up: {err}", self.id.as_u8()),
        }
    }

    /// Drives a call to its end. Where its future is dropped the call is cut, and `answer` says so.
    async fn run(&mut self, call: Call<'_>) -> Result {
        self.answer = Answer::Cut;
        self.wire.take_errors();
        let mut ctx = self.wire.memory.input();
        let mut pending = Box::new(Pending::new(&mut self.record, &mut ctx, call));
        self.answer = pending.run_async(&self.routes, &mut *self.wire).await;
        let unreadable = pending.unreadable();
        answer::result(self.answer, self.wire.take_errors(), unreadable)
    }

    /// The layer's answer to the last call, which has more to say than an error: docs/INTEGRATION.md has what to do after it.
    #[allow(dead_code)]
    pub(crate) fn answer(&self) -> Answer {
        self.answer
    }

    /// What is held, and by which rings.
    #[allow(dead_code)]
    pub(crate) fn record(&self) -> &Record {
        &self.record
    }

    async fn _claim_interface(&mut self, interface: u8, alternate: u8) -> Result<BTreeMap<u8, EndpointHandle>> {
        self.run(Call::Claim { interface, alternate }).await?;
        let owned = self.record.endpoints().filter(|endpoint| endpoint.interface == interface);
        let handle = |address| Some((address, self.wire.eps.get(&address)?.handle.clone()));
        Ok(owned.filter_map(|endpoint| handle(endpoint.address)).collect())
    }

    async fn _disconnect(&mut self) -> Result {
        self.run(Call::Disconnect).await?;
        self.in_use = false;
        Ok(())
    }
}

impl DeviceOp for Device {
    fn id(&self) -> usize {
        self.id.as_usize()
    }

    fn backend_name(&self) -> &str {
        "xhci"
    }

    fn descriptor(&self) -> &DeviceDescriptor {
        self.wire.desc.as_ref().expect("a device that was brought up")
    }

    fn ctrl_ep_ref(&self) -> &EndpointHandle {
        self.wire.control.as_ref().expect("a device that was brought up")
    }

    fn ctrl_ep_mut(&mut self) -> &mut EndpointHandle {
        self.wire.control.as_mut().expect("a device that was brought up")
    }

    fn claim_interface<'a>(
        &'a mut self,
        interface: u8,
        alternate: u8,
    ) -> BoxFuture<'a, Result<BTreeMap<u8, EndpointHandle>>> {
        self._claim_interface(interface, alternate).boxed()
    }

    fn release_interface<'a>(&'a mut self, interface: u8) -> BoxFuture<'a, Result<()>> {
        self.run(Call::Release { interface }).boxed()
    }

    fn set_configuration<'a>(&'a mut self, configuration_value: u8) -> BoxFuture<'a, Result<()>> {
        self.run(Call::SetConfiguration { value: configuration_value }).boxed()
    }

    fn disconnect(&mut self) -> BoxFuture<'_, Result<()>> {
        self._disconnect().boxed()
    }

    fn configuration_descriptors(&self) -> &[ConfigurationDescriptor] {
        &self.wire.configurations
    }

    fn update_hub(&mut self, params: HubParams) -> BoxFuture<'_, Result<()>> {
        let HubParams { num_ports, multi_tt, tt_think_time_ns, .. } = params;
        self.run(Call::HubUpdate { ports: num_ports, multi: multi_tt, ns: tt_think_time_ns.into() }).boxed()
    }
}

/// What the controller may use is kept for good: a device that is dropped sends no more commands.
impl Drop for Device {
    fn drop(&mut self) {
        if self.in_use {
            warn!("slot {}: the device was dropped before it was unplugged; its memory is kept", self.id.as_u8());
            return;
        }
        self.wire.pool.forget(&self.routes);
        // SAFETY: nothing uses it after this.
        unsafe { ManuallyDrop::drop(&mut self.wire) };
    }
}
