// The controller, as far as a device asks it for things.
use usb_if::err::{TransferError, USBError};
use xhci::ring::trb::{command, event::CommandCompletion};

use super::SlotId;
use super::cmd::CommandRing;
use super::context::DeviceContextList;
use super::reg::{SlotBell, XhciRegistersShared};
use super::transfer::TransferResultHandler;
use crate::backend::kmod::kcore::CoreOp;
use crate::backend::kmod::osal::{Kernel, KernelOp};
use crate::err::Result;

pub struct Xhci {
    pub(crate) kernel: Kernel,
    pub(crate) cmd: CommandRing,
    pub(crate) transfer_result_handler: TransferResultHandler,
    slot: SlotId,
    is_64: bool,
    contexts: Option<DeviceContextList>,
}

impl Xhci {
    pub fn new(_mmio: crate::Mmio, _dma: dma_api::DeviceDma, _kernel: &'static dyn KernelOp) -> Result<Self> {
        Err(USBError::NotInitialized)
    }

    /// A controller whose next slot is the given one.
    pub(crate) fn scripted(slot: u8, max_slots: usize, is_64: bool) -> Result<Self> {
        let kernel = Kernel::default();
        Ok(Self {
            contexts: Some(DeviceContextList::new(max_slots, &kernel)?),
            kernel,
            cmd: CommandRing,
            transfer_result_handler: TransferResultHandler::new(XhciRegistersShared),
            slot: slot.into(),
            is_64,
        })
    }

    pub(crate) async fn device_slot_assignment(&mut self) -> core::result::Result<SlotId, TransferError> {
        Ok(self.slot)
    }

    pub(crate) fn is_64bit_ctx(&self) -> bool {
        self.is_64
    }

    pub(crate) fn dev_mut(&mut self) -> Result<&mut DeviceContextList> {
        self.contexts.as_mut().ok_or(USBError::NotInitialized)
    }

    pub(crate) fn new_slot_bell(&self, _slot: SlotId) -> SlotBell {
        SlotBell
    }

    pub(crate) async fn cmd_request(
        &mut self,
        command: command::Allowed,
    ) -> core::result::Result<CommandCompletion, TransferError> {
        self.cmd.cmd_request(command).await
    }
}

impl CoreOp for Xhci {}
