// A transfer, of which no byte is moved.
pub use usb_if::endpoint::TransferKind;
use usb_if::{
    endpoint::{TransferBuffer, TransferRequest},
    err::TransferError,
    transfer::Direction,
};

use crate::osal::Kernel;

pub struct Transfer {
    pub kind: TransferKind,
    pub direction: Direction,
    pub iso_packet_actual_lengths: Vec<usize>,
    pub transfer_len: usize,
    length: usize,
}

impl Transfer {
    pub(crate) fn from_request(_kernel: &Kernel, request: TransferRequest) -> Result<Self, TransferError> {
        let length = |buffer: Option<TransferBuffer>| buffer.map_or(0, |buffer| buffer.len);
        let (kind, direction, length) = match request {
            TransferRequest::Control { setup, direction, buffer } => {
                (TransferKind::Control(setup), direction, length(buffer))
            }
            TransferRequest::Bulk { direction, buffer } => (TransferKind::Bulk, direction, length(buffer)),
            TransferRequest::Interrupt { direction, buffer } => (TransferKind::Interrupt, direction, length(buffer)),
            TransferRequest::Isochronous { direction, packets } => {
                let length = packets.iter().sum();
                (TransferKind::Isochronous { packet_lengths: packets }, direction, length)
            }
        };
        Ok(Self { kind, direction, iso_packet_actual_lengths: Vec::new(), transfer_len: 0, length })
    }

    pub fn buffer_len(&self) -> usize {
        self.length
    }

    pub fn dma_addr(&self) -> u64 {
        0
    }

    pub fn prepare_for_device(&self) {}

    pub fn complete_for_cpu(&self) {}
}
