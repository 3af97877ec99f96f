use crate::descriptor::{EndpointDescriptor, EndpointType};
use crate::host::ControlSetup;
use crate::transfer::Direction;

#[derive(Clone, Copy, Debug, PartialEq, Eq)]
pub struct EndpointAddress(u8);

impl EndpointAddress {
    pub fn raw(self) -> u8 {
        self.0
    }
}

#[derive(Clone, Copy, Debug)]
pub struct EndpointInfo {
    pub address: EndpointAddress,
    pub transfer_type: EndpointType,
}

impl EndpointInfo {
    pub fn new(address: u8, transfer_type: EndpointType) -> Self {
        Self { address: EndpointAddress(address), transfer_type }
    }

    pub fn control() -> Self {
        Self::new(0, EndpointType::Control)
    }
}

impl From<&EndpointDescriptor> for EndpointInfo {
    fn from(descriptor: &EndpointDescriptor) -> Self {
        Self::new(descriptor.address, descriptor.transfer_type)
    }
}

#[derive(Clone, Copy, Debug, PartialEq, Eq)]
pub struct RequestId(u64);

impl RequestId {
    pub fn new(raw: u64) -> Self {
        Self(raw)
    }

    pub fn raw(self) -> u64 {
        self.0
    }
}

/// Memory of a transfer, as far as a ring asks: how long it is.
#[derive(Clone, Copy, Debug)]
pub struct TransferBuffer {
    pub len: usize,
}

#[derive(Clone, Debug)]
pub enum TransferRequest {
    Control { setup: ControlSetup, direction: Direction, buffer: Option<TransferBuffer> },
    Bulk { direction: Direction, buffer: Option<TransferBuffer> },
    Interrupt { direction: Direction, buffer: Option<TransferBuffer> },
    Isochronous { direction: Direction, packets: Vec<usize> },
}

#[derive(Clone, Debug)]
pub enum TransferKind {
    Control(ControlSetup),
    Bulk,
    Interrupt,
    Isochronous { packet_lengths: Vec<usize> },
}

#[derive(Clone, Copy, Debug)]
pub enum TransferStatus {
    Completed,
}

#[derive(Clone, Debug)]
pub struct IsoPacketResult {
    pub requested_length: usize,
    pub actual_length: usize,
    pub status: TransferStatus,
}

#[derive(Clone, Debug)]
pub struct TransferCompletion {
    pub request_id: RequestId,
    pub status: TransferStatus,
    pub actual_length: usize,
    pub iso_packets: Vec<IsoPacketResult>,
}
