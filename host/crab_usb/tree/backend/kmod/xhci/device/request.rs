//! Requests to the device, over its control endpoint.

use alloc::{vec, vec::Vec};

use usb_if::{
    descriptor::{DescriptorType, DeviceDescriptor},
    err::TransferError,
    host::ControlSetup,
    transfer::{Recipient, Request, RequestType},
};
use xhci_device::Command;

use super::wire::{Done, Wire};
use crate::backend::ty::ep::EndpointHandle;

type Bytes = core::result::Result<Vec<u8>, TransferError>;

/// Of a device descriptor, its header (USB 2.0, 9.6.1), and the head of a configuration's (9.6.3).
const DEVICE_BYTES: usize = 18;
const HEADER_BYTES: usize = 8;
const CONFIGURATION_HEAD: usize = 9;

impl Wire {
    /// Where a request has halted control, that is reset before anything else is sent.
    pub(super) async fn request(&mut self, request: Command) -> Done {
        let done = self.on_control(request).await;
        if done.is_err()
            && let Some(reset) = self.control.as_ref().map(EndpointHandle::reset)
        {
            let _ = reset.await;
        }
        done
    }

    async fn on_control(&mut self, request: Command) -> Done {
        let Wire { control, read, desc, configurations, .. } = self;
        let control = control.as_mut().ok_or(TransferError::InvalidEndpoint)?;
        match request {
            Command::SetInterface { interface, alternate } => {
                control.control_out(set_interface(interface, alternate), &[]).await?;
            }
            Command::SetConfiguration(value) => {
                control.set_configuration(value).await?;
            }
            Command::ReadHeader => *read = descriptor(control, DescriptorType::DEVICE, 0, HEADER_BYTES).await?,
            Command::ReadConfiguration => read.push(control.get_configuration().await?),
            Command::ReadDevice => {
                let device = control.get_device_descriptor().await?;
                *read = device_bytes(&device);
                *desc = Some(device);
            }
            Command::ReadConfig(index) => {
                let configuration = control.get_configuration_descriptor(index).await?;
                *read = configuration_bytes(control, index).await?;
                configurations.push(configuration);
            }
            _ => return Err(TransferError::NotSupported),
        }
        Ok(())
    }
}

pub(super) fn set_interface(interface: u8, alternate: u8) -> ControlSetup {
    ControlSetup {
        request_type: RequestType::Standard,
        recipient: Recipient::Interface,
        request: Request::SetInterface,
        value: alternate.into(),
        index: interface.into(),
    }
}

/// What the device sends of a descriptor.
async fn descriptor(control: &mut EndpointHandle, kind: DescriptorType, index: u8, length: usize) -> Bytes {
    let mut bytes = vec![0; length];
    let read = control.get_descriptor(kind, index, 0, &mut bytes).await?;
    bytes.truncate(read);
    Ok(bytes)
}

/// A configuration with all that follows it; its head says how long that is.
async fn configuration_bytes(control: &mut EndpointHandle, index: u8) -> Bytes {
    let head = descriptor(control, DescriptorType::CONFIGURATION, index, CONFIGURATION_HEAD).await?;
    let total = head.get(2..4).map_or(0, |total| usize::from(u16::from_le_bytes([total[0], total[1]])));
    if total <= head.len() {
        return Ok(head);
    }
    descriptor(control, DescriptorType::CONFIGURATION, index, total).await
}

/// Of a device descriptor the layer asks the number of configurations, its last byte.
fn device_bytes(device: &DeviceDescriptor) -> Vec<u8> {
    let mut bytes = vec![0; DEVICE_BYTES];
    bytes[DEVICE_BYTES - 1] = device.num_configurations;
    bytes
}
