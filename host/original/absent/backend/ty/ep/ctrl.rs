// Control transfers: each is one command of the scripted bus, and what it reads is an input. (A configuration's bytes are
// read with its descriptor: for them alone nothing is sent.)
use usb_if::{
    descriptor::{ConfigurationDescriptor, DescriptorType, DeviceDescriptor},
    err::TransferError,
    host::ControlSetup,
    transfer::Request,
};

use super::{EndpointHandle, EndpointLifecycle};
use crate::bus;

type Read<T> = Result<T, TransferError>;

impl EndpointHandle {
    pub async fn control_out(&mut self, setup: ControlSetup, _buff: &[u8]) -> Read<usize> {
        let Request::SetInterface = setup.request;
        bus::send(bus::word(bus::SET_INTERFACE, setup.index as u8, setup.value as u8)).await?;
        Ok(0)
    }

    pub async fn control_in(&mut self, _setup: ControlSetup, _buff: &mut [u8]) -> Read<usize> {
        Err(TransferError::NotSupported)
    }

    pub async fn set_configuration(&mut self, value: u8) -> Read<()> {
        bus::send(bus::word(bus::SET_CONFIGURATION, value, 0)).await
    }

    pub async fn get_descriptor(
        &mut self,
        kind: DescriptorType,
        index: u8,
        _language: u16,
        buff: &mut [u8],
    ) -> Read<usize> {
        if kind == DescriptorType::CONFIGURATION {
            return Ok(bus::raw(index, buff));
        }
        if kind != DescriptorType::DEVICE || buff.len() != 8 {
            return Err(TransferError::NotSupported);
        }
        bus::send(bus::word(bus::READ_HEADER, 0, 0)).await?;
        let (read, packet) = bus::header();
        buff[7] = packet;
        Ok(read)
    }

    pub async fn get_configuration(&mut self) -> Read<u8> {
        bus::send(bus::word(bus::READ_CONFIGURATION, 0, 0)).await?;
        Ok(bus::configuration_value())
    }

    pub async fn get_device_descriptor(&mut self) -> Read<DeviceDescriptor> {
        bus::send(bus::word(bus::READ_DEVICE, 0, 0)).await?;
        Ok(DeviceDescriptor {
            vendor_id: 0,
            product_id: 0,
            manufacturer_string_index: None,
            num_configurations: bus::configuration_count(),
        })
    }

    pub async fn get_configuration_descriptor(&mut self, index: u8) -> Read<ConfigurationDescriptor> {
        bus::send(bus::word(bus::READ_CONFIG, index, 0)).await?;
        Ok(bus::configuration(index))
    }

    pub(crate) fn is_active(&self) -> bool {
        self.inner.lock().lifecycle == EndpointLifecycle::Active
    }
}
