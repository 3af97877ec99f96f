//! Input contexts, doubleword by doubleword. A setter cuts a value to its field's width.

/// The bits from `low` on, `width` of them, of doubleword `at`.
fn set(block: &mut [u32], at: usize, low: u32, width: u32, value: u32) {
    let mask = (u32::MAX >> (32 - width)) << low;
    block[at] = (block[at] & !mask) | ((value << low) & mask);
}

#[derive(Clone, Copy, Debug, PartialEq, Eq)]
pub enum EndpointType {
    IsochOut = 1,
    BulkOut = 2,
    InterruptOut = 3,
    Control = 4,
    IsochIn = 5,
    BulkIn = 6,
    InterruptIn = 7,
}

pub trait Block {
    fn dwords(&mut self) -> &mut [u32];
}

/// Input Control Context, 6.2.5.1.
pub trait InputControlHandler: Block {
    fn set_drop_context_flag(&mut self, index: usize) {
        assert!(index > 1);
        set(self.dwords(), 0, index as u32, 1, 1);
    }
    fn clear_drop_context_flag(&mut self, index: usize) {
        assert!(index > 1);
        set(self.dwords(), 0, index as u32, 1, 0);
    }
    fn set_add_context_flag(&mut self, index: usize) {
        set(self.dwords(), 1, index as u32, 1, 1);
    }
    fn clear_add_context_flag(&mut self, index: usize) {
        set(self.dwords(), 1, index as u32, 1, 0);
    }
    fn set_configuration_value(&mut self, value: u8) {
        set(self.dwords(), 7, 0, 8, value.into());
    }
    fn set_interface_number(&mut self, value: u8) {
        set(self.dwords(), 7, 8, 8, value.into());
    }
    fn set_alternate_setting(&mut self, value: u8) {
        set(self.dwords(), 7, 16, 8, value.into());
    }
}

/// Slot Context, 6.2.2.
pub trait SlotHandler: Block {
    fn set_route_string(&mut self, value: u32) {
        set(self.dwords(), 0, 0, 20, value);
    }
    fn set_speed(&mut self, value: u8) {
        set(self.dwords(), 0, 20, 4, value.into());
    }
    fn set_multi_tt(&mut self) {
        set(self.dwords(), 0, 25, 1, 1);
    }
    fn clear_multi_tt(&mut self) {
        set(self.dwords(), 0, 25, 1, 0);
    }
    fn set_hub(&mut self) {
        set(self.dwords(), 0, 26, 1, 1);
    }
    fn clear_hub(&mut self) {
        set(self.dwords(), 0, 26, 1, 0);
    }
    fn set_context_entries(&mut self, value: u8) {
        set(self.dwords(), 0, 27, 5, value.into());
    }
    fn set_max_exit_latency(&mut self, value: u16) {
        set(self.dwords(), 1, 0, 16, value.into());
    }
    fn set_root_hub_port_number(&mut self, value: u8) {
        set(self.dwords(), 1, 16, 8, value.into());
    }
    fn set_number_of_ports(&mut self, value: u8) {
        set(self.dwords(), 1, 24, 8, value.into());
    }
    fn set_parent_hub_slot_id(&mut self, value: u8) {
        set(self.dwords(), 2, 0, 8, value.into());
    }
    fn set_parent_port_number(&mut self, value: u8) {
        set(self.dwords(), 2, 8, 8, value.into());
    }
    fn set_tt_think_time(&mut self, value: u8) {
        set(self.dwords(), 2, 16, 2, value.into());
    }
    fn set_interrupter_target(&mut self, value: u16) {
        set(self.dwords(), 2, 22, 10, value.into());
    }
}

/// Endpoint Context, 6.2.3.
pub trait EndpointHandler: Block {
    fn set_mult(&mut self, value: u8) {
        set(self.dwords(), 0, 8, 2, value.into());
    }
    fn set_max_primary_streams(&mut self, value: u8) {
        set(self.dwords(), 0, 10, 5, value.into());
    }
    fn set_interval(&mut self, value: u8) {
        set(self.dwords(), 0, 16, 8, value.into());
    }
    fn set_error_count(&mut self, value: u8) {
        set(self.dwords(), 1, 1, 2, value.into());
    }
    fn set_endpoint_type(&mut self, value: EndpointType) {
        set(self.dwords(), 1, 3, 3, value as u32);
    }
    fn set_max_burst_size(&mut self, value: u8) {
        set(self.dwords(), 1, 8, 8, value.into());
    }
    fn set_max_packet_size(&mut self, value: u16) {
        set(self.dwords(), 1, 16, 16, value.into());
    }
    fn set_dequeue_cycle_state(&mut self) {
        set(self.dwords(), 2, 0, 1, 1);
    }
    fn set_tr_dequeue_pointer(&mut self, address: u64) {
        set(self.dwords(), 2, 4, 28, (address >> 4) as u32);
        set(self.dwords(), 3, 0, 32, (address >> 32) as u32);
    }
    fn set_average_trb_length(&mut self, value: u16) {
        set(self.dwords(), 4, 0, 16, value.into());
    }
    fn set_max_endpoint_service_time_interval_payload_low(&mut self, value: u16) {
        set(self.dwords(), 4, 16, 16, value.into());
    }
}

pub trait DeviceHandler {
    fn slot_mut(&mut self) -> &mut dyn SlotHandler;
    /// Dci 1 to 31.
    fn endpoint_mut(&mut self, dci: usize) -> &mut dyn EndpointHandler;
}

pub trait InputHandler {
    fn control_mut(&mut self) -> &mut dyn InputControlHandler;
    fn device_mut(&mut self) -> &mut dyn DeviceHandler;
    /// Not of the original: the whole context, little-endian, from and to bytes of its length.
    fn load(&mut self, bytes: &[u8]);
    fn store(&mut self, bytes: &mut [u8]);
}

/// A context block of so many doublewords.
#[derive(Clone, Copy)]
#[repr(C)]
pub struct Dwords<const D: usize>([u32; D]);

impl<const D: usize> Block for Dwords<D> {
    fn dwords(&mut self) -> &mut [u32] {
        &mut self.0
    }
}

impl<const D: usize> InputControlHandler for Dwords<D> {}
impl<const D: usize> SlotHandler for Dwords<D> {}
impl<const D: usize> EndpointHandler for Dwords<D> {}

#[derive(Clone, Copy)]
#[repr(C)]
pub struct Device<const D: usize> {
    slot: Dwords<D>,
    endpoints: [Dwords<D>; 31],
}

#[derive(Clone, Copy)]
#[repr(C)]
pub struct Input<const D: usize> {
    control: Dwords<D>,
    device: Device<D>,
}

pub type Device32Byte = Device<8>;
pub type Device64Byte = Device<16>;
pub type Input32Byte = Input<8>;
pub type Input64Byte = Input<16>;

impl Input<8> {
    pub fn new_32byte() -> Self {
        Self::default()
    }
}

impl Input<16> {
    pub fn new_64byte() -> Self {
        Self::default()
    }
}

impl<const D: usize> Default for Device<D> {
    fn default() -> Self {
        Self { slot: Dwords([0; D]), endpoints: [Dwords([0; D]); 31] }
    }
}

impl<const D: usize> Default for Input<D> {
    fn default() -> Self {
        Self { control: Dwords([0; D]), device: Device::default() }
    }
}

impl<const D: usize> DeviceHandler for Device<D> {
    fn slot_mut(&mut self) -> &mut dyn SlotHandler {
        &mut self.slot
    }

    fn endpoint_mut(&mut self, dci: usize) -> &mut dyn EndpointHandler {
        &mut self.endpoints[dci - 1]
    }
}

impl<const D: usize> Input<D> {
    fn blocks(&mut self) -> impl Iterator<Item = &mut Dwords<D>> {
        [&mut self.control, &mut self.device.slot].into_iter().chain(&mut self.device.endpoints)
    }
}

impl<const D: usize> InputHandler for Input<D> {
    fn control_mut(&mut self) -> &mut dyn InputControlHandler {
        &mut self.control
    }

    fn device_mut(&mut self) -> &mut dyn DeviceHandler {
        &mut self.device
    }

    fn load(&mut self, bytes: &[u8]) {
        for (block, bytes) in self.blocks().zip(bytes.chunks_exact(4 * D)) {
            for (dword, bytes) in block.0.iter_mut().zip(bytes.chunks_exact(4)) {
                *dword = u32::from_le_bytes([bytes[0], bytes[1], bytes[2], bytes[3]]);
            }
        }
    }

    fn store(&mut self, bytes: &mut [u8]) {
        for (block, bytes) in self.blocks().zip(bytes.chunks_exact_mut(4 * D)) {
            for (dword, bytes) in block.0.iter().zip(bytes.chunks_exact_mut(4)) {
                bytes.copy_from_slice(&dword.to_le_bytes());
            }
        }
    }
}
