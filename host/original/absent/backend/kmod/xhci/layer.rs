// The functions of device.rs, asked as a `Layer`.
use std::sync::Arc;
use std::task::Poll;

use ax_sync::SpinLock;
use scenario::{
    Answer, Asked, BringUp, Buffers, Cannot, Claim, Endpoint, GIVEN_ROOM, HubUpdate, Layer, Outcome, Record, Shown,
    proper,
};
use usb_if::descriptor::{ConfigurationDescriptor, DeviceDescriptor, EndpointType};
use usb_if::endpoint::EndpointInfo;

use super::super::cmd::CommandRing;
use super::super::context::ContextData;
use super::super::endpoint::Endpoint as XhciEndpoint;
use super::super::host::Xhci;
use super::super::reg::{SlotBell, XhciRegistersShared};
use super::super::transfer::TransferResultHandler;
use super::asked::{Polled, address_info, answer, ask, poll, quiet_panics, walk};
use super::{Device, endpoint_address_dci};
use crate::backend::kmod::osal::Kernel;
use crate::backend::ty::HubParams;
use crate::backend::ty::ep::EndpointHandle;
use crate::bus::{self, Script};
use crate::words;

#[cfg(test)]
#[path = "above.rs"]
mod above;

fn refused(number: u8, record: Record) -> Outcome {
    Ok((record, Answer { number, code: 0, count: 0 }))
}

/// Lengths of the buffers for so many slots.
fn lengths_fit(buffers: &Buffers, spacing: usize, n: u32) -> bool {
    buffers.ctx.len() == 33 * spacing && buffers.routes.len() == 32 * (n as usize + 1) && buffers.log.len() >= 64
}

/// The ring of control among those given, if these fit.
fn control_ring(given: &[u64]) -> Option<u64> {
    let fit = |(i, ring): (usize, &u64)| *ring != 0 && ring.is_multiple_of(16) && !given[..i].contains(ring);
    let all_fit = given.len() <= GIVEN_ROOM && given.iter().enumerate().all(fit);
    given.iter().copied().min().filter(|_| all_fit)
}

fn ring_of(endpoint: &EndpointHandle) -> u64 {
    endpoint.with_raw_mut::<XhciEndpoint, _>(|raw| raw.bus_addr()).raw()
}

/// What the call left in the buffers, and how many words it logged.
fn settle(device: &mut Device, script: &Script, buffers: &mut Buffers) -> usize {
    buffers.log[..script.sent.len()].copy_from_slice(&script.sent);
    device.ctx.with_input(|input| input.store(&mut buffers.ctx));
    let served = buffers.routes.len().min(32 * 256);
    device.transfer_result_handler.store_routes(&mut buffers.routes[..served]);
    script.sent.len()
}

fn load(device: &mut Device, buffers: &Buffers) {
    device.ctx.with_input(|input| input.load(&buffers.ctx));
    let served = buffers.routes.len().min(32 * 256);
    device.transfer_result_handler.load_routes(&buffers.routes[..served]);
}

fn bring_up(args: &BringUp, buffers: &mut Buffers) -> Outcome {
    let spacing = if buffers.ctx.len() == 33 * 64 { 64 } else { 32 };
    let mut host = Xhci::scripted(args.slot, args.n as usize, spacing == 64).map_err(|_| Cannot::NoSuchInput)?;
    let mut device = match poll(Device::new(&mut host)) {
        Poll::Ready(Ok(device)) => device,
        Poll::Ready(Err(err)) => return refused(answer(Poll::Ready(Err(err))).0, Record::default()),
        Poll::Pending => return Err(Cannot::NoSuchInput),
    };
    if !lengths_fit(buffers, spacing, args.n) {
        return Err(Cannot::NoSuchInput);
    }
    let ring = control_ring(&args.rings).ok_or(Cannot::NoSuchInput)?;
    let info = address_info(args)?;
    walk(args)?;
    load(&mut device, buffers);
    bus::begin(Script {
        outcomes: buffers.outcomes.clone(),
        rings: vec![ring],
        header: (args.header as usize, args.packet),
        configuration_value: args.config,
        configurations: words::configurations(&args.list, args.speed).ok_or(Cannot::NoSuchInput)?,
        ..Script::default()
    });
    let (number, code) = answer(proper(|| poll(device.init(&mut host, &info))));
    let script = bus::end();
    if number == 17 {
        return refused(17, Record::default());
    }
    let count = settle(&mut device, &script, buffers);
    let BringUp { slot, speed, .. } = *args;
    let n = args.n as u8;
    let list = words::first_configurations(&args.list, device.config_desc.len());
    let up = number == 0;
    let given = args.rings.clone();
    let record = Record { usable: up, up, slot, n, spacing, speed, list, given, ..Record::default() };
    Ok((kept(&device, record), Answer { number, code, count }))
}

/// A record with the maps, rings and lifecycles of a device.
fn kept(device: &Device, record: Record) -> Record {
    let control = device.control_endpoint();
    assert!(device.eps.keys().eq(device.ep_interfaces.keys()), "each endpoint has an owner");
    let endpoint = |(address, endpoint): (&u8, &EndpointHandle)| Endpoint {
        address: *address,
        ring: ring_of(endpoint),
        owner: device.ep_interfaces[address],
        active: endpoint.is_active(),
    };
    Record {
        config: device.current_config_value,
        control: ring_of(control),
        control_revoked: !control.is_active(),
        endpoints: device.eps.iter().map(endpoint).collect(),
        held: device.interface_alternates.iter().map(|(i, a)| (*i, *a)).collect(),
        quarantined: device.quarantined_eps.iter().map(ring_of).collect(),
        ..record
    }
}

fn handle(record: &Record, address: u8, ring: u64, active: bool) -> EndpointHandle {
    let dci = if address == 0 { 1 } else { endpoint_address_dci(address) };
    let raw = XhciEndpoint::at(record.slot.into(), dci.into(), ring, CommandRing);
    let info = match address {
        0 => EndpointInfo::control(),
        _ => EndpointInfo::new(address, EndpointType::Bulk),
    };
    let handle = EndpointHandle::new(info, raw);
    if !active {
        handle.revoke();
    }
    handle
}

/// The device that a record describes.
fn device(record: &Record, config_desc: Vec<ConfigurationDescriptor>) -> core::result::Result<Device, Cannot> {
    let kernel = Kernel::default();
    let endpoints = record.endpoints.iter();
    let made = |e: &Endpoint| (e.address, handle(record, e.address, e.ring, e.active));
    Ok(Device {
        id: record.slot.into(),
        ctx: ContextData::new(record.spacing == 64, &kernel).map_err(|_| Cannot::NoSuchInput)?,
        desc: DeviceDescriptor {
            vendor_id: 0,
            product_id: 0,
            manufacturer_string_index: None,
            num_configurations: config_desc.len() as u8,
        },
        ctrl_ep: Some(handle(record, 0, record.control, !record.control_revoked)),
        transfer_result_handler: TransferResultHandler::new(XhciRegistersShared),
        bell: Arc::new(SpinLock::new(SlotBell)),
        kernel,
        current_config_value: record.config,
        config_desc,
        port_speed: words::speed(record.speed).ok_or(Cannot::NoSuchInput)?,
        eps: endpoints.clone().map(made).collect(),
        ep_interfaces: endpoints.map(|e| (e.address, e.owner)).collect(),
        interface_alternates: record.held.iter().copied().collect(),
        quarantined_eps: record.quarantined.iter().map(|ring| handle(record, 0, *ring, false)).collect(),
        cmd: CommandRing,
    })
}

/// The last record list seen and its speed, with its descriptors.
#[derive(Default)]
pub struct Original {
    speed: u8,
    list: Vec<u32>,
    configurations: Vec<ConfigurationDescriptor>,
}

impl Original {
    pub fn new() -> Self {
        quiet_panics();
        Self::default()
    }

    fn configurations(&mut self, record: &Record) -> core::result::Result<Vec<ConfigurationDescriptor>, Cannot> {
        let Record { speed, list, .. } = record;
        if self.list != *list || self.speed != *speed {
            self.configurations = words::configurations(list, *speed).ok_or(Cannot::NoSuchInput)?;
            self.list.clone_from(list);
            self.speed = *speed;
        }
        Ok(core::mem::take(&mut self.configurations))
    }

    /// Runs one of the functions on the device that a record describes. The rings that it makes are the free ones of the
    /// record, the lowest first; with too few of these there is no answer.
    fn on(&mut self, record: &Record, buffers: &mut Buffers, call: impl FnOnce(&mut Device) -> Polled) -> Outcome {
        if !lengths_fit(buffers, record.spacing, record.n.into()) {
            return Err(Cannot::NoSuchInput);
        }
        let configurations = self.configurations(record)?;
        self.list.clear();
        let mut device = device(record, configurations)?;
        load(&mut device, buffers);
        let rings = record.free();
        let free = rings.len();
        bus::begin(Script { outcomes: buffers.outcomes.clone(), rings, ..Script::default() });
        let (number, code) = answer(proper(|| call(&mut device)));
        let script = bus::end();
        let kept = kept(&device, record.clone());
        let rings_matter = !matches!(number, 8 | 9);
        if !rings_matter || script.rings_taken <= free {
            let count = settle(&mut device, &script, buffers);
            self.list.clone_from(&record.list);
            self.configurations = device.config_desc;
            let usable = record.usable && !matches!(number, 14 | 15);
            return Ok((Record { usable, ..kept }, Answer { number, code, count }));
        }
        Err(Cannot::NoSuchInput)
    }
}

impl Layer for Original {
    fn bring_up(&mut self, args: &BringUp, buffers: &mut Buffers) -> Outcome {
        ask(|| bring_up(args, buffers))
    }

    fn claim(&mut self, record: &Record, args: &Claim, buffers: &mut Buffers) -> Outcome {
        let Claim { interface, alternate } = args;
        if !record.usable {
            return refused(12, record.clone());
        }
        let claim = |device: &mut Device| poll(device._claim_interface(*interface, *alternate)).map_ok(drop);
        ask(|| self.on(record, buffers, claim))
    }

    // The original has no look ahead.
    fn ask(&mut self, _: &Record, _: &Claim, _: &Buffers) -> Shown {
        Err(Cannot::NoSuchInput)
    }

    // Its claim, as one.
    fn commit(&mut self, record: &Record, asked: &Asked, buffers: &mut Buffers) -> Outcome {
        let Asked { interface, alternate, .. } = *asked;
        self.claim(record, &Claim { interface, alternate }, buffers)
    }

    fn release(&mut self, record: &Record, interface: u8, buffers: &mut Buffers) -> Outcome {
        if !record.usable {
            return refused(12, record.clone());
        }
        ask(|| self.on(record, buffers, |device| poll(device._release_interface(interface))))
    }

    fn set_configuration(&mut self, record: &Record, value: u8, buffers: &mut Buffers) -> Outcome {
        if !record.usable {
            return refused(12, record.clone());
        }
        ask(|| self.on(record, buffers, |device| poll(device._set_configuration(value))))
    }

    // `Device::update_hub` of src/device.rs does not ask whether the device is broken.
    fn hub_update(&mut self, record: &Record, args: &HubUpdate, buffers: &mut Buffers) -> Outcome {
        let params = HubParams {
            num_ports: args.ports,
            multi_tt: args.multi,
            tt_think_time_ns: args.think.try_into().map_err(|_| Cannot::NoSuchInput)?,
            parent_hub_slot_id: 0,
            root_hub_port_number: 0,
        };
        ask(|| self.on(record, buffers, |device| poll(device.update_hub_inner(params))))
    }

    // `Device::disconnect` of src/device.rs has an answer of its own for a broken device, and runs this otherwise.
    fn disconnect(&mut self, record: &Record, buffers: &mut Buffers) -> Outcome {
        if !record.up {
            return refused(12, record.clone());
        }
        let (record, answer) = ask(|| self.on(record, buffers, |device| poll(device._disconnect())))?;
        let gone = answer.number == 0;
        Ok((Record { usable: record.usable && !gone, up: !gone, ..record }, answer))
    }
}
