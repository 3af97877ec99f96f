// The functions of the device, asked as a `Layer`: each call is a future that is polled once, and dropped where a command has
// no outcome.
use std::collections::BTreeSet;
use std::task::Poll;

use library::words::{image, record};
use scenario::{
    Answer, Asked, BringUp, Buffers, Cannot, Claim, Endpoint, HubUpdate, Layer, Outcome, Record, Shown, proper,
};
use usb_if::err::{TransferError, USBError};
use xhci_device::{AsyncBus, Dci, WRITE_BYTES, write_descriptors};

use super::super::cmd::CommandRing;
use super::super::context::ContextData;
use super::super::reg::{SlotBell, XhciRegistersShared};
use super::asked::{Polled, address_info, ask, poll, quiet_panics, walk};
use super::*;
use crate::bus::{self, Script};
use crate::osal::Kernel;
use crate::words;

#[cfg(test)]
#[path = "lives.rs"]
mod lives;

/// Rings are short: as many transfers as a page has bytes.
const PAGE: usize = 8;
const RING_BYTES: u64 = 16 * PAGE as u64;

/// No table serves so many slots.
const MANY_SLOTS: u32 = 1000;

pub struct CrabUsb;

impl CrabUsb {
    pub fn new() -> Self {
        quiet_panics();
        dma_api::set_page_size(PAGE);
        Self
    }
}

/// Whether blocks have 64 bytes. A device has no other input contexts, and its calls have logs of their own.
fn is_64(buffers: &Buffers) -> core::result::Result<bool, Cannot> {
    match buffers.ctx.len() {
        len if buffers.log.len() >= 64 && [33 * 32, 33 * 64].contains(&len) => Ok(len == 33 * 64),
        _ => Err(Cannot::NoSuchInput),
    }
}

impl Device {
    fn load(&mut self, buffers: &Buffers) {
        self.wire.memory.write_input(&buffers.ctx);
        self.routes.load_routes(&buffers.routes);
    }

    /// What a call left, by what was sent, by the handles, and by the memory that the controller reads.
    fn settle(&mut self, polled: Polled, buffers: &mut Buffers) -> (Record, Answer) {
        let sent = bus::end().sent;
        buffers.log[..sent.len()].copy_from_slice(&sent);
        buffers.ctx = self.wire.memory.input();
        buffers.routes = self.routes.routes();
        self.in_use = false;
        let code = match polled {
            Poll::Ready(Err(USBError::TransferError(TransferError::Scripted(code)))) => code,
            _ => 0,
        };
        (self.kept(), Answer { number: self.answer.number(), code, count: sent.len() })
    }

    /// The record, with handles in the place of its endpoints. (One that is not sound has no handles.)
    fn kept(&self) -> Record {
        let record = record(&self.record);
        if !self.record.is_sound() {
            return record;
        }
        let owner = |address: u8| record.endpoints.iter().find(|e| e.address == address).map(|e| e.owner);
        let endpoint = |(address, published): (&u8, &handles::Published)| {
            let owner = owner(*address).expect("an endpoint of the record");
            Endpoint { address: *address, ring: published.ring, owner, active: published.handle.is_active() }
        };
        let revoked = |control: &EndpointHandle| !control.is_active();
        Record {
            control_revoked: self.wire.control.as_ref().map_or(record.control_revoked, revoked),
            endpoints: self.wire.eps.iter().map(endpoint).collect(),
            ..record
        }
    }
}

/// The bytes of each configuration, by themselves.
fn raw(args: &BringUp) -> core::result::Result<Vec<Vec<u8>>, Cannot> {
    let written = |words: &[u32]| {
        let mut bytes = [0; WRITE_BYTES];
        let count = write_descriptors(words, args.speed, &mut bytes).map_err(|_| Cannot::NoSuchInput)?;
        Ok(bytes[..count].to_vec())
    };
    if args.speed > 5 {
        return Ok(Vec::new());
    }
    written(&args.list)?;
    let begins = (0..args.list.len()).filter(|at| args.list[*at] >> 30 == 0);
    let ends = begins.clone().skip(1).chain([args.list.len()]);
    begins.zip(ends).map(|(begin, end)| written(&args.list[begin..end])).collect()
}

fn script(args: &BringUp, outcomes: &[u8]) -> core::result::Result<Script, Cannot> {
    Ok(Script {
        outcomes: outcomes.to_vec(),
        header: (args.header as usize, args.packet),
        configuration_value: args.config,
        configurations: words::configurations(&args.list, args.speed).unwrap_or_default(),
        raw: raw(args)?,
        ..Script::default()
    })
}

/// Whether rings stand in places of their own, where memory goes on.
fn are_places(rings: &[u64]) -> bool {
    let places: BTreeSet<&u64> = rings.iter().collect();
    places.len() == rings.len() && rings.iter().all(|ring| ring.checked_add(RING_BYTES).is_some())
}

/// What no device can be given: more bytes of a header than were asked for, more hubs than a number names, rings that are none.
fn is_given(args: &BringUp) -> bool {
    args.header <= 8 && args.hubs.len() <= 256 && args.n < MANY_SLOTS && are_places(&args.rings)
}

fn bring_up(args: &BringUp, buffers: &mut Buffers) -> Outcome {
    let is_64 = is_64(buffers)?;
    let info = address_info(args)?;
    if !is_given(args) || walk(args) == Err(Cannot::NoSuchInput) {
        return Err(Cannot::NoSuchInput);
    }
    let script = script(args, &buffers.outcomes)?;
    let mut host = Xhci::scripted(args.slot, args.n as usize, is_64).map_err(|_| Cannot::NoSuchInput)?;
    dma_api::place(args.rings.iter().copied());
    let mut device = match poll(Device::with_rings(&mut host, args.rings.len())) {
        Poll::Ready(Ok(device)) => device,
        Poll::Ready(Err(USBError::SlotLimitReached)) => {
            return Ok((Record::default(), Answer { number: 11, code: 0, count: 0 }));
        }
        _ => return Err(Cannot::NoSuchInput),
    };
    device.load(buffers);
    bus::begin(script);
    let polled = proper(|| poll(device.bring_up(&info)));
    Ok(device.settle(polled, buffers))
}

/// The device that a record describes.
fn device(of: &Record, is_64: bool) -> core::result::Result<Device, Cannot> {
    let image = image(of).ok_or(Cannot::NoSuchInput)?;
    let (id, kernel) = (SlotId::from(of.slot), Kernel::default());
    let memory = ContextData::new(is_64, &kernel).map_err(|_| Cannot::NoSuchInput)?;
    // Of a record that is not sound nothing is used.
    let rings = if image.is_sound() { of.given.as_slice() } else { &[] };
    if !are_places(rings) {
        return Err(Cannot::NoSuchInput);
    }
    dma_api::place(rings.iter().copied());
    let bell = Arc::new(Mutex::new(SlotBell));
    let pool = Pool::new(id, rings.len(), &kernel, bell, &CommandRing).map_err(|_| Cannot::NoSuchInput)?;
    let mut wire = Wire::new(id, memory, CommandRing, pool);
    wire.configurations = words::configurations(&of.list, of.speed).unwrap_or_default();
    wire.begin(Dci::CONTROL, of.control);
    for endpoint in &of.endpoints {
        wire.begin(Dci::of_address(endpoint.address), endpoint.ring);
    }
    wire.stepped(&image);
    Ok(Device {
        id,
        slots: of.n.into(),
        record: Box::new(image),
        routes: TransferResultHandler::new(XhciRegistersShared),
        wire: ManuallyDrop::new(wire),
        answer: xhci_device::Answer::Unusable,
        in_use: false,
    })
}

fn on(record: &Record, buffers: &mut Buffers, call: impl FnOnce(&mut Device) -> Polled) -> Outcome {
    ask(|| {
        let mut device = device(record, is_64(buffers)?)?;
        device.load(buffers);
        bus::begin(Script { outcomes: buffers.outcomes.clone(), ..Script::default() });
        let polled = proper(|| call(&mut device));
        Ok(device.settle(polled, buffers))
    })
}

impl Layer for CrabUsb {
    fn bring_up(&mut self, args: &BringUp, buffers: &mut Buffers) -> Outcome {
        ask(|| bring_up(args, buffers))
    }

    fn claim(&mut self, record: &Record, args: &Claim, buffers: &mut Buffers) -> Outcome {
        on(record, buffers, |device| poll(device.claim_interface(args.interface, args.alternate)).map_ok(drop))
    }

    // crab-usb has no look ahead.
    fn ask(&mut self, _: &Record, _: &Claim, _: &Buffers) -> Shown {
        Err(Cannot::NoSuchInput)
    }

    fn commit(&mut self, _: &Record, _: &Asked, _: &mut Buffers) -> Outcome {
        Err(Cannot::NoSuchInput)
    }

    fn release(&mut self, record: &Record, interface: u8, buffers: &mut Buffers) -> Outcome {
        on(record, buffers, |device| poll(device.release_interface(interface)))
    }

    fn set_configuration(&mut self, record: &Record, value: u8, buffers: &mut Buffers) -> Outcome {
        on(record, buffers, |device| poll(device.set_configuration(value)))
    }

    fn hub_update(&mut self, record: &Record, args: &HubUpdate, buffers: &mut Buffers) -> Outcome {
        let params = HubParams {
            num_ports: args.ports,
            multi_tt: args.multi,
            tt_think_time_ns: args.think.try_into().map_err(|_| Cannot::NoSuchInput)?,
            parent_hub_slot_id: 0,
            root_hub_port_number: 0,
        };
        on(record, buffers, |device| poll(device.update_hub(params)))
    }

    fn disconnect(&mut self, record: &Record, buffers: &mut Buffers) -> Outcome {
        on(record, buffers, |device| poll(device.disconnect()))
    }
}
