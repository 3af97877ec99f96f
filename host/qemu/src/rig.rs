//! Plays a scenario, and holds the controller against the record after every call.

use std::collections::{BTreeMap, BTreeSet};
use std::io;
use std::time::Duration;

use xhci_device::{
    Answer, Attached, Bus, Call, Command, Dci, Hub, MOST_SLOTS, Next, Order, Pending, Record, SlotId, route_index,
};

use crate::bus::{Hardware, Wire};
use crate::controller::{Controller, SUCCESS, TRBS};
use crate::descriptors;
use crate::findings::{Findings, Kind, LOOKUP};
use crate::scenario::{Action, At, FULL, Key, Scenario};
use crate::seen::{Place, Seen};
use crate::text;

/// How long a completion may take. It is met when something is wrong only.
const PATIENCE: Duration = Duration::from_secs(20);

const STOPPED: u8 = 26;

/// How many rings a slot is given: for control, and for the old and the new setting of a claim.
const GIVEN: usize = 9;

/// A device with its record.
struct Device {
    record: Record,
    ctx: Vec<u8>,
    hardware: Hardware,
    at: At,
    speed: u8,
    /// A transfer that nothing ends: Dci and TRB.
    pending: Option<(Dci, u64)>,
}

/// The calls that wait: by slot the device, which of its calls it is, and how many were started before it was submitted.
struct Desk {
    order: Order,
    waiting: BTreeMap<u8, (usize, u8, usize)>,
    started: usize,
}

pub struct Rig {
    pub controller: Controller,
    pub routes: Vec<u64>,
    devices: Vec<Device>,
    pub findings: Findings,
    patience: Duration,
}

/// Plays a scenario on a controller of its own.
pub fn play(scenario: &Scenario, notes: bool) -> io::Result<Rig> {
    let mut rig = Rig::new(scenario.qemu)?;
    if notes {
        rig.controller.notes = Some(vec![]);
    }
    for (device, action) in scenario.steps {
        rig.act(*device, action, |_| ());
    }
    rig.end();
    Ok(rig)
}

fn call_text(call: &Call<'_>) -> String {
    match call {
        Call::BringUp(_) => "bring-up".into(),
        Call::Claim { interface, alternate } => format!("claim of interface {interface}, alternate {alternate}"),
        Call::Commit(asked) => format!("commit of interface {}, alternate {}", asked.interface(), asked.alternate()),
        Call::Release { interface } => format!("release of interface {interface}"),
        Call::SetConfiguration { value } => format!("set configuration {value}"),
        Call::HubUpdate { ports, .. } => format!("hub update, {ports} ports"),
        Call::Disconnect => "unplugging".into(),
        other => format!("{other:?}"),
    }
}

impl Rig {
    pub fn new(qemu: &[&str]) -> io::Result<Rig> {
        let controller = Controller::start(qemu)?;
        let routes = vec![0; 32 * (controller.slots + 1)];
        Ok(Rig { controller, routes, devices: vec![], findings: Findings::default(), patience: PATIENCE })
    }

    /// A rig that does not wait long for what does not come.
    pub fn impatient(mut self) -> Rig {
        self.patience = Duration::from_secs(1);
        self.controller.patience = self.patience;
        self
    }

    /// A step of a scenario. `prepared` is told of the hardware of a device that is brought up.
    pub fn act(&mut self, device: usize, action: &Action, prepared: impl Fn(&mut Hardware)) {
        match *action {
            Action::BringUp(at, speed, answer) => self.bring_up(at, speed, answer, &[], prepared),
            Action::BringUpWith(at, speed, invented) => {
                self.bring_up(at, speed, Answer::Accepted, invented, prepared);
            }
            Action::Claim(interface, alternate, answer) => {
                self.claim(device, interface, alternate, answer);
            }
            Action::GiveUp(interface, alternate, at) => self.give_up(device, Call::Claim { interface, alternate }, at),
            Action::Release(interface, answer) => self.call(device, Call::Release { interface }, answer),
            Action::SetConfiguration(value, answer) => {
                self.call(device, Call::SetConfiguration { value }, answer);
                if answer == Answer::Accepted {
                    let set = self.request(device, [0x80, 8, 0, 0, 0, 0, 1, 0]);
                    self.findings.check(Kind::Device, set == [value], || format!("the device has set {set:?}"));
                }
            }
            Action::HubUpdate(ports) => {
                let call = Call::HubUpdate { ports, multi: false, ns: 0 };
                self.call(device, call, Answer::Accepted);
            }
            Action::Type(dci, key) => self.type_key(device, dci, key),
            Action::Point(dci) => self.point(device, dci),
            Action::Silence(dci, key) => self.silence(device, dci, key),
            Action::Wait(dci) => self.leave_waiting(device, dci),
            Action::Stream(dci, bytes) => self.stream(device, dci, bytes),
            Action::Inquire { out, into } => self.inquire(device, out, into),
            Action::LendDropFlags(flags) => self.devices[device].ctx[..4].copy_from_slice(&u32::to_le_bytes(flags)),
            Action::StallConfiguration(stalls) => self.devices[device].hardware.stalls_configuration = stalls,
            Action::Pull(id, code) => self.pull(device, id, code),
            Action::Disable => self.disable(device),
            Action::Disconnect => self.disconnect(device),
            Action::Crowd { hubs, keyboards } => self.crowd(hubs, keyboards),
        }
    }

    fn at(&mut self, text: String) {
        self.controller.note(|| text.clone());
        self.findings.at = text;
    }

    fn bring_up(
        &mut self,
        at: At,
        speed: u8,
        answer: Answer,
        invented: &'static [u8],
        prepared: impl Fn(&mut Hardware),
    ) {
        let device = self.enable(at, speed);
        let hardware = &mut self.devices[device].hardware;
        hardware.invented = invented;
        prepared(hardware);
        self.begin(device, answer);
    }

    /// A slot for what is on a port.
    fn enable(&mut self, at: At, speed: u8) -> usize {
        let hardware = Hardware::new(&mut self.controller, &self.routes);
        let (record, ctx) = (Record::new(), vec![0; 33 * self.controller.spacing]);
        self.devices.push(Device { record, ctx, hardware, at, speed, pending: None });
        self.devices.len() - 1
    }

    /// Resets the port, and brings up what is there.
    fn begin(&mut self, device: usize, answer: Answer) {
        let Device { at, speed, ref hardware, .. } = self.devices[device];
        let (slot, n) = (hardware.slot, self.controller.slots);
        self.at(match at {
            At::Root(port) | At::EmptyRoot(port) => format!("root port {port}"),
            At::Hub(hub, port) | At::EmptyHub(hub, port) => {
                format!("port {port} of the hub on slot {}", self.devices[hub].hardware.slot.0)
            }
        });
        let found = match at {
            At::Root(port) => self.controller.reset_port(port),
            At::EmptyRoot(_) | At::EmptyHub(..) => speed,
            At::Hub(hub, port) => self.reset_hub_port(hub, port),
        };
        self.findings.check(Kind::Device, found == speed, || format!("speed {found} where {speed} was expected"));
        let rings = [(); GIVEN].map(|()| self.controller.ring());
        let (hubs, parent, port, root_port) = self.way(at);
        let attached = Attached { slot, n, speed, parent: Some(parent), port, root_port, rings: &rings, hubs: &hubs };
        self.call(device, Call::BringUp(attached), answer);
    }

    /// Hubs on the root hub, and behind them keyboards: each is brought up and claimed, the hubs updated, the keyboards
    /// released and claimed again. Every call waits for its turn, and the next one of its slot is submitted when it has run.
    fn crowd(&mut self, hubs: u8, keyboards: u8) {
        const FIRST_PORT: u8 = 5;
        let mut desk = Desk { order: Order::new(), waiting: BTreeMap::new(), started: 0 };
        for hub in 0..hubs {
            let device = self.enable(At::Root(FIRST_PORT + hub), FULL);
            self.submit(&mut desk, device, 0);
        }
        while let Some(slot) = desk.order.turn() {
            let Some((device, step, before)) = desk.waiting.remove(&slot.0) else {
                self.findings.check(Kind::Answer, false, || format!("slot {} has no call waiting", slot.0));
                return;
            };
            let others = desk.started - before;
            self.findings.check(Kind::Answer, others < MOST_SLOTS, || format!("{others} others were started before"));
            desk.started += 1;
            let is_hub = device < usize::from(hubs);
            match step {
                0 => self.begin(device, Answer::Accepted),
                1 if is_hub => self.act(device, &Action::HubUpdate(8), |_| ()),
                2 if !is_hub => self.act(device, &Action::Release(0, Answer::Accepted), |_| ()),
                _ => self.claim(device, 0, 0, Answer::Accepted),
            }
            if step < if is_hub { 2 } else { 3 } {
                self.submit(&mut desk, device, step + 1);
            } else if is_hub {
                for port in 1..=keyboards {
                    let keyboard = self.enable(At::Hub(device, port), FULL);
                    self.submit(&mut desk, keyboard, 0);
                }
            }
        }
        let up = self.devices.iter().filter(|device| device.record.held().len() == 1).count();
        let all = usize::from(hubs) * (1 + usize::from(keyboards));
        self.findings.check(Kind::Device, up == all, || format!("{up} devices of {all} are claimed"));
    }

    /// The next call of a device is to wait.
    fn submit(&mut self, desk: &mut Desk, device: usize, step: u8) {
        let slot = self.devices[device].hardware.slot;
        let taken = desk.order.submit(slot);
        self.findings.check(Kind::Answer, taken.is_ok(), || format!("slot {}: {taken:?}", slot.0));
        desk.waiting.insert(slot.0, (device, step, desk.started));
    }

    /// The way to a device: hub words from the root hub on, the parent's place among them, port and root port.
    fn way(&self, at: At) -> (Vec<u64>, usize, u8, u8) {
        match at {
            At::Root(port) | At::EmptyRoot(port) => {
                let root = Hub { parent: None, slot: SlotId(0), depth: -1, speed: 3, port: 0, multi: false };
                (vec![root.word()], 0, port, port)
            }
            At::Hub(hub, port) | At::EmptyHub(hub, port) => {
                let above = &self.devices[hub];
                let (mut hubs, parent, hub_port, root_port) = self.way(above.at);
                let depth = parent as i8;
                let (parent, slot, speed) = (Some(parent as u8), above.hardware.slot, above.speed);
                hubs.push(Hub { parent, slot, depth, speed, port: hub_port, multi: false }.word());
                let place = hubs.len() - 1;
                (hubs, place, port, root_port)
            }
        }
    }

    /// Where a device is: each hub's port has 4 bits of the route string, the one nearest to the root hub the lowest
    /// (USB 3.2, 8.9).
    fn place(&self, device: usize) -> Place {
        let Device { at, speed, .. } = self.devices[device];
        let (mut at, mut route) = (at, 0);
        loop {
            match at {
                At::Root(port) | At::EmptyRoot(port) => return Place { speed, route, root_port: port },
                At::Hub(hub, port) | At::EmptyHub(hub, port) => {
                    (at, route) = (self.devices[hub].at, route << 4 | u32::from(port));
                }
            }
        }
    }

    fn request(&mut self, device: usize, setup: [u8; 8]) -> Vec<u8> {
        let read = self.controller.control(self.devices[device].hardware.slot, setup, &self.routes);
        self.findings.check(Kind::Device, read.is_ok(), || format!("request {setup:02x?} gives {read:?}"));
        read.unwrap_or_default()
    }

    /// Powers and resets a hub's port: the speed of what is on it.
    fn reset_hub_port(&mut self, hub: usize, port: u8) -> u8 {
        const POWER: u8 = 8;
        const RESET: u8 = 4;
        const RESET_CHANGE: u8 = 20;
        self.request(hub, [0x23, 3, POWER, 0, port, 0, 0, 0]);
        self.request(hub, [0x23, 3, RESET, 0, port, 0, 0, 0]);
        let status = self.request(hub, [0xA3, 0, 0, 0, port, 0, 4, 0]);
        self.request(hub, [0x23, 1, RESET_CHANGE, 0, port, 0, 0, 0]);
        match status.get(1).map(|byte| byte >> 1 & 3) {
            Some(0) => 1,
            Some(1) => 2,
            Some(_) => 3,
            None => 0,
        }
    }

    fn claim(&mut self, device: usize, interface: u8, alternate: u8, answer: Answer) {
        self.call(device, Call::Claim { interface, alternate }, answer);
        if answer == Answer::Accepted {
            self.check_setting(device, interface, alternate);
        }
    }

    /// The endpoints of a held interface are those of the device's own descriptors, in the configuration that is set.
    fn check_setting(&mut self, device: usize, interface: u8, alternate: u8) {
        let value = self.request(device, [0x80, 8, 0, 0, 0, 0, 1, 0]);
        let device = &self.devices[device];
        let held: BTreeSet<u8> = (device.record.endpoints())
            .filter(|endpoint| endpoint.interface == interface)
            .map(|endpoint| endpoint.address)
            .collect();
        let configurations = &device.hardware.configurations;
        let (active, others): (Vec<_>, Vec<_>) = configurations.iter().partition(|raw| raw.get(5) == value.first());
        let is_held = |raw: &&Vec<u8>| {
            descriptors::alternate(raw, interface, alternate)
                .is_some_and(|found| found.keys().copied().eq(held.iter().copied()))
        };
        let (holds, elsewhere) = (active.iter().any(is_held), others.iter().any(is_held));
        let fault = || format!("interface {interface} holds {held:02x?}, which configuration {value:?} has not");
        self.findings.check_but(LOOKUP, holds, elsewhere, fault);
    }

    fn call(&mut self, device: usize, call: Call<'_>, expected: Answer) {
        let slot = self.devices[device].hardware.slot;
        self.at(format!("{} (slot {})", call_text(&call), slot.0));
        let before = self.routes.clone();
        let Device { record, ctx, hardware, .. } = &mut self.devices[device];
        if hardware.careless.routes_late {
            self.controller.late = Some(vec![]);
        }
        let mut pending = Pending::new(record, ctx, call);
        let answer = pending.run(&mut self.routes, &mut Wire::new(&mut self.controller, hardware));
        let log: Vec<Command> = pending.log().iter().filter_map(|word| Command::of(*word)).collect();
        let failed: Vec<String> = (log.iter().zip(pending.outcomes()))
            .filter(|&(_, &outcome)| outcome != 0)
            .map(|(command, &outcome)| format!("; {command}: {}", text::outcome(outcome)))
            .collect();
        for event in self.controller.late.take().into_iter().flatten() {
            self.controller.deliver(event, &self.routes);
        }
        self.controller.take_events(&self.routes);
        self.controller.note(|| format!("  answer {}: {answer}", answer.number()));
        self.findings.check(Kind::Answer, answer == expected, || {
            format!("the answer is {}: {answer}{}", answer.number(), failed.concat())
        });
        let own = route_index(slot, Dci(0))..route_index(slot, Dci(31)) + 1;
        let others = (0..before.len()).filter(|i| !own.contains(i)).all(|i| before[i] == self.routes[i]);
        self.findings.check(Kind::Enabled, others, || "another slot's routes have changed".into());
        self.check_given_back(device, &log, &before);
        self.check_events();
        let place = self.place(device);
        let Device { record, hardware, .. } = &self.devices[device];
        if record.is_usable() {
            let seen = Seen::of(record, hardware, &self.routes, &mut self.controller);
            seen.note(&mut self.controller);
            seen.check(&mut self.findings, place);
        }
    }

    /// A call is given up at one of its commands, which the controller has carried out all the same. The rings in which it
    /// then reads are the held endpoints', or in quarantine: none of them is free.
    fn give_up(&mut self, device: usize, call: Call<'_>, at: usize) {
        let slot = self.devices[device].hardware.slot;
        self.at(format!("{}, given up (slot {})", call_text(&call), slot.0));
        let Device { record, ctx, hardware, .. } = &mut self.devices[device];
        let mut pending = Pending::new(record, ctx, call);
        let mut wire = Wire::new(&mut self.controller, hardware);
        for place in 0..=at {
            let Next::Send(due) = pending.next(&mut self.routes) else { break };
            let outcome = wire.send(&due);
            self.findings.check(Kind::Answer, outcome.is_ok(), || format!("the command at place {place} fails"));
            if place < at {
                pending.outcome(outcome);
            }
        }
        self.controller.take_events(&self.routes);
        self.check_events();
        let Device { record, hardware, .. } = &self.devices[device];
        let controller = &mut self.controller;
        for dci in (2..32).map(Dci) {
            let found = hardware.endpoint(controller, dci);
            let reads = |ring: &u64| (*ring..*ring + 16 * TRBS).contains(&(found.dequeue & !15));
            let route = self.routes[route_index(slot, dci)];
            let known = route != 0 && reads(&route) || record.quarantined().any(|ring| reads(&ring));
            let good = found.state == 0 || known && !record.free().any(|ring| reads(&ring));
            self.findings.check(Kind::Enabled, good, || format!("Dci {} reads at {:x}", dci.0, found.dequeue));
        }
        self.findings.check(Kind::Enabled, record.is_up() && record.is_sound(), || "the record is lost".into());
    }

    /// A transfer that waited on an endpoint that was stopped came back to its ring, as stopped.
    fn check_given_back(&mut self, device: usize, log: &[Command], before: &[u64]) {
        let Some((dci, trb)) = self.devices[device].pending else { return };
        if log.contains(&Command::Stop(dci)) {
            let ring = before[route_index(self.devices[device].hardware.slot, dci)];
            let place = self.controller.inbox.iter().position(|completion| completion.trb == trb);
            let back = place.map(|place| self.controller.inbox.remove(place));
            let holds = back.is_some_and(|back| back.code == STOPPED && back.ring == ring);
            self.findings.check(Kind::Completion, holds, || {
                format!("the transfer that waited on ring {ring:x} came back as {back:?}")
            });
            self.devices[device].pending = None;
        }
    }

    /// Nothing has come that nobody waits for.
    fn check_events(&mut self) {
        let Controller { inbox, astray, again, .. } = &mut self.controller;
        for (list, what) in [(inbox, "unexpected"), (astray, "astray"), (again, "once more")] {
            let texts: Vec<String> = list.drain(..).map(|completion| text::completion(&completion)).collect();
            self.findings.check(Kind::Stray, texts.is_empty(), || format!("{what}: {}", texts.join("; ")));
        }
    }

    fn ring(&self, device: usize, dci: Dci) -> u64 {
        self.routes[route_index(self.devices[device].hardware.slot, dci)]
    }

    /// A transfer on the ring that the routes name: the TRB.
    fn queue(&mut self, device: usize, dci: Dci, buffer: u64, length: u32) -> Option<u64> {
        const NORMAL: u32 = 1 << 10 | 1 << 5 | 1 << 2;
        let ring = self.ring(device, dci);
        self.findings.check(Kind::Completion, ring != 0, || format!("Dci {} has no ring", dci.0));
        if ring == 0 {
            return None;
        }
        let trb = self.controller.queue(ring, [buffer as u32, (buffer >> 32) as u32, length, NORMAL]);
        self.controller.doorbell(self.devices[device].hardware.slot, dci);
        Some(trb)
    }

    /// Waits for a completion, which must come to the ring that the routes name. Whether it came, as a success.
    fn expect(&mut self, device: usize, dci: Dci, trb: u64) -> bool {
        let (ring, slot) = (self.ring(device, dci), self.devices[device].hardware.slot);
        let got = self.controller.wait(trb, &self.routes, self.patience);
        let came = got.is_some_and(|got| got.ring == ring && got.slot == slot && got.dci == dci && got.code == SUCCESS);
        self.findings.check(Kind::Completion, came, || format!("of TRB {trb:x} came {got:x?}"));
        came
    }

    fn transfer(&mut self, device: usize, dci: Dci, bytes: &[u8]) -> Option<Vec<u8>> {
        let buffer = self.controller.memory(bytes.len() as u64);
        self.controller.machine.write(buffer, bytes);
        let trb = self.queue(device, dci, buffer, bytes.len() as u32)?;
        self.expect(device, dci, trb).then(|| self.controller.machine.read(buffer, bytes.len()))
    }

    fn input(&mut self, event: &str) {
        let arguments = format!("{{\"events\":[{event}]}}");
        self.controller.machine.monitor(&format!("{{\"execute\":\"input-send-event\",\"arguments\":{arguments}}}"));
    }

    fn press(&mut self, key: Key, down: bool) {
        let name = key.name();
        let data = format!("{{\"down\":{down},\"key\":{{\"type\":\"qcode\",\"data\":\"{name}\"}}}}");
        self.input(&format!("{{\"type\":\"key\",\"data\":{data}}}"));
    }

    /// A key goes down and up: both reports come. Those of keys that nobody read before come first.
    fn type_key(&mut self, device: usize, dci: Dci, key: Key) {
        self.at(format!("key {}", key.name()));
        for (down, usage) in [(true, key.usage()), (false, 0)] {
            self.press(key, down);
            let mut found = false;
            for _ in 0..8 {
                let Some(report) = self.transfer(device, dci, &[0xEE; 8]) else { break };
                found = report[2] == usage && report[3] == 0;
                if found {
                    break;
                }
            }
            self.findings.check(Kind::Completion, found, || format!("no report of usage {usage}"));
        }
        self.check_events();
    }

    /// The pointer moves: a report comes.
    fn point(&mut self, device: usize, dci: Dci) {
        self.at("pointer".into());
        self.input("{\"type\":\"abs\",\"data\":{\"axis\":\"x\",\"value\":4660}}");
        let report = self.transfer(device, dci, &[0xEE; 6]);
        self.findings.check(Kind::Completion, report.is_some_and(|report| report[0] == 0), || "no report".into());
        self.check_events();
    }

    /// A key goes down and up, and the doorbell rings: nothing comes.
    fn silence(&mut self, device: usize, dci: Dci, key: Key) {
        self.at(format!("key {}, unheard", key.name()));
        self.press(key, true);
        self.press(key, false);
        self.controller.doorbell(self.devices[device].hardware.slot, dci);
        self.controller.idle(&self.routes);
        self.check_events();
    }

    /// A transfer that has nothing to bring.
    fn leave_waiting(&mut self, device: usize, dci: Dci) {
        self.at("a transfer that waits".into());
        let buffer = self.controller.memory(8);
        let trb = self.queue(device, dci, buffer, 8);
        self.controller.idle(&self.routes);
        self.check_events();
        self.devices[device].pending = trb.map(|trb| (dci, trb));
    }

    /// Isochronous packets to the device.
    fn stream(&mut self, device: usize, dci: Dci, bytes: u32) {
        const ISOCH: u32 = 1 << 31 | 5 << 10 | 1 << 5;
        self.at(format!("packets of {bytes} bytes"));
        let (ring, buffer) = (self.ring(device, dci), self.controller.memory(bytes.into()));
        let trb = [buffer as u32, (buffer >> 32) as u32, bytes, ISOCH];
        let queued: Vec<u64> = (0..5).map(|_| self.controller.queue(ring, trb)).collect();
        self.controller.doorbell(self.devices[device].hardware.slot, dci);
        for trb in queued {
            self.expect(device, dci, trb);
        }
        self.check_events();
    }

    /// INQUIRY by Bulk-Only Transport: command, 36 bytes, status.
    fn inquire(&mut self, device: usize, out: Dci, into: Dci) {
        self.at("INQUIRY".into());
        let wrapper = *b"USBC\x01\0\0\0\x24\0\0\0\x80\0\x06\x12\0\0\0\x24\0\0\0\0\0\0\0\0\0\0\0";
        self.transfer(device, out, &wrapper);
        let data = self.transfer(device, into, &[0xEE; 36]);
        let status = self.transfer(device, into, &[0xEE; 13]);
        let maker = data.as_ref().map(|data| String::from_utf8_lossy(&data[8..16]).trim().to_string());
        self.findings.check(Kind::Device, maker.as_deref() == Some("QEMU"), || format!("the disk is of {maker:?}"));
        let good = status.is_some_and(|status| status.starts_with(b"USBS") && status[12] == 0);
        self.findings.check(Kind::Device, good, || "no good status".into());
        self.check_events();
    }

    /// The device is pulled; what waited ends with a code.
    fn pull(&mut self, device: usize, id: &str, code: Option<u8>) {
        self.at(format!("{id} is pulled"));
        self.controller.machine.monitor(&format!("{{\"execute\":\"device_del\",\"arguments\":{{\"id\":\"{id}\"}}}}"));
        self.controller.idle(&self.routes);
        if let At::Root(port) = self.devices[device].at {
            let there = self.controller.connected(port);
            self.findings.check(Kind::Device, !there, || "the port is not empty".into());
        }
        self.controller.patience = Duration::from_millis(200);
        let waited = self.devices[device].pending.take().map(|(_, trb)| trb);
        let place = self.controller.inbox.iter().position(|completion| Some(completion.trb) == waited);
        let got = place.map(|place| self.controller.inbox.remove(place));
        let ended = got.map(|got| got.code);
        self.findings.check(Kind::Device, ended == code, || format!("what waited ended with {ended:?}"));
        self.check_events();
    }

    /// The unplugging: the controller has nothing left of the slot, and the slot no route.
    fn disconnect(&mut self, device: usize) {
        self.call(device, Call::Disconnect, Answer::Accepted);
        let hardware = &self.devices[device].hardware;
        let controller = &mut self.controller;
        let enabled = |dci: &u8| hardware.endpoint(controller, Dci(*dci)).state != 0;
        let left: Vec<u8> = (1..32).filter(enabled).collect();
        self.findings.check(Kind::Enabled, left.is_empty(), || format!("Dcis {left:?} are enabled"));
        let own = &self.routes[route_index(hardware.slot, Dci(0))..][..32];
        self.findings.check(Kind::Enabled, own.iter().all(|ring| *ring == 0), || "a route is left".into());
        self.controller.idle(&self.routes);
        self.check_events();
    }

    /// Disable Slot, and the slot's routes cleared: after a bring-up that failed.
    fn disable(&mut self, device: usize) {
        let slot = self.devices[device].hardware.slot;
        self.at(format!("Disable Slot {}", slot.0));
        let code = self.controller.disable_slot(slot, &self.routes);
        self.routes[route_index(slot, Dci(0))..][..32].fill(0);
        self.findings.check(Kind::Device, code == SUCCESS, || format!("code {code}"));
        self.controller.idle(&self.routes);
        self.check_events();
    }

    /// Nothing is left over, and QEMU has no complaint.
    pub fn end(&mut self) {
        self.findings.at = "at the end".into();
        self.controller.idle(&self.routes);
        self.check_events();
        let errors = self.controller.machine.errors();
        self.findings.check(Kind::Device, errors.is_empty(), || format!("QEMU: {}", errors.trim_end()));
    }
}
