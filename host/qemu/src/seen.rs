//! What the controller shows of a slot, held against the record, the routes, what it was given, and the device.

use xhci_device::{Dci, Record, route_index};

use crate::block::{Endpoint, Slot};
use crate::bus::Hardware;
use crate::controller::{Controller, TRBS};
use crate::descriptors;
use crate::findings::{Findings, HUB_FIELDS, Kind};
use crate::text;

/// Where a device is, by our own reading.
#[derive(Clone, Copy, Debug)]
pub struct Place {
    pub speed: u8,
    pub route: u32,
    pub root_port: u8,
}

pub struct Seen<'a> {
    record: &'a Record,
    hardware: &'a Hardware,
    /// The slot's routes.
    routes: &'a [u64],
    slot: Slot,
    /// By Dci.
    endpoints: Vec<Endpoint>,
    enabled: Vec<usize>,
}

const RUNNING: u32 = 1;
const STOPPED: u32 = 3;

impl<'a> Seen<'a> {
    /// Reads the output context.
    pub fn of(record: &'a Record, hardware: &'a Hardware, routes: &'a [u64], controller: &mut Controller) -> Seen<'a> {
        let endpoints: Vec<_> = (0..32).map(|dci| hardware.endpoint(controller, Dci(dci))).collect();
        let enabled = (1..32).filter(|&dci| endpoints[dci].state != 0).collect();
        let routes = &routes[route_index(hardware.slot, Dci(0))..][..32];
        Seen { record, hardware, routes, slot: hardware.slot_block(controller), endpoints, enabled }
    }

    fn routed(&self) -> Vec<usize> {
        (0..32).filter(|&dci| self.routes[dci] != 0).collect()
    }

    /// For people.
    pub fn note(&self, controller: &mut Controller) {
        for &dci in &self.enabled {
            let found = &self.endpoints[dci];
            controller.note(|| format!("  output, Dci {dci}: {}, {}", text::state(found), text::endpoint(found)));
        }
        controller.note(|| format!("  output, slot: {}", text::slot(&self.slot)));
        let routed: Vec<_> = self.routed().iter().map(|&dci| format!("Dci {dci} to {:x}", self.routes[dci])).collect();
        controller.note(|| format!("  routes: {}", routed.join(", ")));
    }

    pub fn check(&self, findings: &mut Findings, place: Place) {
        self.check_held(findings);
        for &dci in &self.enabled {
            self.check_given(findings, dci);
        }
        self.check_slot_given(findings);
        self.check_asked(findings, place.speed);
        self.check_place(findings, place);
        self.check_control(findings, place.speed);
    }

    /// The enabled endpoints are the held ones and the routed ones.
    fn check_held(&self, findings: &mut Findings) {
        let (record, enabled, routed) = (self.record, &self.enabled, self.routed());
        let mut held: Vec<usize> = record.endpoints().map(|held| held.dci().0.into()).chain([1]).collect();
        held.sort();
        findings.check(Kind::Enabled, record.is_sound(), || "the record is not sound".into());
        findings.check(Kind::Enabled, *enabled == held, || format!("enabled are {enabled:?}, held {held:?}"));
        findings.check(Kind::Enabled, routed == held, || format!("routed are {routed:?}, held {held:?}"));
        let control = [(Dci::CONTROL, record.control())];
        for (dci, ring) in record.endpoints().map(|held| (held.dci(), held.ring)).chain(control) {
            let is_route = self.routes[usize::from(dci.0)] == ring;
            findings.check(Kind::Enabled, is_route, || format!("Dci {}'s route is not its ring", dci.0));
        }
    }

    /// An endpoint's block is the one given, it reads in the ring that the routes name, and it runs if it is active.
    fn check_given(&self, findings: &mut Findings, dci: usize) {
        let (found, ring) = (self.endpoints[dci], self.routes[dci]);
        let given = self.hardware.taken[dci].map(|block| Endpoint::of(&block).given());
        let is_given = given == Some(found.given());
        findings.check(Kind::Context, is_given, || format!("Dci {dci} is {found:?}, given was {given:?}"));
        let (at, within) = (found.dequeue & !15, ring..ring + 16 * TRBS);
        let is_within = within.contains(&at);
        findings.check(Kind::Context, is_within, || format!("Dci {dci} reads at {at:x}, its ring is {ring:x}"));
        let active = self.record.endpoints().any(|held| usize::from(held.dci().0) == dci && held.active);
        // Control rests after a reset, until it is next used.
        let good =
            if dci == 1 { [RUNNING, STOPPED].contains(&found.state) } else { active == (found.state == RUNNING) };
        findings.check(Kind::Context, good, || format!("Dci {dci} is {}", text::state(&found)));
    }

    /// So is the slot's block; its entries end with the last endpoint that is enabled.
    fn check_slot_given(&self, findings: &mut Findings) {
        let given = self.hardware.taken[0].map(|block| Slot::of(&block)).expect("a slot's block");
        let (mine, theirs) = (given.but_hub_fields(), self.slot.but_hub_fields());
        findings.check(Kind::Context, mine == theirs, || format!("the slot's block is {theirs:?}, given was {mine:?}"));
        let (mine, theirs) = (given.hub_fields(), self.slot.hub_fields());
        let none = theirs == [0; 4];
        findings.check_but(HUB_FIELDS, mine == theirs, none, || format!("hub fields {theirs:?}, given {mine:?}"));
        let (entries, highest) = (self.slot.entries, self.enabled.last().copied().unwrap_or(0) as u32);
        let ends = entries == highest;
        findings.check(Kind::Descriptor, ends, || format!("entries {entries}, last Dci {highest}"));
    }

    /// Each held endpoint is as the device's own descriptor asks, in the alternate that is held.
    fn check_asked(&self, findings: &mut Findings, speed: u8) {
        for held in self.record.endpoints() {
            let setting = self.record.held().find(|setting| setting.interface == held.interface);
            let alternate = setting.map_or(0, |setting| setting.alternate);
            let configurations = self.hardware.configurations.iter();
            let mut descriptors = configurations
                .filter_map(|raw| descriptors::alternate(raw, held.interface, alternate)?.remove(&held.address));
            let asked = descriptors.next().map(|descriptor| descriptors::asked(&descriptor, speed));
            let dci = held.dci().0;
            let found = Endpoint { average: 0, ..self.endpoints[usize::from(dci)].given() };
            let fault = || format!("Dci {dci} is {found:?}, its descriptor asks for {asked:?}");
            findings.check(Kind::Descriptor, asked == Some(found), fault);
        }
    }

    /// The slot's block says where the device is. No hub here has a transaction translator.
    fn check_place(&self, findings: &mut Findings, place: Place) {
        let slot = &self.slot;
        let (speed, root_port) = (u32::from(place.speed), u32::from(place.root_port));
        let asked = Slot {
            route: place.route,
            speed,
            root_port,
            latency: 0,
            translator_slot: 0,
            translator_port: 0,
            interrupter: 0,
            ..*slot
        };
        findings.check(Kind::Descriptor, *slot == asked, || format!("the slot's block is {slot:?}, {place:?}"));
    }

    fn check_control(&self, findings: &mut Findings, speed: u8) {
        let control = self.endpoints[1];
        let plain = (control.kind, control.errors, control.interval, control.burst, control.mult, control.payload);
        findings.check(Kind::Descriptor, plain == (4, 3, 0, 0, 0, 0), || format!("control is {control:?}"));
        // At SuperSpeed the byte is an exponent (USB 3.2, 9.6.1).
        let (packet, byte) = (control.packet, u32::from(self.hardware.packet_byte));
        let wanted = if speed >= 4 { 1 << byte } else { byte };
        findings.check(Kind::Descriptor, packet == wanted, || format!("control's packet size is {packet}"));
    }
}
