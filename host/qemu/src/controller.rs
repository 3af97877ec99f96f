//! The controller as a firmware sees it: registers, rings, commands, control transfers, and events, which go by the
//! route table.

use std::collections::{BTreeMap, BTreeSet};
use std::io;
use std::thread::sleep;
use std::time::{Duration, Instant};

use xhci_device::{Dci, SlotId, route_index};

use crate::machine::Machine;
use crate::text;

/// Where the controller's registers are put, and where its memory begins and ends.
const BAR: u64 = 0xE000_0000;
const MEMORY: std::ops::Range<u64> = 0x20_0000..0x400_0000;

/// TRBs of a ring; the last one of a transfer or command ring is a link.
pub const TRBS: u64 = 64;
const EVENTS: u64 = 256;

/// How long the controller may take. It is met when something is wrong only.
const PATIENCE: Duration = Duration::from_secs(20);

/// Completion codes (xHCI 1.2, table 6-90).
pub const SUCCESS: u8 = 1;
pub const STALL: u8 = 6;
pub const SHORT_PACKET: u8 = 13;
/// An isochronous ring was empty: this belongs to an endpoint, not to a TRB.
const RING_UNDERRUN: u8 = 14;
const RING_OVERRUN: u8 = 15;
/// A code of ours: nothing came.
pub const SILENT: u8 = 254;

/// Commands (xHCI 1.2, table 6-91).
pub const ENABLE_SLOT: u32 = 9;
const DISABLE_SLOT: u32 = 10;
pub const ADDRESS_DEVICE: u32 = 11;
pub const CONFIGURE_ENDPOINT: u32 = 12;
pub const EVALUATE_CONTEXT: u32 = 13;
pub const RESET_ENDPOINT: u32 = 14;
pub const STOP_ENDPOINT: u32 = 15;
pub const SET_DEQUEUE: u32 = 16;

type Trb = [u32; 4];

pub fn bytes_of(words: &[u32]) -> Vec<u8> {
    words.iter().flat_map(|word| word.to_le_bytes()).collect()
}

pub fn words_of<const N: usize>(bytes: &[u8]) -> [u32; N] {
    let word = |i| u32::from_le_bytes(bytes[4 * i..4 * i + 4].try_into().expect("4 bytes"));
    std::array::from_fn(word)
}

struct Ring {
    base: u64,
    at: u64,
    cycle: u32,
}

impl Ring {
    fn new(base: u64) -> Ring {
        Ring { base, at: 0, cycle: 1 }
    }

    fn next(&self) -> u64 {
        self.base + 16 * self.at
    }
}

/// A completion, with the ring that the routes named for it when it was taken; 0 is none.
#[derive(Clone, Copy, Debug, PartialEq)]
pub struct Completion {
    pub slot: SlotId,
    pub dci: Dci,
    pub trb: u64,
    pub code: u8,
    pub left: u32,
    pub ring: u64,
}

pub struct Controller {
    pub machine: Machine,
    operational: u64,
    runtime: u64,
    doorbells: u64,
    pub slots: usize,
    /// The size of a context's block.
    pub spacing: usize,
    free: u64,
    dcbaa: u64,
    commands: Ring,
    events: Ring,
    rings: BTreeMap<u64, Ring>,
    /// TRBs that have not completed.
    waiting: BTreeSet<u64>,
    /// Completions that came to the ring of the routes,
    pub inbox: Vec<Completion>,
    /// that came to another or to none,
    pub astray: Vec<Completion>,
    /// and those of a TRB that does not wait.
    pub again: Vec<Completion>,
    done: Option<(u64, u8, u8)>,
    /// How long a control transfer may take.
    pub patience: Duration,
    /// The wrong way: transfer events are kept until the call has ended.
    pub late: Option<Vec<Trb>>,
    /// What is told to people, if it is.
    pub notes: Option<Vec<String>>,
}

impl Controller {
    /// A controller that runs.
    pub fn start(devices: &[&str]) -> io::Result<Controller> {
        let mut machine = Machine::start(devices)?;
        let is_xhci = |machine: &mut Machine, device| machine.pci(device, 8) >> 8 == 0x0C_0330;
        let device = (0..32).find(|&device| is_xhci(&mut machine, device)).expect("an xHCI controller");
        machine.set_pci(device, 0x10, BAR as u32);
        machine.set_pci(device, 0x14, (BAR >> 32) as u32);
        let command = machine.pci(device, 4) & 0xFFFF;
        machine.set_pci(device, 4, command | 6);

        let capabilities = [0, 4, 8, 0x10, 0x14, 0x18].map(|at| machine.register(BAR + at));
        let [length, structural1, structural2, capability1, doorbells, runtime] = capabilities;
        let mut controller = Controller {
            machine,
            operational: BAR + u64::from(length & 0xFF),
            runtime: BAR + u64::from(runtime & !0x1F),
            doorbells: BAR + u64::from(doorbells & !3),
            slots: (structural1 & 0xFF) as usize,
            spacing: if capability1 & 4 != 0 { 64 } else { 32 },
            free: MEMORY.start,
            dcbaa: 0,
            commands: Ring::new(0),
            events: Ring::new(0),
            rings: BTreeMap::new(),
            waiting: BTreeSet::new(),
            inbox: vec![],
            astray: vec![],
            again: vec![],
            done: None,
            patience: PATIENCE,
            late: None,
            notes: None,
        };
        controller.reset();
        let scratchpads = structural2 >> 27 | (structural2 >> 21 & 31) << 5;
        controller.lend_memory(u64::from(scratchpads));
        controller.run();
        Ok(controller)
    }

    fn reset(&mut self) {
        const COMMAND: u64 = 0;
        const STATUS: u64 = 4;
        self.machine.set_register(self.operational + COMMAND, 2);
        let begun = Instant::now();
        while self.machine.register(self.operational + COMMAND) & 2 != 0
            || self.machine.register(self.operational + STATUS) & 1 << 11 != 0
        {
            assert!(begun.elapsed() < PATIENCE, "the controller is not ready");
        }
    }

    fn lend_memory(&mut self, scratchpads: u64) {
        self.dcbaa = self.memory(8 * (self.slots as u64 + 1));
        if scratchpads > 0 {
            let array = self.memory(8 * scratchpads);
            for i in 0..scratchpads {
                let page = self.memory(4096);
                self.machine.write(array + 8 * i, &page.to_le_bytes());
            }
            self.machine.write(self.dcbaa, &array.to_le_bytes());
        }
        self.commands = Ring::new(self.memory(16 * TRBS));
        self.events = Ring::new(self.memory(16 * EVENTS));
    }

    fn run(&mut self) {
        let segments = self.memory(16);
        let base = self.events.base;
        self.machine.write(segments, &bytes_of(&[base as u32, (base >> 32) as u32, EVENTS as u32, 0]));
        let (operational, interrupter) = (self.operational, self.runtime + 0x20);
        self.machine.set_register(operational + 0x38, self.slots as u32);
        self.machine.set_register64(operational + 0x30, self.dcbaa);
        self.machine.set_register64(operational + 0x18, self.commands.base | 1);
        self.machine.set_register(interrupter + 8, 1);
        self.machine.set_register64(interrupter + 0x18, base);
        self.machine.set_register64(interrupter + 0x10, segments);
        self.machine.set_register(operational, 1);
        assert!(self.machine.register(operational + 4) & 1 == 0, "the controller runs");
    }

    pub fn note(&mut self, text: impl FnOnce() -> String) {
        if let Some(notes) = &mut self.notes {
            notes.push(text());
        }
    }

    /// Memory for the controller, zeros, whole pages.
    pub fn memory(&mut self, length: u64) -> u64 {
        let at = self.free;
        self.free += length.next_multiple_of(4096);
        assert!(self.free < MEMORY.end, "memory is left");
        self.machine.write(at, &vec![0; (self.free - at) as usize]);
        at
    }

    /// A new transfer ring.
    pub fn ring(&mut self) -> u64 {
        let base = self.memory(16 * TRBS);
        self.rings.insert(base, Ring::new(base));
        base
    }

    /// Clears a transfer ring and begins it anew: at its base, with cycle state 1.
    pub fn clear(&mut self, base: u64) {
        self.machine.write(base, &[0; 16 * TRBS as usize]);
        self.rings.insert(base, Ring::new(base));
        self.waiting.retain(|trb| !(base..base + 16 * TRBS).contains(trb));
    }

    /// Where a ring will next be written, with its cycle state: a dequeue pointer.
    pub fn dequeue(&self, base: u64) -> u64 {
        let ring = &self.rings[&base];
        ring.next() | u64::from(ring.cycle)
    }

    fn put(machine: &mut Machine, ring: &mut Ring, trb: Trb) -> u64 {
        let at = ring.next();
        machine.write(at, &bytes_of(&[trb[0], trb[1], trb[2], trb[3] | ring.cycle]));
        ring.at += 1;
        if ring.at == TRBS - 1 {
            let link = [ring.base as u32, (ring.base >> 32) as u32, 0, 6 << 10 | 2 | ring.cycle];
            machine.write(ring.next(), &bytes_of(&link));
            (ring.at, ring.cycle) = (0, ring.cycle ^ 1);
        }
        at
    }

    /// Puts a TRB on a transfer ring.
    pub fn queue(&mut self, base: u64, trb: Trb) -> u64 {
        let ring = self.rings.get_mut(&base).expect("a transfer ring");
        let at = Self::put(&mut self.machine, ring, trb);
        self.waiting.insert(at);
        at
    }

    pub fn doorbell(&mut self, slot: SlotId, dci: Dci) {
        self.machine.set_register(self.doorbells + 4 * u64::from(slot.0), dci.0.into());
    }

    /// Takes every event that is there.
    pub fn take_events(&mut self, routes: &[u64]) {
        loop {
            let trb: Trb = words_of(&self.machine.read(self.events.next(), 16));
            if trb[3] & 1 != self.events.cycle {
                return;
            }
            self.events.at += 1;
            if self.events.at == EVENTS {
                (self.events.at, self.events.cycle) = (0, self.events.cycle ^ 1);
            }
            self.machine.set_register64(self.runtime + 0x38, self.events.next() | 8);
            self.event(trb, routes);
        }
    }

    fn event(&mut self, trb: Trb, routes: &[u64]) {
        const TRANSFER: u32 = 32;
        const COMMAND_COMPLETION: u32 = 33;
        const PORT_STATUS_CHANGE: u32 = 34;
        match trb[3] >> 10 & 63 {
            TRANSFER => match &mut self.late {
                Some(kept) if trb[3] >> 16 & 31 > 1 => kept.push(trb),
                _ => self.deliver(trb, routes),
            },
            COMMAND_COMPLETION => {
                let command = u64::from(trb[1]) << 32 | u64::from(trb[0]);
                self.done = Some((command, (trb[2] >> 24) as u8, (trb[3] >> 24) as u8));
            }
            PORT_STATUS_CHANGE => (),
            kind => panic!("an event of kind {kind}"),
        }
    }

    /// Hands a transfer event to the ring that the routes name.
    pub fn deliver(&mut self, trb: Trb, routes: &[u64]) {
        let (slot, dci) = (SlotId((trb[3] >> 24) as u8), Dci((trb[3] >> 16 & 31) as u8));
        let ring = routes[route_index(slot, dci)];
        let completed = u64::from(trb[1]) << 32 | u64::from(trb[0]);
        let code = (trb[2] >> 24) as u8;
        let completion = Completion { slot, dci, trb: completed, code, left: trb[2] & 0xFF_FFFF, ring };
        if dci != Dci::CONTROL || !matches!(code, SUCCESS | SHORT_PACKET) {
            self.note(|| format!("    event: {}", text::completion(&completion)));
        }
        let waited = self.waiting.remove(&completed);
        if ring == 0 || !(ring..ring + 16 * TRBS).contains(&completed) {
            self.astray.push(completion);
        } else if matches!(code, RING_UNDERRUN | RING_OVERRUN) {
            // Nothing has completed.
        } else if waited {
            self.inbox.push(completion);
        } else {
            self.again.push(completion);
        }
    }

    /// Sends a command and waits for its completion: code and slot. Meanwhile completions are taken, too.
    pub fn command(&mut self, trb: Trb, routes: &[u64]) -> (u8, SlotId) {
        self.done = None;
        let sent = Self::put(&mut self.machine, &mut self.commands, trb);
        self.machine.set_register(self.doorbells, 0);
        let begun = Instant::now();
        loop {
            self.take_events(routes);
            if let Some((command, code, slot)) = self.done {
                assert_eq!(command, sent, "the completion is this command's");
                return (code, SlotId(slot));
            }
            assert!(begun.elapsed() < PATIENCE, "command {} completes", trb[3] >> 10);
            sleep(Duration::from_micros(200));
        }
    }

    pub fn context_command(&mut self, kind: u32, input: u64, slot: SlotId, routes: &[u64]) -> u8 {
        let last = kind << 10 | u32::from(slot.0) << 24;
        self.command([input as u32, (input >> 32) as u32, 0, last], routes).0
    }

    pub fn endpoint_command(&mut self, kind: u32, pointer: u64, slot: SlotId, dci: Dci, routes: &[u64]) -> u8 {
        let last = kind << 10 | u32::from(dci.0) << 16 | u32::from(slot.0) << 24;
        self.command([pointer as u32, (pointer >> 32) as u32, 0, last], routes).0
    }

    /// Waits for the completion of a TRB.
    pub fn wait(&mut self, trb: u64, routes: &[u64], patience: Duration) -> Option<Completion> {
        let begun = Instant::now();
        loop {
            self.take_events(routes);
            if let Some(place) = self.inbox.iter().position(|completion| completion.trb == trb) {
                return Some(self.inbox.remove(place));
            }
            if begun.elapsed() > patience {
                return None;
            }
            sleep(Duration::from_micros(500));
        }
    }

    /// Lets some time pass.
    pub fn idle(&mut self, routes: &[u64]) {
        sleep(Duration::from_millis(30));
        self.take_events(routes);
    }

    pub fn disable_slot(&mut self, slot: SlotId, routes: &[u64]) -> u8 {
        self.command([0, 0, 0, DISABLE_SLOT << 10 | u32::from(slot.0) << 24], routes).0
    }

    /// Enable Slot: the slot, and its output context, which the controller knows from now on.
    pub fn enable_slot(&mut self, routes: &[u64]) -> (SlotId, u64) {
        let (code, slot) = self.command([0, 0, 0, ENABLE_SLOT << 10], routes);
        assert_eq!(code, SUCCESS, "Enable Slot");
        let output = self.memory(32 * self.spacing as u64);
        self.machine.write(self.dcbaa + 8 * u64::from(slot.0), &output.to_le_bytes());
        (slot, output)
    }

    fn port_register(&self, port: u8) -> u64 {
        self.operational + 0x400 + 16 * (u64::from(port) - 1)
    }

    /// Whether something is on a port of the root hub.
    pub fn connected(&mut self, port: u8) -> bool {
        let at = self.port_register(port);
        self.machine.register(at) & 1 != 0
    }

    /// Resets a port of the root hub: the speed of what is on it.
    pub fn reset_port(&mut self, port: u8) -> u8 {
        const POWER: u32 = 1 << 9;
        const RESET: u32 = 1 << 4;
        const RESET_CHANGE: u32 = 1 << 21;
        const CHANGES: u32 = 0x00FE_0000;
        let at = self.port_register(port);
        self.machine.set_register(at, POWER | RESET);
        let begun = Instant::now();
        loop {
            let status = self.machine.register(at);
            if status & RESET_CHANGE != 0 {
                self.machine.set_register(at, POWER | status & CHANGES);
                return (status >> 10 & 15) as u8;
            }
            assert!(begun.elapsed() < PATIENCE, "port {port} is reset");
        }
    }

    /// A control transfer: the bytes read, or the code. After a stall the endpoint is reset and set past the transfer.
    pub fn control(&mut self, slot: SlotId, setup: [u8; 8], routes: &[u64]) -> Result<Vec<u8>, u8> {
        const SETUP: u32 = 2 << 10 | 1 << 6;
        const DATA: u32 = 3 << 10 | 1 << 2 | 1 << 16;
        const STATUS: u32 = 4 << 10 | 1 << 5;
        const IN_DATA: u32 = 3 << 16;
        let ring = routes[route_index(slot, Dci::CONTROL)];
        let length = u32::from(u16::from_le_bytes([setup[6], setup[7]]));
        let [low, high]: [u32; 2] = words_of(&setup);
        let buffer = if length > 0 { self.memory(length.into()) } else { 0 };
        let mut trbs = vec![self.queue(ring, [low, high, 8, SETUP | if length > 0 { IN_DATA } else { 0 }])];
        if length > 0 {
            trbs.push(self.queue(ring, [buffer as u32, (buffer >> 32) as u32, length, DATA]));
        }
        let last = self.queue(ring, [0, 0, 0, STATUS | u32::from(length == 0) << 16]);
        trbs.push(last);
        self.doorbell(slot, Dci::CONTROL);
        let (mut code, mut left) = (SILENT, 0);
        if let Some(completion) = self.ended(&trbs, &mut left, routes) {
            code = completion.code;
        }
        self.waiting.retain(|trb| !trbs.contains(trb));
        match code {
            SUCCESS if length == left => Ok(vec![]),
            SUCCESS => Ok(self.machine.read(buffer, (length - left) as usize)),
            STALL => {
                let reset = self.endpoint_command(RESET_ENDPOINT, 0, slot, Dci::CONTROL, routes);
                let to = self.dequeue(ring);
                let moved = self.endpoint_command(SET_DEQUEUE, to, slot, Dci::CONTROL, routes);
                assert_eq!((reset, moved), (SUCCESS, SUCCESS), "control is reset");
                self.note(|| "    control stalled: Reset Endpoint, Set TR Dequeue Pointer".into());
                Err(code)
            }
            _ => Err(code),
        }
    }

    /// The completion that ends a control transfer. A short one of its data says how much was left.
    fn ended(&mut self, trbs: &[u64], left: &mut u32, routes: &[u64]) -> Option<Completion> {
        let begun = Instant::now();
        loop {
            self.take_events(routes);
            while let Some(place) = self.inbox.iter().position(|completion| trbs.contains(&completion.trb)) {
                let completion = self.inbox.remove(place);
                if completion.code != SHORT_PACKET {
                    return Some(completion);
                }
                *left = completion.left;
            }
            if begun.elapsed() > self.patience {
                return None;
            }
            sleep(Duration::from_micros(200));
        }
    }
}
