//! A device on the controller, and the bus over which the driver reaches it.

use std::num::NonZeroU8;

use xhci_device::{Bus, Command, Dci, Due, Outcome, Read, SlotId};

use crate::block::{Block, Endpoint, Slot};
use crate::controller::{
    ADDRESS_DEVICE, CONFIGURE_ENDPOINT, Controller, EVALUATE_CONTEXT, SET_DEQUEUE, STOP_ENDPOINT, SUCCESS, bytes_of,
    words_of,
};
use crate::text;

/// A request that no device has.
const UNKNOWN_REQUEST: u8 = 99;

/// A field that is made wrong on its way to the controller, in the context of one kind of command.
#[derive(Clone, Copy)]
pub struct Spoilt {
    pub command: Command,
    /// The doubleword, which is and'ed, then or'ed.
    pub at: usize,
    pub and: u32,
    pub or: u32,
    /// As if the library itself had written it so; otherwise it is spoilt on its way.
    pub written: bool,
}

/// What a careless bus leaves undone.
#[derive(Clone, Copy, Default)]
pub struct Careless {
    /// It does not clear the rings of endpoints that a Configure adds.
    pub clears_no_ring: bool,
    /// It sets the dequeue pointer for every Resume, of a running endpoint too.
    pub moves_running: bool,
    /// It hands completions on after the call only.
    pub routes_late: bool,
}

/// What the controller has of a device.
pub struct Hardware {
    pub slot: SlotId,
    input: u64,
    output: u64,
    /// The blocks that the controller has taken, by Dci; 0 is the slot's. None: not enabled.
    pub taken: [Option<Block>; 32],
    /// Byte 7 of the device descriptor.
    pub packet_byte: u8,
    /// The configuration descriptors as they were read.
    pub configurations: Vec<Vec<u8>>,
    /// Descriptors added to each of them: what the device does not have.
    pub invented: &'static [u8],
    /// In the place of SetConfiguration the device is sent a request that it stalls.
    pub stalls_configuration: bool,
    pub spoilt: Option<Spoilt>,
    pub careless: Careless,
}

impl Hardware {
    /// A slot, with memory for its contexts.
    pub fn new(controller: &mut Controller, routes: &[u64]) -> Hardware {
        let (slot, output) = controller.enable_slot(routes);
        let input = controller.memory(33 * controller.spacing as u64);
        Hardware {
            slot,
            input,
            output,
            taken: [None; 32],
            packet_byte: 0,
            configurations: vec![],
            invented: &[],
            stalls_configuration: false,
            spoilt: None,
            careless: Careless::default(),
        }
    }

    fn output(&self, controller: &mut Controller, i: usize) -> Block {
        words_of(&controller.machine.read(self.output + (controller.spacing * i) as u64, 32))
    }

    /// The slot's block of the output context.
    pub fn slot_block(&self, controller: &mut Controller) -> Slot {
        Slot::of(&self.output(controller, 0))
    }

    /// An endpoint's block of the output context.
    pub fn endpoint(&self, controller: &mut Controller, dci: Dci) -> Endpoint {
        Endpoint::of(&self.output(controller, dci.0.into()))
    }
}

/// The bus of one device, for one call.
pub struct Wire<'a> {
    pub controller: &'a mut Controller,
    pub hardware: &'a mut Hardware,
    read: Vec<u8>,
}

/// Block `i` of an input context.
fn input_block(ctx: &[u8], i: usize) -> Block {
    words_of(&ctx[ctx.len() / 33 * i..])
}

impl<'a> Wire<'a> {
    pub fn new(controller: &'a mut Controller, hardware: &'a mut Hardware) -> Wire<'a> {
        Wire { controller, hardware, read: vec![] }
    }

    fn outcome(&mut self, due: &Due<'_>) -> Result<(), u8> {
        let (slot, routes) = (self.hardware.slot, due.routes);
        let done = |code| if code == SUCCESS { Ok(()) } else { Err(code) };
        match due.command {
            Command::Address => done(self.over_context(due, ADDRESS_DEVICE)),
            Command::Evaluate => done(self.over_context(due, EVALUATE_CONTEXT)),
            Command::Configure => done(self.over_context(due, CONFIGURE_ENDPOINT)),
            Command::Stop(dci) => done(self.controller.endpoint_command(STOP_ENDPOINT, 0, slot, dci, routes)),
            Command::Resume(dci) => done(self.resume(due, dci)),
            Command::SetInterface { interface, alternate } => {
                self.request([1, 11, alternate, 0, interface, 0, 0, 0], due)
            }
            Command::SetConfiguration(value) => {
                let request = if self.hardware.stalls_configuration { UNKNOWN_REQUEST } else { 9 };
                self.request([0, request, value, 0, 0, 0, 0, 0], due)
            }
            Command::ReadHeader => {
                self.request([0x80, 6, 0, 1, 0, 0, 8, 0], due)?;
                self.hardware.packet_byte = self.read.get(7).copied().unwrap_or(0);
                Ok(())
            }
            Command::ReadConfiguration => self.request([0x80, 8, 0, 0, 0, 0, 1, 0], due),
            Command::ReadDevice => self.request([0x80, 6, 0, 1, 0, 0, 18, 0], due),
            Command::ReadConfig(index) => self.read_configuration(index, due),
            Command::Disable => done(self.controller.disable_slot(slot, routes)),
            other => panic!("{other}: not a command that is known here"),
        }
    }

    fn over_context(&mut self, due: &Due<'_>, kind: u32) -> u8 {
        // The controller begins these at their base, with cycle state 1. Control's ring is new at Address.
        for dci in due.added().filter(|&dci| dci != Dci::CONTROL) {
            if !self.hardware.careless.clears_no_ring {
                self.controller.clear(due.ring(dci));
            }
        }
        self.note_context(due);
        let mut bytes = due.ctx.to_vec();
        let spoilt = self.hardware.spoilt.filter(|spoilt| spoilt.command == due.command);
        if let Some(Spoilt { at, and, or, .. }) = spoilt {
            let [word] = words_of(&bytes[4 * at..]);
            bytes[4 * at..4 * at + 4].copy_from_slice(&bytes_of(&[word & and | or]));
        }
        self.controller.machine.write(self.hardware.input, &bytes);
        let code = self.controller.context_command(kind, self.hardware.input, self.hardware.slot, due.routes);
        if code == SUCCESS {
            let written = spoilt.is_some_and(|spoilt| spoilt.written);
            self.take(if written { &bytes } else { due.ctx });
        }
        code
    }

    /// What the controller has by now: the blocks that the context flags.
    fn take(&mut self, ctx: &[u8]) {
        let [drop, add] = words_of(ctx);
        for i in (2..32).filter(|i| drop >> i & 1 != 0) {
            self.hardware.taken[i] = None;
        }
        for i in (0..32).filter(|i| add >> i & 1 != 0) {
            self.hardware.taken[i] = Some(input_block(ctx, 1 + i));
        }
    }

    fn note_context(&mut self, due: &Due<'_>) {
        if self.controller.notes.is_none() {
            return;
        }
        let [drop, add] = words_of(due.ctx);
        let flagged = |flags: u32| text::dcis((0..32).filter(move |dci| flags >> dci & 1 != 0).map(Dci));
        self.controller.note(|| format!("  {}, drop {}, add {}", due.command, flagged(drop), flagged(add)));
        for i in (0..32).filter(|i| add >> i & 1 != 0) {
            let block = input_block(due.ctx, 1 + i);
            self.controller.note(|| match i {
                0 => format!("    slot: {}", text::slot(&Slot::of(&block))),
                _ => format!("    Dci {i}: {}", text::endpoint(&Endpoint::of(&block))),
            });
        }
    }

    /// The pointer goes to where the ring is next written. An endpoint that runs already, since a Configure has
    /// begun it anew, would refuse that: the doorbell does.
    fn resume(&mut self, due: &Due<'_>, dci: Dci) -> u8 {
        const RUNNING: u32 = 1;
        let slot = self.hardware.slot;
        let runs = self.hardware.endpoint(self.controller, dci).state == RUNNING;
        let code = if runs && !self.hardware.careless.moves_running {
            SUCCESS
        } else {
            let pointer = self.controller.dequeue(due.route(dci));
            self.controller.endpoint_command(SET_DEQUEUE, pointer, slot, dci, due.routes)
        };
        self.controller.doorbell(slot, dci);
        code
    }

    fn request(&mut self, setup: [u8; 8], due: &Due<'_>) -> Result<(), u8> {
        self.read = self.controller.control(self.hardware.slot, setup, due.routes)?;
        Ok(())
    }

    /// Its first 9 bytes say how long it is.
    fn read_configuration(&mut self, index: u8, due: &Due<'_>) -> Result<(), u8> {
        self.request([0x80, 6, index, 2, 0, 0, 9, 0], due)?;
        let [low, high] = [self.read[2], self.read[3]];
        self.request([0x80, 6, index, 2, 0, 0, low, high], due)?;
        let invented = self.hardware.invented;
        let total = u16::from_le_bytes([low, high]) + invented.len() as u16;
        self.read.extend(invented);
        self.read[2..4].copy_from_slice(&total.to_le_bytes());
        // Another interface begins with its alternate 0.
        self.read[4] += u8::from(invented.get(3) == Some(&0));
        self.hardware.configurations.push(self.read.clone());
        Ok(())
    }
}

impl Bus for Wire<'_> {
    fn send(&mut self, due: &Due<'_>) -> Outcome<'_> {
        self.read.clear();
        if !due.command.reads_context() {
            self.controller.note(|| format!("  {}", due.command));
        }
        let outcome = self.outcome(due);
        let code = outcome.err().unwrap_or(0);
        self.controller.note(|| format!("    {}", text::outcome(code)));
        match NonZeroU8::new(code) {
            Some(code) => Err(code),
            None => Ok(Read::Bytes(&self.read)),
        }
    }
}
