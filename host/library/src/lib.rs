//! The proved library as a `Layer`, and its functions outside a slot.
#![forbid(unsafe_code)]

pub mod words;

use scenario::{
    Answer, Asked, BringUp, Buffers, Cannot, Chosen, Claim, Dispatch, Functions, HubUpdate, Layer, Made, Outcome,
    Reason, Record, Reply, Shown, Side, proper,
};
use xhci_device::{
    Answered, BlockRefusal, ChoiceRefusal, Context, Dci, Memory, RawRefusal, Setting, SettingsRefusal, SlotId,
    SubmitRefusal,
};

pub struct Library;

fn memory(buffers: &mut Buffers) -> Memory<'_> {
    let Buffers { ctx, routes, log, outcomes } = buffers;
    Memory { ctx, routes, log, outcomes }
}

fn told(told: Answered) -> Answer {
    Answer { number: told.answer.number(), code: told.answer.code(), count: told.count }
}

/// A call on the record that is given.
fn on(record: &Record, call: impl FnOnce(&mut xhci_device::Record) -> Answered) -> Outcome {
    let mut record = words::image(record).ok_or(Cannot::NoSuchInput)?;
    let answer = told(proper(|| call(&mut record)));
    Ok((words::record(&record), answer))
}

fn asked(shown: xhci_device::Asked) -> Asked {
    Asked {
        interface: shown.interface(),
        alternate: shown.alternate(),
        drops: shown.drop_flags(),
        adds: shown.add_flags(),
        rings: shown.rings().to_vec(),
    }
}

fn reason(reason: xhci_device::Reason) -> Reason {
    match reason {
        xhci_device::Reason::Nothing => Reason::Nothing,
        xhci_device::Reason::Alternate { interface, alternate } => Reason::Alternate { interface, alternate },
        xhci_device::Reason::Endpoint { word, owner } => Reason::Endpoint { word, owner },
        xhci_device::Reason::Rings => Reason::Rings,
        xhci_device::Reason::Command { place, word } => Reason::Command { place, word },
        xhci_device::Reason::Number(number) => Reason::Number(number),
        other => panic!("{other:?} has no form in a scenario"),
    }
}

impl Layer for Library {
    fn bring_up(&mut self, args: &BringUp, buffers: &mut Buffers) -> Outcome {
        let args = xhci_device::BringUp {
            slot: SlotId(args.slot),
            n: args.n as usize,
            speed: args.speed,
            parent: args.has_parent.then_some(args.parent as usize),
            port: args.port,
            root_port: args.root_port,
            rings: &args.rings,
            header: args.header as usize,
            packet: args.packet,
            value: args.config,
            hubs: &args.hubs,
            list: &args.list,
        };
        let (record, answered) = proper(|| xhci_device::Record::bring_up(memory(buffers), &args));
        Ok((words::record(&record), told(answered)))
    }

    fn claim(&mut self, record: &Record, args: &Claim, buffers: &mut Buffers) -> Outcome {
        on(record, |r| r.claim(memory(buffers), args.interface, args.alternate))
    }

    fn ask(&mut self, record: &Record, args: &Claim, buffers: &Buffers) -> Shown {
        let record = words::image(record).ok_or(Cannot::NoSuchInput)?;
        let Buffers { ctx, routes, log, .. } = buffers;
        let shown = proper(|| record.ask(ctx, routes, log, args.interface, args.alternate));
        let number = shown.as_ref().err().map_or(0, |refused| refused.number());
        Ok((Answer { number, code: 0, count: 0 }, shown.ok().map(asked)))
    }

    fn commit(&mut self, record: &Record, asked: &Asked, buffers: &mut Buffers) -> Outcome {
        let Asked { interface, alternate, drops, adds, rings } = asked;
        let setting = Setting { interface: *interface, alternate: *alternate };
        on(record, |r| r.commit_parts(memory(buffers), setting, (*drops, *adds), rings))
    }

    fn release(&mut self, record: &Record, interface: u8, buffers: &mut Buffers) -> Outcome {
        on(record, |r| r.release(memory(buffers), interface))
    }

    fn set_configuration(&mut self, record: &Record, value: u8, buffers: &mut Buffers) -> Outcome {
        on(record, |r| r.set_configuration(memory(buffers), value))
    }

    fn hub_update(&mut self, record: &Record, args: &HubUpdate, buffers: &mut Buffers) -> Outcome {
        on(record, |r| r.hub_update(memory(buffers), args.ports, args.multi, args.think))
    }

    fn disconnect(&mut self, record: &Record, buffers: &mut Buffers) -> Outcome {
        on(record, |r| r.disconnect(memory(buffers)))
    }

    /// From what the call left, and from the outcomes that it was given.
    fn why(&mut self, made: &Made) -> Result<Reason, Cannot> {
        let Answer { number, code, count } = made.answer;
        let record = words::image(made.left).ok_or(Cannot::NoSuchInput)?;
        let answer = xhci_device::Answer::of(number, code).ok_or(Cannot::NoSuchInput)?;
        let Claim { interface, alternate } = made.call.claimed().ok_or(Cannot::NoSuchInput)?;
        let left = Answered { answer, count };
        let why = || record.why(interface, alternate, left, made.log, &made.buffers.outcomes);
        Ok(reason(proper(why)))
    }
}

fn replied<Refusal>(result: Result<usize, Refusal>, number: fn(Refusal) -> u8) -> Reply {
    match result {
        Ok(count) => Reply { number: 0, count },
        Err(refusal) => Reply { number: number(refusal), count: 0 },
    }
}

struct Turns(xhci_device::Order);

impl Dispatch for Turns {
    fn submit(&mut self, slot: u8) -> u8 {
        proper(|| self.0.submit(SlotId(slot))).err().map_or(0, SubmitRefusal::number)
    }

    fn turn(&mut self) -> Option<u8> {
        proper(|| self.0.turn()).map(|slot| slot.0)
    }
}

impl Functions for Library {
    fn dispatcher(&self) -> Box<dyn Dispatch> {
        Box::new(Turns(xhci_device::Order::new()))
    }

    fn read_descriptors(&self, bytes: &[u8], speed: u8, words: &mut [u32]) -> Reply {
        replied(proper(|| xhci_device::read_descriptors(bytes, speed, words)), RawRefusal::number)
    }

    fn write_descriptors(&self, list: &[u32], speed: u8, bytes: &mut [u8]) -> Reply {
        replied(proper(|| xhci_device::write_descriptors(list, speed, bytes)), RawRefusal::number)
    }

    fn settings_to_new(&self, settings: &[u8], list: &[u32], speed: u8, bytes: &mut [u8]) -> Reply {
        replied(proper(|| xhci_device::settings_to_new(settings, list, speed, bytes)), SettingsRefusal::number)
    }

    fn settings_to_old(&self, settings: &[u8], list: &[u32], speed: u8, bytes: &mut [u8]) -> Reply {
        replied(proper(|| xhci_device::settings_to_old(settings, list, speed, bytes)), SettingsRefusal::number)
    }

    fn endpoint_block<'a>(&self, input: &'a [u8], output: &'a [u8], from: Side, dci: u8) -> (u8, &'a [u8]) {
        let from = match from {
            Side::Input => Context::Input,
            Side::Output => Context::Output,
        };
        match proper(|| xhci_device::endpoint_block(input, output, from, Dci(dci))) {
            Ok(block) => (0, block),
            Err(refusal) => (BlockRefusal::number(refusal), &[]),
        }
    }

    /// A record that has no image is none.
    fn choose(&self, record: &Record, names: &[u8], longest: u32) -> Chosen {
        let chosen = words::image(record)
            .map_or(Err(ChoiceRefusal::Unusable), |record| proper(|| record.choose(names, longest)));
        match chosen {
            Ok(chosen) => Chosen { number: 0, alternates: chosen.alternates().to_vec() },
            Err(refusal) => Chosen { number: refusal.number(), alternates: Vec::new() },
        }
    }
}
