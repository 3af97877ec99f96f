//! The calls once more, in plain Rust, read from 01 and from docs/DECISIONS.md, not from the Rattle sources: a
//! second reading to hold the library against. docs/BEHAVIOUR.md and docs/FORMATS.md tell what they do.
//! The functions outside a slot's calls are read from 02.
#![forbid(unsafe_code)]

mod block;
mod check;
mod choice;
mod context;
mod course;
mod dispatch;
mod list;
mod raw;
mod settings;
mod topology;
mod why;

use scenario::{
    Answer, Asked, BringUp, Buffers, Cannot, Chosen, Claim, Dispatch, Functions, HubUpdate, Layer, Made, Outcome,
    Reason, Record, Reply, Shown, Side,
};

use course::{Course, Ended};

pub use choice::{ChoiceGround, choice_grounds};
pub use list::{CompanionGround, companion_grounds};
pub use raw::{Ground, grounds, raw_companion_grounds};
pub use settings::{SettingsGround, settings_grounds};

pub struct Model;

/// Nothing is changed, and no word logged.
fn refused(number: u8, record: Record) -> Outcome {
    Ok((record, Answer { number, code: 0, count: 0 }))
}

/// After 14 and 15 the record is unusable.
fn ended(course: Course, result: Result<(), Ended>) -> Outcome {
    let Ended { number, code } = result.err().unwrap_or(Ended { number: 0, code: 0 });
    let usable = course.record.usable && number != 14 && number != 15;
    Ok((Record { usable, ..course.record }, Answer { number, code, count: course.count }))
}

impl Layer for Model {
    /// A refused one returns the empty record.
    fn bring_up(&mut self, args: &BringUp, buffers: &mut Buffers) -> Outcome {
        if let Err(number) = check::bring_up(args, buffers) {
            return refused(number, Record::default());
        }
        let mut course = Course::new(Record::default(), buffers);
        let result = course.bring_up(args);
        course.record.usable = result.is_ok();
        course.record.up = result.is_ok();
        ended(course, result)
    }

    fn claim(&mut self, record: &Record, args: &Claim, buffers: &mut Buffers) -> Outcome {
        if let Err(number) = check::record(record, buffers).and_then(|()| check::claim(record, args)) {
            return refused(number, record.clone());
        }
        let mut course = Course::new(record.clone(), buffers);
        let result = course.claim(args);
        ended(course, result)
    }

    /// "Runs the checks, changes nothing."
    fn ask(&mut self, record: &Record, args: &Claim, buffers: &Buffers) -> Shown {
        let checked = check::record(record, buffers).and_then(|()| check::claim(record, args));
        let number = checked.err().unwrap_or(0);
        let asked = (number == 0).then(|| check::ask_of(record, args.interface, args.alternate));
        Ok((Answer { number, code: 0, count: 0 }, asked))
    }

    /// "Runs the commands."
    fn commit(&mut self, record: &Record, asked: &Asked, buffers: &mut Buffers) -> Outcome {
        if let Err(number) = check::record(record, buffers).and_then(|()| check::commit(record, asked)) {
            return refused(number, record.clone());
        }
        let Asked { interface, alternate, .. } = *asked;
        self.claim(record, &Claim { interface, alternate }, buffers)
    }

    fn release(&mut self, record: &Record, interface: u8, buffers: &mut Buffers) -> Outcome {
        let setting = match check::record(record, buffers).and_then(|()| check::release(record, interface)) {
            Ok(setting) => setting,
            Err(number) => return refused(number, record.clone()),
        };
        let mut course = Course::new(record.clone(), buffers);
        let result = course.release(setting);
        ended(course, result)
    }

    fn set_configuration(&mut self, record: &Record, value: u8, buffers: &mut Buffers) -> Outcome {
        if let Err(number) = check::record(record, buffers) {
            return refused(number, record.clone());
        }
        let mut course = Course::new(record.clone(), buffers);
        let result = course.set_configuration(value);
        ended(course, result)
    }

    fn hub_update(&mut self, record: &Record, args: &HubUpdate, buffers: &mut Buffers) -> Outcome {
        if let Err(number) = check::record(record, buffers).and_then(|()| check::hub_update(record, args)) {
            return refused(number, record.clone());
        }
        let mut course = Course::new(record.clone(), buffers);
        let result = course.hub_update(args);
        ended(course, result)
    }

    fn disconnect(&mut self, record: &Record, buffers: &mut Buffers) -> Outcome {
        if let Err(number) = check::disconnect(record, buffers) {
            return refused(number, record.clone());
        }
        let mut course = Course::new(record.clone(), buffers);
        let result = course.disconnect();
        ended(course, result)
    }

    /// From what the call was given, not from what it left.
    fn why(&mut self, made: &Made) -> Result<Reason, Cannot> {
        Ok(why::why(made.call, made.record, made.buffers))
    }
}

/// "What is lent past the output, here and later, keeps its contents." Refusals act as 1 to 12 do.
fn replied<T: Copy>(result: Result<Vec<T>, u8>, memory: &mut [T]) -> Reply {
    match result {
        Err(number) => Reply { number, count: 0 },
        Ok(written) => {
            memory[..written.len()].copy_from_slice(&written);
            Reply { number: 0, count: written.len() }
        }
    }
}

impl Functions for Model {
    fn read_descriptors(&self, bytes: &[u8], speed: u8, words: &mut [u32]) -> Reply {
        replied(raw::read(bytes, speed, words.len()), words)
    }

    fn write_descriptors(&self, list: &[u32], speed: u8, bytes: &mut [u8]) -> Reply {
        replied(raw::write(list, speed, bytes.len()), bytes)
    }

    fn settings_to_new(&self, settings: &[u8], list: &[u32], speed: u8, bytes: &mut [u8]) -> Reply {
        replied(settings::to_new(settings, list, speed, bytes.len()), bytes)
    }

    fn settings_to_old(&self, settings: &[u8], list: &[u32], speed: u8, bytes: &mut [u8]) -> Reply {
        replied(settings::to_old(settings, list, speed, bytes.len()), bytes)
    }

    fn endpoint_block<'a>(&self, input: &'a [u8], output: &'a [u8], from: Side, dci: u8) -> (u8, &'a [u8]) {
        block::endpoint_block(input, output, from, dci)
    }

    fn dispatcher(&self) -> Box<dyn Dispatch> {
        Box::new(dispatch::Dispatcher::default())
    }

    fn choose(&self, record: &Record, names: &[u8], longest: u32) -> Chosen {
        match choice::choose(record, names, longest) {
            Ok(alternates) => Chosen { number: 0, alternates },
            Err(number) => Chosen { number, alternates: Vec::new() },
        }
    }
}
