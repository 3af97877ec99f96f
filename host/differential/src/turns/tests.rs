use model::Model;
use scenario::{Asked, BringUp, Buffers, Chosen, Claim, Dispatch, HubUpdate, Outcome, Record, Reply, Shown, Side};

use super::*;

/// The model's dispatcher, but for one thing.
#[derive(Clone, Copy, Debug, PartialEq, Eq)]
enum Wrong {
    /// The slot served last comes before the others.
    LastAgain,
    /// Each turn begins at the lowest.
    Restarts,
    /// 28 for any slot once 32 are taken.
    KnownRefused,
    /// A slot that is refused with 28 is taken.
    RefusedCounted,
    /// A turn with none waiting forgets the slot served last.
    NoneMoves,
    /// 28 before 27.
    Order,
}

impl Wrong {
    const ALL: [Wrong; 6] =
        [Wrong::LastAgain, Wrong::Restarts, Wrong::KnownRefused, Wrong::RefusedCounted, Wrong::NoneMoves, Wrong::Order];
}

struct Spoilt {
    wrong: Wrong,
    taken: Vec<u8>,
    waiting: Vec<u8>,
    served: Option<u8>,
}

impl Dispatch for Spoilt {
    fn submit(&mut self, slot: u8) -> u8 {
        let known = self.taken.contains(&slot) && self.wrong != Wrong::KnownRefused;
        let full = self.taken.len() >= 32 && !known;
        if self.waiting.contains(&slot) && !(full && self.wrong == Wrong::KnownRefused) {
            return if self.wrong == Wrong::Order && self.taken.len() >= 32 { 28 } else { 27 };
        }
        if full {
            if self.wrong == Wrong::RefusedCounted {
                self.taken.push(slot);
            }
            return 28;
        }
        if !self.taken.contains(&slot) {
            self.taken.push(slot);
        }
        self.waiting.push(slot);
        0
    }

    fn turn(&mut self) -> Option<u8> {
        self.waiting.sort();
        let served = self.served.filter(|_| self.wrong != Wrong::Restarts);
        let from = served.map_or(0, |last| u16::from(last) + u16::from(self.wrong != Wrong::LastAgain));
        let at = self.waiting.iter().position(|slot| u16::from(*slot) >= from).unwrap_or(0);
        if self.waiting.is_empty() {
            self.served = self.served.filter(|_| self.wrong != Wrong::NoneMoves);
            return None;
        }
        self.served = Some(self.waiting.remove(at));
        self.served
    }
}

/// The model's functions, with that dispatcher.
struct With(Wrong);

impl Functions for With {
    fn read_descriptors(&self, bytes: &[u8], speed: u8, words: &mut [u32]) -> Reply {
        Model.read_descriptors(bytes, speed, words)
    }
    fn write_descriptors(&self, list: &[u32], speed: u8, bytes: &mut [u8]) -> Reply {
        Model.write_descriptors(list, speed, bytes)
    }
    fn settings_to_new(&self, settings: &[u8], list: &[u32], speed: u8, bytes: &mut [u8]) -> Reply {
        Model.settings_to_new(settings, list, speed, bytes)
    }
    fn settings_to_old(&self, settings: &[u8], list: &[u32], speed: u8, bytes: &mut [u8]) -> Reply {
        Model.settings_to_old(settings, list, speed, bytes)
    }
    fn endpoint_block<'a>(&self, input: &'a [u8], output: &'a [u8], from: Side, dci: u8) -> (u8, &'a [u8]) {
        Model.endpoint_block(input, output, from, dci)
    }
    fn choose(&self, record: &Record, names: &[u8], longest: u32) -> Chosen {
        Model.choose(record, names, longest)
    }
    fn dispatcher(&self) -> Box<dyn Dispatch> {
        Box::new(Spoilt { wrong: self.0, taken: Vec::new(), waiting: Vec::new(), served: None })
    }
}

#[test]
fn a_wrong_dispatcher_is_found() {
    for wrong in Wrong::ALL {
        let with = With(wrong);
        let tally = order::lists(&Model, &with, 1, 5_000);
        let text = order::report(&Model, &with, &tally).unwrap_or_default();
        assert!(text.starts_with("DIFFERENT: "), "{wrong:?}");
    }
}

/// The model, whose calls look at another slot's words, or write one.
#[derive(Clone, Copy, Debug)]
enum Prying {
    Reads,
    Writes,
}

impl Prying {
    /// Of slot 3 at Dci 5.
    const WORD: usize = 32 * 3 + 5;

    fn spoil(self, record: &Record, buffers: &mut Buffers, outcome: Outcome) -> Outcome {
        let (mut left, mut answer) = outcome?;
        if record.slot == 3 || answer.count == 0 {
            return Ok((left, answer));
        }
        match (self, buffers.routes.get_mut(Prying::WORD)) {
            (Prying::Reads, Some(word)) if *word % 32 == 16 => (left.usable, answer.number) = (false, 14),
            (Prying::Writes, Some(word)) => *word = 16,
            _ => {}
        }
        Ok((left, answer))
    }
}

impl Layer for Prying {
    fn bring_up(&mut self, args: &BringUp, buffers: &mut Buffers) -> Outcome {
        Model.bring_up(args, buffers)
    }
    fn claim(&mut self, record: &Record, args: &Claim, buffers: &mut Buffers) -> Outcome {
        let outcome = Model.claim(record, args, buffers);
        self.spoil(record, buffers, outcome)
    }
    fn ask(&mut self, record: &Record, args: &Claim, buffers: &Buffers) -> Shown {
        Model.ask(record, args, buffers)
    }
    fn commit(&mut self, record: &Record, asked: &Asked, buffers: &mut Buffers) -> Outcome {
        Model.commit(record, asked, buffers)
    }
    fn release(&mut self, record: &Record, interface: u8, buffers: &mut Buffers) -> Outcome {
        Model.release(record, interface, buffers)
    }
    fn set_configuration(&mut self, record: &Record, value: u8, buffers: &mut Buffers) -> Outcome {
        Model.set_configuration(record, value, buffers)
    }
    fn hub_update(&mut self, record: &Record, args: &HubUpdate, buffers: &mut Buffers) -> Outcome {
        Model.hub_update(record, args, buffers)
    }
    fn disconnect(&mut self, record: &Record, buffers: &mut Buffers) -> Outcome {
        Model.disconnect(record, buffers)
    }
}

#[test]
fn a_call_that_looks_at_another_slot_is_found() {
    for mut prying in [Prying::Reads, Prying::Writes] {
        let tally = alone::lists(&mut prying, &Model, 1, 400);
        let text = alone::report(&mut prying, &Model, &tally).unwrap_or_default();
        assert!(text.starts_with("DIFFERENT: "), "{prying:?}");
    }
}

#[test]
fn the_library_s_turns() {
    for name in ["model", "library"] {
        let mut layer = runner::layer(name).expect("a layer");
        let subject = runner::functions(name).expect("its functions");
        let mut pair = Dispatchers { layer: &mut *layer, subject: &*subject, reference: &Model };
        let (text, good) = run(name, &mut pair, 1, 4_000);
        assert!(good, "{text}");
    }
}
