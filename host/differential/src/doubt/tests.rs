use std::time::Duration;

use model::Model;
use scenario::{Asked, BringUp, Claim, HubUpdate, Outcome, Shown};

use super::*;
use crate::build::rings_wanted;
use crate::compare::Pair;

/// The model, but for one thing that it does with rings.
#[derive(Clone, Copy, Debug, PartialEq, Eq)]
enum Wrong {
    /// A cut claim forgets them.
    Cut,
    /// The same in a Resume after a failed Configure.
    Resume,
    /// A claim that answers 14 frees them.
    Broken,
    /// A set configuration that answers 14 frees those that it ended.
    Ended,
    /// The ring that a repeated address does not keep enters quarantine too.
    Dropped,
    /// A claim that is cut in a Stop quarantines them.
    Stopped,
}

impl Wrong {
    const ALL: [Wrong; 6] = [Wrong::Cut, Wrong::Resume, Wrong::Broken, Wrong::Ended, Wrong::Dropped, Wrong::Stopped];

    /// What a claim leaves, spoiled.
    fn claimed(self, record: &Record, args: &Claim, outcome: Outcome, log: &[u32]) -> Outcome {
        let (mut left, answer) = outcome?;
        let words = rings_wanted(&record.list, args.interface, args.alternate).len();
        let drawn: Vec<u64> = record.free().into_iter().take(words).collect();
        let last = log[..answer.count].last().map(|word| word >> 28);
        match (self, answer.number, last) {
            (Wrong::Cut, 15, Some(3 | 6)) | (Wrong::Resume, 15, Some(5)) => left.quarantined.clear(),
            (Wrong::Broken, 14, _) => left.quarantined.clear(),
            (Wrong::Dropped, 14 | 15, _) if !left.quarantined.is_empty() => left.quarantined = drawn,
            (Wrong::Stopped, 15, Some(4)) => left.quarantined = drawn,
            _ => {}
        }
        Ok((left, answer))
    }
}

impl Layer for Wrong {
    fn bring_up(&mut self, args: &BringUp, buffers: &mut Buffers) -> Outcome {
        Model.bring_up(args, buffers)
    }
    fn claim(&mut self, record: &Record, args: &Claim, buffers: &mut Buffers) -> Outcome {
        let outcome = Model.claim(record, args, buffers);
        self.claimed(record, args, outcome, &buffers.log)
    }
    fn ask(&mut self, record: &Record, args: &Claim, buffers: &Buffers) -> Shown {
        Model.ask(record, args, buffers)
    }
    fn commit(&mut self, record: &Record, asked: &Asked, buffers: &mut Buffers) -> Outcome {
        let outcome = Model.commit(record, asked, buffers);
        let args = Claim { interface: asked.interface, alternate: asked.alternate };
        self.claimed(record, &args, outcome, &buffers.log)
    }
    fn release(&mut self, record: &Record, interface: u8, buffers: &mut Buffers) -> Outcome {
        Model.release(record, interface, buffers)
    }
    fn set_configuration(&mut self, record: &Record, value: u8, buffers: &mut Buffers) -> Outcome {
        let (mut left, answer) = Model.set_configuration(record, value, buffers)?;
        if self == &Wrong::Ended && answer.number == 14 {
            left.quarantined.clear();
        }
        Ok((left, answer))
    }
    fn hub_update(&mut self, record: &Record, args: &HubUpdate, buffers: &mut Buffers) -> Outcome {
        Model.hub_update(record, args, buffers)
    }
    fn disconnect(&mut self, record: &Record, buffers: &mut Buffers) -> Outcome {
        Model.disconnect(record, buffers)
    }
}

/// What random lists find of a layer.
fn found(layer: &mut dyn Layer, failed_acts: bool) -> Option<Fault> {
    lists(layer, 1, 8_000, failed_acts).fault.map(|found| found.0)
}

#[test]
fn no_ring_in_doubt_is_free() {
    for name in ["model", "library"] {
        assert_eq!(found(&mut *runner::layer(name).expect("a layer"), false), None, "{name}");
    }
}

/// Where no controller may hold the rings, the groups alone find fault.
#[test]
fn a_wrong_quarantine_is_found() {
    for mut wrong in Wrong::ALL {
        let free = matches!(wrong, Wrong::Cut | Wrong::Broken);
        let expected = if free { Fault::Free } else { Fault::Groups };
        assert_eq!(found(&mut wrong, false), Some(expected), "{wrong:?}");
    }
    let (text, good) = run("the wrong one", &mut Wrong::Cut, 1, 2_000);
    assert!(!good && text.contains(Fault::Free.text()), "{text}");
}

/// Of two layers that are wrong alike.
#[test]
fn the_groups_of_single_calls_find_it_too() {
    let differs = |wrong: Wrong, seed: u64| {
        let mut pair =
            Pair { reference: Box::new(wrong), subject: Box::new(wrong), listed: false, narrow: false, sparse: None };
        let mut tally = crate::tally::Tally::default();
        crate::random::run(&mut pair, &mut tally, seed, 4_000);
        !tally.text(Duration::ZERO).contains(" 0 different\n")
    };
    // A cut in a Resume behind a Configure that failed is met by few calls.
    for wrong in Wrong::ALL {
        assert!((1..=60).any(|seed| differs(wrong, seed)), "{wrong:?}");
    }
}

/// After a claim whose Configure failed, 13, its rings are free: such a controller might hold them.
#[test]
fn a_controller_that_acts_on_a_failed_command_breaks_the_promise() {
    assert_eq!(found(&mut Model, true), Some(Fault::Free));
}
