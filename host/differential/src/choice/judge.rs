//! Choices as questions, and how they are judged.

use std::collections::BTreeSet;

use model::{ChoiceGround, choice_grounds};
use scenario::{Call, Choice, Chosen, Claim, Kind, Record};

use crate::build::buffers;
use crate::choice::{record, shrink};
use crate::outside::{Judged, Pair, Question};

impl Question for Choice {
    type Ground = ChoiceGround;

    const TITLE: &'static str = "settings for a wanted polling period";
    const ANSWERS: &'static [(&'static str, &'static [u8])] = &[(Choice::NAME, &[0, 12, 29, 30])];
    const GROUNDS: &'static [ChoiceGround] = &ChoiceGround::ALL;
    const GROUNDS_OF: &'static str = "30";
    const RETURNED: &'static str = "claimed, one after the other";

    fn name(&self) -> &'static str {
        Kind::name(self)
    }

    fn kind(&self) -> Box<dyn Kind> {
        Box::new(self.clone())
    }

    fn size(&self) -> usize {
        shrink::size(self)
    }

    fn smaller(&self) -> Vec<Choice> {
        shrink::smaller(self)
    }

    fn judge(&self, pair: &Pair) -> Judged<ChoiceGround> {
        let chosen = self.ask(&*pair.subject);
        let expected = self.ask(&*pair.reference);
        // Not the soundness of a record: there the two layers are held against each other alone.
        let unusable = expected.number == 12 || !self.record.usable;
        let grounds = if unusable { BTreeSet::new() } else { grounds(self) };
        let fault = if chosen != expected {
            Some("the layers")
        } else if chosen.number != refusal(self, unusable, &grounds) {
            Some("the refusal")
        } else if chosen.number == 0 && chosen.alternates.len() != self.names.len() {
            Some("the number of alternates")
        } else if chosen.number == 0 && !is_claimed(self, &chosen) {
            Some("the claims")
        } else {
            None
        };
        Judged { number: chosen.number, grounds, returned: chosen.number == 0 && fault.is_none(), fault }
    }
}

/// Those of eight names or fewer.
fn grounds(Choice { record, names, longest }: &Choice) -> BTreeSet<ChoiceGround> {
    if names.len() > 8 { BTreeSet::new() } else { choice_grounds(record, names, *longest) }
}

fn refusal(choice: &Choice, unusable: bool, grounds: &BTreeSet<ChoiceGround>) -> u8 {
    match (unusable, choice.names.len()) {
        (true, _) => 12,
        (_, 9..) => 29,
        _ => {
            if grounds.is_empty() {
                0
            } else {
                30
            }
        }
    }
}

/// Whether the claims of the alternates, one after the other on a record that holds nothing, are refused with neither 8
/// nor 9.
fn is_claimed(choice: &Choice, chosen: &Chosen) -> bool {
    let Some(mut layer) = runner::layer("library") else {
        return false;
    };
    let mut on: Record = record(choice.record.speed, choice.record.list.clone());
    let mut routes = vec![0; 64];
    routes[33] = on.control;
    for (interface, alternate) in choice.names.iter().zip(&chosen.alternates) {
        let mut memory = buffers(vec![0; 1056], routes, vec![0; 64]);
        let call = Call::Claim(Claim { interface: *interface, alternate: *alternate });
        let Ok((left, answer)) = layer.call(&on, &call, &mut memory) else {
            return false;
        };
        if matches!(answer.number, 8 | 9) {
            return false;
        }
        (on, routes) = (left, memory.routes);
    }
    true
}
