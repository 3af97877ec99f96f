//! Blocks as questions, and how they are judged.

use std::collections::BTreeSet;

use scenario::{Block, Kind, Part, Side};

use crate::outside::{Judged, Pair, Question};

/// Why the lengths of the contexts are refused.
#[derive(Clone, Copy, Debug, PartialEq, Eq, PartialOrd, Ord)]
pub enum LengthGround {
    /// Neither 1,056 nor 2,112 bytes.
    Input,
    /// Neither 1,024 nor 2,048 bytes.
    Output,
    TwoSpacings,
}

impl Question for Block {
    type Ground = LengthGround;

    const TITLE: &'static str = "an endpoint's block";
    const ANSWERS: &'static [(&'static str, &'static [u8])] = &[(Block::NAME, &[0, 1, 4])];
    const GROUNDS: &'static [LengthGround] = &[LengthGround::Input, LengthGround::Output, LengthGround::TwoSpacings];
    const GROUNDS_OF: &'static str = "1";
    const RETURNED: &'static str = "a part of what is lent";

    fn name(&self) -> &'static str {
        Block::NAME
    }

    fn kind(&self) -> Box<dyn Kind> {
        Box::new(self.clone())
    }

    fn size(&self) -> usize {
        let nonzero = [&self.input, &self.output].map(|context| context.iter().filter(|byte| **byte != 0).count());
        let side = usize::from(self.from == Side::Output);
        2 * (self.input.len() + self.output.len()) + nonzero[0] + nonzero[1] + usize::from(self.dci) + side
    }

    fn smaller(&self) -> Vec<Block> {
        let Block { input, output, from, dci } = self.clone();
        let zeros = Block { input: vec![0; input.len()], output: vec![0; output.len()], from, dci };
        let mut found = vec![zeros.clone(), Block { from: Side::Input, ..zeros.clone() }];
        found.extend([0, 1056, 2112].map(|len| Block { input: vec![0; len], ..zeros.clone() }));
        found.extend([0, 1024, 2048].map(|len| Block { output: vec![0; len], ..zeros.clone() }));
        found.extend([0, 1, dci / 2, dci.saturating_sub(1)].map(|dci| Block { dci, ..zeros.clone() }));
        found
    }

    fn judge(&self, pair: &Pair) -> Judged<LengthGround> {
        let (part, expected) = (self.ask(&*pair.subject), self.ask(&*pair.reference));
        let grounds = grounds(self);
        let returned = part.number == 0 && is_lent(self, &part);
        let is_empty = (part.offset, part.bytes.len()) == (0, 0);
        let fault = if part != expected {
            Some("the layers")
        } else if part.number != refusal(self, &grounds) {
            Some("the refusal")
        } else if if part.number == 0 { !returned } else { !is_empty } {
            Some("the part")
        } else {
            None
        };
        Judged { number: part.number, grounds, returned, fault }
    }
}

fn grounds(block: &Block) -> BTreeSet<LengthGround> {
    let spacing = |len: usize, blocks: usize| [32, 64].into_iter().find(|spacing| len == blocks * spacing);
    match (spacing(block.input.len(), 33), spacing(block.output.len(), 32)) {
        (Some(input), Some(output)) if input == output => BTreeSet::new(),
        (Some(_), Some(_)) => BTreeSet::from([LengthGround::TwoSpacings]),
        (input, output) => {
            let wrong = [(input, LengthGround::Input), (output, LengthGround::Output)];
            wrong.into_iter().filter(|(spacing, _)| spacing.is_none()).map(|(_, ground)| ground).collect()
        }
    }
}

/// What must be answered, read from 02 once more.
fn refusal(block: &Block, grounds: &BTreeSet<LengthGround>) -> u8 {
    if !grounds.is_empty() {
        1
    } else if block.dci == 0 || block.dci > 31 {
        4
    } else {
        0
    }
}

/// Whether a part is the lent memory of that Dci: the blocks of a context end with Dci 31, at its end.
fn is_lent(block: &Block, part: &Part) -> bool {
    let shown = block.shown();
    let spacing = block.output.len() / 32;
    let from = shown.len() - (32 - usize::from(block.dci)) * spacing;
    part.offset == from && std::ptr::eq(part.bytes, &shown[from..from + spacing])
}
