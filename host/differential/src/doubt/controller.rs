//! A second controller: which rings it may hold for a slot, read from the logged commands, their outcomes, and the
//! contexts that they read.

use std::collections::BTreeSet;

/// By Dci; 0 is none.
pub type Held = [u64; 32];

const ADDRESS: u32 = 1;
const CONFIGURE: u32 = 3;
const DISABLE: u32 = 12;

pub fn reads_context(word: u32) -> bool {
    matches!(word >> 28, ADDRESS | CONFIGURE)
}

#[derive(Clone, Debug)]
pub struct Controller {
    /// Every state that it may be in.
    pub may: BTreeSet<Held>,
    /// Whether a command that failed may have acted, too.
    failed_acts: bool,
}

impl Controller {
    pub fn new(failed_acts: bool) -> Controller {
        Controller { may: BTreeSet::from([[0; 32]]), failed_acts }
    }

    /// A done command acts, one that failed does not, one without an outcome may have acted or not.
    pub fn command(&mut self, word: u32, outcome: Option<u8>, ctx: &[u8]) {
        let acted: Vec<Held> = self.may.iter().map(|held| acted(held, word, ctx)).collect();
        match outcome {
            Some(0) => self.may = acted.into_iter().collect(),
            Some(_) if !self.failed_acts => {}
            _ => self.may.extend(acted),
        }
    }

    /// The rings of all its states.
    pub fn rings(&self) -> BTreeSet<u64> {
        self.may.iter().flatten().copied().filter(|ring| *ring != 0).collect()
    }
}

fn acted(held: &Held, word: u32, ctx: &[u8]) -> Held {
    let mut held = *held;
    match word >> 28 {
        ADDRESS => held[1] = ring_at(ctx, 1),
        CONFIGURE => {
            let [drops, adds] = [0, 4].map(|at| ctx[at..at + 4].try_into().map_or(0, u32::from_le_bytes));
            for (dci, ring) in held.iter_mut().enumerate().skip(2) {
                if adds >> dci & 1 == 1 {
                    *ring = ring_at(ctx, dci);
                } else if drops >> dci & 1 == 1 {
                    *ring = 0;
                }
            }
        }
        DISABLE => held = [0; 32],
        _ => {}
    }
    held
}

/// The ring of a Dci's block (xHCI 1.2, section 6.2.3: doublewords 2 and 3, the low four bits apart).
fn ring_at(ctx: &[u8], dci: usize) -> u64 {
    let at = (dci + 1) * (ctx.len() / 33) + 8;
    ctx[at..at + 8].try_into().map_or(0, u64::from_le_bytes) & !15
}
