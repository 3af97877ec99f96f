//! Random lists of calls on one slot: any words in its row before, any first bring-up, and then calls of which many fail
//! or are cut.

use scenario::{BringUp, Call, Layer};

use super::{Link, Watch};
use crate::random::{again, bring_up, call};
use crate::rng::Rng;

/// The first link, and the table before it.
pub fn begin(rng: &mut Rng) -> (Vec<u64>, Link) {
    let mut args = bring_up(rng);
    // Most of what random bring-ups are refused for is left to other parts.
    args.has_parent &= rng.percent(20);
    let mut table = vec![0; 32 * (args.n as usize + 1)];
    if rng.percent(30) {
        let row = 32 * usize::from(args.slot);
        for dci in (0..32).filter(|dci| *dci != 1 || row % 7 == 0) {
            if let Some(word) = table.get_mut(row + dci)
                && rng.percent(30)
            {
                *word = rng.of(&[0x10, 0x2000, u64::MAX]);
            }
        }
    }
    let done = rng.percent(75);
    let ctx = rng.of(&[1056, 2112]);
    let link = Link { outcomes: if done { vec![0; 64] } else { outcomes(rng) }, ..link(rng, Call::BringUp(args), ctx) };
    (table, link)
}

fn link(rng: &mut Rng, call: Call, ctx: usize) -> Link {
    let ctx = if rng.percent(50) { vec![0; ctx] } else { rng.bytes(ctx) };
    let others = if rng.percent(10) { vec![(rng.index(32 * 8), 16 * rng.below(8))] } else { Vec::new() };
    Link { call, ctx, outcomes: outcomes(rng), others, keeps: rng.percent(50) }
}

/// All done, any, or a failure with a cut a little behind it.
fn outcomes(rng: &mut Rng) -> Vec<u8> {
    let some = rng.index(10);
    let mut outcomes = vec![0; rng.of(&[64, some])];
    let failing = rng.of(&[0, 0, 10, 30]);
    outcomes.iter_mut().for_each(|outcome| *outcome = if rng.percent(failing) { rng.byte() } else { 0 });
    if rng.percent(35) {
        outcomes = vec![0; rng.index(6)];
        outcomes.push(1 + rng.byte() / 2);
        outcomes.resize(outcomes.len() + rng.index(4), 0);
    }
    outcomes
}

/// The next link of a list that stands there.
pub fn next(rng: &mut Rng, layer: &mut dyn Layer, watch: &Watch, first: &Link) -> Link {
    let record = &watch.record;
    let (unplugs, brings_up) = match (record.usable, record.up) {
        (true, _) => (6, 4),
        (false, true) => (65, 10),
        (false, false) => (10, 70),
    };
    let next = if rng.percent(unplugs) {
        Call::Disconnect
    } else if let (true, Call::BringUp(BringUp { slot, n, .. })) = (rng.percent(brings_up), &first.call) {
        again(rng, *slot, *n)
    } else {
        call(rng, record)
    };
    let link = link(rng, next, first.ctx.len());
    // An ask is no call of a list: it is committed.
    match &link.call {
        Call::Ask(args) => {
            let asked = layer.ask(record, args, &watch.lent(&link)).ok().and_then(|shown| shown.1);
            Link { call: Call::Commit(asked), ..link }
        }
        _ => link,
    }
}
