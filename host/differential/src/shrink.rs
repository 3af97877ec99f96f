//! Smaller cases that still differ.

use scenario::Call;

use crate::case::Case;
use crate::compare::Pair;

/// By this measure cases are compared.
pub fn size(case: &Case) -> usize {
    let nonzero = |bytes: &[u8]| bytes.iter().filter(|b| **b != 0).count();
    let of_call = match &case.call {
        Call::BringUp(args) => 8 * (args.list.len() + args.hubs.len()) + args.rings.len() + args.n as usize,
        _ => 0,
    };
    let routes = case.buffers.routes.iter().filter(|w| **w != 0).count();
    nonzero(&case.buffers.ctx)
        + case.buffers.outcomes.len()
        + nonzero(&case.buffers.outcomes)
        + 2 * routes
        + 8 * (case.record.list.len() + case.record.endpoints.len())
        + case.record.given.len()
        + case.buffers.ctx.len() / 1000
        + of_call
}

/// Cases with one thing left out.
fn smaller(case: &Case) -> Vec<Case> {
    let mut found = Vec::new();
    let mut with = |change: &dyn Fn(&mut Case)| {
        let mut next = case.clone();
        change(&mut next);
        found.push(next);
    };
    with(&|c| c.buffers.ctx.fill(0));
    let half = case.buffers.ctx.len() / 2;
    with(&|c| c.buffers.ctx[..half].fill(0));
    with(&|c| c.buffers.ctx[half..].fill(0));
    if case.buffers.ctx.iter().filter(|b| **b != 0).count() <= 64 {
        for at in (0..case.buffers.ctx.len()).filter(|at| case.buffers.ctx[*at] != 0) {
            with(&|c| c.buffers.ctx[at] = 0);
        }
    }
    for at in 0..case.buffers.outcomes.len() {
        with(&|c| c.buffers.outcomes.truncate(at));
        with(&|c| {
            c.buffers.outcomes.remove(at);
        });
    }
    for at in (0..case.buffers.routes.len()).filter(|at| case.buffers.routes[*at] != 0) {
        with(&|c| c.buffers.routes[at] = 0);
    }
    for at in 0..case.record.list.len() {
        with(&|c| _ = c.record.list.remove(at));
        with(&|c| drop_two(&mut c.record.list, at));
    }
    for (interface, _) in &case.record.held {
        with(&|c| {
            c.record.held.retain(|h| h.0 != *interface);
            c.record.endpoints.retain(|e| e.owner != *interface);
        });
    }
    for address in case.record.endpoints.iter().map(|e| e.address) {
        with(&|c| without_endpoint(c, address));
    }
    for at in 0..case.record.given.len() {
        with(&|c| _ = c.record.given.remove(at));
    }
    of_call(case, &mut with);
    found
}

/// Takes an address out of the record and out of its list.
fn without_endpoint(case: &mut Case, address: u8) {
    let word_of = |w: &u32| *w >> 30 == 2 && ((*w >> 29 & 1) << 7 | *w >> 25 & 15) as u8 == address;
    case.record.endpoints.retain(|e| e.address != address);
    while let Some(at) = case.record.list.iter().position(word_of) {
        let companion = case.record.list.get(at + 1).is_some_and(|next| next >> 30 == 3);
        case.record.list.drain(at..=at + usize::from(companion));
    }
}

/// Takes a word and the one behind it out of a list: an endpoint's with its companion, say.
fn drop_two(list: &mut Vec<u32>, at: usize) {
    list.drain(at..(at + 2).min(list.len()));
}

/// Adds a case, changed in one way.
type With<'a> = &'a mut dyn FnMut(&dyn Fn(&mut Case));

fn of_call(case: &Case, with: With) {
    let Call::BringUp(args) = &case.call else {
        return;
    };
    for at in 0..args.list.len() {
        with(&|c| edit_bring_up(c, |a| _ = a.list.remove(at)));
        with(&|c| edit_bring_up(c, |a| drop_two(&mut a.list, at)));
    }
    for at in 0..args.rings.len() {
        with(&|c| edit_bring_up(c, |a| _ = a.rings.remove(at)));
    }
    for at in 0..args.hubs.len() {
        with(&|c| edit_bring_up(c, |a| a.hubs.truncate(at)));
    }
}

fn edit_bring_up(case: &mut Case, edit: impl Fn(&mut scenario::BringUp)) {
    if let Call::BringUp(args) = &mut case.call {
        edit(args);
    }
}

/// The smallest case that can be reached from one by leaving things out, as long as it is wanted.
pub fn least(case: &Case, mut wanted: impl FnMut(&Case) -> bool) -> Case {
    let mut best = case.clone();
    while let Some(next) = smaller(&best).into_iter().find(|c| size(c) < size(&best) && wanted(c)) {
        best = next;
    }
    best
}

/// A case that differs and of which nothing can be left out. The records stay as genuine as they were said to be,
/// so a record that becomes unsound on the way is not taken for a difference.
pub fn smallest(pair: &mut Pair, case: &Case) -> Case {
    let refused = |pair: &mut Pair, c: &Case| pair.answer(c) == Some(12);
    let was = refused(pair, case);
    least(case, |c| refused(pair, c) == was && pair.differs(c))
}
