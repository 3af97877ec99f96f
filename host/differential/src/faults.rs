//! Inputs with faults: sets of them for the order of the checks, and records that are not sound.

use scenario::{Asked, Buffers, Call, Claim, Endpoint, HubUpdate, Record};

use crate::build::*;
use crate::case::Case;
use crate::compare::Pair;
use crate::exhaustive::{ALL_DONE, claim, idle, sharing_list};
use crate::tally::Tally;

/// Every subset of so many faults.
fn subsets(faults: usize) -> impl Iterator<Item = Vec<usize>> {
    (0..1u32 << faults).map(move |set| (0..faults).filter(|fault| set >> fault & 1 == 1).collect())
}

/// Every set of faults that a call can have, so that the order of the checks shows.
pub fn refusals(pair: &mut Pair, tally: &mut Tally) {
    for faults in subsets(10) {
        let args = plain(3, &[configuration(1)]);
        let given = buffers(vec![0x5A; 1056], vec![0; 96], ALL_DONE.to_vec());
        let mut case = Case::new(Call::BringUp(args), &Record::default(), given);
        for fault in faults {
            spoil_bring_up(&mut case, fault);
        }
        pair.compare(tally, &case);
    }
    for call in calls() {
        for faults in subsets(6) {
            let mut case = Case::new(call.clone(), &sound_record(), sound_buffers());
            for fault in faults {
                match fault {
                    0 => case.record.usable = false,
                    4 => case.record.up = false,
                    5 => case.record.given.truncate(5),
                    _ => spoil_lengths(&mut case.buffers, fault),
                }
            }
            pair.compare(tally, &case);
        }
    }
}

/// Calls with a fault of their own, and some without.
fn calls() -> [Call; 17] {
    let asked = |interface, alternate, drops, adds, rings: &[u64]| {
        Call::Commit(Some(Asked { interface, alternate, drops, adds, rings: rings.to_vec() }))
    };
    [
        claim(0, 0),
        claim(0, 1),
        claim(1, 0),
        claim(1, 1),
        claim(7, 7),
        Call::Ask(Claim { interface: 1, alternate: 0 }),
        Call::Ask(Claim { interface: 1, alternate: 1 }),
        Call::Commit(None),
        asked(1, 0, 0xC0, 0xC0, &[0x6000, 0x7000]),
        asked(1, 0, 0xC0, 0xC0, &[0x7000, 0x6000]),
        asked(1, 1, 0xC0, 8, &[0x6000]),
        Call::Release { interface: 0 },
        Call::Release { interface: 7 },
        Call::SetConfiguration { value: 1 },
        Call::HubUpdate(HubUpdate { ports: 1, multi: false, think: 0 }),
        Call::HubUpdate(HubUpdate { ports: 1, multi: false, think: 1 }),
        Call::Disconnect,
    ]
}

/// A record that holds both interfaces of the list.
fn sound_record() -> Record {
    let holds = |address, ring, owner| Endpoint { address, ring, owner, active: true };
    Record {
        held: vec![(0, 0), (1, 0)],
        endpoints: vec![holds(0x01, 0x3000, 0), holds(0x03, 0x5000, 1), holds(0x81, 0x2000, 0), holds(0x83, 0x4000, 1)],
        ..idle(3, 32, &sharing_list())
    }
}

fn sound_buffers() -> Buffers {
    let mut routes = vec![0; 96];
    for (dci, ring) in [(1, 0x1000), (2, 0x3000), (3, 0x2000), (6, 0x5000), (7, 0x4000)] {
        routes[32 + dci] = ring;
    }
    buffers(vec![0x5A; 1056], routes, ALL_DONE.to_vec())
}

fn spoil_lengths(buffers: &mut Buffers, fault: usize) {
    match fault {
        1 => buffers.ctx.truncate(1055),
        2 => drop(buffers.routes.pop()),
        _ => buffers.log.truncate(63),
    }
}

fn spoil_bring_up(case: &mut Case, fault: usize) {
    case.buffers.routes.iter_mut().skip(33).take(usize::from(fault == 0)).for_each(|word| *word = 0x10);
    let Call::BringUp(args) = &mut case.call else {
        return;
    };
    match fault {
        0 => {}
        1..=3 => spoil_lengths(&mut case.buffers, fault),
        4 => args.speed = 6,
        5 => args.list.push(endpoint(1, BULK, 8, 0, 0)),
        6 => args.has_parent = true,
        7 => args.rings = vec![8],
        8 => args.slot = 3,
        // An endpoint without a companion.
        _ => {
            args.speed = if args.speed == 3 { 5 } else { args.speed };
            args.list.extend([alternate(0, 0), endpoint(1, BULK, 8, 0, 0)]);
        }
    }
}

/// Records with one thing wrong, or merely unusual. (The original does not judge them; another layer does.)
pub fn records(pair: &mut Pair, tally: &mut Tally) {
    let calls = [
        claim(0, 1),
        claim(1, 0),
        Call::Release { interface: 1 },
        Call::SetConfiguration { value: 1 },
        Call::Disconnect,
    ];
    let broken = Record { usable: false, quarantined: vec![0x1000, 0x6000], ..sound_record() };
    let companied = Record { speed: 4, list: at_speed(4, &sharing_list()), ..sound_record() };
    for record in [sound_record(), broken, companied].iter().flat_map(altered) {
        let mut given = sound_buffers();
        given.ctx.resize(33 * record.spacing, 0);
        given.routes.resize(32 * (usize::from(record.n) + 1), 0);
        for call in &calls {
            let case = Case { genuine: false, ..Case::new(call.clone(), &record, given.clone()) };
            pair.compare(tally, &case);
        }
    }
}

/// Each word of the slot's row, with rings that are drawn, live or strange in it. A word that already holds a
/// ring drawn has no counterpart in the original, which makes its rings itself.
pub fn routes(pair: &mut Pair, tally: &mut Tally) {
    let rings: &[u64] = if pair.listed { &[0, 0x9000] } else { &[0, 1, 0x1000, 0x2000, 0x6000, 0x7000, 0x9000] };
    for call in calls() {
        for place in 0..32 * rings.len() {
            let (dci, ring) = (place / rings.len(), rings[place % rings.len()]);
            for outcomes in [vec![0; 64], vec![0, 0, 0, 9], vec![0, 0, 0, 0, 9, 9]] {
                let mut given = Buffers { outcomes, ..sound_buffers() };
                given.routes[32 + dci] = ring;
                pair.compare(tally, &Case::new(call.clone(), &sound_record(), given.clone()));
                // Where the original looks for control's ring in an unplugging.
                given.routes[32] = 0x1000;
                pair.compare(tally, &Case::new(call.clone(), &sound_record(), given));
            }
        }
    }
}

/// Adds a record, changed in one way.
type With<'a> = &'a mut dyn FnMut(&dyn Fn(&mut Record));

fn altered(sound: &Record) -> Vec<Record> {
    let mut records = vec![sound.clone()];
    let mut with = |change: &dyn Fn(&mut Record)| {
        let mut record = sound.clone();
        change(&mut record);
        records.push(record);
    };
    altered_numbers(&mut with);
    altered_rings(sound, &mut with);
    altered_maps(sound, &mut with);
    altered_list(sound, &mut with);
    records
}

fn altered_numbers(with: With) {
    for byte in 0..=255 {
        with(&|r| r.slot = byte);
        with(&|r| r.n = byte);
        with(&|r| r.speed = byte);
        with(&|r| r.config = Some(byte));
    }
    for spacing in 0..=128 {
        with(&|r| r.spacing = spacing);
    }
    with(&|r| r.control_revoked = true);
    with(&|r| r.up = false);
    with(&|r| r.config = None);
}

fn altered_rings(sound: &Record, with: With) {
    let live: Vec<u64> = sound.endpoints.iter().map(|e| e.ring).chain([sound.control]).collect();
    for rings in 0..=61 {
        let others = (0..rings).map(|i| 0x10_0000 + 16 * i);
        with(&|r| r.quarantined = others.clone().collect());
        with(&|r| r.quarantined = live.iter().copied().chain(others.clone()).take(61).collect());
        let given = |r: &Record| r.given.iter().rev().take(rings as usize).copied().collect();
        with(&|r| r.quarantined = given(r));
    }
    for count in 0..=64 {
        with(&|r| r.given.truncate(count));
        with(&|r| _ = r.given.drain(..count));
    }
    with(&|r| r.given.reverse());
    for ring in [0, 1, 8, 15, 16, 0x2000, 0x3000, 0x9000, u64::MAX, u64::MAX - 15] {
        with(&|r| r.control = ring);
        with(&|r| r.quarantined.push(ring));
        with(&|r| r.given[63] = ring);
        with(&|r| r.given[0] = ring);
        for at in 0..sound.endpoints.len() {
            with(&|r| r.endpoints[at].ring = ring);
        }
    }
}

fn altered_maps(sound: &Record, with: With) {
    for at in 0..sound.endpoints.len() {
        for byte in 0..=255 {
            with(&|r| r.endpoints[at].address = byte);
            with(&|r| r.endpoints[at].owner = byte);
        }
        with(&|r| _ = r.endpoints.remove(at));
        with(&|r| r.endpoints.push(r.endpoints[at]));
        with(&|r| r.endpoints[at].active = false);
        with(&|r| r.endpoints.swap(0, at));
    }
    for at in 0..sound.held.len() {
        for byte in 0..=255 {
            with(&|r| r.held[at].0 = byte);
            with(&|r| r.held[at].1 = byte);
        }
        with(&|r| _ = r.held.remove(at));
        with(&|r| r.held.push(r.held[at]));
    }
    with(&|r| r.held.reverse());
    with(&|r| r.endpoints.reverse());
}

fn altered_list(sound: &Record, with: With) {
    for at in 0..sound.list.len() {
        for bit in 0..32 {
            with(&|r| r.list[at] ^= 1 << bit);
        }
        with(&|r| _ = r.list.remove(at));
        with(&|r| r.list.insert(at, r.list[at]));
    }
    with(&|r| r.list.resize(256, alternate(0, 0)));
    with(&|r| r.list.clear());
}
