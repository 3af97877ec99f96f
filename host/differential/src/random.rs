//! Random scenarios: a bring-up and calls after it, each given what the last one left.

use scenario::{Asked, BringUp, Buffers, Call, Claim, GIVEN_ROOM, HubUpdate, Record, filled_words};

use crate::build::*;
use crate::case::Case;
use crate::compare::Pair;
use crate::rng::Rng;
use crate::tally::Tally;

pub fn run(pair: &mut Pair, tally: &mut Tally, seed: u64, calls: u64) {
    let mut rng = Rng::new(seed);
    let end = tally.calls() + calls;
    while tally.calls() < end {
        scenario(pair, tally, &mut rng);
    }
}

/// What the next call is given.
struct State {
    slot: u8,
    n: u32,
    record: Record,
    routes: Vec<u64>,
    ctx: Vec<u8>,
    /// What the last accepted ask returned.
    asked: Option<Asked>,
}

fn scenario(pair: &mut Pair, tally: &mut Tally, rng: &mut Rng) {
    let Some(mut state) = begin(pair, tally, rng) else {
        return;
    };
    for _ in 0..rng.below(14) {
        let ends = if state.record.up { 20 } else { 80 };
        if !state.record.usable && rng.percent(ends) || !step(pair, tally, rng, &mut state) {
            return;
        }
    }
}

fn begin(pair: &mut Pair, tally: &mut Tally, rng: &mut Rng) -> Option<State> {
    let args = bring_up(rng);
    let (slot, n) = (args.slot, args.n);
    let mut routes = vec![0; 32 * (n as usize + 1)];
    if rng.percent(20) {
        spoil(rng, &mut routes);
    }
    let ctx_len = rng.of(&[1056, 2112]);
    let ctx = rng.bytes(ctx_len);
    let memory = given(rng, &ctx, &routes, 90);
    let done = pair.compare(tally, &Case::new(Call::BringUp(args), &Record::default(), memory))?;
    if done.buffers.routes.len() == routes.len() {
        routes = done.buffers.routes;
    }
    Some(State { slot, n, record: done.returned, routes, ctx, asked: None })
}

fn step(pair: &mut Pair, tally: &mut Tally, rng: &mut Rng, state: &mut State) -> bool {
    if rng.percent(8) {
        spoil(rng, &mut state.routes);
    }
    context(rng, &mut state.ctx);
    let call = next(rng, state);
    let memory = given(rng, &state.ctx, &state.routes, 55);
    let mut case = Case::new(call, &state.record, memory);
    disturb(rng, &mut case);
    let Some(done) = pair.compare(tally, &case) else {
        return false;
    };
    if done.asked.is_some() {
        state.asked = done.asked;
    }
    if case.genuine && done.buffers.routes.len() == state.routes.len() {
        state.record = done.returned;
        state.routes = done.buffers.routes;
        if done.buffers.ctx.len() == state.ctx.len() {
            state.ctx = done.buffers.ctx;
        }
    }
    true
}

/// What a call left, zeros, or anything.
fn context(rng: &mut Rng, ctx: &mut Vec<u8>) {
    match rng.below(4) {
        0 => ctx.fill(0),
        1 => {}
        _ => *ctx = rng.bytes(ctx.len()),
    }
}

/// All done, or some failures, or too few.
fn outcomes(rng: &mut Rng, all_done: u64) -> Vec<u8> {
    if rng.percent(all_done) {
        return vec![0; 64];
    }
    let len = if rng.percent(50) { 64 } else { rng.index(20) };
    let failing = rng.of(&[3, 10, 30]);
    (0..len).map(|_| if rng.percent(failing) { rng.byte() } else { 0 }).collect()
}

fn spoil(rng: &mut Rng, routes: &mut [u64]) {
    let row = rng.index(routes.len() / 32);
    let dci = rng.index(32);
    // Now and then the ring of another endpoint, control's at Dci 0 say.
    let other = routes[32 * row + rng.index(4)];
    routes[32 * row + dci] = rng.of(&[0, 0x10, 0x2000, 0x7000, u64::MAX, other]);
}

/// Buffers, now and then of a wrong length.
fn given(rng: &mut Rng, ctx: &[u8], routes: &[u64], all_done: u64) -> Buffers {
    let mut buffers = buffers(ctx.to_vec(), routes.to_vec(), outcomes(rng, all_done));
    if rng.percent(3) {
        match rng.below(6) {
            0 => buffers.ctx.truncate(rng.index(2112)),
            1 => buffers.ctx.push(0),
            2 => drop(buffers.routes.pop()),
            3 => buffers.routes.push(7),
            4 => buffers.log = filled_words(rng.index(64)),
            _ => buffers.log = filled_words(64 + rng.index(100)),
        }
    }
    buffers
}

pub fn bring_up(rng: &mut Rng) -> BringUp {
    let n = if rng.percent(97) { 1 + rng.below(6) as u32 } else { rng.of(&[0, 0, 40, 255, 256, 300]) };
    let slot = if rng.percent(97) && n > 0 { 1 + rng.below(u64::from(n.min(255))) as u8 } else { rng.byte() & 15 };
    let speed = if rng.percent(98) { 1 + rng.below(5) as u8 } else { rng.byte() & 15 };
    let mut args = BringUp {
        slot,
        n,
        speed,
        port: port(rng),
        root_port: rng.byte(),
        rings: rings(rng),
        header: if rng.percent(98) { 8 } else { rng.below(20) as u32 },
        packet: rng.byte(),
        config: rng.byte(),
        list: if rng.percent(96) { list(rng, speed) } else { broken_list(rng, speed) },
        ..BringUp::default()
    };
    // Most SuperSpeed devices say 9.
    if args.speed > 3 && rng.percent(90) {
        args.packet = 9;
    }
    hubs(rng, &mut args);
    if rng.percent(2) {
        wrong_rings(rng, &mut args.rings);
    }
    args
}

fn port(rng: &mut Rng) -> u8 {
    if rng.percent(70) { rng.byte() & 15 } else { rng.byte() }
}

/// Rings below and above 4 GiB.
fn ring(rng: &mut Rng) -> u64 {
    let ring = rng.next() & !15;
    (if rng.percent(60) { ring & 0xFFFF_FFFF } else { ring }).max(16)
}

fn word(rng: &mut Rng, numbers: u64) -> u32 {
    let number = 1 + rng.below(numbers) as u8;
    let input = rng.of(&[0, 0x80]);
    let kind = rng.of(&[ISOCHRONOUS, BULK, INTERRUPT]);
    endpoint(input | number, kind, rng.below(2048) as u32, rng.below(4) as u32, rng.byte())
}

/// A list that is valid at a speed; small numbers, so that addresses meet.
pub fn list(rng: &mut Rng, speed: u8) -> Vec<u32> {
    let mut list = Vec::new();
    for _ in 0..rng.of(&[0, 1, 1, 1, 2, 2, 3, 8]) {
        list.push(configuration(rng.byte()));
        for _ in 0..rng.below(6) {
            list.push(alternate(interface(rng), rng.of(&[0, 0, 1, 1, 2, 77])));
            let numbers = rng.of(&[2, 5, 15]);
            let most = if rng.percent(3) { 31 } else { 5 };
            for _ in 0..rng.below(most) {
                list.push(word(rng, numbers));
            }
        }
    }
    companied(rng, speed, list)
}

/// A companion for an endpoint word.
fn companion_of(rng: &mut Rng, word: u32) -> u32 {
    let mult = rng.below(u64::from(most_mult(word)) + 1) as u32;
    let any = rng.next() as u32;
    let bytes = rng.of(&[0, 1, 0xFFFF, any & 0xFFFF, any & 0xFF]);
    companion(rng.below(16) as u32, mult, bytes)
}

/// A list at a speed: at 4 and 5 a companion behind each endpoint word, and no more than 256 words in all.
pub fn companied(rng: &mut Rng, speed: u8, list: Vec<u32>) -> Vec<u32> {
    let mut words = Vec::new();
    for word in list {
        words.push(word);
        if is_super(speed) && word >> 30 == 2 {
            words.push(companion_of(rng, word));
        }
    }
    words.truncate(256);
    if is_super(speed) && words.last().is_some_and(|last| last >> 30 == 2) {
        words.pop();
    }
    words
}

/// At speeds 4 and 5: a companion missing, misplaced or out of range, or with an unused bit.
fn misfit(rng: &mut Rng, list: &mut Vec<u32>) {
    let places: Vec<usize> = (0..list.len()).filter(|at| list[*at] >> 30 == 3).collect();
    let at = if places.is_empty() { list.len() } else { rng.of(&places) };
    let stray = companion(rng.below(16) as u32, rng.below(4) as u32, rng.next() as u32 & 0xFFFF);
    match rng.below(7) {
        0 if at < list.len() => drop(list.remove(at)),
        1 if at < list.len() => list[at] |= (1 + rng.below(3) as u32) << 24,
        2 if at < list.len() => list[at] |= 3 << 24,
        3 if at < list.len() => list[at] |= 1 << rng.below(8),
        4 if at < list.len() => {
            let to = rng.index(list.len());
            list.swap(at, to);
        }
        _ => {
            let to = rng.index(list.len() + 1);
            list.insert(to, stray);
        }
    }
}

fn interface(rng: &mut Rng) -> u8 {
    rng.of(&[0, 0, 0, 1, 1, 2, 3, 255])
}

/// Lists that break one rule; at speeds 4 and 5 now and then one of companions, alone or too.
pub fn broken_list(rng: &mut Rng, speed: u8) -> Vec<u32> {
    let mut list = if is_super(speed) && rng.percent(50) { list(rng, speed) } else { rule_broken(rng, speed) };
    if is_super(speed) && rng.percent(70) {
        misfit(rng, &mut list);
    }
    list
}

fn rule_broken(rng: &mut Rng, speed: u8) -> Vec<u32> {
    let mut list = list(rng, speed);
    match rng.below(9) {
        0 => list.insert(0, alternate(0, 0)),
        1 => list.push(3 << 30 | rng.next() as u32 >> 2 | u32::from(is_super(speed))),
        2 => list.extend([configuration(1), endpoint(0x81, BULK, 8, 0, 0)]),
        3 => list.extend([configuration(1), alternate(0, 0), endpoint(0x80, BULK, 8, 0, 0)]),
        4 => list = vec![configuration(1); 9],
        5 => {
            list = (0..=255)
                .map(|i| if i == 0 { configuration(1) } else { alternate(0, i) })
                .chain([alternate(0, 0); 2])
                .collect()
        }
        6 => list = [configuration(1)].into_iter().chain((0..33).map(|i| alternate(i, 0))).collect(),
        7 => {
            let run = [configuration(1), alternate(0, 0)].into_iter().chain([endpoint(1, BULK, 8, 0, 0); 31]);
            list = companied(rng, speed, run.collect());
        }
        _ => {
            let at = rng.index(list.len() + 1);
            list.insert(at, rng.next() as u32);
        }
    }
    list
}

/// A list of hubs with a chain in it, whole or with one fault.
fn hubs(rng: &mut Rng, args: &mut BringUp) {
    let len = 1 + rng.index(8);
    let mut places: Vec<u8> = (0..len as u8).collect();
    for i in 0..len {
        places.swap(i, rng.index(len));
    }
    let top = rng.index(len.min(6));
    let mut hubs: Vec<Hub> = (0..len).map(|_| stray(rng)).collect();
    for depth in 0..=top {
        let parent = depth.checked_sub(1).map(|d| places[d]).or_else(|| rng.percent(30).then(|| rng.byte()));
        let speed = rng.of(&[1, 2, 3, 3, 4, 5]);
        hubs[usize::from(places[depth])] = Hub {
            present: true,
            parent,
            slot: rng.byte(),
            depth: depth as u8,
            speed,
            port: port(rng),
            multi: rng.percent(50),
        };
    }
    args.has_parent = rng.percent(60);
    args.parent = places[top].into();
    if rng.percent(6) {
        let at = places[rng.index(top + 1)];
        fault(rng, &mut hubs, at.into());
    }
    args.hubs = hubs.iter().map(Hub::word).collect();
    match rng.below(200) {
        0 => args.parent = rng.below(300) as u32,
        1 => args.hubs.resize(257, 0),
        2 => args.hubs[usize::from(places[0])] |= 1 << rng.below(31),
        3 => args.parent = u32::MAX,
        _ => {}
    }
}

fn stray(rng: &mut Rng) -> Hub {
    Hub {
        present: rng.percent(50),
        parent: rng.percent(50).then(|| rng.byte() & 7),
        slot: rng.byte(),
        depth: rng.byte() & 7,
        speed: rng.byte() & 7,
        port: rng.byte(),
        multi: rng.percent(50),
    }
}

fn fault(rng: &mut Rng, hubs: &mut [Hub], at: usize) {
    match rng.below(5) {
        0 => hubs[at].present = false,
        1 => hubs[at].parent = None,
        2 => hubs[at].depth = rng.byte() & 7,
        3 => hubs[at].speed = rng.byte() & 7,
        _ => hubs[at].parent = Some(at as u8),
    }
}

/// An unplugging, mostly of what is broken; another bring-up of the slot, mostly of what was unplugged; or another
/// call.
fn next(rng: &mut Rng, state: &State) -> Call {
    let (unplugs, brings_up) = match (state.record.usable, state.record.up) {
        (true, _) => (5, 3),
        (false, true) => (70, 10),
        (false, false) => (10, 70),
    };
    if rng.percent(unplugs) {
        Call::Disconnect
    } else if rng.percent(brings_up) {
        again(rng, state.slot, state.n)
    } else if rng.percent(8) {
        Call::Commit(Some(asked(rng, state)))
    } else {
        call(rng, &state.record)
    }
}

/// What the last ask returned, now and then with one thing changed.
fn asked(rng: &mut Rng, state: &State) -> Asked {
    let mut asked = state.asked.clone().unwrap_or_default();
    if rng.percent(20) {
        match rng.below(7) {
            0 => asked.interface = interface(rng),
            1 => asked.alternate ^= 1,
            2 => asked.drops ^= 1 << rng.below(32),
            3 => asked.adds ^= 1 << rng.below(32),
            4 => drop(asked.rings.pop()),
            5 => asked.rings.resize(rng.index(40), ring(rng)),
            _ => asked.rings.reverse(),
        }
    }
    asked
}

/// Another bring-up of the slot.
pub fn again(rng: &mut Rng, slot: u8, n: u32) -> Call {
    Call::BringUp(BringUp { slot, n, ..bring_up(rng) })
}

pub fn call(rng: &mut Rng, record: &Record) -> Call {
    match rng.below(20) {
        0..=8 => Call::Claim(claim(rng, record)),
        9..=11 => Call::Ask(claim(rng, record)),
        12..=15 => {
            let held = rng.percent(70) && !record.held.is_empty();
            let interface = if held { record.held[rng.index(record.held.len())].0 } else { interface(rng) };
            Call::Release { interface }
        }
        16..=17 => Call::SetConfiguration { value: rng.byte() },
        _ => Call::HubUpdate(hub_update(rng)),
    }
}

fn hub_update(rng: &mut Rng) -> HubUpdate {
    let think = match rng.below(10) {
        0..=7 => rng.of(&[0, 666, 1331, 1332, 1999, 3329]),
        8 => rng.below(4000) as u32,
        _ => rng.next() as u32,
    };
    HubUpdate { ports: rng.byte(), multi: rng.percent(50), think }
}

fn claim(rng: &mut Rng, record: &Record) -> Claim {
    let found = alternates(&record.list);
    let (interface, alternate) = match found.is_empty() || rng.percent(5) {
        true => (interface(rng), rng.byte() & 3),
        false => {
            let one = &found[rng.index(found.len())];
            (one.0, one.1)
        }
    };
    Claim { interface, alternate }
}

/// 1 to 64 rings in any order; now and then too few for most claims.
fn rings(rng: &mut Rng) -> Vec<u64> {
    let count = if rng.percent(20) { 1 + rng.below(6) } else { 1 + rng.below(64) };
    let (base, step) = (ring(rng), 16 << rng.below(9));
    let mut rings: Vec<u64> = (0..count).map(|at| base.wrapping_add(step * at)).filter(|ring| *ring != 0).collect();
    if rng.percent(60) {
        for at in 0..rings.len() {
            let other = rng.index(rings.len());
            rings.swap(at, other);
        }
    }
    rings
}

/// Rings that break a rule.
fn wrong_rings(rng: &mut Rng, rings: &mut Vec<u64>) {
    let at = rng.index(rings.len());
    match rng.below(6) {
        0 => rings.clear(),
        1 => rings[at] = 0,
        2 => rings[at] |= 1 << rng.below(4),
        3 => rings.push(rings[at]),
        4 => rings.insert(at, rings[0]),
        _ => *rings = (1..66 + rng.below(3)).map(|at| 16 * at).collect(),
    }
}

/// Now and then a record with its arrays in another order, or another record.
fn disturb(rng: &mut Rng, case: &mut Case) {
    let record = &mut case.record;
    if rng.percent(10) {
        record.endpoints.reverse();
        record.held.reverse();
        record.given.reverse();
    }
    if !rng.percent(3) {
        return;
    }
    case.genuine = false;
    match rng.below(16) {
        0 => record.slot = rng.byte() & 15,
        1 => record.n = rng.byte() & 15,
        2 => record.spacing = rng.of(&[0, 32, 33, 64, 128]),
        3 => record.speed = rng.byte() & 7,
        4 => record.control = ring(rng) | rng.below(2),
        5 => drop(record.endpoints.pop()),
        6 => drop(record.held.pop()),
        7 => record.quarantined.push(ring(rng)),
        8 => drop(record.list.pop()),
        9 => record.list.insert(0, rng.next() as u32),
        10 => record.held.push((interface(rng), 0)),
        11 => record.up = !record.up,
        12 => record.quarantined.push(record.control),
        13 => drop(record.given.pop()),
        14 => {
            record.given.truncate(GIVEN_ROOM - 1);
            record.given.push(ring(rng) | rng.below(2));
        }
        _ => {
            if let Some(e) = record.endpoints.first_mut() {
                match rng.below(4) {
                    0 => e.address ^= 0x81,
                    1 => e.ring += 8,
                    2 => e.owner ^= 1,
                    _ => e.active = !e.active,
                }
            }
        }
    }
}
