//! Inputs that can be gone through whole.

use scenario::{Asked, BringUp, Buffers, Call, Claim, HubUpdate, Record};

use crate::build::*;
use crate::case::Case;
use crate::compare::{Done, Pair};
use crate::faults;
use crate::rng::Rng;
use crate::tally::Tally;

type Part = fn(&mut Pair, &mut Tally);

pub const PARTS: [(&str, Part); 12] = [
    ("refusals", faults::refusals),
    ("records", faults::records),
    ("routes", faults::routes),
    ("outcomes", outcomes),
    ("store", store),
    ("asks", asks),
    ("intervals", intervals),
    ("companions", companions),
    ("ports", ports),
    ("packets", packets),
    ("think", think),
    ("slots", slots),
];

pub const ALL_DONE: [u8; 64] = [0; 64];

/// As many endpoints in an alternate as there are addresses.
fn large_list() -> Vec<u32> {
    let addresses = (1..=15).chain(0x81..=0x8F);
    let mut list = vec![configuration(9), alternate(0, 0)];
    list.extend(addresses.map(|a: u8| endpoint(a, 1 + u32::from(a % 3), 512, 2, 5)));
    list.extend([alternate(0, 1), endpoint(0x81, BULK, 64, 0, 0), endpoint(0x0F, INTERRUPT, 8, 1, 3)]);
    list.push(alternate(1, 0));
    list
}

/// Two interfaces; alternate 1 of the second has an address of the first.
pub fn sharing_list() -> Vec<u32> {
    vec![
        configuration(1),
        alternate(0, 0),
        endpoint(0x81, BULK, 512, 0, 0),
        endpoint(0x01, BULK, 512, 0, 0),
        alternate(0, 1),
        alternate(1, 0),
        endpoint(0x83, ISOCHRONOUS, 1023, 2, 1),
        endpoint(0x03, INTERRUPT, 16, 1, 255),
        alternate(1, 1),
        endpoint(0x81, INTERRUPT, 8, 1, 10),
    ]
}

/// Several configurations, an interface in two of them, repeated addresses, no alternate 0.
fn repeating_list() -> Vec<u32> {
    vec![
        configuration(2),
        alternate(0, 0),
        endpoint(0x81, INTERRUPT, 64, 3, 9),
        endpoint(0x81, BULK, 32, 0, 1),
        configuration(7),
        alternate(0, 0),
        endpoint(0x85, BULK, 512, 0, 0),
        alternate(0, 1),
        endpoint(0x05, ISOCHRONOUS, 200, 0, 4),
        endpoint(0x81, INTERRUPT, 64, 1, 1),
        endpoint(0x05, ISOCHRONOUS, 100, 1, 16),
        alternate(2, 1),
        endpoint(0x8E, BULK, 64, 1, 0),
        configuration(7),
    ]
}

fn two_alternates() -> Vec<u32> {
    vec![
        configuration(1),
        alternate(0, 0),
        endpoint(0x81, INTERRUPT, 64, 1, 4),
        alternate(0, 1),
        endpoint(0x82, BULK, 512, 0, 7),
        endpoint(0x02, ISOCHRONOUS, 1000, 3, 1),
    ]
}

/// Two interfaces that list the same address.
fn one_address() -> Vec<u32> {
    let word = endpoint(0x81, BULK, 512, 0, 0);
    vec![configuration(1), alternate(0, 0), word, alternate(1, 0), word]
}

fn lists() -> [Vec<u32>; 7] {
    [vec![], vec![configuration(3)], two_alternates(), one_address(), sharing_list(), repeating_list(), large_list()]
}

fn context(spacing: usize, rng: &mut Rng) -> Vec<u8> {
    rng.bytes(33 * spacing)
}

pub fn claim(interface: u8, alternate: u8) -> Call {
    Call::Claim(Claim { interface, alternate })
}

/// Every pattern of done, failed and cut: a cut call is run again with one outcome more, done or failed. (An unplugging
/// goes on past failed stops; there a third failure is left out.)
fn patterns(pair: &mut Pair, tally: &mut Tally, case: &mut Case) {
    let cut = matches!(pair.compare(tally, case), Some(done) if done.answer.number == 15);
    if cut {
        let failure = case.buffers.outcomes.len() as u8 + 1;
        let failed = case.buffers.outcomes.iter().filter(|outcome| **outcome != 0).count();
        let most = if matches!(case.call, Call::Disconnect) { 2 } else { usize::MAX };
        for outcome in [0, failure].into_iter().take(if failed < most { 2 } else { 1 }) {
            case.buffers.outcomes.push(outcome);
            patterns(pair, tally, case);
            case.buffers.outcomes.pop();
        }
    }
}

fn all_done(pair: &mut Pair, tally: &mut Tally, case: &Case) -> Option<Done> {
    let mut case = case.clone();
    case.buffers.outcomes = ALL_DONE.to_vec();
    pair.compare(tally, &case)
}

/// The calls that are tried on a record with a list.
fn calls(list: &[u32]) -> Vec<Call> {
    let mut calls: Vec<Call> = alternates(list).iter().map(|a| claim(a.0, a.1)).collect();
    calls.push(claim(0, 9));
    calls.extend([0, 1, 2, 200].map(|interface| Call::Release { interface }));
    calls.extend([1, 0, 255].map(|value| Call::SetConfiguration { value }));
    calls.push(Call::HubUpdate(HubUpdate { ports: 4, multi: true, think: 666 }));
    calls.push(Call::HubUpdate(HubUpdate { ports: 255, multi: false, think: 3329 }));
    calls.push(Call::Disconnect);
    calls
}

/// So many rings, rising, falling, or first the odd places and then the even ones from the end.
fn given(count: u64, order: usize) -> Vec<u64> {
    let mut rings: Vec<u64> = (1..=count).map(|at| 0x1000 * at).collect();
    match order {
        0 => {}
        1 => rings.reverse(),
        _ => rings.sort_by_key(|ring| if ring / 0x1000 % 2 == 1 { *ring } else { u64::MAX - ring }),
    }
    rings
}

/// Every number of given rings, in several orders, with claims one after another, over held settings too, until all
/// are released; then the same rings once more, with a wrong one among them.
fn store(pair: &mut Pair, tally: &mut Tally) {
    let mut rng = Rng::new(10);
    for list in lists() {
        for (count, order) in (0..=66).flat_map(|count| (0..3).map(move |order| (count, order))) {
            let args = BringUp { rings: given(count, order), ..plain(3, &list) };
            let fresh = buffers(context(32, &mut rng), vec![0; 32 * 3], Vec::new());
            let case = Case::new(Call::BringUp(args.clone()), &Record::default(), fresh);
            if let Some(up) = all_done(pair, tally, &case).filter(|up| up.answer.number == 0) {
                draws(pair, tally, up, &mut rng);
            }
            let at = rng.index(args.rings.len() + 1);
            for wrong in [0, 0x1000, 0x1008, 0x2000, u64::MAX, u64::MAX - 15] {
                let mut rings = args.rings.clone();
                rings.insert(at, wrong);
                let call = Call::BringUp(BringUp { rings, ..args.clone() });
                all_done(pair, tally, &Case { call, ..case.clone() });
            }
        }
    }
}

/// Claims of every alternate twice, each over what the last one left, a broken one of each, and a set configuration.
fn draws(pair: &mut Pair, tally: &mut Tally, up: Done, rng: &mut Rng) {
    let (mut record, mut routes) = (up.returned, up.buffers.routes);
    let claims: Vec<Call> = alternates(&record.list).iter().map(|a| claim(a.0, a.1)).collect();
    for call in claims.iter().chain(&claims).chain([&Call::SetConfiguration { value: 1 }]) {
        let given = buffers(context(32, rng), routes.clone(), Vec::new());
        let mut case = Case::new(call.clone(), &record, given);
        case.buffers.outcomes = vec![0; record.endpoints.len() + 1];
        case.buffers.outcomes.extend([9, 9, 9]);
        pair.compare(tally, &case);
        let Some(done) = all_done(pair, tally, &case) else {
            return;
        };
        (record, routes) = (done.returned, done.buffers.routes);
    }
}

/// Settings to hold before a call is tried.
const HELD: [&[(u8, u8)]; 5] = [&[], &[(0, 0)], &[(0, 1)], &[(0, 0), (1, 0)], &[(1, 1), (2, 1), (0, 1)]];

/// Every pattern of outcomes for every call, in several states, at both spacings; then every word of the slot's
/// routes spoiled.
fn outcomes(pair: &mut Pair, tally: &mut Tally) {
    let mut rng = Rng::new(7);
    for list in lists() {
        for (speed, spacing) in [(1, 32), (2, 64), (3, 32), (3, 64), (4, 32), (5, 64)] {
            let args = plain(speed, &list);
            let routes = vec![0; 32 * 3];
            let buffers = buffers(context(spacing, &mut rng), routes, Vec::new());
            let mut bring_up = Case::new(Call::BringUp(args.clone()), &Record::default(), buffers);
            patterns(pair, tally, &mut bring_up);
            let short = BringUp { header: 7, ..args };
            let mut short = Case { call: Call::BringUp(short), ..bring_up.clone() };
            patterns(pair, tally, &mut short);
            if let Some(up) = all_done(pair, tally, &bring_up) {
                for held in HELD {
                    in_state(pair, tally, &up, held, &mut rng);
                }
            }
        }
    }
}

/// Record and routes after claims of these settings.
fn holding(
    pair: &mut Pair,
    tally: &mut Tally,
    up: &Done,
    held: &[(u8, u8)],
    rng: &mut Rng,
) -> Option<(Record, Vec<u64>)> {
    let mut record = up.record.clone();
    let mut routes = up.buffers.routes.clone();
    for (interface, alternate) in held {
        let given = buffers(context(record.spacing, rng), routes.clone(), Vec::new());
        let done = all_done(pair, tally, &Case::new(claim(*interface, *alternate), &record, given))?;
        record = done.record;
        routes = done.buffers.routes;
    }
    Some((record, routes))
}

fn in_state(pair: &mut Pair, tally: &mut Tally, up: &Done, held: &[(u8, u8)], rng: &mut Rng) {
    let (list, spacing) = (&up.record.list, up.record.spacing);
    let Some((record, routes)) = holding(pair, tally, up, held, rng) else {
        return;
    };
    for call in calls(list) {
        let given = buffers(context(spacing, rng), routes.clone(), Vec::new());
        let mut case = Case::new(call, &record, given);
        patterns(pair, tally, &mut case);
        if all_done(pair, tally, &case).is_some_and(|done| done.answer.number == 0) {
            spoiled(pair, tally, &case);
        }
    }
    let given = buffers(context(spacing, rng), routes, Vec::new());
    unplugged_again(pair, tally, Case::new(Call::Disconnect, &record, given));
}

/// An unplugging whose Disable failed is repeated; one that was accepted is, too, and then the slot is brought up again.
fn unplugged_again(pair: &mut Pair, tally: &mut Tally, mut case: Case) {
    case.buffers.outcomes = vec![0; case.record.endpoints.len() + 1];
    case.buffers.outcomes.push(9);
    let Some(broken) = pair.compare(tally, &case) else {
        return;
    };
    case.record = broken.record;
    case.buffers.outcomes.clear();
    patterns(pair, tally, &mut case);
    let Some(gone) = all_done(pair, tally, &case) else {
        return;
    };
    let again = Case::new(Call::Disconnect, &gone.record, Buffers { outcomes: Vec::new(), ..gone.buffers });
    all_done(pair, tally, &again);
    let args = plain(again.record.speed, &again.record.list);
    all_done(pair, tally, &Case { call: Call::BringUp(args), ..again });
}

/// Asks of every alternate in several states, and commits of what they return, as it is and with one thing changed.
fn asks(pair: &mut Pair, tally: &mut Tally) {
    let mut rng = Rng::new(11);
    for list in lists() {
        let fresh = buffers(context(32, &mut rng), vec![0; 32 * 3], Vec::new());
        let bring_up = Case::new(Call::BringUp(plain(3, &list)), &Record::default(), fresh);
        let Some(up) = all_done(pair, tally, &bring_up) else {
            return;
        };
        for held in HELD {
            if let Some((record, routes)) = holding(pair, tally, &up, held, &mut rng) {
                let given = buffers(context(32, &mut rng), routes, ALL_DONE.to_vec());
                for (interface, alternate, _) in alternates(&list) {
                    let call = Call::Ask(Claim { interface, alternate });
                    asked(pair, tally, &Case::new(call, &record, given.clone()));
                }
            }
        }
    }
}

/// An ask. Its flags are those of the first Configure that the claim sends, but for bits 0 and 1; its commit is accepted,
/// and each other one is refused.
fn asked(pair: &mut Pair, tally: &mut Tally, case: &Case) {
    let Some(Asked { interface, alternate, drops, adds, rings }) =
        pair.compare(tally, case).and_then(|done| done.asked)
    else {
        return;
    };
    let stops = case.record.endpoints.iter().filter(|e| e.owner == interface).count();
    let outcomes = vec![0; stops];
    let call = claim(interface, alternate);
    let cut = Case { call, buffers: Buffers { outcomes, ..case.buffers.clone() }, ..case.clone() };
    if let Some(cut) = pair.compare(tally, &cut) {
        let flags = [0, 4].map(|at| cut.buffers.ctx[at..at + 4].try_into().map_or(0, u32::from_le_bytes) & !3);
        assert_eq!((cut.answer.number, flags), (15, [drops, adds]), "the flags of an ask");
    }
    let shown = Asked { interface, alternate, drops, adds, rings };
    let mut others: Vec<Asked> = (0..32).map(|bit| Asked { drops: drops ^ 1 << bit, ..shown.clone() }).collect();
    others.extend((0..32).map(|bit| Asked { adds: adds ^ 1 << bit, ..shown.clone() }));
    others.push(Asked { rings: [&shown.rings[..], &[0x7000]].concat(), ..shown.clone() });
    others.push(Asked { rings: vec![0x2000; 31], ..shown.clone() });
    for at in 0..shown.rings.len() {
        let mut rings = shown.rings.clone();
        rings[at] ^= 0x10;
        others.push(Asked { rings, ..shown.clone() });
        others.push(Asked { rings: shown.rings[..at].to_vec(), ..shown.clone() });
        let mut rings = shown.rings.clone();
        rings.swap(0, at);
        others.extend((at > 0).then(|| Asked { rings, ..shown.clone() }));
    }
    let mut commit = |asked: Asked| {
        let case = Case { call: Call::Commit(Some(asked)), ..case.clone() };
        pair.compare(tally, &case).map(|done| done.answer.number)
    };
    assert_eq!(commit(shown), Some(0), "the commit of an ask");
    for other in others {
        assert_eq!(commit(other), Some(22), "the commit of another ask");
    }
}

/// Interface 0 with alternates 0 (0x83, 0x02) and 1 (0x81, 0x02), interface 1 with alternate 0 (0x84), and in a second
/// configuration interface 2 with alternate 0 (0x81).
fn path_list() -> Vec<u32> {
    let bulk = |address| endpoint(address, BULK, 512, 0, 0);
    vec![
        configuration(1),
        alternate(0, 0),
        bulk(0x83),
        bulk(0x02),
        alternate(0, 1),
        bulk(0x81),
        bulk(0x02),
        alternate(1, 0),
        bulk(0x84),
        configuration(2),
        alternate(2, 0),
        bulk(0x81),
    ]
}

/// Every way through each call on one small device, of a slot of four.
pub fn paths(pair: &mut Pair, tally: &mut Tally) {
    let mut rng = Rng::new(12);
    let list = path_list();
    let args = BringUp { n: 4, ..plain(3, &list) };
    let fresh = buffers(context(32, &mut rng), vec![0; 32 * 5], Vec::new());
    let bring_up = |args: BringUp| Case::new(Call::BringUp(args), &Record::default(), fresh.clone());
    for args in [args.clone(), BringUp { header: 7, ..args.clone() }, BringUp { list: Vec::new(), ..args.clone() }] {
        patterns(pair, tally, &mut bring_up(args));
    }
    let Some(up) = all_done(pair, tally, &bring_up(args)) else {
        return;
    };
    for held in [&[][..], &[(0, 1)], &[(0, 1), (1, 0)]] {
        in_state(pair, tally, &up, held, &mut rng);
    }
}

fn spoiled(pair: &mut Pair, tally: &mut Tally, case: &Case) {
    for dci in 0..32 {
        for word in [0, 0x1000, 0x2000, 0x3000, 0xFFF0] {
            let mut case = case.clone();
            case.buffers.routes[32 + dci] = word;
            all_done(pair, tally, &case);
        }
    }
}

/// A record of slot 1 of 2 that holds nothing, of a list which gets its companions.
pub fn idle(speed: u8, spacing: usize, list: &[u32]) -> Record {
    Record {
        usable: true,
        up: true,
        slot: 1,
        n: 2,
        spacing,
        speed,
        config: Some(1),
        control: 0x1000,
        given: all_rings(),
        list: at_speed(speed, list),
        ..Record::default()
    }
}

fn idle_buffers(spacing: usize, rng: &mut Rng) -> Buffers {
    let mut routes = vec![0; 32 * 3];
    routes[33] = 0x1000;
    buffers(context(spacing, rng), routes, ALL_DONE.to_vec())
}

fn claim_alone(pair: &mut Pair, tally: &mut Tally, speed: u8, words: &[u32], base: &Buffers) {
    let spacing = base.ctx.len() / 33;
    let list = [&[configuration(1), alternate(0, 0)], words].concat();
    let record = Record { given: vec![0xF_FFFF_FFF0, 0x1000], ..idle(speed, spacing, &list) };
    pair.compare(tally, &Case::new(claim(0, 0), &record, base.clone()));
}

/// Every interval byte × type × speed, with every number of packets; every packet size × type; every address.
fn intervals(pair: &mut Pair, tally: &mut Tally) {
    let mut rng = Rng::new(8);
    let zero = Buffers { ctx: vec![0; 1056], ..idle_buffers(32, &mut rng) };
    for speed in 1..=5 {
        for kind in [ISOCHRONOUS, BULK, INTERRUPT] {
            for interval in 0..=255 {
                for packets in 0..4 {
                    claim_alone(pair, tally, speed, &[endpoint(0x81, kind, 64, packets, interval)], &zero);
                }
            }
            for size in 0..2048 {
                claim_alone(pair, tally, speed, &[endpoint(0x02, kind, size, size % 4, 4)], &zero);
            }
            for spacing in [32, 64] {
                let base = idle_buffers(spacing, &mut rng);
                for address in (1..=15).chain(0x81..=0x8F) {
                    claim_alone(pair, tally, speed, &[endpoint(address, kind, 512, 3, 9)], &base);
                }
            }
        }
    }
}

/// At speeds 4 and 5 every burst with every mult of every type, every number of bytes per interval, and an address twice
/// with companions of its own; lists with a companion too many, missing or out of range, at speed 3 too.
fn companions(pair: &mut Pair, tally: &mut Tally) {
    let mut rng = Rng::new(13);
    let kinds = [ISOCHRONOUS, BULK, INTERRUPT];
    for (speed, spacing) in [(4, 32), (4, 64), (5, 32), (5, 64)] {
        let base = idle_buffers(spacing, &mut rng);
        for (kind, place) in kinds.iter().flat_map(|kind| (0..16 * 3 * 8).map(move |place| (*kind, place))) {
            let word = endpoint(0x81, kind, 1024, place % 4, 4);
            let (burst, mult) = (place % 16, place / 16 % (most_mult(word) + 1));
            let bytes = [0, 1, 0xFF, 0x100, 0x7FFF, 0x8000, 0xFFFF, 0x1234][place as usize / 48];
            claim_alone(pair, tally, speed, &[word, companion(burst, mult, bytes)], &base);
        }
        for (first, second) in kinds.iter().flat_map(|first| kinds.iter().map(move |second| (*first, *second))) {
            let words = [endpoint(0x02, first, 512, 1, 3), companion(9, 0, 700)];
            let twice = [endpoint(0x02, second, 64, 0, 5), companion(2, most_mult(second << 23), 0xABCD)];
            claim_alone(pair, tally, speed, &[words, twice].concat(), &base);
        }
    }
    let base = idle_buffers(64, &mut rng);
    for bytes in 0..=0xFFFF {
        let word = endpoint(0x8F, kinds[bytes as usize % 3], 1024, 1, 1);
        claim_alone(pair, tally, 4 + (bytes % 2) as u8, &[word, companion(bytes % 16, 0, bytes)], &base);
    }
    for speed in [3, 4, 5] {
        companion_lists(pair, tally, speed);
    }
}

/// Bring-ups with a list of which each word is left out, doubled, moved, and each bit turned.
fn companion_lists(pair: &mut Pair, tally: &mut Tally, speed: u8) {
    let sample = at_speed(4, &sharing_list());
    for at in 0..sample.len() {
        let mut with = |change: &dyn Fn(&mut Vec<u32>)| {
            let mut list = sample.clone();
            change(&mut list);
            bring_up(pair, tally, BringUp { list, ..plain(speed, &[]) }, &ALL_DONE);
        };
        (0..32).for_each(|bit| with(&|list| list[at] ^= 1 << bit));
        for to in 0..sample.len() {
            with(&|list| list.swap(at, to));
            with(&|list| list.insert(to, list[at]));
        }
        with(&|list| _ = list.remove(at));
        with(&|list| list.truncate(at));
    }
    for count in 100..=130 {
        let pairs = (0..count).flat_map(|at| {
            let word = endpoint(1 + at as u8 % 15, BULK, 512, 1, 0);
            let next = (at % 30 == 0).then(|| alternate(0, at as u8));
            next.into_iter().chain([word, companion(at % 16, 0, at)])
        });
        let list = [configuration(1)].into_iter().chain(pairs).collect();
        bring_up(pair, tally, BringUp { list, ..plain(speed, &[]) }, &ALL_DONE);
    }
}

/// A chain of hubs whose lowest has the given depth plus one; hub i has depth plus one i.
fn chain(top: u8, port_of: impl Fn(u8) -> u8, speed_of: impl Fn(u8) -> u8) -> Vec<u64> {
    let hub = |depth: u8| Hub {
        present: true,
        parent: depth.checked_sub(1),
        slot: 10 + depth,
        depth,
        speed: speed_of(depth),
        port: port_of(depth),
        multi: depth.is_multiple_of(2),
    };
    (0..=top).map(|depth| hub(depth).word()).collect()
}

fn bring_up(pair: &mut Pair, tally: &mut Tally, args: BringUp, outcomes: &[u8]) {
    let buffers = buffers(vec![0xA5; 1056], vec![0; 32 * (args.n as usize + 1)], outcomes.to_vec());
    pair.compare(tally, &Case::new(Call::BringUp(args), &Record::default(), buffers));
}

fn behind(top: u8, speed: u8, port: u8, hubs: Vec<u64>) -> BringUp {
    BringUp { has_parent: true, parent: top.into(), port, hubs, ..plain(speed, &[]) }
}

/// Every port × depth × speed, of the device and of each hub above it; the High hub at every depth; every root port.
fn ports(pair: &mut Pair, tally: &mut Tally) {
    for top in 0..=5 {
        for speed in 1..=5 {
            for port in 0..=255 {
                let hubs = chain(top, |depth| 3 * depth + 1, |_| 3);
                bring_up(pair, tally, behind(top, speed, port, hubs), &[]);
            }
        }
        for place in 0..=top {
            for port in 0..=255 {
                let at = |depth: u8| if depth == place { port } else { 2 };
                for high in [place, place.saturating_sub(1)] {
                    let hubs = chain(top, at, |depth| if depth == high { 3 } else { 1 });
                    bring_up(pair, tally, behind(top, 2, 5, hubs), &[]);
                }
            }
        }
        for high in 0..=6 {
            for hub_speed in 1..=5 {
                for speed in 1..=5 {
                    let hubs = chain(top, |depth| 20 + depth, |depth| if depth == high { 3 } else { hub_speed });
                    bring_up(pair, tally, behind(top, speed, 200, hubs), &[]);
                }
            }
        }
    }
    for root_port in 0..=255 {
        bring_up(pair, tally, BringUp { root_port, ..plain(3, &[]) }, &[]);
    }
}

/// Every packet byte × speed, and every length of the header.
fn packets(pair: &mut Pair, tally: &mut Tally) {
    for speed in 0..=8 {
        for packet in 0..=255 {
            bring_up(pair, tally, BringUp { packet, ..plain(speed, &[]) }, &ALL_DONE);
        }
    }
    for header in 0..=64 {
        bring_up(pair, tally, BringUp { header, ..plain(3, &[]) }, &ALL_DONE);
    }
    for config in 0..=255 {
        bring_up(pair, tally, BringUp { config, ..plain(3, &[]) }, &ALL_DONE);
        bring_up(pair, tally, plain(3, &[configuration(config)]), &ALL_DONE);
    }
}

/// Every think time of 16 bits at High speed, and at the others a part; every number of ports.
fn think(pair: &mut Pair, tally: &mut Tally) {
    let mut rng = Rng::new(9);
    for speed in 1..=5 {
        let record = idle(speed, 32, &[]);
        let mut case = Case::new(Call::Release { interface: 0 }, &record, idle_buffers(32, &mut rng));
        for think in (0..=65535).filter(|think| speed == 3 || think % 64 < 2) {
            let multi = think % 2 == 1;
            case.call = Call::HubUpdate(HubUpdate { ports: 4, multi, think });
            pair.compare(tally, &case);
        }
        for ports in 0..=255 {
            for multi in [false, true] {
                case.call = Call::HubUpdate(HubUpdate { ports, multi, think: 1332 });
                pair.compare(tally, &case);
            }
        }
        for think in [65536, 65536 + 666, u32::MAX] {
            case.call = Call::HubUpdate(HubUpdate { ports: 1, multi: false, think });
            pair.compare(tally, &case);
        }
    }
}

/// Every slot with several numbers of slots.
fn slots(pair: &mut Pair, tally: &mut Tally) {
    for n in [0, 1, 2, 127, 254, 255, 256, 300] {
        for slot in 0..=255 {
            bring_up(pair, tally, BringUp { slot, n, ..plain(3, &[configuration(1)]) }, &ALL_DONE);
        }
    }
}
