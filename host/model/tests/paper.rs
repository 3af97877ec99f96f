//! The worked examples of 01, asked of the model.

use scenario::*;

use model::Model;

const ALL_DONE: [u8; 64] = [0; 64];
const RINGS: [u64; 4] = [0x4000, 0x2000, 0x1000, 0x3000];

fn buffers(spacing: usize, outcomes: &[u8]) -> Buffers {
    Buffers { ctx: vec![0; 33 * spacing], routes: vec![0; 96], log: vec![0; 64], outcomes: outcomes.to_vec() }
}

fn dword(ctx: &[u8], spacing: usize, block: usize, dword: usize) -> u32 {
    let at = block * spacing + 4 * dword;
    u32::from_le_bytes([ctx[at], ctx[at + 1], ctx[at + 2], ctx[at + 3]])
}

fn configuration(value: u32) -> u32 {
    value << 22
}

fn alternate(interface: u32, alternate: u32) -> u32 {
    1 << 30 | interface << 22 | alternate << 14
}

/// High, interrupt, size 64, packets 1, interval 4.
fn interrupt(number: u32) -> u32 {
    2 << 30 | 1 << 29 | number << 25 | 3 << 23 | 64 << 12 | 1 << 10 | 4 << 2
}

fn plain(list: &[u32]) -> BringUp {
    BringUp { slot: 1, n: 2, speed: 3, rings: RINGS.to_vec(), header: 8, list: list.to_vec(), ..BringUp::default() }
}

/// Present, parent, depth plus one, High, port.
fn hub(parent: Option<u64>, depth: u64, port: u64) -> u64 {
    1 << 63 | u64::from(parent.is_some()) << 62 | parent.unwrap_or(0) << 54 | depth << 43 | 3 << 40 | port << 32
}

#[test]
fn route_strings() {
    let root = hub(None, 0, 0);
    let cases: [(Option<u32>, u8, Vec<u64>, u32); 4] = [
        (Some(1), 7, vec![root, hub(Some(0), 1, 9)], 0x7),
        (Some(2), 2, vec![root, hub(Some(0), 1, 9), hub(Some(1), 2, 4)], 0x24),
        (Some(1), 20, vec![root, hub(Some(0), 1, 9)], 0xF),
        (None, 3, vec![], 0),
    ];
    for (parent, port, hubs, route) in cases {
        let args = BringUp { has_parent: parent.is_some(), parent: parent.unwrap_or(0), port, hubs, ..plain(&[]) };
        let mut given = buffers(32, &[]);
        let (_, answer) = Model.bring_up(&args, &mut given).expect("an answer");
        assert_eq!((answer.number, dword(&given.ctx, 32, 1, 0) & 0xF_FFFF), (15, route));
    }
}

#[test]
fn think_times() {
    let (record, _) = Model.bring_up(&plain(&[]), &mut buffers(32, &ALL_DONE)).expect("a record");
    let cases = [(0, 0), (666, 0), (1331, 0), (1332, 1), (3329, 3)];
    for (think, value) in cases {
        let mut given = buffers(32, &ALL_DONE);
        let args = HubUpdate { ports: 4, multi: false, think };
        let (_, answer) = Model.hub_update(&record, &args, &mut given).expect("an answer");
        assert_eq!((answer.number, dword(&given.ctx, 32, 1, 2) >> 16 & 3), (0, value));
    }
    for think in [1, 665, 3330] {
        let args = HubUpdate { ports: 4, multi: false, think };
        let (_, answer) = Model.hub_update(&record, &args, &mut buffers(32, &ALL_DONE)).expect("an answer");
        assert_eq!(answer.number, 7);
    }
}

#[test]
fn dci_3_at_both_spacings() {
    for spacing in [32, 64] {
        let list = [configuration(1), alternate(0, 0), interrupt(1)];
        let mut given = buffers(spacing, &ALL_DONE);
        let (record, _) = Model.bring_up(&plain(&list), &mut given).expect("a record");
        given.ctx.fill(0);
        let args = Claim { interface: 0, alternate: 0 };
        let (_, answer) = Model.claim(&record, &args, &mut given).expect("an answer");
        let of_block = [0, 1, 4].map(|at| dword(&given.ctx, spacing, 4, at));
        assert_eq!((answer.number, of_block), (0, [0x0003_0000, 0x0040_003E, 0x0040_0040]));
        assert_eq!(dword(&given.ctx, spacing, 1, 0) >> 27, 3);
    }
}

#[test]
fn the_whole_log() {
    let list = [configuration(1), alternate(0, 0), interrupt(1), alternate(0, 1), interrupt(2)];
    let mut given = buffers(32, &ALL_DONE);
    let (record, _) = Model.bring_up(&plain(&list), &mut given).expect("a record");
    let first = Claim { interface: 0, alternate: 0 };
    let (record, _) = Model.claim(&record, &first, &mut given).expect("a record");
    given.outcomes = vec![0, 0, 7, 0, 0];
    let second = Claim { interface: 0, alternate: 1 };
    let (after, answer) = Model.claim(&record, &second, &mut given).expect("an answer");
    assert_eq!(answer, Answer { number: 13, code: 7, count: 5 });
    assert_eq!(given.log[..5], [0x4030_0000, 0x3000_0000, 0x6000_1000, 0x3000_0000, 0x6000_0000]);
    assert_eq!(after, record);
}

/// 02, item 4: what is left of a record that holds 0x81 and 0x02, and of the row, by the outcome of Disable.
#[test]
fn unpluggings() {
    let bulk_out = 2 << 30 | 2 << 25 | 2 << 23 | 512 << 12;
    let list = [configuration(1), alternate(0, 0), interrupt(1), bulk_out];
    let mut given = buffers(32, &ALL_DONE);
    let (record, _) = Model.bring_up(&plain(&list), &mut given).expect("a record");
    let claim = Claim { interface: 0, alternate: 0 };
    let (record, answer) = Model.claim(&record, &claim, &mut given).expect("a record");
    assert_eq!((answer.number, record.usable, record.up), (0, true, true));

    let unplug = |record: &Record, outcomes: &[u8]| {
        let mut given = Buffers { outcomes: outcomes.to_vec(), ..given.clone() };
        let (record, answer) = Model.disconnect(record, &mut given).expect("an answer");
        (record, answer, given)
    };
    // Control, then OUT before IN, past failures; a failed Disable has no code.
    let (broken, answer, left) = unplug(&record, &[5, 6, 0, 7]);
    assert_eq!((answer.number, answer.code, answer.count), (14, 0, 4));
    assert_eq!(left.log[..4], [0x4010_0000, 0x4040_0000, 0x4030_0000, 0xC000_0000]);
    assert_eq!((left.routes, &left.ctx), (given.routes.clone(), &given.ctx));
    assert_eq!((broken.usable, broken.up, &broken.held), (false, true, &record.held));
    assert_eq!(broken.quarantined, [0x1000, 0x3000, 0x2000]);
    assert!(broken.control_revoked && broken.endpoints.iter().all(|endpoint| !endpoint.active));
    assert_eq!(Model.release(&broken, 0, &mut given.clone()).expect("an answer").1.number, 12);
    // Again: no ring enters twice.
    assert_eq!(unplug(&broken, &[0, 0, 0, 7]).0, broken);

    // A cut moves nothing.
    for outcomes in [&[][..], &[0, 9], &[0, 0, 0]] {
        let (cut, answer, left) = unplug(&record, outcomes);
        assert_eq!((answer.number, answer.count), (15, outcomes.len() + 1));
        assert_eq!(Record { quarantined: broken.quarantined.clone(), ..cut }, broken);
        assert_eq!(left.routes, given.routes);
    }

    // Done: the row is empty, and the record may be used for nothing.
    for (from, quarantined) in [(&record, vec![]), (&broken, broken.quarantined.clone())] {
        let (gone, answer, left) = unplug(from, &[0, 0, 0, 0]);
        assert_eq!((answer.number, answer.count), (0, 4));
        assert!(left.routes.iter().all(|word| *word == 0));
        let (endpoints, held) = (Vec::new(), Vec::new());
        let kept = Record { usable: false, up: false, control_revoked: true, endpoints, held, ..record.clone() };
        assert_eq!(gone, Record { quarantined, ..kept });
        assert_eq!(unplug(&gone, &[0; 4]).1.number, 12);
    }
}

/// The answer of a bring-up that is given these rings, and control's ring.
fn given(rings: &[u64]) -> (u8, u64) {
    let args = BringUp { rings: rings.to_vec(), ..plain(&[]) };
    let (record, answer) = Model.bring_up(&args, &mut buffers(32, &ALL_DONE)).expect("an answer");
    assert_eq!(record.given, if answer.number == 0 { rings } else { &[] });
    (answer.number, record.control)
}

/// 02, item 6: the rings that a bring-up is given.
#[test]
fn given_rings() {
    let many = |count: u64| (1..=count).map(|at| 16 * at).rev().collect::<Vec<u64>>();
    assert_eq!(given(&RINGS), (0, 0x1000));
    assert_eq!(given(&[u64::MAX - 15]), (0, u64::MAX - 15));
    assert_eq!(given(&many(64)), (0, 16));
    for rings in [many(0), many(65), vec![0x1000, 0], vec![0x1000, 0x2008], vec![0x1000, 0x2000, 0x1000]] {
        assert_eq!(given(&rings), (10, 0));
    }
}

/// A record of these words in the one alternate of interface 0, and in that of interface 1; with the routes.
fn stocked(rings: &[u64], first: &[u32], second: &[u32]) -> (Record, Buffers) {
    let list = [&[configuration(1), alternate(0, 0)], first, &[alternate(1, 0)], second].concat();
    let mut given = buffers(32, &ALL_DONE);
    let args = BringUp { rings: rings.to_vec(), ..plain(&list) };
    let (record, _) = Model.bring_up(&args, &mut given).expect("a record");
    (record, given)
}

fn endpoint_rings(record: &Record) -> Vec<(u8, u64)> {
    record.endpoints.iter().map(|endpoint| (endpoint.address, endpoint.ring)).collect()
}

/// 02, item 6: "control and claims draw from them, lowest address first. A ring returned is drawn again; a drawn ring
/// that no endpoint keeps stays free."
#[test]
fn draws() {
    let (first, second) = ([interrupt(2), interrupt(1), interrupt(2)], [interrupt(3)]);
    let claim = |interface| Claim { interface, alternate: 0 };
    let (record, mut given) = stocked(&[0x50, 0x20, 0x40, 0x10, 0x30], &first, &second);
    let (held, answer) = Model.claim(&record, &claim(0), &mut given).expect("a record");
    assert_eq!((answer.number, endpoint_rings(&held)), (0, vec![(0x81, 0x30), (0x82, 0x40)]));
    assert_eq!(held.free(), [0x20, 0x50]);
    // The old setting's rings are live while the new one's are drawn.
    let (same, answer) = Model.claim(&held, &claim(0), &mut given).expect("an answer");
    assert_eq!((answer.number, same), (21, held.clone()));
    let (both, _) = Model.claim(&held, &claim(1), &mut given).expect("a record");
    assert_eq!((endpoint_rings(&both)[2], both.free()), ((0x83, 0x20), vec![0x50]));
    let (one, _) = Model.release(&both, 0, &mut given).expect("a record");
    assert_eq!(one.free(), [0x30, 0x40, 0x50]);
    let (none, _) = Model.set_configuration(&one, 1, &mut given).expect("a record");
    assert_eq!(none, record);

    // 13 leaves the drawn rings free, 14 and 15 quarantine the kept ones.
    for (outcomes, number, free) in [
        (&[0, 7, 0][..], 13, &[0x20, 0x30, 0x40, 0x50][..]),
        (&[0], 15, &[0x20, 0x50]),
        (&[0, 7, 7], 14, &[0x20, 0x50]),
    ] {
        given.outcomes = outcomes.to_vec();
        let (left, answer) = Model.claim(&record, &claim(0), &mut given).expect("an answer");
        assert_eq!((answer.number, left.free()), (number, free.to_vec()));
        assert_eq!(left.quarantined, if number == 13 { vec![] } else { vec![0x30, 0x40] });
        assert_eq!(left.given, record.given);
    }
}

/// 02, item 12: "when a claim is cut, or answers 14, at or after a Configure was sent"; "so do the rings of the settings
/// that a set configuration ended before it answered 14 or 15".
#[test]
fn rings_in_doubt() {
    let bulk_out = 2 << 30 | 2 << 25 | 2 << 23 | 512 << 12;
    let list = [configuration(1), alternate(0, 0), interrupt(1), bulk_out, alternate(0, 1), interrupt(3), bulk_out];
    let mut given = buffers(32, &ALL_DONE);
    let args = BringUp { rings: (1..=6).map(|at| 16 * at).collect(), ..plain(&list) };
    let (record, _) = Model.bring_up(&args, &mut given).expect("a record");
    let (held, _) = Model.claim(&record, &Claim::default(), &mut given).expect("a record");
    assert_eq!(endpoint_rings(&held), [(0x02, 0x30), (0x81, 0x20)]);
    let left = |call: &Call, outcomes: &[u8]| {
        let mut lent = Buffers { outcomes: outcomes.to_vec(), ..given.clone() };
        let (left, answer) = Model.call(&held, call, &mut lent).expect("an answer");
        (answer.number, left.quarantined)
    };
    let switch = |outcomes: &[u8]| left(&Call::Claim(Claim { interface: 0, alternate: 1 }), outcomes);
    let new = vec![0x50, 0x40];
    // In a Stop, and in a Resume after one that failed.
    for outcomes in [&[][..], &[0], &[0, 7]] {
        assert_eq!(switch(outcomes), (15, vec![]));
    }
    // At the Configure, in a Resume after it failed, at SetInterface, in what undoes it.
    for outcomes in [&[0, 0][..], &[0, 0, 7], &[0, 0, 7, 0], &[0, 0, 0], &[0, 0, 0, 7], &[0, 0, 0, 7, 0]] {
        assert_eq!(switch(outcomes), (15, new.clone()));
    }
    for outcomes in [&[0, 0, 0, 7, 7][..], &[0, 0, 0, 7, 0, 7]] {
        assert_eq!(switch(outcomes), (14, new.clone()));
    }
    for outcomes in [&[7][..], &[0, 7, 0], &[0, 0, 7, 7], &[0, 0, 7, 0, 0], &[0, 0, 0, 7, 0, 0]] {
        assert_eq!(switch(outcomes), (13, vec![]));
    }
    let set = |outcomes: &[u8]| left(&Call::SetConfiguration { value: 1 }, outcomes);
    assert_eq!(set(&[0, 0, 0, 0, 0]), (0, vec![]));
    assert_eq!(set(&[0, 0, 0, 0, 7]), (14, vec![0x30, 0x20]));
    assert_eq!(set(&[0, 0, 0, 0]), (15, vec![0x30, 0x20]));
    for (outcomes, number) in [(&[7][..], 14), (&[0, 0], 15), (&[0, 0, 0], 15), (&[0, 0, 0, 7, 7], 14)] {
        assert_eq!(set(outcomes), (number, vec![]));
    }
}

/// 02, item 6: 21 "exactly then", after 8 and 9.
#[test]
fn too_few_rings() {
    let words: Vec<u32> = (1..=3).map(interrupt).collect();
    for count in 1..=5 {
        let rings: Vec<u64> = (1..=count).map(|at| 16 * at).collect();
        let (record, mut given) = stocked(&rings, &words, &words[..1]);
        let ask = |record: &Record, interface, alternate, given: &mut Buffers| {
            let (record, answer) = Model.claim(record, &Claim { interface, alternate }, given).expect("an answer");
            (record, answer.number)
        };
        assert_eq!(ask(&record, 0, 9, &mut given).1, 8);
        assert_eq!(ask(&record, 0, 0, &mut given.clone()).1, if count > 3 { 0 } else { 21 });
        let (held, number) = ask(&record, 1, 0, &mut given);
        assert_eq!(number, if count > 1 { 0 } else { 21 });
        assert_eq!(ask(&held, 0, 0, &mut given).1, if count > 1 { 9 } else { 21 });
    }
}

/// 02, item 6: "a sound record's given rings keep these rules, its live, control and quarantined ones among them".
#[test]
fn sound_stores() {
    let (record, mut given) = stocked(&RINGS, &[interrupt(1)], &[]);
    let (record, _) = Model.claim(&record, &Claim::default(), &mut given).expect("a record");
    let answer = |change: &dyn Fn(&mut Record)| {
        let mut record = record.clone();
        change(&mut record);
        Model.set_configuration(&record, 1, &mut given.clone()).expect("an answer").1.number
    };
    assert_eq!(answer(&|_| {}), 0);
    assert_eq!(answer(&|record| record.given.reverse()), 0);
    assert_eq!(answer(&|record| record.given.truncate(3)), 0);
    assert_eq!(answer(&|record| record.given.truncate(2)), 12);
    assert_eq!(answer(&|record| record.given.clear()), 12);
    assert_eq!(answer(&|record| record.given.push(0x4000)), 12);
    assert_eq!(answer(&|record| record.given.push(0x4008)), 12);
    assert_eq!(answer(&|record| record.endpoints[0].ring = 0x5000), 12);
    given.outcomes = vec![0; 64];
    let broken = |ring| Record { usable: false, quarantined: vec![ring], ..record.clone() };
    for (ring, number) in [(0x3000, 0), (0x1000, 0), (0x5000, 12)] {
        assert_eq!(Model.disconnect(&broken(ring), &mut given.clone()).expect("an answer").1.number, number);
    }
}

/// 02, item 7: "an ask, which runs the checks, changes nothing and returns the interface, alternate, drop flags, add flags
/// (bits 0 and 1 always 0) and drawn rings".
#[test]
fn asks() {
    let list = [configuration(1), alternate(0, 0), interrupt(1), alternate(0, 1), interrupt(2), interrupt(2)];
    let mut given = buffers(32, &ALL_DONE);
    let (record, _) = Model.bring_up(&plain(&list), &mut given).expect("a record");
    let ask = |record: &Record, alternate, given: &Buffers| {
        let (answer, asked) = Model.ask(record, &Claim { interface: 0, alternate }, given).expect("an answer");
        assert_eq!((answer.code, answer.count), (0, 0));
        (answer.number, asked)
    };
    let first = Asked { interface: 0, alternate: 0, drops: 0, adds: 1 << 3, rings: vec![0x2000] };
    assert_eq!(ask(&record, 0, &given), (0, Some(first.clone())));
    let (held, _) = Model.commit(&record, &first, &mut given).expect("a record");
    assert_eq!(held.held, [(0, 0)]);
    let second = Asked { interface: 0, alternate: 1, drops: 1 << 3, adds: 1 << 5, rings: vec![0x3000, 0x4000] };
    assert_eq!(ask(&held, 1, &given), (0, Some(second)));
    // Refused as the claim is.
    assert_eq!(ask(&held, 2, &given), (8, None));
    assert_eq!(ask(&Record { usable: false, ..held.clone() }, 1, &given), (12, None));
    assert_eq!(ask(&held, 1, &Buffers { ctx: vec![], ..given.clone() }), (1, None));
    let few = Record { given: vec![0x1000, 0x2000, 0x3000], ..held };
    assert_eq!(ask(&few, 1, &given), (21, None));
}

/// 02, item 7: "a commit whose ask would now return anything else is refused"; "22, after the checks of a claim".
#[test]
fn commits() {
    let list =
        [configuration(1), alternate(0, 0), interrupt(1), alternate(1, 0), interrupt(2), alternate(2, 0), interrupt(1)];
    let mut given = buffers(32, &ALL_DONE);
    let (record, _) = Model.bring_up(&plain(&list), &mut given).expect("a record");
    let ask = |record: &Record, interface, given: &Buffers| {
        Model.ask(record, &Claim { interface, alternate: 0 }, given).expect("an answer").1.expect("an accepted ask")
    };
    let [zero, one, two] = [0, 1, 2].map(|interface| ask(&record, interface, &given));
    // An ask and its commit are the claim, whatever comes.
    for outcomes in [vec![0; 2], vec![7], vec![0, 7, 0], vec![0, 7, 7], vec![0]] {
        let mut at_once = Buffers { outcomes, ..given.clone() };
        let mut in_two = at_once.clone();
        let claimed = Model.claim(&record, &Claim { interface: 1, alternate: 0 }, &mut at_once);
        assert_eq!((Model.commit(&record, &one, &mut in_two), in_two), (claimed, at_once));
    }
    let (held, _) = Model.commit(&record, &zero, &mut given).expect("a record");
    let number = |asked: &Asked| {
        let mut lent = given.clone();
        let (left, answer) = Model.commit(&held, asked, &mut lent).expect("an answer");
        assert_eq!((left, lent, answer.count), (held.clone(), given.clone(), 0));
        answer.number
    };
    // Its ring was drawn meanwhile; and what a claim is refused for comes first.
    assert_eq!((number(&one), number(&two)), (22, 9));
    assert_eq!(number(&Asked { alternate: 5, ..one.clone() }), 8);
    let now = ask(&held, 1, &given);
    for other in [
        Asked { drops: 1, ..now.clone() },
        Asked { adds: now.adds | 2, ..now.clone() },
        Asked { rings: vec![], ..now.clone() },
        Asked { rings: vec![0x3000, 0x4000], ..now.clone() },
        Asked { rings: vec![0x3000; 31], ..now.clone() },
    ] {
        assert_eq!(number(&other), 22);
    }
    assert_eq!(Model.commit(&held, &now, &mut given).expect("an answer").1.number, 0);
}

/// 02, item 10: "two interfaces may list the same address"; the release of the idle one "is refused before any command",
/// 25, "after 3 in a release".
#[test]
fn unclaimed_releases() {
    let (record, mut given) = stocked(&RINGS, &[interrupt(1)], &[interrupt(1)]);
    let (held, _) = Model.claim(&record, &Claim::default(), &mut given).expect("a record");
    let refused = |record: &Record, interface, given: &Buffers| {
        let mut lent = given.clone();
        let (left, answer) = Model.release(record, interface, &mut lent).expect("an answer");
        assert_eq!((&left, &lent, answer.code, answer.count), (record, given, 0, 0));
        answer.number
    };
    // Of interface 9 the list has nothing.
    assert_eq!([1, 9].map(|interface| refused(&held, interface, &given)), [25, 25]);
    assert_eq!(refused(&record, 0, &given), 25);
    let broken = Record { usable: false, ..held.clone() };
    assert_eq!(refused(&broken, 1, &given), 12);
    assert_eq!(refused(&held, 1, &Buffers { ctx: vec![], ..given.clone() }), 1);
    assert_eq!(refused(&held, 1, &Buffers { routes: vec![], ..given.clone() }), 2);
    assert_eq!(refused(&held, 1, &Buffers { log: vec![0; 63], ..given.clone() }), 3);
    let (released, answer) = Model.release(&held, 0, &mut given).expect("a record");
    assert_eq!((answer.number, &released), (0, &record));
    assert_eq!(refused(&released, 0, &given), 25);
}

/// 02, item 11: what an endpoint's block gets at speeds 4 and 5, at both spacings, over a context of ones: burst always; mult,
/// payload and average length where the endpoint is periodic, and the payload's high part 0.
#[test]
fn burst_data() {
    const COMPANION: u32 = 3 << 30 | 9 << 26 | 2 << 24 | 0x1234 << 8;
    let endpoint = |kind: u32| 5 << 29 | 1 << 25 | kind << 23 | 1024 << 12 | 3 << 10 | 1 << 2;
    for (kind, speed, spacing) in [(1, 4, 32), (1, 5, 64), (2, 4, 64), (2, 5, 32), (3, 4, 32), (3, 5, 64)] {
        let companion = if kind == 1 { COMPANION } else { COMPANION & !(3 << 24) };
        let list = vec![configuration(1), alternate(0, 0), endpoint(kind), companion];
        let args = BringUp { speed, packet: 9, ..plain(&list) };
        let mut given = buffers(spacing, &ALL_DONE);
        let (record, answer) = Model.bring_up(&args, &mut given).expect("a record");
        assert_eq!((answer.number, &record.list), (0, &list));
        given.ctx.fill(0xFF);
        let (claimed, answer) = Model.claim(&record, &Claim::default(), &mut given).expect("an answer");
        assert_eq!((answer.number, claimed.endpoints.len()), (0, 1));
        let block = |at: usize| dword(&given.ctx, spacing, 4, at);
        assert_eq!(block(1) >> 8 & 0xFF, 9);
        let periodic = [block(0) >> 8 & 3, block(0) >> 24, block(4) & 0xFFFF, block(4) >> 16];
        let expected = match kind {
            1 => [2, 0, 0x1234, 0x1234],
            2 => [3, 0xFF, 0xFFFF, 0xFFFF],
            _ => [0, 0, 0x1234, 0x1234],
        };
        assert_eq!(periodic, expected);
    }
}

/// "A repeated address: each word, with its own companion, writes the block in list order."
#[test]
fn burst_data_of_a_repeated_address() {
    let interrupt = [0xA340_0404 | 3 << 23, 0xC400_0700];
    let bulk = [0xA340_0404 & !(3 << 23) | 2 << 23, 0xC800_0900];
    let list = [&[configuration(1), alternate(0, 0)], &interrupt[..], &bulk].concat();
    let mut given = buffers(32, &ALL_DONE);
    let (record, _) = Model.bring_up(&BringUp { speed: 4, packet: 9, ..plain(&list) }, &mut given).expect("a record");
    given.ctx.fill(0);
    let (claimed, _) = Model.claim(&record, &Claim::default(), &mut given).expect("a record");
    // The bulk word's burst, and what the interrupt word wrote of the rest.
    assert_eq!((dword(&given.ctx, 32, 4, 1) >> 8 & 0xFF, dword(&given.ctx, 32, 4, 4)), (2, 0x0007_0007));
    // Two rings are drawn, for two endpoint words; companions draw none.
    assert_eq!(claimed.endpoints.iter().map(|e| e.ring).collect::<Vec<_>>(), [0x3000]);
}

/// 02, item 11: "26, directly after 4; such a list isn't valid".
#[test]
fn lists_that_give_26() {
    let number = |speed: u8, list: &[u32], root_port: u8| {
        let args = BringUp { speed, packet: 9, root_port, hubs: vec![0; 257], ..plain(list) };
        let mut given = buffers(32, &ALL_DONE);
        Model.bring_up(&args, &mut given).expect("an answer").1.number
    };
    let (missing, whole) = (
        [configuration(1), alternate(0, 0), interrupt(1)],
        [configuration(1), alternate(0, 0), interrupt(1), 0xC000_0000],
    );
    // Before 5, which more than 256 hubs give; after 4.
    assert_eq!([3, 4, 5].map(|speed| number(speed, &missing, 1)), [5, 26, 26]);
    assert_eq!([3, 4, 5].map(|speed| number(speed, &whole, 1)), [4, 5, 5]);
    for both in [[&missing[..], &[1]].concat(), [&missing[..], &[configuration(1), interrupt(1)]].concat()] {
        assert_eq!(number(4, &both, 1), 4);
    }
    // A record of such a list is not sound.
    let (record, _) = Model
        .bring_up(&BringUp { speed: 4, packet: 9, ..plain(&whole) }, &mut buffers(32, &ALL_DONE))
        .expect("a record");
    for (speed, list, expected) in [(4, &whole[..], 0), (4, &missing, 12), (3, &whole, 12), (3, &missing, 0)] {
        let record = Record { speed, list: list.to_vec(), ..record.clone() };
        let mut given = buffers(32, &ALL_DONE);
        given.routes[33] = record.control;
        let (_, answer) = Model.claim(&record, &Claim::default(), &mut given).expect("an answer");
        assert_eq!(answer.number, expected);
    }
}
