//! docs/INTEGRATION.md, "The life of a record": no call recovers a slot whose bring-up failed, clearing its words does; a lost
//! record is recovered by the unplugging.
#![forbid(unsafe_code)]

use library::Library;
use scenario::*;

const SLOT: usize = 1;

const RINGS: [u64; 2] = [0x1000, 0x2000];

fn bring_up() -> BringUp {
    let list = vec![0x0040_0000, 0x4000_0000, 0xA384_0410];
    BringUp {
        slot: SLOT as u8,
        n: 2,
        speed: 3,
        rings: RINGS.to_vec(),
        header: 8,
        packet: 64,
        list,
        ..BringUp::default()
    }
}

fn buffers(routes: &[u64], outcomes: &[u8]) -> Buffers {
    Buffers { ctx: vec![0; 1056], routes: routes.to_vec(), log: vec![0; 64], outcomes: outcomes.to_vec() }
}

/// Record, answer and routes of a bring-up.
fn bring_up_over(routes: &[u64], args: &BringUp, outcomes: &[u8]) -> (Record, u8, Vec<u64>) {
    let mut buffers = buffers(routes, outcomes);
    let (record, answer) = Library.bring_up(args, &mut buffers).expect("an answer");
    (record, answer.number, buffers.routes)
}

/// Every call on a record is refused with 12, and changes nothing.
fn refuses_all(record: &Record, routes: &[u64]) {
    let calls = [
        Call::Claim(Claim { interface: 0, alternate: 0 }),
        Call::Release { interface: 0 },
        Call::SetConfiguration { value: 1 },
        Call::HubUpdate(HubUpdate { ports: 4, ..HubUpdate::default() }),
    ];
    for call in calls.into_iter().chain((!record.up).then_some(Call::Disconnect)) {
        let mut given = buffers(routes, &[0; 64]);
        let (after, answer) = Library.call(record, &call, &mut given).expect("an answer");
        assert_eq!((answer.number, &after, &given), (12, record, &buffers(routes, &[0; 64])));
    }
}

fn clear(routes: &mut [u64]) {
    routes[32 * SLOT..32 * SLOT + 32].fill(0);
}

#[test]
fn a_failed_bring_up_is_cleared_by_the_firmware() {
    let short = BringUp { header: 7, ..bring_up() };
    let no_exponent = BringUp { speed: 4, packet: 8, list: Vec::new(), ..bring_up() };
    let failed: [(&BringUp, &[u8], u8); 5] = [
        (&bring_up(), &[0, 0, 0, 7], 13),
        (&bring_up(), &[0, 0, 0, 0, 0, 0, 0, 7, 5], 14),
        (&bring_up(), &[0, 0], 15),
        (&short, &[0; 64], 16),
        (&no_exponent, &[0; 64], 19),
    ];
    for (args, outcomes, number) in failed {
        let (record, answer, mut routes) = bring_up_over(&[0; 96], args, outcomes);
        assert_eq!((answer, record.usable, record.up, routes[32 * SLOT + 1]), (number, false, false, 0x1000));
        refuses_all(&record, &routes);
        assert_eq!(bring_up_over(&routes, &bring_up(), &[0; 64]).1, 17);
        clear(&mut routes);
        assert_eq!(bring_up_over(&routes, &bring_up(), &[0; 64]).1, 0);
    }
}

/// A refused bring-up returns an empty record, also on a slot that is in use.
#[test]
fn a_refused_bring_up_returns_an_empty_record() {
    let (record, _, routes) = bring_up_over(&[0; 96], &bring_up(), &[0; 64]);
    assert!(record.usable);
    let (second, answer, after) = bring_up_over(&routes, &bring_up(), &[0; 64]);
    assert_eq!((answer, second, after), (17, Record::default(), routes));
}

/// After 14 and 15 of a later call the record is lost; the unplugging clears the words, and the slot begins anew. It may
/// be repeated until its Disable is done.
#[test]
fn a_lost_record_is_unplugged() {
    for (outcomes, number) in [(&[0, 7, 5][..], 14), (&[0][..], 15)] {
        let (record, _, routes) = bring_up_over(&[0; 96], &bring_up(), &[0; 64]);
        let mut given = buffers(&routes, outcomes);
        let claim = Claim { interface: 0, alternate: 0 };
        let (lost, answer) = Library.claim(&record, &claim, &mut given).expect("an answer");
        assert_eq!((answer.number, lost.usable), (number, false));
        refuses_all(&lost, &given.routes);
        let (mut record, mut routes) = (lost, given.routes);
        for (outcomes, number) in [(&[0, 9][..], 14), (&[0][..], 15), (&[9, 0][..], 0), (&[0, 0][..], 12)] {
            let mut given = buffers(&routes, outcomes);
            let (after, answer) = Library.disconnect(&record, &mut given).expect("an answer");
            assert_eq!((answer.number, after.up), (number, number == 14 || number == 15));
            (record, routes) = (after, given.routes);
        }
        refuses_all(&record, &routes);
        assert_eq!(bring_up_over(&routes, &bring_up(), &[0; 64]).1, 0);
    }
}
