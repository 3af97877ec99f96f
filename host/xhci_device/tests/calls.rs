//! A device with one interface, brought up and used; and words that are no record.

use xhci_device::{Answer, Answered, BringUp, Configuration, Dci, Hub, Memory, Record, Setting, SlotId, route_index};

const SLOT: SlotId = SlotId(1);

/// Configuration 1, interface 0: alternate 0 with 0x81, interrupt; alternate 1 without endpoints.
const LIST: [u32; 4] = [1 << 22, 1 << 30, 2 << 30 | 1 << 29 | 1 << 25 | 3 << 23 | 64 << 12 | 4 << 2, 1 << 30 | 1 << 14];

struct Room {
    ctx: [u8; 1056],
    routes: [u64; 96],
    log: [u32; 64],
}

impl Room {
    fn new() -> Room {
        Room { ctx: [0; 1056], routes: [0; 96], log: [0; 64] }
    }

    fn memory<'a>(&'a mut self, outcomes: &'a [u8]) -> Memory<'a> {
        Memory { ctx: &mut self.ctx, routes: &mut self.routes, log: &mut self.log, outcomes }
    }

    fn route(&self, dci: Dci) -> u64 {
        self.routes[route_index(SLOT, dci)]
    }
}

fn told(answer: Answer, count: usize) -> Answered {
    Answered { answer, count }
}

fn device<'a>() -> BringUp<'a> {
    BringUp {
        slot: SLOT,
        n: 2,
        speed: 3,
        parent: None,
        port: 1,
        root_port: 1,
        rings: &[0x3000, 0x1000, 0x2000],
        header: 8,
        packet: 64,
        value: 0,
        hubs: &[],
        list: &LIST,
    }
}

#[test]
fn a_device_is_brought_up_and_used() {
    let mut room = Room::new();
    let (mut record, Answered { answer, count }) = Record::bring_up(room.memory(&[0; 16]), &device());
    assert_eq!(answer, Answer::Accepted);
    assert!(count > 0 && record.is_usable() && record.is_sound());
    assert_eq!(record.slot(), SLOT);
    assert_eq!(record.configuration(), Some(Configuration(1)));
    assert!(record.list().eq(LIST));
    assert_eq!(room.route(Dci::CONTROL), record.control());

    assert_eq!(record.claim(room.memory(&[0; 16]), 0, 0).answer, Answer::Accepted);
    assert!(record.held().eq([Setting { interface: 0, alternate: 0 }]));
    let endpoint = record.endpoints().next().expect("an endpoint");
    assert_eq!((endpoint.address, endpoint.interface, endpoint.dci()), (0x81, 0, Dci(3)));
    assert_eq!(room.route(Dci(3)), 0x2000);
    assert!(record.given().len() == 3 && record.free().eq([0x3000]));

    assert_eq!(record.claim(room.memory(&[0, 0, 7, 0, 0]), 0, 1), told(Answer::Failed(7), 5));
    assert_eq!(room.log[..5], [0x40300000, 0x30000000, 0x60001000, 0x30000000, 0x60000000]);
    assert!(record.held().eq([Setting { interface: 0, alternate: 0 }]));

    let (before, row) = (record.clone(), room.routes);
    for interface in [1, 9] {
        assert_eq!(record.release(room.memory(&[0; 16]), interface), told(Answer::NotClaimed, 0));
    }
    assert!(record == before && room.routes == row);
    let Answered { answer, .. } = record.release(room.memory(&[0; 16]), 0);
    assert_eq!((answer, room.route(Dci(3))), (Answer::Accepted, 0));
    assert_eq!(record.release(room.memory(&[0; 16]), 0), told(Answer::NotClaimed, 0));
    assert_eq!(record.hub_update(room.memory(&[0]), 4, false, 666).answer, Answer::Accepted);
    assert_eq!(record.set_configuration(room.memory(&[]), 1).answer, Answer::Cut);
    assert!(!record.is_usable());
    assert_eq!(record.release(room.memory(&[0; 16]), 0), told(Answer::Unusable, 0));

    assert!(record.is_up());
    assert_eq!(record.disconnect(room.memory(&[0, 9])), told(Answer::InterfaceBroken, 2));
    assert_eq!(room.log[..2], [0x40100000, 0xC0000000]);
    assert!(record.is_up() && record.quarantined().eq([0x1000]) && record.control_revoked());
    assert_eq!(record.disconnect(room.memory(&[9, 0])), told(Answer::Accepted, 2));
    assert!(!record.is_up() && record.quarantined().eq([0x1000]) && record.is_sound());
    assert!(room.routes.iter().all(|ring| *ring == 0));
    assert_eq!(record.disconnect(room.memory(&[0, 0])), told(Answer::Unusable, 0));
}

/// Of a claim that is cut once its Configure was sent, and of a set configuration that breaks after it has ended a setting.
#[test]
fn rings_in_doubt_are_quarantined() {
    let mut room = Room::new();
    let (up, _) = Record::bring_up(room.memory(&[0; 16]), &device());
    let mut held = up.clone();
    assert_eq!(held.claim(room.memory(&[0; 16]), 0, 0).answer, Answer::Accepted);
    let row = room.routes;
    for (outcomes, lost) in [(&[][..], false), (&[0], true), (&[0, 0], true)] {
        let mut record = held.clone();
        assert_eq!(record.claim(room.memory(outcomes), 0, 0).answer, Answer::Cut);
        assert!(record.quarantined().eq(lost.then_some(0x3000)) && record.free().eq((!lost).then_some(0x3000)));
        assert_eq!(record.disconnect(room.memory(&[0; 3])).answer, Answer::Accepted);
        room.routes = row;
    }
    let mut record = held;
    assert_eq!(record.set_configuration(room.memory(&[0, 0, 0, 9]), 1).answer, Answer::InterfaceBroken);
    assert!(record.quarantined().eq([0x2000]) && record.free().eq([0x3000]) && record.is_sound());
    assert_eq!(record.endpoints().count(), 0);
}

#[test]
fn a_refused_bring_up_leaves_an_empty_record() {
    let mut room = Room::new();
    let (record, answered) = Record::bring_up(room.memory(&[0; 16]), &BringUp { speed: 6, ..device() });
    assert_eq!(answered, told(Answer::Speed, 0));
    assert!(!record.is_usable() && !record.is_sound());
    assert_eq!((record.slot(), record.list().len()), (SlotId(0), 0));
}

/// Control has the lowest ring that the slot is given, and a claim draws the lowest of the others, if there are enough.
#[test]
fn rings_are_given_and_drawn() {
    let bring_up = |rings: &[u64]| Record::bring_up(Room::new().memory(&[0; 16]), &BringUp { rings, ..device() });
    let many: Vec<u64> = (1..=65).map(|at| 16 * at).collect();
    for rings in [&[][..], &many, &[0x1000, 0x1000], &[0x1000, 0], &[0x1000, 0x1008]] {
        let (record, Answered { answer, .. }) = bring_up(rings);
        assert_eq!((answer, record.given().len()), (Answer::Rings, 0));
    }
    let (record, Answered { answer, .. }) = bring_up(&many[..64]);
    assert_eq!((answer, record.control(), record.given().len(), record.free().count()), (Answer::Accepted, 16, 64, 63));

    let mut room = Room::new();
    let (mut record, _) = Record::bring_up(room.memory(&[0; 16]), &BringUp { rings: &[0x20, 0x10], ..device() });
    assert_eq!(record.claim(room.memory(&[0; 16]), 0, 0).answer, Answer::Accepted);
    assert_eq!((room.route(Dci::CONTROL), room.route(Dci(3)), record.free().count()), (0x10, 0x20, 0));
    // The old setting's ring is live while the new one's is drawn.
    assert_eq!(record.claim(room.memory(&[0; 16]), 0, 0), told(Answer::TooFewRings, 0));
    assert_eq!(record.release(room.memory(&[0; 16]), 0).answer, Answer::Accepted);
    assert_eq!(record.claim(room.memory(&[0; 16]), 0, 0).answer, Answer::Accepted);
}

/// An ask changes nothing and shows what the claim would do; its commit does that, as long as it would be shown again.
#[test]
fn an_ask_is_committed() {
    let mut room = Room::new();
    let (mut record, _) = Record::bring_up(room.memory(&[0; 16]), &device());
    let ask = |record: &Record, room: &Room, alternate| record.ask(&room.ctx, &room.routes, &room.log, 0, alternate);
    let (before, row) = (record.clone(), room.routes);
    let first = ask(&record, &room, 0).expect("an accepted ask");
    assert!(record == before && room.routes == row);
    assert_eq!(record.ask_driven(&room.ctx, &room.routes, 0, 0).as_ref(), Ok(&first));
    assert_eq!((first.interface(), first.alternate(), first.rings()), (0, 0, &[0x2000][..]));
    assert_eq!((first.drop_flags(), first.add_flags()), (0, 1 << 3));
    assert_eq!(ask(&record, &room, 9), Err(Answer::NotFound));
    assert_eq!(record.ask(&[], &room.routes, &room.log, 0, 0), Err(Answer::ContextLength));
    assert_eq!(record.ask(&room.ctx, &[], &room.log, 0, 0), Err(Answer::RoutesLength));
    assert_eq!(record.ask(&room.ctx, &room.routes, &[], 0, 0), Err(Answer::LogTooShort));
    assert_eq!(record.ask_driven(&room.ctx, &[], 0, 0), Err(Answer::RoutesLength));

    assert_eq!(record.commit(room.memory(&[0; 16]), first.clone()).answer, Answer::Accepted);
    assert_eq!(room.route(Dci(3)), 0x2000);
    assert_eq!(record.commit(room.memory(&[0; 16]), first), told(Answer::OutdatedAsk, 0));
    let second = ask(&record, &room, 1).expect("an accepted ask");
    assert!(second.dropped().eq([Dci(3)]) && second.added().next().is_none() && second.rings().is_empty());
    assert_eq!(record.commit(room.memory(&[0; 16]), second).answer, Answer::Accepted);
    assert!(record.held().eq([Setting { interface: 0, alternate: 1 }]));
}

#[test]
fn a_hub_that_is_told_wrong_is_refused() {
    let root = Hub { parent: None, slot: SlotId(0), depth: -1, speed: 3, port: 0, multi: false };
    let hub = Hub { parent: Some(0), slot: SlotId(2), depth: 0, speed: 3, port: 4, multi: true };
    let answer = |hub: Hub| {
        let hubs = [root.word(), hub.word()];
        Record::bring_up(Room::new().memory(&[0; 16]), &BringUp { parent: Some(1), hubs: &hubs, ..device() }).1.answer
    };
    assert_eq!(answer(hub), Answer::Accepted);
    for speed in [0, 6, 9, 11, 255] {
        assert_eq!(answer(Hub { speed, ..hub }), Answer::HubChain, "speed {speed}");
    }
    for depth in [-128, -2, 1, 7, 8, 127] {
        assert_eq!(answer(Hub { depth, ..hub }), Answer::HubChain, "depth {depth}");
    }
    assert_eq!(answer(Hub { parent: None, ..hub }), Answer::HubChain);
}

/// Words of an image that no record has, and a count beyond its array.
#[cfg(feature = "words")]
#[test]
fn words_that_are_no_record_are_refused() {
    use xhci_device::layout::*;
    let mut room = Room::new();
    let (sound, _) = Record::bring_up(room.memory(&[0; 16]), &device());
    // The first and the last flag, byte and descriptor word; then the counts.
    let wide =
        [(UP, 2), (USABLE, 2), (SLOT - 1, 2), (SLOT, 256), (LIST - 1, 256), (LIST, 1 << 32), (SPACING - 1, 1 << 32)];
    let rooms = [(LIST_LEN, LIST_ROOM), (EP_COUNT, EP_ROOM), (HELD_COUNT, HELD_ROOM), (QUARANTINED_COUNT, RING_ROOM)];
    let rooms = rooms.into_iter().chain([(GIVEN_COUNT, GIVEN_ROOM)]);
    let many = rooms.map(|(at, room)| (at, room as u64 + 1));
    for (at, word) in wide.into_iter().chain(many).chain([(QUARANTINED_COUNT, u64::MAX), (EP_COUNT, u64::MAX)]) {
        let mut words = *sound.words();
        words[at] = word;
        let mut record = Record::from_words(words);
        assert!(!record.is_sound(), "word {at}");
        let (ctx, routes) = (room.ctx, room.routes);
        assert_eq!(record.set_configuration(room.memory(&[0; 16]), 1), told(Answer::Unusable, 0), "word {at}");
        assert_eq!((record.words(), room.ctx, room.routes), (&words, ctx, routes), "word {at}");
        let read = (record.list().count(), record.endpoints().count(), record.held().count());
        assert!(read <= (LIST_ROOM, EP_ROOM, HELD_ROOM) && record.quarantined().count() <= RING_ROOM);
        assert!(record.given().count() <= GIVEN_ROOM && record.free().count() <= GIVEN_ROOM);
    }
}
