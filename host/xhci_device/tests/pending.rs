//! A pending call off the straight way: bring-ups of a live slot, outcomes that are not told, codes, and what `Debug` shows.

use std::num::NonZeroU8;

use xhci_device::{
    Answer, Attached, Bus, Call, Command, Dci, Due, Next, Outcome, Pending, Read, Record, SlotId, UNREADABLE,
    route_index,
};

const SLOT: SlotId = SlotId(1);

/// Configuration 1, interface 0, alternate 0 with 0x81, interrupt.
const LIST: [u32; 3] = [0x0040_0000, 0x4000_0000, 0xA384_0410];

/// Whatever is sent is done, and counted.
#[derive(Default)]
struct Device {
    sent: usize,
}

impl Bus for Device {
    fn send(&mut self, due: &Due<'_>) -> Outcome<'_> {
        self.sent += 1;
        Ok(match due.command {
            Command::ReadHeader => Read::Bytes(&[18, 1, 0, 2, 0, 0, 0, 64]),
            Command::ReadConfiguration => Read::Bytes(&[0]),
            Command::ReadDevice => Read::Bytes(&[18, 1, 0, 2, 0, 0, 0, 64, 0, 0, 0, 0, 0, 0, 0, 0, 0, 1]),
            Command::ReadConfig(_) => Read::Words(&LIST),
            _ => Read::Nothing,
        })
    }
}

struct Slot {
    record: Record,
    ctx: [u8; 1056],
    routes: [u64; 64],
}

fn attached<'a>() -> Attached<'a> {
    Attached { slot: SLOT, n: 1, speed: 3, parent: None, port: 1, root_port: 1, rings: &[0x1000, 0x2000], hubs: &[] }
}

impl Slot {
    fn new() -> Slot {
        Slot { record: Record::new(), ctx: [0; 1056], routes: [0; 64] }
    }

    fn up() -> Slot {
        let mut slot = Slot::new();
        assert_eq!(slot.run(Call::BringUp(attached()), &mut Device::default()), Answer::Accepted);
        slot
    }

    fn pending<'a>(&'a mut self, call: Call<'a>) -> (Pending<'a>, &'a mut [u64]) {
        (Pending::new(&mut self.record, &mut self.ctx, call), &mut self.routes)
    }

    fn run(&mut self, call: Call<'_>, bus: &mut Device) -> Answer {
        let (mut pending, routes) = self.pending(call);
        pending.run(routes, bus)
    }

    fn route(&self, dci: Dci) -> u64 {
        self.routes[route_index(SLOT, dci)]
    }
}

/// Over its own record: the bring-up is refused, and the device is used on and unplugged.
#[test]
fn a_live_slot_is_brought_up_again() {
    let mut slot = Slot::up();
    let before = (slot.record.clone(), slot.ctx, slot.routes);
    let mut device = Device::default();
    for (again, answer) in [
        (attached(), Answer::QueueFull),
        (Attached { slot: SlotId(2), ..attached() }, Answer::SlotLimitReached),
        (Attached { speed: 9, ..attached() }, Answer::Speed),
        (Attached { rings: &[], ..attached() }, Answer::Rings),
    ] {
        assert_eq!(slot.run(Call::BringUp(again), &mut device), answer);
        assert!((&slot.record, slot.ctx, slot.routes) == (&before.0, before.1, before.2));
    }
    assert_eq!(device.sent, 0);
    assert_eq!(slot.run(Call::Claim { interface: 0, alternate: 0 }, &mut device), Answer::Accepted);
    assert_eq!([Dci::CONTROL, Dci(3)].map(|dci| slot.route(dci)), [0x1000, 0x2000]);
    assert_eq!(slot.run(Call::Disconnect, &mut device), Answer::Accepted);
    assert!(slot.routes == [0; 64] && !slot.record.is_up());
    assert_eq!(slot.run(Call::BringUp(attached()), &mut device), Answer::Accepted);
}

/// Once a command is to be sent, the record of before is gone, as after any bring-up that is not accepted.
#[test]
fn a_bring_up_that_has_sent_makes_the_record_anew() {
    let mut slot = Slot::up();
    slot.routes = [0; 64];
    let (mut pending, routes) = slot.pending(Call::BringUp(attached()));
    assert!(matches!(pending.next(routes), Next::Send(due) if due.command == Command::Address));
    pending.outcome(Err(NonZeroU8::MIN));
    assert!(matches!(pending.next(routes), Next::Answer(Answer::Failed(1))));
    assert!(!slot.record.is_usable() && !slot.record.is_up());
}

#[test]
fn an_outcome_that_is_not_told_is_asked_for() {
    let mut slot = Slot::up();
    let (mut pending, routes) = slot.pending(Call::SetConfiguration { value: 1 });
    // Told before anything was to be sent: not taken.
    pending.outcome(Ok(Read::Nothing));
    assert!(pending.due(routes).is_none());
    let Next::Send(first) = pending.next(routes) else { panic!("a command") };
    let first = (first.command, first.ctx.to_vec());
    for _ in 0..3 {
        assert!(matches!(pending.next(routes), Next::Untold));
        let due = pending.due(routes).expect("the same command");
        assert_eq!((due.command, due.ctx.to_vec()), first);
        assert_eq!((pending.log().len(), pending.outcomes().len()), (1, 0));
    }
    let mut device = Device::default();
    assert_eq!((pending.run(routes, &mut device), device.sent), (Answer::Cut, 0));
    // Told, it goes on; told twice, the second is not taken.
    pending.outcome(Err(NonZeroU8::new(7).expect("a code")));
    pending.outcome(Ok(Read::Nothing));
    assert_eq!((pending.outcomes(), pending.due(routes).is_none()), (&[7][..], true));
    for _ in 0..2 {
        assert!(matches!(pending.next(routes), Next::Answer(Answer::Failed(7))));
    }
    assert!(pending.into_parts().0.is_usable());
}

/// A loop that tells nothing ends, and the call is cut.
#[test]
fn a_loop_that_tells_nothing_ends() {
    let mut slot = Slot::up();
    let (mut pending, routes) = slot.pending(Call::SetConfiguration { value: 1 });
    let sent = (0..100).take_while(|_| matches!(pending.next(routes), Next::Send(_))).count();
    assert_eq!(sent, 1);
    assert!(!slot.record.is_usable() && slot.record.is_up());
    assert_eq!(slot.run(Call::Disconnect, &mut Device::default()), Answer::Accepted);
}

#[test]
fn codes_are_one_to_254() {
    for (told, code) in [(1, 1), (253, 253), (254, 254), (UNREADABLE.get(), 254)] {
        let mut slot = Slot::up();
        let (mut pending, routes) = slot.pending(Call::SetConfiguration { value: 1 });
        assert!(matches!(pending.next(routes), Next::Send(_)));
        pending.outcome(Err(NonZeroU8::new(told).expect("a code")));
        assert_eq!((pending.outcomes(), pending.unreadable()), (&[code][..], None));
        assert!(matches!(pending.next(routes), Next::Answer(answer) if answer == Answer::Failed(code)));
    }
}

#[test]
fn nothing_happens_before_the_first_step() {
    let mut slot = Slot::up();
    let before = (slot.record.clone(), slot.ctx, slot.routes);
    let (pending, routes) = slot.pending(Call::SetConfiguration { value: 1 });
    assert!(pending.due(routes).is_none() && pending.log().is_empty());
    assert!((&slot.record, slot.ctx, slot.routes) == (&before.0, before.1, before.2));
}

#[test]
fn records_and_pending_calls_are_shown_by_name() {
    let mut slot = Slot::up();
    assert_eq!(
        format!("{:?}", slot.record),
        "Record { usable: true, up: true, slot: SlotId(1), n: 1, spacing: 32, port_speed: 3, \
         configuration: Some(Configuration(1)), control: 0x1000, control_revoked: false, \
         list: [0x400000, 0x40000000, 0xa3840410], endpoints: [], held: [], quarantined: [], given: [0x1000, 0x2000] }"
    );
    let (mut pending, routes) = slot.pending(Call::Release { interface: 0 });
    assert!(matches!(pending.next(routes), Next::Answer(Answer::NotClaimed)));
    assert_eq!(
        format!("{pending:?}"),
        "Pending { slot: SlotId(1), call: Release { interface: 0 }, state: Ended, \
         answered: Answered { answer: NotClaimed, count: 0 }, log: [], outcomes: [], unreadable: None, .. }"
    );
    let (mut pending, routes) = slot.pending(Call::Claim { interface: 0, alternate: 0 });
    assert!(matches!(pending.next(routes), Next::Send(_)));
    assert!(
        format!("{pending:?}")
            .contains("state: Waits(Configure), answered: Answered { answer: Cut, count: 1 }, log: [Configure]")
    );
}
