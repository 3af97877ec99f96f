//! Thirty-two devices on a scripted bus, their calls through one dispatcher over one table: each slot is left as it is when
//! its calls are driven alone.

use std::num::NonZeroU8;

use xhci_device::{
    Answer, Attached, Bus, Call, Command, Dispatcher, Due, MOST_SLOTS, Outcome, Pending, Read, Record, SlotId,
    SubmitRefusal, Waiting,
};

const N: usize = 40;

/// Calls of each slot.
const CALLS: usize = 25;

/// Configuration 1, interface 0: alternate 0 with 0x81, interrupt; alternate 1 with 0x81 and 0x02, bulk.
const LIST: [u32; 6] = [0x0040_0000, 0x4000_0000, 0xA384_0410, 0x4000_4000, 0xA384_0410, 0x8520_0000];

const DESCRIPTOR: [u8; 18] = [18, 1, 0, 2, 0, 0, 0, 64, 0x34, 0x12, 1, 0, 0, 1, 0, 0, 0, 1];

const RINGS: [[u64; 6]; N + 1] = {
    let mut rings = [[0; 6]; N + 1];
    let mut at = 0;
    while at < 6 * (N + 1) {
        rings[at / 6][at % 6] = 0x1000 + 16 * at as u64;
        at += 1;
    }
    rings
};

/// A number that is always the same of these two.
fn any(slot: u8, count: usize) -> usize {
    let mixed = (u64::from(slot) << 32 | count as u64).wrapping_mul(0x9E37_79B9_7F4A_7C15);
    ((mixed ^ mixed >> 29).wrapping_mul(0xBF58_476D_1CE4_E5B9) >> 40) as usize
}

/// The same device on each slot. Once it is up, what fails depends on how many commands the slot was sent.
struct Devices {
    sent: [usize; N + 1],
}

impl Bus for Devices {
    fn send(&mut self, due: &Due<'_>) -> Outcome<'_> {
        let (slot, sent) = (due.slot.0, &mut self.sent[usize::from(due.slot.0)]);
        *sent += 1;
        if due.record.is_up() && any(slot, *sent) % 9 == 0 {
            return Err(NonZeroU8::MIN);
        }
        Ok(match due.command {
            Command::ReadHeader => Read::Bytes(&DESCRIPTOR[..8]),
            Command::ReadConfiguration => Read::Bytes(&[1]),
            Command::ReadDevice => Read::Bytes(&DESCRIPTOR),
            Command::ReadConfig(_) => Read::Words(&LIST),
            _ => Read::Nothing,
        })
    }
}

fn call<'a>(slot: u8, count: usize, record: &Record) -> Call<'a> {
    if !record.is_up() {
        let (slot, rings) = (SlotId(slot), &RINGS[usize::from(slot)]);
        return Call::BringUp(Attached { slot, n: N, speed: 3, parent: None, port: 1, root_port: 1, rings, hubs: &[] });
    }
    if !record.is_usable() {
        return Call::Disconnect;
    }
    match any(slot, 1000 + count) % 7 {
        0 => Call::Release { interface: 0 },
        1 => Call::SetConfiguration { value: 1 },
        2 => Call::HubUpdate { ports: slot, multi: false, ns: 666 },
        3 => Call::Disconnect,
        at => Call::Claim { interface: 0, alternate: (at % 2) as u8 },
    }
}

/// What a slot's calls leave: their answers, the record, the context and the slot's words.
#[derive(Clone, PartialEq)]
struct Left {
    answers: Vec<Answer>,
    record: Record,
    ctx: Vec<u8>,
    row: Vec<u64>,
}

fn alone(slot: u8) -> Left {
    let (mut record, mut ctx, mut routes) = (Record::new(), vec![0; 1056], vec![0; 32 * (N + 1)]);
    let mut bus = Devices { sent: [0; N + 1] };
    let drive = |count| {
        let call = call(slot, count, &record);
        Pending::new(&mut record, &mut ctx, call).run(&mut routes, &mut bus)
    };
    let answers = (0..CALLS).map(drive).collect();
    let row = routes[32 * usize::from(slot)..][..32].to_vec();
    Left { answers, record, ctx, row }
}

#[test]
fn thirty_two_devices_behind_one_dispatcher() {
    let slots: Vec<u8> = (1..=MOST_SLOTS as u8).map(|at| at + at / 6).collect();
    let mut homes: Vec<(Record, Vec<u8>)> = slots.iter().map(|_| (Record::new(), vec![0; 1056])).collect();
    let (mut routes, mut bus) = (vec![0; 32 * (N + 1)], Devices { sent: [0; N + 1] });
    let mut answers = vec![Vec::new(); N + 1];
    // How many were started before a waiting call was submitted, and the most others before a start.
    let (mut before, mut most) = ([0; N + 1], 0);
    let mut dispatcher = Dispatcher::new();
    for (slot, (record, ctx)) in slots.iter().zip(&mut homes).rev() {
        let call = call(*slot, 0, record);
        assert!(dispatcher.submit(Waiting { record, ctx, call }).is_ok());
    }
    for started in 0.. {
        let Some(ran) = dispatcher.turn(&mut routes, &mut bus) else { break };
        let at = usize::from(ran.slot.0);
        most = most.max(started - before[at]);
        answers[at].push(ran.answer);
        before[at] = started + 1;
        if answers[at].len() < CALLS {
            let call = call(ran.slot.0, answers[at].len(), ran.record);
            let waiting = Waiting { record: ran.record, ctx: ran.ctx, call };
            assert_eq!(waiting.slot(), ran.slot);
            assert!(dispatcher.submit(waiting).is_ok());
        }
    }
    assert_eq!(most, 31);
    let mut met = Vec::new();
    for (slot, (record, ctx)) in slots.iter().zip(homes) {
        let row = routes[32 * usize::from(*slot)..][..32].to_vec();
        let left = Left { answers: answers[usize::from(*slot)].clone(), record, ctx, row };
        assert!(left == alone(*slot), "slot {slot}");
        met.extend(left.answers.iter().map(|answer| answer.number()));
    }
    assert!([0, 13, 14, 25].iter().all(|number| met.contains(number)));
}

/// Refused calls are given back, and change nothing.
#[test]
fn what_may_not_wait_is_given_back() {
    let mut homes: Vec<(Record, [u8; 1056])> = (0..=MOST_SLOTS).map(|_| (Record::new(), [0; 1056])).collect();
    let (mut other, mut context) = (Record::new(), [0; 1056]);
    let mut dispatcher = Dispatcher::new();
    let mut last = None;
    for (slot, (record, ctx)) in (1..).zip(&mut homes) {
        let call = call(slot, 0, record);
        last = dispatcher.submit(Waiting { record, ctx, call }).err();
        assert_eq!(last.is_some(), usize::from(slot) > MOST_SLOTS);
    }
    let (refusal, Waiting { record, ctx, .. }) = last.expect("the thirty-third slot is refused");
    assert_eq!(refusal, SubmitRefusal::TooManySlots);
    let again = Waiting { record, ctx, call: call(5, 0, &Record::new()) };
    let (refusal, again) = dispatcher.submit(again).expect_err("slot 5 waits");
    assert_eq!((refusal, again.slot()), (SubmitRefusal::AlreadyWaiting, SlotId(5)));
    let slots: Vec<u8> = std::iter::from_fn(|| dispatcher.next().map(|call| call.slot().0)).collect();
    assert!(slots.into_iter().eq(1..=MOST_SLOTS as u8));
    // A slot that was taken may wait again; one that was refused was not.
    assert!(dispatcher.submit(again).is_ok());
    let call = call(33, 0, &Record::new());
    let refused = dispatcher.submit(Waiting { record: &mut other, ctx: &mut context, call });
    assert_eq!(refused.map_err(|refused| refused.0).unwrap_err(), SubmitRefusal::TooManySlots);
    assert_eq!(dispatcher.next().map(|call| call.slot()), Some(SlotId(5)));
    assert!(dispatcher.next().is_none());
}
