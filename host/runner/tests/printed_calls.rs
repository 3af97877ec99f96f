//! A pending call, printed at any moment, is a scenario that the library answers as the call has so far.

#[path = "../../xhci_device/tests/random/mod.rs"]
#[allow(dead_code, reason = "the binding's own tests use the rest")]
mod random;

use std::num::NonZeroU8;
use std::ops::Range;

use library::{Library, words};
use random::{Device, Rng, World};
use scenario::{Scenario, Session, Step, parse};
use xhci_device::layout::{
    EP_COUNT, EP_ROOM, GIVEN_COUNT, GIVEN_ROOM, HELD_COUNT, HELD_ROOM, LIST_LEN, LIST_ROOM, QUARANTINED_COUNT,
    RING_ROOM, UP, WORDS,
};
use xhci_device::{Answer, Call, Command, Next, Outcome, Pending, Read, Record, WRITE_BYTES, write_descriptors};

/// Of each thread.
const CALLS: u32 = 3000;
const SEEDS: [u64; 4] = [0x5EED_0003, 0x5EED_0004, 0x5EED_0005, 0x5EED_0006];

/// By the answers' numbers, how many steps had them.
type Counts = [u32; 27];

/// A pending call with what it began with.
struct Printed<'a> {
    pending: Pending<'a>,
    own: Range<usize>,
    brings_up: bool,
    before: Record,
    lent: Vec<u8>,
}

/// The only call of the printed text.
fn read(pending: &Pending<'_>) -> Step {
    let text = pending.scenario().to_string();
    let mut contents = parse(&text).unwrap_or_else(|malformed| panic!("{malformed:?}\n{text}"));
    assert_eq!((contents.scenarios.len(), contents.dispatched.len(), contents.cases.len()), (1, 0, 0));
    let Scenario { name, mut steps } = contents.scenarios.remove(0);
    assert_eq!((name.as_str(), steps.len()), ("pending", 1));
    steps.remove(0)
}

/// Whether the counts of a record fit its arrays: one whose counts do not is printed as unusable.
fn fits(record: &Record) -> bool {
    let rooms = [
        (LIST_LEN, LIST_ROOM),
        (EP_COUNT, EP_ROOM),
        (HELD_COUNT, HELD_ROOM),
        (QUARANTINED_COUNT, RING_ROOM),
        (GIVEN_COUNT, GIVEN_ROOM),
    ];
    rooms.iter().all(|(at, room)| record.words()[*at] <= *room as u64)
}

impl<'a> Printed<'a> {
    fn new(record: &'a mut Record, ctx: &'a mut [u8], call: Call<'a>) -> Printed<'a> {
        let (slot, brings_up) = match &call {
            Call::BringUp(attached) => (attached.slot, true),
            _ => (record.slot(), false),
        };
        let first = 32 * usize::from(slot.0);
        let (before, lent) = (record.clone(), ctx.to_vec());
        Printed { pending: Pending::new(record, ctx, call), own: first..first + 32, brings_up, before, lent }
    }

    /// The call has answered so, with these routes.
    fn check(&self, answer: Answer, routes: &[u64]) {
        let Printed { pending, own, brings_up, before, lent } = self;
        let step = read(pending);
        assert!(step.ctx == *lent && (*brings_up || !fits(before) || step.record == Some(words::record(before))));
        let left = Session::new().run(&mut Library, &step).expect("an answer");
        let count = pending.log().len();
        let told = scenario::Answer { number: answer.number(), code: answer.code(), count };
        assert_eq!(left.answer, told, "{pending:?}\n{}", pending.scenario());
        assert_eq!(&left.log[..count], pending.log());
        assert!(left.ctx == pending.ctx(), "{pending:?}: the context");
        assert!(left.table.get(own.clone()) == routes.get(own.clone()), "{pending:?}: the routes");
        if *brings_up && count == 0 {
            assert!(left.record == scenario::Record::default() && pending.record() == before, "{pending:?}");
        } else if fits(before) {
            assert_eq!(left.record, words::record(pending.record()), "{pending:?}");
        }
    }
}

/// A configuration in turn as bytes, where they can be written, and as words.
fn configuration<'a>(device: &'a Device, index: usize, bytes: &'a mut [u8]) -> Read<'a> {
    let words = &device.configurations[index];
    match write_descriptors(words, device.speed, bytes) {
        Ok(count) if index % 2 == 0 => Read::Bytes(&bytes[..count]),
        _ => Read::Words(words),
    }
}

/// What a device sends for a command, unless the command fails.
fn outcome<'a>(device: &'a Device, command: Command, outcome: u8, bytes: &'a mut [u8]) -> Outcome<'a> {
    if let Some(code) = NonZeroU8::new(outcome) {
        return Err(code);
    }
    Ok(match command {
        Command::ReadHeader => Read::Bytes(&device.header),
        Command::ReadConfiguration => Read::Bytes(&device.value),
        Command::ReadDevice => {
            bytes[..18].copy_from_slice(&device.descriptor());
            Read::Bytes(&bytes[..18])
        }
        Command::ReadConfig(index) => configuration(device, index.into(), bytes),
        _ => Read::Nothing,
    })
}

/// Drives a call, and prints it at every step. The answers of its steps.
fn drive(world: &mut World, call: Call<'_>, device: &Device, outcomes: &[u8], rng: &mut Rng) -> Vec<Answer> {
    let World { record, ctx, routes } = world;
    let (mut bytes, mut answers) = ([0; WRITE_BYTES], vec![]);
    let mut printed = Printed::new(record, ctx, call);
    loop {
        let command = match printed.pending.next(routes) {
            Next::Send(due) => due.command,
            Next::Answer(answer) => {
                printed.check(answer, routes);
                answers.push(answer);
                return answers;
            }
            other => panic!("{other:?}"),
        };
        printed.check(Answer::Cut, routes);
        answers.push(Answer::Cut);
        let Some(told) = outcomes.get(printed.pending.outcomes().len()) else { return answers };
        printed.pending.outcome(outcome(device, command, *told, &mut bytes));
        // An outcome that was told counts from the next step on.
        if rng.once_in(4) {
            printed.check(Answer::Cut, routes);
        }
        if rng.once_in(60) {
            assert!(matches!(printed.pending.next(&mut routes[..32]), Next::Answer(Answer::RoutesLength)));
            printed.check(Answer::Cut, routes);
            return answers;
        }
        let at = rng.below(routes.len());
        if !printed.own.contains(&at) {
            routes[at] = rng.next();
        }
    }
}

/// A record with one word that is not its own. (A record that is usable and not up cannot be written.)
fn spoilt(rng: &mut Rng, record: &Record) -> Record {
    let mut words = *record.words();
    let at = rng.below(WORDS);
    if at != UP {
        words[at] = rng.of(&[0, 1, 2, 3, 31, 62, 255, 256, 257, 1 << 32, 0x1000, 0x3010, u64::MAX]);
    }
    Record::from_words(words)
}

/// The world before the next call: another one, or one that others have written to.
fn change(world: &mut World, rng: &mut Rng) {
    if !world.record.is_usable() && !rng.once_in(4) || rng.once_in(30) {
        *world = random::world(rng);
    }
    if rng.once_in(30) {
        world.record = spoilt(rng, &world.record);
    }
    if rng.once_in(30) {
        world.routes[32 + rng.below(32)] = rng.below(2) as u64 * 0x4000;
    }
    // Calls are mostly lent a blank context.
    if !rng.once_in(3) {
        world.ctx.fill(0);
    }
}

fn driven(seed: u64) -> Counts {
    let mut rng = Rng::new(seed);
    let (mut counts, mut before) = ([0; 27], None);
    let mut world = random::world(&mut rng);
    for _ in 0..CALLS {
        change(&mut world, &mut rng);
        let (rings, hubs) = (random::rings(&mut rng), random::hubs(&mut rng));
        let call = random::call(&mut rng, &world.record, &rings, &hubs);
        let speed = if let Call::BringUp(attached) = &call { attached.speed } else { 3 };
        let (device, outcomes) = (random::device(&mut rng, speed), random::outcomes(&mut rng));
        let call = random::committed(&mut rng, &world, call, &mut before);
        for answer in drive(&mut world, call, &device, &outcomes, &mut rng) {
            counts[usize::from(answer.number())] += 1;
        }
    }
    counts
}

#[test]
fn printed_calls_are_replayed() {
    let threads = SEEDS.map(|seed| std::thread::spawn(move || driven(seed)));
    let counts = threads.map(|thread| thread.join().expect("no fault")).iter().fold([0; 27], |mut all, counts| {
        all.iter_mut().zip(counts).for_each(|(all, count)| *all += count);
        all
    });
    println!("{} calls, {} steps, answers {counts:?}", 4 * CALLS, counts.iter().sum::<u32>());
    let missing: Vec<usize> = (0..27).filter(|&number| counts[number] == 0).collect();
    assert_eq!(missing, [3, 4, 20, 23, 24, 26], "the log is the driver's own, and the list is read");
}
