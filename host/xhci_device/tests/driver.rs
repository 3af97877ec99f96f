//! Random calls, driven command by command, leave what the library leaves when it is given everything at once,
//! whatever happens to other slots' routes in between.

mod random;

use std::num::NonZeroU8;

use random::{Device, N, ROUTES, Rng, World};
use xhci_device::{
    Answer, Answered, Attached, BringUp, Bus, Call, Command, Dci, Due, Memory, Next, Outcome, Pending, Read, Reason,
    Record, SlotId, UNREADABLE, WRITE_BYTES, route_index, write_descriptors,
};

/// The most commands that a call sends.
const COMMANDS: usize = 64;

const CALLS: u32 = 120_000;

/// The answer and the words logged.
type Told = (Answer, Vec<u32>);

/// A call with everything known, as the library takes it; but that a bring-up that sends nothing leaves the record, as driven.
fn one_shot(world: &mut World, call: &Call<'_>, device: &Device, list: &[u32], outcomes: &[u8]) -> Told {
    let mut log = [0; 64];
    let World { record, ctx, routes } = world;
    let memory = Memory { ctx, routes, log: &mut log, outcomes };
    let Answered { answer, count } = match call.clone() {
        Call::BringUp(Attached { slot, n, speed, parent, port, root_port, rings, hubs }) => {
            let (header, packet) = (device.header.len(), device.packet());
            let value = device.value.first().copied().unwrap_or(0);
            let args = BringUp { slot, n, speed, parent, port, root_port, rings, header, packet, value, hubs, list };
            let (made, answered) = Record::bring_up(memory, &args);
            if answered.count > 0 {
                *record = made;
            } else {
                assert!(made == Record::new());
            }
            answered
        }
        Call::Claim { interface, alternate } => record.claim(memory, interface, alternate),
        Call::Commit(asked) => record.commit(memory, asked),
        Call::Release { interface } => record.release(memory, interface),
        Call::SetConfiguration { value } => record.set_configuration(memory, value),
        Call::HubUpdate { ports, multi, ns } => record.hub_update(memory, ports, multi, ns),
        Call::Disconnect => record.disconnect(memory),
        _ => panic!("another call"),
    };
    (answer, log[..count].to_vec())
}

/// Whether the library takes a list at a speed.
fn is_valid(speed: u8, list: &[u32]) -> bool {
    let port = Attached { slot: SlotId(1), n: N, speed, parent: None, port: 1, root_port: 1, rings: &[16], hubs: &[] };
    let device = Device { speed, header: vec![], value: vec![], configurations: vec![] };
    let mut world = World { record: Record::new(), ctx: vec![0; 1056], routes: vec![0; ROUTES] };
    one_shot(&mut world, &Call::BringUp(port), &device, list, &[]).0 == Answer::Cut
}

/// Which command of a bring-up reads something that cannot be used, and the list as it is known before it.
fn unreadable(device: &Device) -> Option<(usize, Vec<u32>)> {
    let Device { speed, value, configurations, .. } = device;
    let is_valid = |list: &[u32]| is_valid(*speed, list);
    let count = configurations.len();
    let is_one =
        |words: &[u32]| !words.is_empty() && words.iter().enumerate().all(|(at, word)| (word >> 30 == 0) == (at == 0));
    // Address, ReadHeader, Evaluate, ReadConfiguration, ReadDevice, then the configurations.
    if value.is_empty() {
        return Some((3, vec![]));
    }
    if !is_valid(&device.list(0)) {
        return Some((4, vec![]));
    }
    let first = (0..count).find(|&i| !is_one(&configurations[i]) || !is_valid(&device.list(i + 1)))?;
    Some((5 + first, device.list(first)))
}

/// What must come out. The bus's code 255 counts as 254.
fn expected(world: &mut World, call: &Call<'_>, device: &Device, outcomes: &[u8]) -> Told {
    let mut outcomes: Vec<u8> = outcomes.iter().map(|outcome| (*outcome).min(UNREADABLE.get() - 1)).collect();
    let unreadable = if let Call::BringUp(_) = call { unreadable(device) } else { None };
    let Some((at, list)) = unreadable else {
        return one_shot(world, call, device, &device.list(device.configurations.len()), &outcomes);
    };
    if let Some(outcome) = outcomes.get_mut(at).filter(|outcome| **outcome == 0) {
        *outcome = UNREADABLE.get();
    }
    one_shot(world, call, device, &list, &outcomes)
}

/// What a command says of itself agrees with context, routes and log.
fn look_at(due: &Due<'_>, before: &[u64]) {
    let word = |at: usize| u32::from_le_bytes(due.ctx[at..at + 4].try_into().expect("four bytes"));
    let flags = |word: u32| (2..32).filter(move |dci| word & 1 << dci != 0).map(Dci);
    match due.command {
        Command::Configure => {
            assert!(due.added().eq(flags(word(4))) && due.dropped().eq(flags(word(0))));
            assert!(due.added().all(|dci| due.ring(dci) != 0 && due.ring(dci) & 15 == 0));
        }
        Command::Address => {
            assert!(due.added().eq([Dci::CONTROL]) && due.dropped().next().is_none());
            assert_eq!(due.ring(Dci::CONTROL), due.route(Dci::CONTROL));
        }
        Command::Stop(dci) | Command::Resume(dci) => assert_eq!(due.route(dci), before[route_index(due.slot, dci)]),
        _ => assert!(due.added().next().is_none() && due.dropped().next().is_none()),
    }
    assert_eq!(due.log.last(), Some(&due.command.word()));
}

fn raw(speed: u8, words: &[u32]) -> Option<Vec<u8>> {
    let mut bytes = vec![0; WRITE_BYTES];
    let count = write_descriptors(words, speed, &mut bytes).ok()?;
    bytes.truncate(count);
    Some(bytes)
}

/// Answers as the device does, with given outcomes.
struct Script<'a> {
    device: &'a Device,
    descriptor: [u8; 18],
    /// The configurations as descriptors, where they can be written.
    raw: Vec<Option<Vec<u8>>>,
    outcomes: &'a [u8],
    before: &'a [u64],
}

impl<'a> Script<'a> {
    fn new(device: &'a Device, outcomes: &'a [u8], before: &'a [u64]) -> Script<'a> {
        let raw = device.configurations.iter().map(|words| raw(device.speed, words)).collect();
        Script { device, descriptor: device.descriptor(), raw, outcomes, before }
    }

    /// In turn as words and as bytes.
    fn configuration(&self, index: usize) -> Read<'_> {
        match &self.raw[index] {
            Some(bytes) if (index + self.outcomes.len()) % 2 == 0 => Read::Bytes(bytes),
            _ => Read::Words(&self.device.configurations[index]),
        }
    }

    /// None where no outcome is left.
    fn outcome(&self, due: &Due<'_>) -> Option<Outcome<'_>> {
        look_at(due, self.before);
        let read = match due.command {
            Command::ReadHeader => Read::Bytes(&self.device.header),
            Command::ReadConfiguration => Read::Bytes(&self.device.value),
            Command::ReadDevice => Read::Bytes(&self.descriptor),
            Command::ReadConfig(index) => self.configuration(usize::from(index)),
            _ => Read::Nothing,
        };
        let outcome = self.outcomes.get(due.log.len() - 1)?;
        Some(NonZeroU8::new(*outcome).map_or(Ok(read), Err))
    }
}

impl Bus for Script<'_> {
    fn send(&mut self, due: &Due<'_>) -> Outcome<'_> {
        self.outcome(due).expect("an outcome for each command")
    }
}

/// What a driven call told, why where it has ended, and what was written in between.
type Driven = (Told, Option<Reason>, Vec<(usize, u64)>);

/// Drives a call and drops it where no outcome is left. Words of other slots are written in between.
fn drive(world: &mut World, call: &Call<'_>, mut script: Script<'_>, rng: &mut Rng) -> Driven {
    let own = match call {
        Call::BringUp(attached) => attached.slot,
        _ => world.record.slot(),
    };
    let mut written = vec![];
    let World { record, ctx, routes } = world;
    let mut pending = Pending::new(record, ctx, call.clone());
    if script.outcomes.len() == COMMANDS && rng.once_in(2) {
        let answer = pending.run(routes, &mut script);
        return ((answer, pending.log().to_vec()), pending.why(), written);
    }
    loop {
        let outcome = match pending.next(routes) {
            Next::Answer(answer) => return ((answer, pending.log().to_vec()), pending.why(), written),
            Next::Send(due) => script.outcome(&due),
            other => panic!("{other:?}"),
        };
        let Some(outcome) = outcome else {
            return ((Answer::Cut, pending.log().to_vec()), pending.why(), written);
        };
        pending.outcome(outcome);
        let at = rng.below(ROUTES);
        if at / 32 != usize::from(own.0) {
            routes[at] = rng.next();
            written.push((at, routes[at]));
        }
    }
}

/// Why the one-shot call got its answer, of a claim or a commit that a driver would have brought to its end.
fn why(world: &World, call: &Call<'_>, (answer, log): &Told, outcomes: &[u8]) -> Option<Reason> {
    let (interface, alternate) = match call {
        Call::Claim { interface, alternate } => (*interface, *alternate),
        Call::Commit(asked) => (asked.interface(), asked.alternate()),
        _ => return None,
    };
    let answered = Answered { answer: *answer, count: log.len() };
    let reason = || world.record.why(interface, alternate, answered, log, outcomes);
    (*answer != Answer::Cut).then(reason)
}

#[test]
fn driven_calls_equal_one_shot_calls() {
    let mut rng = Rng::new(0x5EED_0001);
    let (mut counts, mut sent, mut before) = ([0; 27], 0, None);
    let mut world = random::world(&mut rng);
    for _ in 0..CALLS {
        let stale = !world.record.is_usable() && !rng.once_in(4);
        if stale || rng.once_in(30) {
            world = random::world(&mut rng);
        }
        if rng.once_in(50) {
            world.routes[32 + rng.below(32)] = rng.below(2) as u64 * 0x4000;
        }
        let (rings, hubs) = (random::rings(&mut rng), random::hubs(&mut rng));
        let call = random::call(&mut rng, &world.record, &rings, &hubs);
        let speed = if let Call::BringUp(attached) = &call { attached.speed } else { 3 };
        let (device, outcomes) = (random::device(&mut rng, speed), random::outcomes(&mut rng));
        let call = random::committed(&mut rng, &world, call, &mut before);

        let (mut whole, mut steps) = (world.clone(), world.clone());
        let left = expected(&mut whole, &call, &device, &outcomes);
        let (got, reason, written) = drive(&mut steps, &call, Script::new(&device, &outcomes, &world.routes), &mut rng);
        written.iter().for_each(|&(at, word)| whole.routes[at] = word);
        assert_eq!(got, left, "{call:?}");
        assert_eq!(reason, why(&whole, &call, &left, &outcomes), "{call:?}");
        assert!(steps.record == whole.record, "{call:?}: the record");
        assert!(steps.ctx == whole.ctx, "{call:?}: the context");
        assert!(steps.routes == whole.routes, "{call:?}: the routes");
        counts[usize::from(got.0.number())] += 1;
        sent += got.1.len();
        world = steps;
    }
    println!("{CALLS} calls, {sent} commands, answers {counts:?}");
    let missing: Vec<usize> = (0..27).filter(|&number| counts[number] == 0).collect();
    let outside = "functions outside a slot have 20, 23 and 24";
    assert_eq!(missing, [3, 4, 20, 23, 24, 26], "the log is the driver's own, the list is read, and {outside}");
}

/// Configuration 1, interface 0: alternate 0 with 0x81, interrupt; alternate 1 with 0x81 and 0x02, bulk.
const LIST: [u32; 6] = [0x0040_0000, 0x4000_0000, 0xA384_0410, 0x4000_4000, 0xA384_0410, 0x8520_0000];

fn keyboard() -> Device {
    let header = vec![18, 1, 0, 2, 0, 0, 0, 64];
    Device { speed: 3, header, value: vec![1], configurations: vec![LIST.to_vec()] }
}

fn attached<'a>(slot: u8) -> Call<'a> {
    const RINGS: [[u64; 4]; 2] = [[0x1000, 0x5000, 0x5010, 0x5020], [0x2000, 0x6000, 0x6010, 0x6020]];
    Call::BringUp(Attached {
        slot: SlotId(slot),
        n: N,
        speed: 3,
        parent: None,
        port: 1,
        root_port: slot,
        rings: &RINGS[usize::from(slot) - 1],
        hubs: &[],
    })
}

fn fresh() -> World {
    World { record: Record::new(), ctx: vec![0; 1056], routes: vec![0; ROUTES] }
}

fn brought_up(world: &mut World, slot: u8) {
    let device = keyboard();
    let mut script = Script::new(&device, &[0; COMMANDS], &[]);
    let answer = Pending::new(&mut world.record, &mut world.ctx, attached(slot)).run(&mut world.routes, &mut script);
    assert_eq!(answer, Answer::Accepted);
    assert!(world.record.is_usable() && world.record.list().eq(LIST));
}

/// A command as `next` names it, told as done.
fn step(pending: &mut Pending<'_>, routes: &mut [u64]) -> Option<Command> {
    let Next::Send(due) = pending.next(routes) else { return None };
    let command = due.command;
    pending.outcome(Ok(Read::Nothing));
    Some(command)
}

#[test]
fn two_slots_take_turns_over_one_table() {
    let (mut one, mut two) = (fresh(), fresh());
    brought_up(&mut one, 1);
    two.routes = one.routes;
    brought_up(&mut two, 2);
    let mut routes = two.routes;
    let claim = Call::Claim { interface: 0, alternate: 1 };
    let mut first = Pending::new(&mut one.record, &mut one.ctx, claim.clone());
    let mut second = Pending::new(&mut two.record, &mut two.ctx, claim);
    for command in [Command::Configure, Command::SetInterface { interface: 0, alternate: 1 }] {
        assert_eq!(step(&mut first, &mut routes), Some(command));
        assert_eq!(step(&mut second, &mut routes), Some(command));
    }
    assert_eq!((step(&mut first, &mut routes), step(&mut second, &mut routes)), (None, None));
    for (slot, base) in [(1, 0x5000), (2, 0x6000)] {
        let own = &routes[32 * slot..32 * slot + 32];
        assert_eq!((own[1], own[3], own[4]), (0x1000 * slot as u64, base, base + 16));
    }
    assert!(first.record().is_usable() && second.record().is_usable());
}

#[test]
fn a_table_of_another_length_leaves_the_call_cut() {
    let mut world = fresh();
    brought_up(&mut world, 1);
    let mut cut = world.clone();
    let call = Call::SetConfiguration { value: 1 };
    assert_eq!(one_shot(&mut cut, &call, &keyboard(), &[], &[]).0, Answer::Cut);
    let World { record, ctx, routes } = &mut world;
    let mut pending = Pending::new(record, ctx, call);
    assert_eq!(step(&mut pending, routes), Some(Command::Configure));
    assert!(matches!(pending.next(&mut routes[..32]), Next::Answer(Answer::RoutesLength)));
    assert!(matches!(pending.next(routes), Next::Answer(Answer::RoutesLength)));
    assert!(world.record == cut.record && world.ctx == cut.ctx && world.routes == cut.routes);
    assert!(!world.record.is_usable());
}
