//! Why claims get their answers, at once and driven; and endpoints' blocks.

use std::num::NonZeroU8;

use xhci_device::{
    Answer, Answered, BlockRefusal, BringUp, Bus, Call, Command, Context, Dci, Due, Memory, Next, Outcome, Pending,
    Read, Reason, Record, SlotId, endpoint_block,
};

/// Interface 0: 81 in alternate 0, 82 in alternate 1. Interface 1: 02 and 81; in alternate 1 02, 03 and 04.
const LIST: [u32; 12] = [
    0x0040_0000,
    0x4000_0000,
    0xA384_0410,
    0x4000_4000,
    0xA520_0000,
    0x4040_0000,
    0x8520_0000,
    0xA384_0410,
    0x4040_4000,
    0x8520_0000,
    0x8720_0000,
    0x8920_0000,
];

const OWNED: Reason = Reason::Endpoint { word: 0xA384_0410, owner: 0 };

#[derive(Clone)]
struct Slot {
    record: Record,
    ctx: [u8; 1056],
    routes: [u64; 64],
}

/// Interface 0 holds alternate 0.
fn slot() -> Slot {
    let (mut ctx, mut routes, mut log) = ([0; 1056], [0; 64], [0; 64]);
    let args = BringUp {
        slot: SlotId(1),
        n: 1,
        speed: 3,
        parent: None,
        port: 1,
        root_port: 1,
        rings: &[0x1000, 0x2000, 0x3000, 0x4000],
        header: 8,
        packet: 64,
        value: 1,
        hubs: &[],
        list: &LIST,
    };
    let memory = Memory { ctx: &mut ctx, routes: &mut routes, log: &mut log, outcomes: &[0; 64] };
    let (mut record, up) = Record::bring_up(memory, &args);
    let memory = Memory { ctx: &mut ctx, routes: &mut routes, log: &mut log, outcomes: &[0; 64] };
    assert_eq!([up, record.claim(memory, 0, 0)].map(|told| told.answer), [Answer::Accepted; 2]);
    Slot { record, ctx, routes }
}

impl Slot {
    /// The answer of a claim, and why.
    fn claim(&mut self, interface: u8, alternate: u8, outcomes: &[u8]) -> (Answer, Reason) {
        let mut log = [0x6000_0000; 64];
        let memory = Memory { ctx: &mut self.ctx, routes: &mut self.routes, log: &mut log, outcomes };
        let left = self.record.claim(memory, interface, alternate);
        (left.answer, self.record.why(interface, alternate, left, &log, outcomes))
    }
}

fn command(place: usize, word: u32) -> Reason {
    Reason::Command { place, word }
}

#[test]
fn each_kind_of_reason() {
    let claim = |interface, alternate, outcomes: &[u8]| slot().claim(interface, alternate, outcomes);
    assert_eq!(claim(0, 1, &[0; 64]), (Answer::Accepted, Reason::Nothing));
    assert_eq!(claim(0, 2, &[]), (Answer::NotFound, Reason::Alternate { interface: 0, alternate: 2 }));
    assert_eq!(claim(1, 0, &[]), (Answer::InvalidParameter, OWNED));
    assert_eq!(claim(1, 1, &[]), (Answer::TooFewRings, Reason::Rings));
    assert_eq!(claim(0, 1, &[0, 0, 7, 0, 0]), (Answer::Failed(7), command(2, 0x6000_1000)));
    // The Configure, whose Resume fails too, with a code of its own.
    assert_eq!(claim(0, 1, &[0, 7, 9]), (Answer::Failed(9), command(1, 0x3000_0000)));
    assert_eq!(claim(0, 1, &[0, 0, 7, 9]), (Answer::InterfaceBroken, command(2, 0x6000_1000)));
    assert_eq!(claim(0, 1, &[0, 7]), (Answer::Cut, Reason::Number(15)));
    // A foreign word at the endpoint that goes; the outcomes past the commands are not read.
    let mut foreign = slot();
    foreign.routes[32 + 3] = 0x7000;
    assert_eq!(foreign.claim(0, 1, &[0, 0, 0, 5, 5]), (Answer::InterfaceBroken, Reason::Number(14)));
    assert_eq!(foreign.claim(0, 1, &[]), (Answer::Unusable, Reason::Number(12)));
}

/// More than was logged is not looked at, and less is no harm.
#[test]
fn the_log_counts_as_far_as_it_was_written() {
    let mut slot = slot();
    slot.routes[32 + 3] = 0x7000;
    let (mut log, outcomes) = ([0; 64], [0, 0, 0, 5]);
    let memory = Memory { ctx: &mut slot.ctx, routes: &mut slot.routes, log: &mut log, outcomes: &outcomes };
    let left = slot.record.claim(memory, 0, 1);
    let before = slot.record.clone();
    assert_eq!(left, Answered { answer: Answer::InterfaceBroken, count: 3 });
    let more = Answered { count: 99, ..left };
    assert_eq!(slot.record.why(0, 1, left, &log, &outcomes), Reason::Number(14));
    assert_eq!(slot.record.why(0, 1, more, &log[..4], &outcomes), command(3, 0));
    assert_eq!(slot.record.why(0, 1, more, &[], &outcomes), Reason::Number(14));
    assert!(slot.record == before);
}

struct Fails(u32);

impl Bus for Fails {
    fn send(&mut self, due: &Due<'_>) -> Outcome<'_> {
        if due.command.word() == self.0 { Err(NonZeroU8::MIN) } else { Ok(Read::Nothing) }
    }
}

/// A claim or a commit that is driven hands its reason out at its end; no other call, and none before.
#[test]
fn driven_calls_hand_their_reason_out() {
    let fails = |call: Call<'_>, word| {
        let mut slot = slot();
        let mut pending = Pending::new(&mut slot.record, &mut slot.ctx, call);
        assert_eq!(pending.why(), None);
        let answer = pending.run(&mut slot.routes, &mut Fails(word));
        (answer, pending.why())
    };
    let claim = |interface, alternate| Call::Claim { interface, alternate };
    assert_eq!(fails(claim(0, 1), 0), (Answer::Accepted, Some(Reason::Nothing)));
    assert_eq!(fails(claim(0, 1), 0x6000_1000), (Answer::Failed(1), Some(command(2, 0x6000_1000))));
    assert_eq!(fails(claim(1, 0), 0), (Answer::InvalidParameter, Some(OWNED)));
    let Slot { record, ctx, routes } = slot();
    let asked = record.ask_driven(&ctx, &routes, 0, 1).expect("an accepted ask");
    assert_eq!(fails(Call::Commit(asked.clone()), 0x4030_0000), (Answer::Failed(1), Some(command(0, 0x4030_0000))));
    assert_eq!(fails(Call::Release { interface: 0 }, 0x4030_0000), (Answer::Failed(1), None));

    // An ask that is outdated.
    let mut late = slot();
    assert_eq!(late.claim(0, 0, &[0; 64]).0, Answer::Accepted);
    let mut pending = Pending::new(&mut late.record, &mut late.ctx, Call::Commit(asked));
    assert!(matches!(pending.next(&mut late.routes), Next::Answer(Answer::OutdatedAsk)));
    assert_eq!(pending.why(), Some(Reason::Number(22)));

    // Routes of another length than at the first step.
    let mut slot = slot();
    let mut pending = Pending::new(&mut slot.record, &mut slot.ctx, claim(0, 1));
    let Next::Send(due) = pending.next(&mut slot.routes) else { panic!("a command") };
    assert_eq!(due.command, Command::Stop(Dci(3)));
    assert_eq!(pending.why(), None);
    pending.outcome(Err(NonZeroU8::MIN));
    assert!(matches!(pending.next(&mut slot.routes[..32]), Next::Answer(Answer::RoutesLength)));
    assert_eq!(pending.why(), Some(Reason::Number(2)));
}

#[test]
fn reasons_are_told_in_words() {
    for (reason, words) in [
        (Reason::Nothing, "nothing stood in the way"),
        (Reason::Alternate { interface: 3, alternate: 255 }, "the list has no alternate 255 of interface 3"),
        (Reason::Endpoint { word: 0x9E80_0000, owner: 7 }, "endpoint 0f (word 9e800000) is owned by interface 7"),
        (Reason::Rings, "there are fewer free rings than endpoint words"),
        (command(0, 0x4030_0000), "the command at place 0 of the log failed first: Stop Dci 3"),
        (command(1, 0), "the command at place 1 of the log failed first: 00000000"),
        (Reason::Number(15), "cut: no outcome was left for the last command"),
        (Reason::Number(200), "answer 200"),
    ] {
        assert_eq!(reason.to_string(), words);
    }
}

/// Where each part stands in its context, and that it is that memory.
#[test]
fn blocks_are_parts_of_the_contexts() {
    for spacing in [32, 64] {
        let (input, output) = (vec![1; 33 * spacing], vec![2; 32 * spacing]);
        for dci in 1..32u8 {
            let at = usize::from(dci) * spacing;
            let block = endpoint_block(&input, &output, Context::Input, Dci(dci)).expect("a block");
            assert!(core::ptr::eq(block, &input[at + spacing..][..spacing]), "{dci}");
            let block = endpoint_block(&input, &output, Context::Output, Dci(dci)).expect("a block");
            assert!(core::ptr::eq(block, &output[at..][..spacing]), "{dci}");
        }
    }
}

#[test]
fn wrong_contexts_come_before_wrong_dcis() {
    use BlockRefusal::*;
    let shown = |input: usize, output: usize, dci| {
        [Context::Input, Context::Output]
            .map(|from| endpoint_block(&vec![0; input], &vec![0; output], from, Dci(dci)).err())
    };
    for dci in [0, 32, 128, 255] {
        assert_eq!(shown(1056, 1024, dci), [Some(NoEndpoint); 2]);
        assert_eq!(shown(1056, 1023, dci), [Some(ContextLength); 2]);
    }
    for (input, output) in [
        (1055, 1024),
        (1057, 1024),
        (1056, 1025),
        (1056, 1056),
        (1024, 1024),
        (1056, 2048),
        (2112, 1024),
        (2112, 2112),
        (0, 0),
    ] {
        assert_eq!(shown(input, output, 1), [Some(ContextLength); 2]);
    }
    assert_eq!([ContextLength, NoEndpoint].map(|refusal| refusal.number()), [1, 4]);
}
