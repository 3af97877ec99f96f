//! Settings chosen for a wanted polling period, each refusal, and the claims of what was chosen.

use xhci_device::{Answer, BringUp, ChoiceRefusal, Chosen, Memory, Record, Setting, SlotId};

/// Configuration 1: interface 0 with alternates 2 (0x81 every 4 ms), 1 (0x82 every ms) and 0 (none); interface 1 with
/// alternate 0 (0x82, bulk). Configuration 2: interface 5.
const LIST: [u32; 10] = [
    0x0040_0000,
    0x4000_8000,
    0xA384_0418,
    0x4000_4000,
    0xA584_0410,
    0x4000_0000,
    0x4040_0000,
    0xA520_0000,
    0x0080_0000,
    0x4140_0000,
];

struct Lent {
    ctx: [u8; 1056],
    routes: [u64; 64],
    log: [u32; 64],
}

impl Lent {
    fn new() -> Lent {
        Lent { ctx: [0; 1056], routes: [0; 64], log: [0; 64] }
    }

    fn memory(&mut self) -> Memory<'_> {
        Memory { ctx: &mut self.ctx, routes: &mut self.routes, log: &mut self.log, outcomes: &[0; 64] }
    }
}

fn brought_up(lent: &mut Lent, list: &[u32]) -> Record {
    let args = BringUp {
        slot: SlotId(1),
        n: 1,
        speed: 3,
        parent: None,
        port: 1,
        root_port: 1,
        rings: &[0x1000, 0x2000, 0x3000, 0x4000],
        header: 8,
        packet: 64,
        value: 0,
        hubs: &[],
        list,
    };
    let (record, answered) = Record::bring_up(lent.memory(), &args);
    assert_eq!(answered.answer, Answer::Accepted);
    record
}

#[test]
fn settings_are_chosen() {
    let record = brought_up(&mut Lent::new(), &LIST);
    let alternates =
        |names: &[u8], longest: u32| record.choose(names, longest).expect("a choice").alternates().to_vec();
    assert_eq!(alternates(&[0], 5), [2]);
    assert_eq!(alternates(&[0], 4), [1]);
    assert_eq!(alternates(&[0], 2), [0]);
    assert_eq!(alternates(&[0, 1], 4), [0, 0]);
    assert_eq!(alternates(&[0, 1, 0], u32::MAX), [2, 0, 2]);
    assert_eq!(alternates(&[0; 8], 5), [2; 8]);
    assert_eq!(alternates(&[], 0), []);
}

#[test]
fn the_first_refusal_is_the_answer() {
    use ChoiceRefusal::*;
    let record = brought_up(&mut Lent::new(), &LIST);
    for names in [&[5][..], &[7], &[0, 7], &[7; 8]] {
        assert_eq!(record.choose(names, 15), Err(NoChoice));
    }
    for names in [[0; 9], [7; 9]] {
        assert_eq!(record.choose(&names, 15), Err(TooManyNames));
        assert_eq!(Record::new().choose(&names, 15), Err(Unusable));
    }
    assert_eq!(Record::new().choose(&[], 15), Err(Unusable));
}

/// A choice changes nothing, and its claims go through one after the other.
#[test]
fn what_is_chosen_is_claimed() {
    let mut lent = Lent::new();
    let mut record = brought_up(&mut lent, &LIST);
    let before = record.clone();
    let chosen: Chosen = record.choose(&[1, 0], 5).expect("a choice");
    assert_eq!(record, before);
    let settings: Vec<Setting> = chosen.settings().collect();
    assert_eq!(settings, [Setting { interface: 1, alternate: 0 }, Setting { interface: 0, alternate: 2 }]);
    for Setting { interface, alternate } in settings {
        assert_eq!(record.claim(lent.memory(), interface, alternate).answer, Answer::Accepted);
    }
    // What is held has no say, and claiming it again is a claim as any other.
    assert_eq!(record.choose(&[1, 0], 5), Ok(chosen));
}

/// Interface 0 holds the address that the choice for interface 1 takes: its claim is refused until interface 0 is released.
#[test]
fn what_is_held_has_no_say() {
    let mut lent = Lent::new();
    let list = [0x0040_0000, 0x4000_0000, 0xA384_0410, 0x4040_0000, 0xA384_0410];
    let mut record = brought_up(&mut lent, &list);
    assert_eq!(record.claim(lent.memory(), 0, 0).answer, Answer::Accepted);
    assert_eq!(record.choose(&[1], 3).expect("a choice").alternates(), [0]);
    assert_eq!(record.claim(lent.memory(), 1, 0).answer, Answer::InvalidParameter);
    assert_eq!(record.release(lent.memory(), 0).answer, Answer::Accepted);
    assert_eq!(record.claim(lent.memory(), 1, 0).answer, Answer::Accepted);
}

#[test]
fn numbers_are_those_of_the_papers() {
    use ChoiceRefusal::*;
    assert_eq!([Unusable, TooManyNames, NoChoice].map(|refusal| refusal.number()), [12, 29, 30]);
}
