//! Item 9 of 02, asked of the model: each kind of reason, which of two comes first, and the block of each endpoint.

use model::Model;
use scenario::*;

/// 81 of interface 0 is held. Interface 0, alternate 1: 82. Interface 1: alternate 0 with 02, 81 and 01; alternate 1 with 03
/// twice; alternate 2 with nothing.
fn device() -> Record {
    Record {
        usable: true,
        up: true,
        slot: 1,
        n: 1,
        spacing: 32,
        speed: 3,
        control: 0x1000,
        list: vec![
            0x0040_0000,
            0x4000_0000,
            0xA384_0410,
            0x4000_4000,
            0xA520_0000,
            0x4040_0000,
            0x8520_0000,
            0xA384_0410,
            0x8320_0000,
            0x4040_4000,
            0x8720_0000,
            0x8720_0000,
            0x4040_8000,
        ],
        endpoints: vec![Endpoint { address: 0x81, ring: 0x2000, owner: 0, active: true }],
        held: vec![(0, 0)],
        given: vec![0x1000, 0x2000, 0x3000],
        ..Record::default()
    }
}

fn lent(outcomes: &[u8]) -> Buffers {
    let mut routes = vec![0; 64];
    (routes[33], routes[35]) = (0x1000, 0x2000);
    Buffers { ctx: vec![0; 1056], routes, log: vec![0; 64], outcomes: outcomes.to_vec() }
}

/// The number of the answer, and the reason.
fn told(record: &Record, call: &Call, buffers: &Buffers) -> (u8, Reason) {
    let mut after = buffers.clone();
    let (left, answer) = Model.call(record, call, &mut after).expect("an answer");
    let made = Made { call, record, buffers, left: &left, answer, log: &after.log };
    (answer.number, Model.why(&made).expect("a reason"))
}

fn claim(interface: u8, alternate: u8, outcomes: &[u8]) -> (u8, Reason) {
    told(&device(), &Call::Claim(Claim { interface, alternate }), &lent(outcomes))
}

/// 02's example: "01's whole log".
#[test]
fn the_first_failed_command() {
    let command = |place, word| Reason::Command { place, word };
    assert_eq!(claim(0, 1, &[0, 0, 7, 0, 0]), (13, command(2, 0x6000_1000)));
    assert_eq!(claim(0, 1, &[9]), (13, command(0, 0x4030_0000)));
    // The answer's code is that of the Resume.
    assert_eq!(claim(0, 1, &[0, 7, 9]), (13, command(1, 0x3000_0000)));
    assert_eq!(claim(0, 1, &[0, 0, 7, 9]), (14, command(2, 0x6000_1000)));
    assert_eq!(claim(0, 1, &[0, 0, 7, 0, 9]), (14, command(2, 0x6000_1000)));
    // What is past the commands is not read.
    assert_eq!(claim(0, 1, &[0, 0, 0, 7]), (0, Reason::Nothing));
}

#[test]
fn cuts_and_routes_are_their_number() {
    for outcomes in [&[][..], &[0], &[0, 7], &[0, 0, 7], &[0, 0, 7, 0]] {
        assert_eq!(claim(0, 1, outcomes), (15, Reason::Number(15)), "{outcomes:?}");
    }
    let mut buffers = lent(&[0, 0, 0, 7]);
    buffers.routes[35] = 0x5000;
    let switch = Call::Claim(Claim { interface: 0, alternate: 1 });
    assert_eq!(told(&device(), &switch, &buffers), (14, Reason::Number(14)));
}

/// "The reason is proved to be the condition that the definition met first."
#[test]
fn the_first_condition_that_is_not_met() {
    assert_eq!(claim(2, 0, &[]), (8, Reason::Alternate { interface: 2, alternate: 0 }));
    assert_eq!(claim(1, 3, &[]), (8, Reason::Alternate { interface: 1, alternate: 3 }));
    // 02 is nobody's, 81 is owned, and three words want more than one ring.
    assert_eq!(claim(1, 0, &[]), (9, Reason::Endpoint { word: 0xA384_0410, owner: 0 }));
    // A word of the interface's own address is passed over.
    assert_eq!(claim(0, 0, &[0, 0, 0]), (0, Reason::Nothing));
    // Two words of one address want two rings.
    assert_eq!(claim(1, 1, &[]), (21, Reason::Rings));
    assert_eq!(claim(1, 2, &[0, 0]), (0, Reason::Nothing));

    let missing = Call::Claim(Claim { interface: 2, alternate: 0 });
    let broken = Record { usable: false, ..device() };
    let spoiled: [(u8, &dyn Fn(&mut Buffers)); 3] =
        [(1, &|b| b.ctx.truncate(32)), (2, &|b| b.routes.truncate(33)), (3, &|b| b.log.truncate(63))];
    let mut buffers = lent(&[]);
    for (number, spoil) in spoiled.into_iter().rev() {
        spoil(&mut buffers);
        assert_eq!(told(&device(), &missing, &buffers), (number, Reason::Number(number)));
        assert_eq!(told(&broken, &missing, &buffers), (12, Reason::Number(12)));
    }
}

#[test]
fn asks_and_commits_have_the_claims_reasons() {
    let ask = |interface, alternate| told(&device(), &Call::Ask(Claim { interface, alternate }), &lent(&[])).1;
    assert_eq!(ask(0, 1), Reason::Nothing);
    assert_eq!(ask(1, 0), Reason::Endpoint { word: 0xA384_0410, owner: 0 });
    assert_eq!(ask(1, 1), Reason::Rings);
    let commit = |interface, alternate, drops, adds| {
        let asked = Asked { interface, alternate, drops, adds, rings: vec![0x3000] };
        told(&device(), &Call::Commit(Some(asked)), &lent(&[0, 7, 0]))
    };
    assert_eq!(commit(0, 1, 8, 32), (13, Reason::Command { place: 1, word: 0x3000_0000 }));
    assert_eq!(commit(0, 1, 0, 32), (22, Reason::Number(22)));
    // Where an ask would now be refused, that is the reason.
    assert_eq!(commit(1, 1, 0, 0), (21, Reason::Rings));
    assert_eq!(commit(0, 9, 0, 0), (8, Reason::Alternate { interface: 0, alternate: 9 }));
    assert_eq!(told(&device(), &Call::Commit(None), &lent(&[])), (22, Reason::Number(22)));
}

/// The input has a control block, the output has none; blocks of Dci 1 to 31 end where the context does.
#[test]
fn blocks_are_parts_of_what_is_lent() {
    for spacing in [32, 64] {
        let (input, output) = (vec![0; 33 * spacing], vec![0; 32 * spacing]);
        let shown = |from, dci| Block { input: input.clone(), output: output.clone(), from, dci };
        for dci in 1..32 {
            for (from, place) in [(Side::Input, dci + 1), (Side::Output, dci)] {
                let block = shown(from, dci as u8);
                let Part { number, offset, bytes } = block.ask(&Model);
                assert_eq!((number, offset, bytes.len()), (0, place * spacing, spacing));
                assert_eq!(dci == 31, offset + bytes.len() == block.shown().len());
            }
        }
        for dci in [0, 32, 33, 255] {
            assert_eq!(shown(Side::Output, dci).ask(&Model), Part { number: 4, offset: 0, bytes: &[] });
        }
    }
}

#[test]
fn both_lengths_and_one_spacing() {
    let lengths = [(1056, 1024), (2112, 2048)];
    for input in [0, 1024, 1055, 1056, 1057, 2111, 2112, 2113] {
        for output in [0, 1023, 1024, 1025, 1056, 2047, 2048, 2049] {
            for (from, dci) in [(Side::Input, 3), (Side::Output, 3), (Side::Output, 0)] {
                let block = Block { input: vec![0; input], output: vec![0; output], from, dci };
                let expected = if !lengths.contains(&(input, output)) {
                    1
                } else if dci == 0 {
                    4
                } else {
                    0
                };
                assert_eq!(block.ask(&Model).number, expected, "{input} {output}");
            }
        }
    }
}
