//! Three devices behind one command ring: their calls wait for their turns in a dispatcher, which runs them whole, by rising
//! slot. host/examples/turns.c is the same in C and prints the same.

use xhci_device::{
    Attached, Bus, Call, Command, Dispatcher, Due, Outcome, Ran, Read, Record, SlotId, Waiting, route_index,
};

const N: usize = 8;
const SLOTS: [SlotId; 3] = [SlotId(7), SlotId(2), SlotId(5)];

/// The rings that each slot is given.
const RINGS: [[u64; 3]; 3] = [[0x1000, 0x1400, 0x1800], [0x2000, 0x2400, 0x2800], [0x3000, 0x3400, 0x3800]];

/// Configuration 1, interface 0, alternate 0 with endpoint 0x81, interrupt.
#[rustfmt::skip]
const CONFIGURATION: [u8; 25] = [
    9, 2, 25, 0, 1, 1, 0, 0x80, 50,
    9, 4, 0, 0, 1, 0xFF, 0, 0, 0,
    7, 5, 0x81, 3, 64, 0, 4,
];

/// The device descriptor: 64 bytes for control, one configuration.
const DESCRIPTOR: [u8; 18] = [18, 1, 0, 2, 0, 0, 0, 64, 0x34, 0x12, 1, 0, 0, 1, 0, 0, 0, 1];

/// The controller with such a device on each slot.
struct Controller;

impl Bus for Controller {
    fn send(&mut self, due: &Due<'_>) -> Outcome<'_> {
        println!("  slot {}: {}", due.slot.0, due.command);
        Ok(match due.command {
            Command::ReadHeader => Read::Bytes(&DESCRIPTOR[..8]),
            Command::ReadDevice => Read::Bytes(&DESCRIPTOR),
            Command::ReadConfiguration => Read::Bytes(&[0]),
            Command::ReadConfig(_) => Read::Bytes(&CONFIGURATION),
            _ => Read::Nothing,
        })
    }
}

fn bring_up<'a>(at: usize) -> Call<'a> {
    let (slot, rings) = (SLOTS[at], &RINGS[at]);
    Call::BringUp(Attached { slot, n: N, speed: 3, parent: None, port: 1, root_port: slot.0, rings, hubs: &[] })
}

fn submit<'a>(dispatcher: &mut Dispatcher<'a>, what: &str, call: Waiting<'a>) -> Option<Waiting<'a>> {
    let slot = call.slot().0;
    match dispatcher.submit(call) {
        Ok(()) => println!("{what} of slot {slot}: waits"),
        Err((refusal, call)) => {
            println!("{what} of slot {slot}: {}, {refusal}", refusal.number());
            return Some(call);
        }
    }
    None
}

/// Runs the call whose turn it is.
fn turn<'a>(dispatcher: &mut Dispatcher<'a>, routes: &mut [u64]) -> Option<Ran<'a>> {
    println!("turn");
    let ran = dispatcher.turn(routes, &mut Controller);
    match &ran {
        Some(ran) => println!("  slot {}: answer {}: {}", ran.slot.0, ran.answer.number(), ran.answer),
        None => println!("  none waits"),
    }
    ran
}

fn main() {
    let (mut records, mut contexts) = ([const { Record::new() }; 3], [[0; 1056]; 3]);
    let (mut other, mut context) = (Record::new(), [0; 1056]);
    let mut routes = [0; 32 * (N + 1)];
    let mut dispatcher = Dispatcher::new();
    for (at, (record, ctx)) in records.iter_mut().zip(&mut contexts).enumerate() {
        submit(&mut dispatcher, "bring-up", Waiting { record, ctx, call: bring_up(at) });
    }
    // A second call of slot 7.
    let again = Waiting { record: &mut other, ctx: &mut context, call: bring_up(0) };
    submit(&mut dispatcher, "bring-up", again);

    // Slot 2 has its turn first, and may wait again at once; slots 5 and 7 come before it.
    let mut claims = 3;
    while let Some(Ran { record, ctx, .. }) = turn(&mut dispatcher, &mut routes) {
        if claims > 0 {
            claims -= 1;
            submit(&mut dispatcher, "claim", Waiting { record, ctx, call: Call::Claim { interface: 0, alternate: 0 } });
        }
    }
    for slot in SLOTS {
        for dci in [1, 3].map(xhci_device::Dci) {
            println!("slot {}, Dci {} goes to ring {:x}", slot.0, dci.0, routes[route_index(slot, dci)]);
        }
    }
}
