//! A device is brought up, its interface claimed, a switch to the other setting is shown and then fails on the bus, the
//! interface is released, and the device unplugged. host/examples/switch.c is the same in C and prints the same.

use std::num::NonZeroU8;

use xhci_device::{
    Asked, Attached, Bus, Call, Command, Dci, Due, Outcome, Pending, Read, Reason, Record, Setting, SlotId, route_index,
};

const SLOT: SlotId = SlotId(1);
const N: usize = 2;

/// The rings that the slot is given; the lowest is control's.
const RINGS: [u64; 4] = [0x1000, 0x2000, 0x3000, 0x3400];

/// Configuration 1, interface 0: alternate 0 with endpoint 0x81, interrupt; alternate 1 with 0x81 and 0x02, bulk.
#[rustfmt::skip]
const CONFIGURATION: [u8; 48] = [
    9, 2, 48, 0, 1, 1, 0, 0x80, 50,
    9, 4, 0, 0, 1, 0xFF, 0, 0, 0,
    7, 5, 0x81, 3, 64, 0, 4,
    9, 4, 0, 1, 2, 0xFF, 0, 0, 0,
    7, 5, 0x81, 3, 64, 0, 4,
    7, 5, 0x02, 2, 0, 2, 0,
];

/// The device descriptor: 64 bytes for control, one configuration.
const DESCRIPTOR: [u8; 18] = [18, 1, 0, 2, 0, 0, 0, 64, 0x34, 0x12, 1, 0, 0, 1, 0, 0, 0, 1];

/// The controller with the device on it, which fails one command. A real one sends the command and waits for its
/// event.
struct Controller {
    failing: Option<Command>,
}

impl Bus for Controller {
    fn send(&mut self, due: &Due<'_>) -> Outcome<'_> {
        print!("  {}", due.command);
        for dci in due.dropped() {
            print!(", gives up Dci {}", dci.0);
        }
        for dci in due.added() {
            // Here the ring is cleared: the controller begins at its base, with cycle state 1.
            print!(", begins Dci {} on ring {:x}", dci.0, due.ring(dci));
        }
        if self.failing == Some(due.command) {
            println!(": failed, code 7");
            return Err(const { NonZeroU8::new(7).unwrap() });
        }
        println!(": done");
        Ok(match due.command {
            Command::ReadHeader => Read::Bytes(&DESCRIPTOR[..8]),
            Command::ReadDevice => Read::Bytes(&DESCRIPTOR),
            Command::ReadConfiguration => Read::Bytes(&[0]),
            Command::ReadConfig(_) => Read::Bytes(&CONFIGURATION),
            _ => Read::Nothing,
        })
    }
}

struct Slot {
    record: Record,
    ctx: [u8; 1056],
    routes: [u64; 32 * (N + 1)],
}

impl Slot {
    fn run(&mut self, what: &str, call: Call<'_>, failing: Option<Command>) {
        println!("{what}");
        let mut pending = Pending::new(&mut self.record, &mut self.ctx, call);
        let answer = pending.run(&mut self.routes, &mut Controller { failing });
        println!("  answer {}: {answer}", answer.number());
        match pending.why() {
            // The answer says it all.
            None | Some(Reason::Nothing | Reason::Number(_)) => {}
            Some(reason) => println!("  {reason}"),
        }
        for Setting { interface, alternate } in self.record.held() {
            println!("  interface {interface} holds alternate {alternate}");
        }
        for dci in (0..32).map(Dci) {
            let ring = self.routes[route_index(SLOT, dci)];
            if ring != 0 {
                println!("  Dci {} goes to ring {ring:x}", dci.0);
            }
        }
        println!();
    }
}

/// What the claim would do.
fn show(asked: &Asked) {
    println!("ask for interface {}, alternate {}", asked.interface(), asked.alternate());
    asked.dropped().for_each(|dci| println!("  Dci {} would go", dci.0));
    asked.added().for_each(|dci| println!("  Dci {} would come", dci.0));
    asked.rings().iter().for_each(|ring| println!("  ring {ring:x} would be drawn"));
    println!();
}

fn main() {
    let mut slot = Slot { record: Record::new(), ctx: [0; 1056], routes: [0; 32 * (N + 1)] };
    let port = Attached { slot: SLOT, n: N, speed: 3, parent: None, port: 1, root_port: 1, rings: &RINGS, hubs: &[] };
    slot.run("bring-up of slot 1", Call::BringUp(port), None);
    slot.run("claim of interface 0, alternate 0", Call::Claim { interface: 0, alternate: 0 }, None);
    let failing = Command::SetInterface { interface: 0, alternate: 1 };
    let asked = slot.record.ask_driven(&slot.ctx, &slot.routes, 0, 1).expect("an accepted ask");
    show(&asked);
    slot.run("commit of interface 0, alternate 1", Call::Commit(asked), Some(failing));
    slot.run("release of interface 0", Call::Release { interface: 0 }, None);
    slot.run("unplugging of slot 1", Call::Disconnect, None);
}
