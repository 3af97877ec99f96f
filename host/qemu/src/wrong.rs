//! What this test can notice: one thing is made wrong, and the first step that finds fault says by what.

use std::io;

use xhci_device::{Answer, Command};

use crate::bus::{Careless, Hardware, Spoilt};
use crate::findings::Kind::{self, *};
use crate::rig::Rig;
use crate::scenario::{Action, At, Key, SCENARIOS, Scenario};

/// Something wrong, the scenario that it is made wrong in, and by what it is noticed there: for a field twice, when it is
/// spoilt on its way to the controller, and when the library itself has written it so.
pub struct Wrong {
    pub what: &'static str,
    scenario: &'static str,
    fault: Fault,
    pub noticed: Noticed,
}

enum Fault {
    None,
    Field(Spoilt),
    Bus(Careless),
}

/// Bring-up, claim, a key.
const SHORT: Scenario = Scenario {
    name: "short",
    what: "",
    qemu: &["-device", "usb-kbd,port=1"],
    steps: &[
        (0, Action::BringUp(At::Root(5), 3, Answer::Accepted)),
        (0, Action::Claim(0, 0, Answer::Accepted)),
        (0, Action::Type(xhci_device::Dci(3), Key::A)),
    ],
};

const CAREFUL: Careless = Careless { clears_no_ring: false, moves_running: false, routes_late: false };

pub type Faults = Vec<(Kind, String)>;

type Noticed = &'static [&'static [Kind]];

const fn field(what: &'static str, command: Command, at: usize, and: u32, or: u32, noticed: Noticed) -> Wrong {
    let spoilt = Spoilt { command, at, and, or, written: false };
    Wrong { what, scenario: SHORT.name, fault: Fault::Field(spoilt), noticed }
}

/// The same of a bulk endpoint at SuperSpeed.
const fn super_field(what: &'static str, at: usize, and: u32, or: u32, noticed: Noticed) -> Wrong {
    let spoilt = Spoilt { command: Command::Configure, at, and, or, written: false };
    Wrong { what, scenario: "storage-super", fault: Fault::Field(spoilt), noticed }
}

const fn bus(what: &'static str, scenario: &'static str, careless: Careless, noticed: Noticed) -> Wrong {
    Wrong { what, scenario, fault: Fault::Bus(careless), noticed }
}

const ALL: u32 = !0;

/// Doublewords where blocks of 32 bytes begin: flags, slot, control, Dci 3.
const SLOT: usize = 8;
const CONTROL: usize = 16;
const DCI3: usize = 32;

#[rustfmt::skip]
pub const WRONGS: &[Wrong] = &[
    Wrong { what: "nothing", scenario: SHORT.name, fault: Fault::None, noticed: &[&[]] },
    field("Address: drop flag 2", Command::Address, 0, ALL, 1 << 2, &[&[Answer], &[Answer]]),
    field("Address: no add flag 1", Command::Address, 1, !(1 << 1), 0, &[&[Answer], &[Answer]]),
    field("Address: route string 1", Command::Address, SLOT, ALL, 1, &[&[Answer], &[Answer]]),
    field("Address: speed 1 for 3", Command::Address, SLOT, !(15 << 20), 1 << 20, &[&[Context, Descriptor], &[Context, Descriptor]]),
    field("Address: entries 0", Command::Address, SLOT, !(31 << 27), 0, &[&[], &[]]),
    field("Address: root port 6 for 5", Command::Address, SLOT + 1, !(255 << 16), 6 << 16, &[&[Answer], &[Answer]]),
    field("Address: translator's slot 7", Command::Address, SLOT + 2, ALL, 7, &[&[Context, Descriptor], &[Context, Descriptor]]),
    field("Address: EP type 0", Command::Address, CONTROL + 1, !(7 << 3), 0, &[&[Context, Descriptor], &[Context, Descriptor]]),
    field("Address: packet size 0", Command::Address, CONTROL + 1, 0xFFFF, 0, &[&[], &[]]),
    field("Address: error count 0", Command::Address, CONTROL + 1, !(3 << 1), 0, &[&[Context, Descriptor], &[Context, Descriptor]]),
    field("Address: cycle state 0", Command::Address, CONTROL + 2, !1, 0, &[&[Answer], &[Answer]]),
    field("Address: dequeue pointer one TRB on", Command::Address, CONTROL + 2, ALL, 16, &[&[Answer], &[Answer]]),
    field("Address: average length 0", Command::Address, CONTROL + 4, 0xFFFF_0000, 0, &[&[Context], &[Context]]),
    field("Evaluate: drop flag 2", Command::Evaluate, 0, ALL, 1 << 2, &[&[Answer], &[Answer]]),
    field("Evaluate: add flag 2", Command::Evaluate, 1, ALL, 1 << 2, &[&[Answer], &[Answer]]),
    field("Evaluate: packet size 9", Command::Evaluate, CONTROL + 1, 0xFFFF, 9 << 16, &[&[Context, Descriptor], &[Descriptor]]),
    field("Evaluate: EP type 0", Command::Evaluate, CONTROL + 1, !(7 << 3), 0, &[&[], &[Context]]),
    field("Configure: drop flag 0", Command::Configure, 0, ALL, 1, &[&[Answer], &[Answer]]),
    field("Configure: drop flag 5", Command::Configure, 0, ALL, 1 << 5, &[&[], &[]]),
    field("Configure: no add flag 0", Command::Configure, 1, !1, 0, &[&[Answer], &[Answer]]),
    field("Configure: add flag 1", Command::Configure, 1, ALL, 1 << 1, &[&[Answer], &[Answer]]),
    field("Configure: no add flag 3", Command::Configure, 1, !(1 << 3), 0, &[&[Descriptor, Enabled], &[Descriptor, Enabled]]),
    field("Configure: add flag 4 too", Command::Configure, 1, ALL, 1 << 4, &[&[Context, Descriptor, Enabled], &[Context, Descriptor, Enabled]]),
    field("Configure: entries 0", Command::Configure, SLOT, !(31 << 27), 0, &[&[Context, Descriptor], &[Context, Descriptor]]),
    field("Configure: entries 31", Command::Configure, SLOT, ALL, 31 << 27, &[&[Context, Descriptor], &[Context, Descriptor]]),
    field("Configure: speed 1 for 3", Command::Configure, SLOT, !(15 << 20), 1 << 20, &[&[], &[Context]]),
    field("Configure: route string 1", Command::Configure, SLOT, ALL, 1, &[&[], &[Context]]),
    field("Configure: interval 0", Command::Configure, DCI3, !(255 << 16), 0, &[&[Context, Descriptor], &[Descriptor]]),
    field("Configure: interval 10", Command::Configure, DCI3, !(255 << 16), 10 << 16, &[&[Context, Descriptor], &[Descriptor]]),
    field("Configure: mult 1", Command::Configure, DCI3, ALL, 1 << 8, &[&[Context, Descriptor], &[Descriptor]]),
    field("Configure: EP type bulk IN", Command::Configure, DCI3 + 1, !(7 << 3), 6 << 3, &[&[Context, Descriptor], &[Descriptor]]),
    field("Configure: EP type interrupt OUT", Command::Configure, DCI3 + 1, !(7 << 3), 3 << 3, &[&[Context, Descriptor], &[Descriptor]]),
    field("Configure: EP type 0", Command::Configure, DCI3 + 1, !(7 << 3), 0, &[&[Context, Descriptor], &[Descriptor]]),
    field("Configure: error count 0", Command::Configure, DCI3 + 1, !(3 << 1), 0, &[&[Context, Descriptor], &[Descriptor]]),
    field("Configure: burst 1", Command::Configure, DCI3 + 1, ALL, 1 << 8, &[&[Context, Descriptor], &[Descriptor]]),
    field("Configure: packet size 0", Command::Configure, DCI3 + 1, 0xFFFF, 0, &[&[Context, Descriptor], &[Descriptor]]),
    field("Configure: packet size 4", Command::Configure, DCI3 + 1, 0xFFFF, 4 << 16, &[&[Context, Descriptor], &[Descriptor]]),
    field("Configure: cycle state 0", Command::Configure, DCI3 + 2, !1, 0, &[&[Completion], &[Completion]]),
    field("Configure: dequeue pointer one TRB on", Command::Configure, DCI3 + 2, ALL, 16, &[&[Completion], &[Completion]]),
    field("Configure: dequeue pointer of another ring", Command::Configure, DCI3 + 2, ALL, 1 << 20, &[&[Context], &[Context]]),
    field("Configure: average length 0", Command::Configure, DCI3 + 4, 0xFFFF_0000, 0, &[&[Context], &[]]),
    field("Configure: payload 0", Command::Configure, DCI3 + 4, 0xFFFF, 0, &[&[Context, Descriptor], &[Descriptor]]),
    super_field("Configure: burst 0 for 15", DCI3 + 1, !(255 << 8), 0, &[&[Context, Descriptor], &[Descriptor]]),
    super_field("Configure: burst 14 for 15", DCI3 + 1, !(1 << 8), 0, &[&[Context, Descriptor], &[Descriptor]]),
    super_field("Configure: mult 1", DCI3, ALL, 1 << 8, &[&[Context, Descriptor], &[Descriptor]]),
    super_field("Configure: payload 1024", DCI3 + 4, ALL, 1024 << 16, &[&[Context, Descriptor], &[Descriptor]]),
    bus("the rings of added endpoints are not cleared", "undone",
        Careless { clears_no_ring: true, ..CAREFUL }, &[&[Completion, Stray]]),
    bus("the rings of added endpoints are not cleared", "unset",
        Careless { clears_no_ring: true, ..CAREFUL }, &[&[Completion, Stray]]),
    bus("Resume sets the pointer of a running endpoint", "unset",
        Careless { moves_running: true, ..CAREFUL }, &[&[Answer]]),
    bus("completions are routed after the call", "keyboard",
        Careless { routes_late: true, ..CAREFUL }, &[&[Completion, Stray]]),
];

impl Wrong {
    /// The scenario, if it is one of all.
    pub fn within(&self) -> Option<&'static Scenario> {
        SCENARIOS.iter().find(|scenario| scenario.name == self.scenario)
    }

    /// The faults of the first step that finds any, for each way of making it wrong.
    pub fn found(&self) -> io::Result<Vec<Faults>> {
        match self.fault {
            Fault::None => Ok(vec![self.play(|_| ())?]),
            Fault::Bus(careless) => Ok(vec![self.play(|hardware| hardware.careless = careless)?]),
            Fault::Field(spoilt) => [false, true]
                .into_iter()
                .map(|written| self.play(|hardware| hardware.spoilt = Some(Spoilt { written, ..spoilt })))
                .collect(),
        }
    }

    fn play(&self, prepared: impl Fn(&mut Hardware)) -> io::Result<Faults> {
        let scenario = self.within().unwrap_or(&SHORT);
        let mut rig = Rig::new(scenario.qemu)?.impatient();
        for (device, action) in scenario.steps {
            rig.act(*device, action, &prepared);
            if !rig.findings.faults.is_empty() {
                break;
            }
        }
        Ok(rig.findings.faults)
    }
}
