//! The scenarios: what hangs on the controller, and what is done with it.

use xhci_device::{Answer, Dci};

use Action::*;
use Answer::{Accepted, Failed, NotClaimed};
use At::*;
use Key::*;

pub struct Scenario {
    pub name: &'static str,
    pub what: &'static str,
    /// QEMU's arguments.
    pub qemu: &'static [&'static str],
    /// Each with the device that it is done to, by the order of bring-up.
    pub steps: &'static [(usize, Action)],
}

/// Where a device is: on a port of the root hub (QEMU's first four are USB 3, the others USB 2), or on a port of a hub
/// that was brought up before.
#[derive(Clone, Copy, Debug)]
pub enum At {
    Root(u8),
    EmptyRoot(u8),
    Hub(usize, u8),
    EmptyHub(usize, u8),
}

#[derive(Clone, Copy)]
pub enum Key {
    A,
    B,
    C,
    D,
}

impl Key {
    pub fn name(self) -> &'static str {
        ["a", "b", "c", "d"][self as usize]
    }

    /// Its number in reports (HID usage tables, keyboard page).
    pub fn usage(self) -> u8 {
        4 + self as u8
    }
}

pub enum Action {
    /// Place, speed, answer.
    BringUp(At, u8, Answer),
    /// With descriptors that the device does not have.
    BringUpWith(At, u8, &'static [u8]),
    /// Interface, alternate.
    Claim(u8, u8, Answer),
    /// A claim of interface and alternate that is given up at a command, by its place: the controller carries it out, and the
    /// layer is not told.
    GiveUp(u8, u8, usize),
    Release(u8, Answer),
    SetConfiguration(u8, Answer),
    /// With so many ports.
    HubUpdate(u8),
    /// A key's reports come by this endpoint.
    Type(Dci, Key),
    /// So does the pointer's.
    Point(Dci),
    /// A key's reports come by none.
    Silence(Dci, Key),
    /// A transfer is left waiting.
    Wait(Dci),
    /// Isochronous packets of so many bytes.
    Stream(Dci, u32),
    /// A command of Bulk-Only Transport.
    Inquire {
        out: Dci,
        into: Dci,
    },
    /// The context is lent with these drop flags.
    LendDropFlags(u32),
    /// The device is sent a request that it stalls, in the place of SetConfiguration.
    StallConfiguration(bool),
    /// The device of this id is pulled; what waited ends with a code.
    Pull(&'static str, Option<u8>),
    /// Disable Slot, without a call: after a bring-up that failed.
    Disable,
    /// The unplugging.
    Disconnect,
    /// So many hubs on the root hub, with so many keyboards on each: their calls go through one dispatcher.
    Crowd {
        hubs: u8,
        keyboards: u8,
    },
}

/// Four hubs, and keyboards on these ports of them.
macro_rules! crowd {
    ($($port:literal)*) => {
        &[
            "-device", "usb-hub,port=1", "-device", "usb-hub,port=2", "-device", "usb-hub,port=3", "-device",
            "usb-hub,port=4", $("-device", concat!("usb-kbd,port=1.", $port), "-device",
            concat!("usb-kbd,port=2.", $port), "-device", concat!("usb-kbd,port=3.", $port), "-device",
            concat!("usb-kbd,port=4.", $port),)*
        ]
    };
}

pub const FULL: u8 = 1;
const HIGH: u8 = 3;
const SUPER: u8 = 4;
const TRB_ERROR: u8 = 5;
const STALL: u8 = 6;
const SILENT: u8 = crate::controller::SILENT;
const IN1: Dci = Dci(3);
const OUT1: Dci = Dci(2);
const OUT2: Dci = Dci(4);

/// Interface 0, alternate 1: endpoint 0x82, interrupt, 8 bytes, interval 7.
const ALTERNATE: &[u8] = &[9, 4, 0, 1, 1, 3, 1, 1, 0, 7, 5, 0x82, 3, 8, 0, 7];

/// Interface 1, alternate 0: endpoint 0x81, interrupt, 8 bytes, interval 7.
const SHARING: &[u8] = &[9, 4, 1, 0, 1, 3, 1, 1, 0, 7, 5, 0x81, 3, 8, 0, 7];

const DISK: &str = "driver=null-co,node-name=d,size=1048576,read-zeroes=on";

pub const SCENARIOS: &[Scenario] = &[
    Scenario {
        name: "keyboard",
        what: "claim, release, reclaim, set configuration at High speed",
        qemu: &["-device", "usb-kbd,port=1"],
        steps: &[
            (0, BringUp(Root(5), HIGH, Accepted)),
            (0, Claim(0, 0, Accepted)),
            (0, Type(IN1, A)),
            (0, Wait(IN1)),
            (0, Release(0, Accepted)),
            (0, Silence(IN1, B)),
            (0, Claim(0, 0, Accepted)),
            (0, Type(IN1, C)),
            (0, Wait(IN1)),
            (0, Claim(0, 0, Accepted)),
            (0, Type(IN1, D)),
            (0, Wait(IN1)),
            (0, SetConfiguration(1, Accepted)),
            (0, Silence(IN1, A)),
            (0, SetConfiguration(0, Accepted)),
            (0, SetConfiguration(1, Accepted)),
            (0, Claim(0, 0, Accepted)),
            (0, Type(IN1, B)),
        ],
    },
    Scenario {
        name: "full",
        what: "the same device at Full speed",
        qemu: &["-device", "usb-kbd,port=1,usb_version=1"],
        steps: &[
            (0, BringUp(Root(5), FULL, Accepted)),
            (0, Claim(0, 0, Accepted)),
            (0, Type(IN1, A)),
            (0, Release(0, Accepted)),
            (0, Silence(IN1, B)),
            (0, Claim(0, 0, Accepted)),
            (0, Type(IN1, C)),
        ],
    },
    Scenario {
        name: "refused",
        what: "the controller refuses Configure, since drop flag 0 is lent",
        qemu: &["-device", "usb-kbd,port=1"],
        steps: &[
            (0, BringUp(Root(5), HIGH, Accepted)),
            (0, Claim(0, 0, Accepted)),
            (0, Type(IN1, A)),
            (0, Wait(IN1)),
            (0, LendDropFlags(1)),
            (0, Claim(0, 0, Failed(TRB_ERROR))),
            (0, Type(IN1, B)),
            (0, LendDropFlags(1)),
            (0, Release(0, Failed(TRB_ERROR))),
            (0, Type(IN1, C)),
            (0, LendDropFlags(1)),
            (0, SetConfiguration(1, Failed(TRB_ERROR))),
            (0, Type(IN1, D)),
            (0, LendDropFlags(0)),
            (0, Release(0, Accepted)),
            (0, Silence(IN1, A)),
        ],
    },
    Scenario {
        name: "undone",
        what: "the device stalls SetInterface: the claim is undone",
        qemu: &["-device", "usb-kbd,port=1"],
        steps: &[
            (0, BringUpWith(Root(5), HIGH, ALTERNATE)),
            (0, Claim(0, 0, Accepted)),
            (0, Type(IN1, A)),
            (0, Wait(IN1)),
            (0, Claim(0, 1, Failed(STALL))),
            (0, Type(IN1, B)),
            (0, Release(0, Accepted)),
            (0, Silence(IN1, C)),
            (0, Claim(0, 0, Accepted)),
            (0, Type(IN1, D)),
        ],
    },
    Scenario {
        name: "silent",
        what: "a claim is given up at its Stop, at its Configure and at its SetInterface, which were carried out",
        qemu: &["-device", "usb-kbd,port=1"],
        steps: &[
            (0, BringUpWith(Root(5), HIGH, ALTERNATE)),
            (0, Claim(0, 0, Accepted)),
            (0, Type(IN1, A)),
            (0, GiveUp(0, 1, 0)),
            (0, Disconnect),
            (1, BringUpWith(Root(5), HIGH, ALTERNATE)),
            (1, Claim(0, 0, Accepted)),
            (1, Type(IN1, B)),
            (1, GiveUp(0, 1, 1)),
            (1, Disconnect),
            (2, BringUpWith(Root(5), HIGH, ALTERNATE)),
            (2, GiveUp(0, 0, 1)),
            (2, Disconnect),
            (3, BringUp(Root(5), HIGH, Accepted)),
            (3, Claim(0, 0, Accepted)),
            (3, Type(IN1, C)),
        ],
    },
    Scenario {
        name: "idle",
        what: "an interface that holds nothing lists another's endpoint, and is released",
        qemu: &["-device", "usb-kbd,port=1"],
        steps: &[
            (0, BringUpWith(Root(5), HIGH, SHARING)),
            (0, Release(0, NotClaimed)),
            (0, Claim(0, 0, Accepted)),
            (0, Type(IN1, A)),
            (0, Release(1, NotClaimed)),
            (0, Type(IN1, B)),
            (0, Release(0, Accepted)),
            (0, Release(0, NotClaimed)),
            (0, Silence(IN1, C)),
        ],
    },
    Scenario {
        name: "unset",
        what: "the device stalls SetConfiguration",
        qemu: &["-device", "usb-kbd,port=1"],
        steps: &[
            (0, BringUp(Root(5), HIGH, Accepted)),
            (0, Claim(0, 0, Accepted)),
            (0, Type(IN1, A)),
            (0, Wait(IN1)),
            (0, StallConfiguration(true)),
            (0, SetConfiguration(1, Failed(STALL))),
            (0, Type(IN1, B)),
            (0, StallConfiguration(false)),
            (0, SetConfiguration(1, Accepted)),
            (0, Silence(IN1, C)),
        ],
    },
    Scenario {
        name: "empty",
        what: "nothing is on the port",
        qemu: &["-device", "usb-hub,port=1"],
        steps: &[
            (0, BringUp(Root(5), FULL, Accepted)),
            (0, BringUp(EmptyRoot(6), HIGH, Failed(TRB_ERROR))),
            (1, Disable),
            (0, BringUp(EmptyHub(0, 5), FULL, Failed(TRB_ERROR))),
            (2, Disable),
        ],
    },
    Scenario {
        name: "twice",
        what: "a device that another slot has, until that one is disabled",
        qemu: &["-device", "usb-kbd,port=1"],
        steps: &[
            (0, BringUp(Root(5), HIGH, Accepted)),
            (1, BringUp(Root(5), HIGH, Failed(TRB_ERROR))),
            (1, Disable),
            (0, Disconnect),
            (2, BringUp(Root(5), HIGH, Accepted)),
            (2, Claim(0, 0, Accepted)),
            (2, Type(IN1, A)),
        ],
    },
    Scenario {
        name: "pulled",
        what: "the device is pulled while a transfer waits",
        qemu: &["-device", "usb-kbd,id=k,port=1"],
        steps: &[
            (0, BringUp(Root(5), HIGH, Accepted)),
            (0, Claim(0, 0, Accepted)),
            (0, Type(IN1, A)),
            (0, Wait(IN1)),
            (0, Pull("k", None)),
            (0, Release(0, Accepted)),
            (0, Claim(0, 0, Failed(SILENT))),
            (0, Disconnect),
        ],
    },
    Scenario {
        name: "unplugged",
        what: "the slot is disabled while a transfer waits, and used again",
        qemu: &["-device", "usb-kbd,port=1"],
        steps: &[
            (0, BringUp(Root(5), HIGH, Accepted)),
            (0, Claim(0, 0, Accepted)),
            (0, Type(IN1, A)),
            (0, Wait(IN1)),
            (0, Disconnect),
            (0, Silence(IN1, B)),
            (1, BringUp(Root(5), HIGH, Accepted)),
            (1, Claim(0, 0, Accepted)),
            (1, Type(IN1, C)),
            (1, Disconnect),
        ],
    },
    Scenario {
        name: "hubs",
        what: "a keyboard behind one hub, a tablet behind two",
        qemu: &[
            "-device",
            "usb-hub,port=1",
            "-device",
            "usb-kbd,port=1.3",
            "-device",
            "usb-hub,port=1.2",
            "-device",
            "usb-tablet,port=1.2.4",
        ],
        steps: &[
            (0, BringUp(Root(5), FULL, Accepted)),
            (0, HubUpdate(8)),
            (0, Claim(0, 0, Accepted)),
            (1, BringUp(Hub(0, 3), FULL, Accepted)),
            (1, Claim(0, 0, Accepted)),
            (1, Type(IN1, A)),
            (2, BringUp(Hub(0, 2), FULL, Accepted)),
            (2, HubUpdate(8)),
            (3, BringUp(Hub(2, 4), FULL, Accepted)),
            (3, Claim(0, 0, Accepted)),
            (3, Point(IN1)),
            (1, Type(IN1, B)),
            (3, Release(0, Accepted)),
            (1, Type(IN1, C)),
        ],
    },
    Scenario {
        name: "many",
        what: "thirty-two devices behind one dispatcher",
        qemu: crowd!(1 2 3 4 5 6 7),
        steps: &[(0, Crowd { hubs: 4, keyboards: 7 })],
    },
    Scenario {
        name: "audio",
        what: "every alternate of an isochronous interface",
        qemu: &["-audiodev", "none,id=a", "-device", "usb-audio,audiodev=a,port=1,multi=on"],
        steps: &[
            (0, BringUp(Root(5), FULL, Accepted)),
            (0, Claim(0, 0, Accepted)),
            (0, Claim(1, 0, Accepted)),
            (0, Claim(1, 1, Accepted)),
            (0, Stream(OUT1, 192)),
            (0, Claim(1, 2, Accepted)),
            (0, Stream(OUT1, 576)),
            (0, Claim(1, 3, Accepted)),
            (0, Stream(OUT1, 768)),
            (0, Claim(1, 1, Accepted)),
            (0, Stream(OUT1, 192)),
            (0, Claim(1, 0, Accepted)),
            (0, Release(1, Accepted)),
            (0, SetConfiguration(1, Accepted)),
        ],
    },
    Scenario {
        name: "network",
        what: "two configurations that share interface numbers",
        qemu: &["-netdev", "hubport,id=n,hubid=0", "-device", "usb-net,netdev=n,port=1"],
        steps: &[
            (0, BringUp(Root(5), FULL, Accepted)),
            (0, Claim(0, 0, Accepted)),
            (0, Claim(1, 0, Accepted)),
            (0, SetConfiguration(1, Accepted)),
            (0, Claim(1, 0, Accepted)),
            (0, Release(1, Accepted)),
            (0, Claim(1, 1, Accepted)),
        ],
    },
    Scenario {
        name: "storage",
        what: "bulk endpoints at High speed",
        qemu: &["-global", "qemu-xhci.p3=0", "-blockdev", DISK, "-device", "usb-storage,drive=d,port=2"],
        steps: &[
            (0, BringUp(Root(2), HIGH, Accepted)),
            (0, Claim(0, 0, Accepted)),
            (0, Inquire { out: OUT2, into: IN1 }),
            (0, Release(0, Accepted)),
            (0, Claim(0, 0, Accepted)),
            (0, Inquire { out: OUT2, into: IN1 }),
        ],
    },
    Scenario {
        name: "storage-super",
        what: "the same at SuperSpeed, with companions",
        qemu: &["-blockdev", DISK, "-device", "usb-storage,drive=d,port=2"],
        steps: &[
            (0, BringUp(Root(2), SUPER, Accepted)),
            (0, Claim(0, 0, Accepted)),
            (0, Inquire { out: OUT2, into: IN1 }),
            (0, Release(0, Accepted)),
            (0, Claim(0, 0, Accepted)),
            (0, Inquire { out: OUT2, into: IN1 }),
        ],
    },
    Scenario {
        name: "uas",
        what: "four bulk endpoints at SuperSpeed, with companions",
        qemu: &[
            "-blockdev",
            DISK,
            "-device",
            "usb-uas,id=u,port=2",
            "-device",
            "scsi-hd,drive=d,bus=u.0,scsi-id=0,lun=0",
        ],
        steps: &[
            (0, BringUp(Root(2), SUPER, Accepted)),
            (0, Claim(0, 0, Accepted)),
            (0, Release(0, Accepted)),
            (0, Claim(0, 0, Accepted)),
        ],
    },
];
