//! What a call is given.

use crate::SlotId;

/// The memory that a call works on, and an outcome byte for each command that it may send: 0 done,
/// otherwise a failure code. Without one the call is cut.
///
/// ```
/// use xhci_device::{Answer, Answered, Command, Memory};
///
/// let (mut ctx, mut log) = ([0; 33 * 32], [0; 64]);
/// let mut routes = [0; 32 * (1 + 1)]; // of one slot
/// # let memory = xhci_device::Memory { ctx: &mut ctx, routes: &mut routes, log: &mut log, outcomes: &[0; 64] };
/// # let args = xhci_device::BringUp { slot: xhci_device::SlotId(1), n: 1, speed: 3, parent: None, port: 1,
/// #     root_port: 1, rings: &[0x1000, 0x2000], header: 8, packet: 64, value: 0, hubs: &[],
/// #     list: &[0x0040_0000, 0x4000_0000, 0xA384_0410] };
/// # let (mut record, _) = xhci_device::Record::bring_up(memory, &args);
///
/// let memory = Memory { ctx: &mut ctx, routes: &mut routes, log: &mut log, outcomes: &[0] };
/// assert_eq!(record.claim(memory, 0, 0), Answered { answer: Answer::Cut, count: 2 });
/// assert_eq!([log[0], log[1]].map(Command::of), [
///     Some(Command::Configure),
///     Some(Command::SetInterface { interface: 0, alternate: 0 }), // of which no outcome was known
/// ]);
/// ```
#[derive(Debug)]
pub struct Memory<'a> {
    /// The input context: 33 blocks of 32 or of 64 bytes.
    pub ctx: &'a mut [u8],
    /// 32 words for each slot, slot 0 included: the rings by slot and Dci.
    pub routes: &'a mut [u64],
    /// At least 64 words; the commands are logged from the first on.
    pub log: &'a mut [u32],
    /// How each command goes.
    pub outcomes: &'a [u8],
}

/// A device that is to be brought up, with what its commands will read.
///
/// A Full speed mouse on port 3 of a High speed hub, which is on port 4 of the root hub:
///
/// ```
/// use xhci_device::{Answer, BringUp, Hub, Memory, Record, SlotId};
///
/// let root = Hub { parent: None, slot: SlotId(0), depth: -1, speed: 3, port: 0, multi: false };
/// let hub = Hub { parent: Some(0), slot: SlotId(1), depth: 0, speed: 3, port: 4, multi: false };
/// let mouse = BringUp {
///     slot: SlotId(2),
///     n: 2,
///     speed: 1,
///     parent: Some(1),
///     port: 3,
///     root_port: 4,
///     rings: &[0x1000, 0x2000],
///     header: 8,
///     packet: 8,
///     value: 1,
///     hubs: &[root.word(), hub.word()],
///     list: &[0x0040_0000, 0x4000_0000, 0xA380_8428],
/// };
/// let (mut ctx, mut routes, mut log) = ([0; 1056], [0; 96], [0; 64]);
/// let memory = Memory { ctx: &mut ctx, routes: &mut routes, log: &mut log, outcomes: &[0; 64] };
/// let (record, answered) = Record::bring_up(memory, &mouse);
/// assert_eq!((answered.answer, record.control()), (Answer::Accepted, 0x1000));
/// assert_eq!(ctx[32], 0x03); // the route string: port 3 of the hub
/// assert_eq!(ctx[40..42], [1, 3]); // the transaction translator: slot 1, port 3
/// ```
#[derive(Clone, Copy, Debug)]
pub struct BringUp<'a> {
    /// The slot that it gets.
    pub slot: SlotId,
    /// N, the number of slots that the routes serve.
    pub n: usize,
    /// xHCI's speed id, 1 to 5.
    pub speed: u8,
    /// The hub that the device is on: its place in `hubs`.
    pub parent: Option<usize>,
    /// The port on that hub.
    pub port: u8,
    /// The port of the root hub that the way to the device begins at.
    pub root_port: u8,
    /// The rings that the slot is given: 1 to 64, in any order. The lowest is control's; claims draw the others.
    pub rings: &'a [u64],
    /// How many bytes ReadHeader reads,
    pub header: usize,
    /// and the packet byte among them.
    pub packet: u8,
    /// What ReadConfiguration reads.
    pub value: u8,
    /// Hub words ([`Hub::word`](crate::Hub::word)), of every hub between the root hub and the device at least.
    pub hubs: &'a [u64],
    /// Descriptor words, of all configurations; at speeds 4 and 5 each endpoint's companion directly behind it.
    pub list: &'a [u32],
}
