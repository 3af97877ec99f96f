//! What carries the commands of a call out.

use core::num::NonZeroU8;

use crate::{Command, Dci, Record, SlotId, route_index};

/// How a command went: done, with what it read, or failed, with a code of the bus's own, 1 to 254 (255 counts as 254).
/// [`Bus`] shows both.
pub type Outcome<'a> = Result<Read<'a>, NonZeroU8>;

/// The code of a command that was done but brought what a bring-up cannot use: no byte of a configuration
/// value, less than the 18 bytes of a device descriptor, more than 8 configurations, malformed descriptors, words that
/// are not one configuration, or words with which the list is not valid. [`Pending::unreadable`](crate::Pending::unreadable)
/// says which.
///
/// ```
/// use xhci_device::{Answer, Attached, Call, Next, Pending, Read, Record, SlotId, UNREADABLE};
///
/// let (mut record, mut ctx, mut routes) = (Record::new(), [0; 1056], [0; 64]);
/// # let attached = Attached { slot: SlotId(1), n: 1, speed: 3, parent: None, port: 1, root_port: 1,
/// #     rings: &[0x1000], hubs: &[] };
/// let mut pending = Pending::new(&mut record, &mut ctx, Call::BringUp(attached));
/// let answer = loop {
///     match pending.next(&mut routes) {
///         Next::Answer(answer) => break answer,
///         _ => pending.outcome(Ok(Read::Bytes(&[64; 8]))), // too few for ReadDevice
///     }
/// };
/// assert_eq!(answer, Answer::Failed(UNREADABLE.get()));
/// assert_eq!(pending.unreadable().unwrap().to_string(), "ReadDevice: 8 bytes, and 18 are needed");
/// ```
pub const UNREADABLE: NonZeroU8 = NonZeroU8::MAX;

/// What a command that was done has read, in memory of the bus.
///
/// ```
/// use xhci_device::{Bus, Command, Due, Outcome, Read};
///
/// /// A device that was read before.
/// struct Known {
///     descriptor: [u8; 18],
///     value: u8,
///     words: [u32; 3],
/// }
///
/// impl Bus for Known {
///     fn send(&mut self, due: &Due<'_>) -> Outcome<'_> {
///         Ok(match due.command {
///             Command::ReadHeader => Read::Bytes(&self.descriptor[..8]),
///             Command::ReadConfiguration => Read::Bytes(std::slice::from_ref(&self.value)),
///             Command::ReadDevice => Read::Bytes(&self.descriptor),
///             Command::ReadConfig(_) => Read::Words(&self.words),
///             _ => Read::Nothing,
///         })
///     }
/// }
/// # use xhci_device::{Answer, Attached, Call, Pending, Record, SlotId};
/// # let (mut record, mut ctx, mut routes) = (Record::new(), [0; 1056], [0; 64]);
/// # let attached = Attached { slot: SlotId(1), n: 1, speed: 3, parent: None, port: 1, root_port: 1,
/// #     rings: &[0x1000], hubs: &[] };
/// # let mut bus = Known {
/// #     descriptor: [18, 1, 0, 2, 0, 0, 0, 64, 0, 0, 0, 0, 0, 0, 0, 0, 0, 1],
/// #     value: 1,
/// #     words: [0x0040_0000, 0x4000_0000, 0xA384_0410],
/// # };
/// # let mut pending = Pending::new(&mut record, &mut ctx, Call::BringUp(attached));
/// # assert_eq!(pending.run(&mut routes, &mut bus), Answer::Accepted);
/// # assert!(record.list().eq(bus.words));
/// ```
#[derive(Clone, Copy, Debug, PartialEq, Eq, Hash)]
#[non_exhaustive]
pub enum Read<'a> {
    /// There was nothing to read.
    Nothing,
    /// The bytes that the device sent; for ReadConfig the configuration descriptor with all that follows it.
    Bytes(&'a [u8]),
    /// For ReadConfig instead the descriptor words of the configuration: one of kind 0, then the others.
    Words(&'a [u32]),
}

/// A controller with the device on it.
///
/// ```
/// use std::num::NonZeroU8;
/// use xhci_device::{Answer, Bus, Call, Command, Due, Outcome, Pending, Read};
///
/// const STALL: NonZeroU8 = NonZeroU8::new(6).unwrap();
///
/// /// A device that has no alternate 1.
/// struct Stalls;
///
/// impl Bus for Stalls {
///     fn send(&mut self, due: &Due<'_>) -> Outcome<'_> {
///         match due.command {
///             Command::SetInterface { alternate: 1, .. } => Err(STALL),
///             _ => Ok(Read::Nothing),
///         }
///     }
/// }
///
/// # let (mut ctx, mut routes, mut log) = ([0; 1056], [0; 64], [0; 64]);
/// # let memory = xhci_device::Memory { ctx: &mut ctx, routes: &mut routes, log: &mut log, outcomes: &[0; 64] };
/// # let args = xhci_device::BringUp { slot: xhci_device::SlotId(1), n: 1, speed: 3, parent: None, port: 1,
/// #     root_port: 1, rings: &[0x1000, 0x2000, 0x3000], header: 8, packet: 64, value: 0, hubs: &[],
/// #     list: &[0x0040_0000, 0x4000_0000, 0xA384_0410, 0x4000_4000, 0xA384_0410] };
/// # let (mut record, _) = xhci_device::Record::bring_up(memory, &args);
/// let mut claim = |alternate| {
///     let call = Call::Claim { interface: 0, alternate };
///     Pending::new(&mut record, &mut ctx, call).run(&mut routes, &mut Stalls)
/// };
/// assert_eq!(claim(0), Answer::Accepted);
/// assert_eq!(claim(1), Answer::Failed(6));
/// assert_eq!(record.held().next().map(|setting| setting.alternate), Some(0)); // the claim was undone
/// ```
pub trait Bus {
    /// Carries out a command and says how it went.
    ///
    /// - Before Address and Configure the rings of [`Due::added`] are cleared and begun anew.
    /// - Resume sets the dequeue pointer to where the ring is next written, and rings the doorbell. An endpoint that the
    ///   output context calls running was added by the Configure before it: there the doorbell is all.
    /// - A control endpoint that a request has halted is reset before the outcome is told: the next command may need it.
    /// - Completions that come meanwhile go to the rings that [`Due::routes`] name now; the next step may move them.
    fn send(&mut self, due: &Due<'_>) -> Outcome<'_>;
}

/// A command that is to be sent, and all that it is sent over.
///
/// Here a switch begins an endpoint on another ring, while its completions still go to the old one:
///
/// ```
/// use xhci_device::{Call, Command, Dci, Next, Pending, Read};
///
/// # let (mut ctx, mut routes, mut log) = ([0; 1056], [0; 64], [0; 64]);
/// # let memory = xhci_device::Memory { ctx: &mut ctx, routes: &mut routes, log: &mut log, outcomes: &[0; 64] };
/// # let args = xhci_device::BringUp { slot: xhci_device::SlotId(1), n: 1, speed: 3, parent: None, port: 1,
/// #     root_port: 1, rings: &[0x1000, 0x2000, 0x3000], header: 8, packet: 64, value: 0, hubs: &[],
/// #     list: &[0x0040_0000, 0x4000_0000, 0xA384_0410, 0x4000_4000, 0xA384_0410] };
/// # let (mut record, _) = xhci_device::Record::bring_up(memory, &args);
/// # let memory = xhci_device::Memory { ctx: &mut ctx, routes: &mut routes, log: &mut log, outcomes: &[0; 64] };
/// # let _ = record.claim(memory, 0, 0);
/// let mut pending = Pending::new(&mut record, &mut ctx, Call::Claim { interface: 0, alternate: 1 });
/// let Next::Send(due) = pending.next(&mut routes) else { panic!() };
/// assert_eq!(due.command, Command::Stop(Dci(3)));
/// pending.outcome(Ok(Read::Nothing));
///
/// let Next::Send(due) = pending.next(&mut routes) else { panic!() };
/// assert_eq!(due.command, Command::Configure);
/// assert!(due.dropped().eq([Dci(3)]) && due.added().eq([Dci(3)]));
/// assert_eq!((due.ring(Dci(3)), due.route(Dci(3))), (0x3000, 0x2000));
/// ```
#[derive(Clone, Copy, Debug)]
pub struct Due<'a> {
    /// The command.
    pub command: Command,
    /// The slot that it is for.
    pub slot: SlotId,
    /// The input context, which Address, Evaluate and Configure read as it stands here.
    pub ctx: &'a [u8],
    /// The record as it would stay if no outcome came.
    pub record: &'a Record,
    /// The routes of all slots.
    pub routes: &'a [u64],
    /// The words logged so far, the command's own last.
    pub log: &'a [u32],
}

const DROP_FLAGS: usize = 0;
const ADD_FLAGS: usize = 4;
const CONTROL_FLAG: u32 = 1 << 1;
const ENDPOINT_FLAGS: u32 = !3;

pub(crate) fn flagged(flags: u32) -> impl Iterator<Item = Dci> + use<> {
    (0..32).filter(move |dci| flags >> dci & 1 != 0).map(Dci)
}

impl<'a> Due<'a> {
    /// The endpoints that the controller begins by this command, each at the base of the ring that the
    /// context names and with cycle state 1: before it is sent these rings must be cleared and begun anew.
    /// They are control for Address, those flagged for Configure, none for any other.
    pub fn added(&self) -> impl Iterator<Item = Dci> + use<> {
        flagged(match self.command {
            Command::Address => self.doubleword(ADD_FLAGS) & CONTROL_FLAG,
            Command::Configure => self.doubleword(ADD_FLAGS) & ENDPOINT_FLAGS,
            _ => 0,
        })
    }

    /// The endpoints that the controller gives up by a Configure, before it begins the added ones. Disable, for which
    /// this names none, gives up control and all others.
    pub fn dropped(&self) -> impl Iterator<Item = Dci> + use<> {
        flagged(match self.command {
            Command::Configure => self.doubleword(DROP_FLAGS) & ENDPOINT_FLAGS,
            _ => 0,
        })
    }

    /// The ring that the context names for an endpoint.
    pub fn ring(&self, dci: Dci) -> u64 {
        let block = (1 + usize::from(dci.0)) * (self.ctx.len() / 33);
        let [low, high] = [block + 8, block + 12].map(|at| u64::from(self.doubleword(at)));
        (high << 32 | low) & !15
    }

    /// The ring that the routes name for an endpoint of the slot; 0 is none.
    pub fn route(&self, dci: Dci) -> u64 {
        self.routes.get(route_index(self.slot, dci)).copied().unwrap_or(0)
    }

    /// The context's doubleword at a byte; 0 past its end.
    fn doubleword(&self, at: usize) -> u32 {
        let bytes = self.ctx.get(at..).and_then(|rest| rest.first_chunk());
        bytes.map_or(0, |bytes| u32::from_le_bytes(*bytes))
    }
}
