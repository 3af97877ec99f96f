//! A call that is to be driven.

use crate::{Asked, SlotId};

/// A device that is to be brought up, as far as it is known before it is asked.
///
/// ```
/// use xhci_device::{Answer, Attached, Call, Dci, Next, Pending, Record, SlotId};
///
/// let port = Attached {
///     slot: SlotId(1), // of Enable Slot
///     n: 1,
///     speed: 3, // of PORTSC
///     parent: None,
///     port: 5,
///     root_port: 5,
///     rings: &[0x3000, 0x1000, 0x2000],
///     hubs: &[],
/// };
/// let (mut record, mut ctx, mut routes) = (Record::new(), [0; 1056], [0; 64]);
/// let unknown = Call::BringUp(Attached { speed: 6, ..port });
/// let mut pending = Pending::new(&mut record, &mut ctx, unknown);
/// assert!(matches!(pending.next(&mut routes), Next::Answer(Answer::Speed))); // nothing was sent
///
/// let mut pending = Pending::new(&mut record, &mut ctx, Call::BringUp(port));
/// let Next::Send(due) = pending.next(&mut routes) else { panic!() };
/// assert_eq!(due.command.to_string(), "Address");
/// assert_eq!(due.ring(Dci::CONTROL), 0x1000);
/// ```
#[derive(Clone, Copy, Debug)]
pub struct Attached<'a> {
    /// The slot that it gets.
    pub slot: SlotId,
    /// N, the number of slots that the routes serve.
    pub n: usize,
    /// xHCI's speed id, 1 to 5.
    pub speed: u8,
    /// The hub that the device is on: its place in `hubs`.
    pub parent: Option<usize>,
    /// The port on that hub.
    pub port: u8,
    /// The port of the root hub that the way to the device begins at.
    pub root_port: u8,
    /// The rings that the slot is given: 1 to 64, in any order. The lowest is control's; claims draw the others.
    pub rings: &'a [u64],
    /// Hub words ([`Hub::word`](crate::Hub::word)), of every hub between the root hub and the device at least.
    pub hubs: &'a [u64],
}

/// A call that is to be driven.
///
/// ```
/// use xhci_device::{Answer, Bus, Call, Due, Outcome, Pending, Read};
///
/// struct Does;
///
/// impl Bus for Does {
///     fn send(&mut self, _: &Due<'_>) -> Outcome<'_> {
///         Ok(Read::Nothing)
///     }
/// }
///
/// # let (mut ctx, mut routes, mut log) = ([0; 1056], [0; 64], [0; 64]);
/// # let memory = xhci_device::Memory { ctx: &mut ctx, routes: &mut routes, log: &mut log, outcomes: &[0; 64] };
/// # let args = xhci_device::BringUp { slot: xhci_device::SlotId(1), n: 1, speed: 3, parent: None, port: 1,
/// #     root_port: 1, rings: &[0x1000, 0x2000], header: 8, packet: 64, value: 0, hubs: &[],
/// #     list: &[0x0040_0000, 0x4000_0000, 0xA384_0410] };
/// # let (mut record, _) = xhci_device::Record::bring_up(memory, &args);
/// let asked = record.ask_driven(&ctx, &routes, 0, 0)?;
/// let calls = [
///     Call::HubUpdate { ports: 4, multi: false, ns: 666 },
///     Call::Commit(asked),
///     Call::Release { interface: 0 },
///     Call::SetConfiguration { value: 1 },
///     Call::Claim { interface: 0, alternate: 0 },
///     Call::Disconnect,
/// ];
/// for call in calls {
///     let answer = Pending::new(&mut record, &mut ctx, call).run(&mut routes, &mut Does);
///     assert_eq!(answer, Answer::Accepted);
/// }
/// assert!(!record.is_up() && routes == [0; 64]);
/// # Ok::<(), Answer>(())
/// ```
#[derive(Clone, Debug)]
#[must_use]
#[non_exhaustive]
pub enum Call<'a> {
    /// Makes the record, whatever it was before. Refused before a command was sent, it leaves the record as it was.
    BringUp(Attached<'a>),
    /// The claim of an interface's alternate setting.
    Claim {
        /// The interface.
        interface: u8,
        /// Its alternate setting.
        alternate: u8,
    },
    /// The claim that an ask has shown ([`Record::ask`](crate::Record::ask)), unless another would be shown now.
    Commit(Asked),
    /// The release of an interface.
    Release {
        /// The interface.
        interface: u8,
    },
    /// The setting of a configuration, which ends all held settings.
    SetConfiguration {
        /// The configuration's value.
        value: u8,
    },
    /// The hub update.
    HubUpdate {
        /// The number of ports.
        ports: u8,
        /// Whether each port has its own transaction translator.
        multi: bool,
        /// Think time in nanoseconds.
        ns: u32,
    },
    /// The unplugging, which disables the slot.
    Disconnect,
}
