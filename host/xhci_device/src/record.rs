//! The record of a slot, which each call reads and leaves anew.

use core::fmt;

use crate::debug::{Hex, Listed};
use crate::driver::COMMANDS;
use crate::layout::{
    ALTERNATES, CONFIGURED, CONTROL, CONTROL_REVOKED, CURRENT_CONFIG_VALUE, EP_ADDRESSES, EP_COUNT, EP_INTERFACES,
    EP_REVOKED, EP_RINGS, EP_ROOM, GIVEN, GIVEN_COUNT, GIVEN_ROOM, HELD_COUNT, HELD_ROOM, INTERFACES, LIST, LIST_LEN,
    LIST_ROOM, MAX_SLOTS, PORT_SPEED, QUARANTINED, QUARANTINED_COUNT, RING_ROOM, SLOT, SPACING, WORDS,
};
use crate::library::{self, Parts};
use crate::{Answer, Answered, Asked, BringUp, ChoiceRefusal, Chosen, Dci, Memory, Reason, SlotId};

/// A record: the image that the library reads and writes. A bring-up makes it.
///
/// The methods run a call at once, over outcomes that are known; [`Pending`](crate::Pending) runs one as they come.
///
/// ```
/// use xhci_device::{Answer, Answered, BringUp, Memory, Record, SlotId};
///
/// let (mut ctx, mut routes, mut log) = ([0; 1056], [0; 64], [0; 64]);
/// let memory = Memory { ctx: &mut ctx, routes: &mut routes, log: &mut log, outcomes: &[0; 64] };
/// let args = BringUp {
///     slot: SlotId(1),
///     n: 1,
///     speed: 3,
///     parent: None,
///     port: 1,
///     root_port: 1,
///     rings: &[0x1000, 0x2000],
///     header: 8,
///     packet: 64,
///     value: 0,
///     hubs: &[],
///     list: &[0x0040_0000, 0x4000_0000, 0xA384_0410],
/// };
/// let (mut record, answered) = Record::bring_up(memory, &args);
/// assert_eq!(answered, Answered { answer: Answer::Accepted, count: 9 });
///
/// let memory = Memory { ctx: &mut ctx, routes: &mut routes, log: &mut log, outcomes: &[0, 7, 0] };
/// assert_eq!(record.claim(memory, 0, 0), Answered { answer: Answer::Failed(7), count: 3 });
/// assert!(record.is_usable() && record.held().len() == 0 && record.free().eq([0x2000]));
/// ```
#[derive(Clone, PartialEq, Eq)]
pub struct Record {
    words: [u64; WORDS],
}

/// An endpoint of a record, with the interface that owns it.
///
/// ```
/// use xhci_device::{Dci, Endpoint, Setting};
///
/// # let (mut ctx, mut routes, mut log) = ([0; 1056], [0; 64], [0; 64]);
/// # let memory = xhci_device::Memory { ctx: &mut ctx, routes: &mut routes, log: &mut log, outcomes: &[0; 64] };
/// # let args = xhci_device::BringUp { slot: xhci_device::SlotId(1), n: 1, speed: 3, parent: None, port: 1,
/// #     root_port: 1, rings: &[0x1000, 0x2000], header: 8, packet: 64, value: 0, hubs: &[],
/// #     list: &[0x0040_0000, 0x4000_0000, 0xA384_0410] };
/// # let (mut record, _) = xhci_device::Record::bring_up(memory, &args);
/// # let memory = xhci_device::Memory { ctx: &mut ctx, routes: &mut routes, log: &mut log, outcomes: &[0; 64] };
/// # let _ = record.claim(memory, 0, 0);
/// assert!(record.held().eq([Setting { interface: 0, alternate: 0 }]));
/// let endpoint = record.endpoints().next().unwrap();
/// assert_eq!(endpoint, Endpoint { address: 0x81, interface: 0, ring: 0x2000, active: true });
/// assert_eq!(endpoint.dci(), Dci(3));
/// assert_eq!(format!("{endpoint:?}"), "Endpoint { address: 0x81, interface: 0, ring: 0x2000, active: true }");
/// ```
#[derive(Clone, Copy, PartialEq, Eq, Hash)]
pub struct Endpoint {
    /// The endpoint number, and 0x80 for IN.
    pub address: u8,
    /// The interface that owns it.
    pub interface: u8,
    /// Its transfer ring's bus address.
    pub ring: u64,
    /// Otherwise revoked.
    pub active: bool,
}

impl Endpoint {
    /// Its index in contexts and routes.
    pub fn dci(&self) -> Dci {
        Dci::of_address(self.address)
    }
}

impl fmt::Debug for Endpoint {
    fn fmt(&self, f: &mut fmt::Formatter<'_>) -> fmt::Result {
        f.debug_struct("Endpoint")
            .field("address", &Hex(self.address.into()))
            .field("interface", &self.interface)
            .field("ring", &Hex(self.ring))
            .field("active", &self.active)
            .finish()
    }
}

/// A held setting ([`Endpoint`] shows one).
#[derive(Clone, Copy, Debug, PartialEq, Eq, Hash)]
pub struct Setting {
    /// The interface.
    pub interface: u8,
    /// The alternate setting that it holds.
    pub alternate: u8,
}

impl fmt::Display for Setting {
    fn fmt(&self, f: &mut fmt::Formatter<'_>) -> fmt::Result {
        write!(f, "interface {}, alternate {}", self.interface, self.alternate)
    }
}

/// The value of a configuration that was read or set.
///
/// ```
/// use xhci_device::{Configuration, Memory, Record};
///
/// assert_eq!(Record::new().configuration(), None);
/// # let (mut ctx, mut routes, mut log) = ([0; 1056], [0; 64], [0; 64]);
/// # let memory = xhci_device::Memory { ctx: &mut ctx, routes: &mut routes, log: &mut log, outcomes: &[0; 64] };
/// # let args = xhci_device::BringUp { slot: xhci_device::SlotId(1), n: 1, speed: 3, parent: None, port: 1,
/// #     root_port: 1, rings: &[0x1000, 0x2000], header: 8, packet: 64, value: 0, hubs: &[],
/// #     list: &[0x0040_0000, 0x4000_0000, 0xA384_0410] };
/// # let (mut record, _) = xhci_device::Record::bring_up(memory, &args);
/// let memory = Memory { ctx: &mut ctx, routes: &mut routes, log: &mut log, outcomes: &[0; 64] };
/// record.set_configuration(memory, 0).answer.ok()?; // no longer configured
/// assert_eq!(record.configuration(), Some(Configuration(0)));
/// assert_eq!(Configuration(0).to_string(), "configuration 0");
/// # Ok::<(), xhci_device::Answer>(())
/// ```
#[derive(Clone, Copy, Debug, PartialEq, Eq, Hash)]
pub struct Configuration(pub u8);

impl fmt::Display for Configuration {
    fn fmt(&self, f: &mut fmt::Formatter<'_>) -> fmt::Result {
        write!(f, "configuration {}", self.0)
    }
}

impl Default for Record {
    fn default() -> Record {
        Record::new()
    }
}

/// The calls.
impl Record {
    /// The empty record, which a refused bring-up returns: unusable, every number 0.
    pub const fn new() -> Record {
        Record { words: [0; WORDS] }
    }

    /// The bring-up of a slot. The record is there after every answer, the empty one after a refusal, and usable after
    /// `Accepted` alone.
    pub fn bring_up(memory: Memory<'_>, args: &BringUp<'_>) -> (Record, Answered) {
        let mut record = Record::new();
        let answered = record.bring_up_here(memory, args);
        (record, answered)
    }

    /// The same, in the place of another record.
    pub(crate) fn bring_up_here(&mut self, memory: Memory<'_>, args: &BringUp<'_>) -> Answered {
        library::bring_up(&mut self.words, memory, args)
    }

    /// The claim of an interface's alternate setting. Each of its endpoint words draws a ring, the lowest free one first.
    /// Broken, or cut once a Configure was sent, it leaves the rings of its endpoints quarantined.
    pub fn claim(&mut self, memory: Memory<'_>, interface: u8, alternate: u8) -> Answered {
        library::claim(&mut self.words, memory, interface, alternate)
    }

    /// What a claim would do that is lent a context, routes and a log of these lengths. It runs the claim's checks, sends
    /// nothing and changes nothing.
    ///
    /// ```
    /// use xhci_device::{Answer, Answered, Asked, BringUp, Dci, Memory, Record, SlotId};
    ///
    /// # let (mut ctx, mut routes, mut log) = ([0; 1056], [0; 64], [0; 64]);
    /// # let memory = Memory { ctx: &mut ctx, routes: &mut routes, log: &mut log, outcomes: &[0; 64] };
    /// # let args = BringUp { slot: SlotId(1), n: 1, speed: 3, parent: None, port: 1, root_port: 1,
    /// #     rings: &[0x1000, 0x2000], header: 8, packet: 64, value: 0, hubs: &[],
    /// #     list: &[0x0040_0000, 0x4000_0000, 0xA384_0410] };
    /// # let (mut record, _) = Record::bring_up(memory, &args);
    /// let asked: Asked = record.ask(&ctx, &routes, &log, 0, 0)?;
    /// assert!(asked.dropped().next().is_none() && asked.added().eq([Dci(3)]));
    /// assert_eq!(asked.rings(), [0x2000]);
    ///
    /// let memory = Memory { ctx: &mut ctx, routes: &mut routes, log: &mut log, outcomes: &[0, 0] };
    /// assert_eq!(record.commit(memory, asked), Answered { answer: Answer::Accepted, count: 2 });
    /// # Ok::<(), Answer>(())
    /// ```
    pub fn ask(&self, ctx: &[u8], routes: &[u64], log: &[u32], interface: u8, alternate: u8) -> Result<Asked, Answer> {
        library::ask(&self.words, [ctx.len(), routes.len(), log.len()], interface, alternate)
    }

    /// The same for a call that is driven ([`Pending`](crate::Pending)), which has a log of its own.
    pub fn ask_driven(&self, ctx: &[u8], routes: &[u64], interface: u8, alternate: u8) -> Result<Asked, Answer> {
        library::ask(&self.words, [ctx.len(), routes.len(), COMMANDS], interface, alternate)
    }

    /// The claim that an ask has shown, unless another would be shown now (`OutdatedAsk`).
    pub fn commit(&mut self, memory: Memory<'_>, asked: Asked) -> Answered {
        self.commit_shown(memory, &asked)
    }

    pub(crate) fn commit_shown(&mut self, memory: Memory<'_>, asked: &Asked) -> Answered {
        let Asked { interface, alternate, drops, adds, .. } = *asked;
        library::commit(&mut self.words, memory, &Parts { interface, alternate, drops, adds, rings: asked.rings() })
    }

    /// Why a claim of an interface's alternate setting got its answer, or a commit of an ask for it: from the record, the
    /// answer and count, and the log that it left, and from the outcomes that it was given. Nothing is changed.
    ///
    /// ```
    /// use xhci_device::{Answer, Answered, BringUp, Memory, Reason, Record, SlotId};
    ///
    /// # let (mut ctx, mut routes, mut log) = ([0; 1056], [0; 64], [0; 64]);
    /// # let memory = Memory { ctx: &mut ctx, routes: &mut routes, log: &mut log, outcomes: &[0; 64] };
    /// # let args = BringUp { slot: SlotId(1), n: 1, speed: 3, parent: None, port: 1, root_port: 1,
    /// #     rings: &[0x1000, 0x2000], header: 8, packet: 64, value: 0, hubs: &[],
    /// #     list: &[0x0040_0000, 0x4000_0000, 0xA384_0410] };
    /// # let (mut record, _) = Record::bring_up(memory, &args);
    /// let outcomes = [0, 7, 0];
    /// let memory = Memory { ctx: &mut ctx, routes: &mut routes, log: &mut log, outcomes: &outcomes };
    /// let left = record.claim(memory, 0, 0);
    /// assert_eq!(left, Answered { answer: Answer::Failed(7), count: 3 });
    /// let reason = record.why(0, 0, left, &log, &outcomes);
    /// assert_eq!(reason, Reason::Command { place: 1, word: 0x6000_0000 });
    ///
    /// let memory = Memory { ctx: &mut ctx, routes: &mut routes, log: &mut log, outcomes: &[] };
    /// let left = record.claim(memory, 0, 5);
    /// let reason = record.why(0, 5, left, &log, &[]);
    /// assert_eq!(reason.to_string(), "the list has no alternate 5 of interface 0");
    /// ```
    pub fn why(&self, interface: u8, alternate: u8, left: Answered, log: &[u32], outcomes: &[u8]) -> Reason {
        let Answered { answer, count } = left;
        let logged = &log[..count.min(log.len())];
        Reason::of(&library::why(&self.words, (interface, alternate), answer.number(), logged, outcomes))
    }

    /// The release of an interface.
    pub fn release(&mut self, memory: Memory<'_>, interface: u8) -> Answered {
        library::release(&mut self.words, memory, interface)
    }

    /// The setting of a configuration value, which ends all held settings.
    pub fn set_configuration(&mut self, memory: Memory<'_>, value: u8) -> Answered {
        library::set_configuration(&mut self.words, memory, value)
    }

    /// The hub update: number of ports, multi, think time in nanoseconds.
    pub fn hub_update(&mut self, memory: Memory<'_>, ports: u8, multi: bool, ns: u32) -> Answered {
        library::hub_update(&mut self.words, memory, ports, multi, ns)
    }

    /// The unplugging: everything is stopped and the slot disabled. Also of a record that a broken or cut call left
    /// unusable ([`is_up`](Record::is_up)).
    pub fn disconnect(&mut self, memory: Memory<'_>) -> Answered {
        library::disconnect(&mut self.words, memory)
    }
}

/// Questions of a record, which change nothing.
impl Record {
    /// One alternate for each interface named, from the first configuration: one of which no interrupt endpoint has a
    /// longer context interval than `longest`, and such that no two of the interfaces take the same address. Of several
    /// choices it is the earliest in the list, compared by interface as named. Endpoints of context interval `i` are polled
    /// every 125 × 2ⁱ microseconds.
    ///
    /// What is held has no say: interfaces that are not among the names may hold addresses that are taken here.
    ///
    /// ```
    /// use std::error::Error;
    /// use xhci_device::{BringUp, ChoiceRefusal, Memory, Record, SlotId};
    ///
    /// # let (mut ctx, mut routes, mut log) = ([0; 1056], [0; 64], [0; 64]);
    /// # let memory = Memory { ctx: &mut ctx, routes: &mut routes, log: &mut log, outcomes: &[0; 64] };
    /// // Interface 0: alternate 0 with 0x81 every millisecond, alternate 1 with 0x81 every 125 microseconds.
    /// // Interface 1: alternate 0 with 0x82 every millisecond.
    /// let list = [0x0040_0000, 0x4000_0000, 0xA384_0410, 0x4000_4000, 0xA384_0404, 0x4040_0000, 0xA584_0410];
    /// # let args = BringUp { slot: SlotId(1), n: 1, speed: 3, parent: None, port: 1, root_port: 1,
    /// #     rings: &[0x1000, 0x2000, 0x3000], header: 8, packet: 64, value: 0, hubs: &[], list: &list };
    /// # let (mut record, _) = Record::bring_up(memory, &args);
    /// assert_eq!(record.choose(&[0, 1], 3)?.alternates(), [0, 0]);
    /// assert_eq!(record.choose(&[0], 0)?.alternates(), [1]);
    /// assert_eq!(record.choose(&[0, 1], 0), Err(ChoiceRefusal::NoChoice));
    ///
    /// // The panel claims what was chosen.
    /// for setting in record.choose(&[1, 0], 3)?.settings() {
    ///     let memory = Memory { ctx: &mut ctx, routes: &mut routes, log: &mut log, outcomes: &[0; 64] };
    ///     record.claim(memory, setting.interface, setting.alternate).answer.ok()?;
    /// }
    /// # Ok::<(), Box<dyn Error>>(())
    /// ```
    pub fn choose(&self, names: &[u8], longest: u32) -> Result<Chosen, ChoiceRefusal> {
        library::choose(&self.words, names, longest)
    }
}

/// What a record says.
impl Record {
    /// Whether calls may be made on it: after an accepted bring-up, up to a broken or cut call or an accepted unplugging.
    pub fn is_usable(&self) -> bool {
        library::is_usable(&self.words)
    }

    /// Whether the device may be unplugged: after an accepted bring-up, up to an accepted unplugging.
    pub fn is_up(&self) -> bool {
        library::is_up(&self.words)
    }

    /// Whether the calls can have left it; they refuse any other.
    pub fn is_sound(&self) -> bool {
        library::is_sound(&self.words)
    }

    /// The slot.
    pub fn slot(&self) -> SlotId {
        SlotId(self.words[SLOT] as u8)
    }

    /// N, the number of slots that the routes serve.
    pub fn n(&self) -> u8 {
        self.words[MAX_SLOTS] as u8
    }

    /// The context's block size.
    pub fn spacing(&self) -> usize {
        self.words[SPACING] as usize
    }

    /// xHCI's speed id.
    pub fn port_speed(&self) -> u8 {
        self.words[PORT_SPEED] as u8
    }

    /// The configuration value last read or set.
    pub fn configuration(&self) -> Option<Configuration> {
        (self.words[CONFIGURED] != 0).then_some(Configuration(self.words[CURRENT_CONFIG_VALUE] as u8))
    }

    /// Control's ring.
    pub fn control(&self) -> u64 {
        self.words[CONTROL]
    }

    /// Whether control's ring is revoked.
    pub fn control_revoked(&self) -> bool {
        self.words[CONTROL_REVOKED] != 0
    }

    /// How many elements of an array are in use.
    fn count(&self, at: usize, room: usize) -> usize {
        usize::try_from(self.words[at]).map_or(room, |count| count.min(room))
    }

    /// The descriptor words.
    pub fn list(&self) -> impl ExactSizeIterator<Item = u32> + '_ {
        (0..self.count(LIST_LEN, LIST_ROOM)).map(|i| self.words[LIST + i] as u32)
    }

    /// The endpoints of the held settings.
    pub fn endpoints(&self) -> impl ExactSizeIterator<Item = Endpoint> + '_ {
        (0..self.count(EP_COUNT, EP_ROOM)).map(|i| Endpoint {
            address: self.words[EP_ADDRESSES + i] as u8,
            interface: self.words[EP_INTERFACES + i] as u8,
            ring: self.words[EP_RINGS + i],
            active: self.words[EP_REVOKED + i] == 0,
        })
    }

    /// The held settings.
    pub fn held(&self) -> impl ExactSizeIterator<Item = Setting> + '_ {
        (0..self.count(HELD_COUNT, HELD_ROOM)).map(|i| Setting {
            interface: self.words[INTERFACES + i] as u8,
            alternate: self.words[ALTERNATES + i] as u8,
        })
    }

    /// The rings that lost calls left in doubt, in the order of arrival: the controller may hold them, and no claim draws
    /// them. After a broken unplugging these are control's and the endpoints' too.
    pub fn quarantined(&self) -> impl ExactSizeIterator<Item = u64> + '_ {
        (0..self.count(QUARANTINED_COUNT, RING_ROOM)).map(|i| self.words[QUARANTINED + i])
    }

    /// The rings that the slot was given.
    pub fn given(&self) -> impl ExactSizeIterator<Item = u64> + '_ {
        (0..self.count(GIVEN_COUNT, GIVEN_ROOM)).map(|i| self.words[GIVEN + i])
    }

    /// The given rings that a claim may draw: not control's, no endpoint's, not quarantined.
    pub fn free(&self) -> impl Iterator<Item = u64> + '_ {
        self.given().filter(|ring| {
            let mut used = self.endpoints().map(|endpoint| endpoint.ring).chain(self.quarantined());
            *ring != self.control() && !used.any(|other| other == *ring)
        })
    }
}

impl fmt::Debug for Record {
    fn fmt(&self, f: &mut fmt::Formatter<'_>) -> fmt::Result {
        f.debug_struct("Record")
            .field("usable", &self.is_usable())
            .field("up", &self.is_up())
            .field("slot", &self.slot())
            .field("n", &self.n())
            .field("spacing", &self.spacing())
            .field("port_speed", &self.port_speed())
            .field("configuration", &self.configuration())
            .field("control", &Hex(self.control()))
            .field("control_revoked", &self.control_revoked())
            .field("list", &Listed(|| self.list().map(u64::from).map(Hex)))
            .field("endpoints", &Listed(|| self.endpoints()))
            .field("held", &Listed(|| self.held()))
            .field("quarantined", &Listed(|| self.quarantined().map(Hex)))
            .field("given", &Listed(|| self.given().map(Hex)))
            .finish()
    }
}

/// The image, word by word (host/include/xhci_device.h says which is which).
impl Record {
    /// How many words the image has.
    pub const WORDS: usize = WORDS;

    /// The words of the image.
    pub fn words(&self) -> &[u64; WORDS] {
        &self.words
    }

    /// A record of any words. A call refuses words that are no sound record with 12 and changes nothing.
    #[cfg(feature = "words")]
    pub fn from_words(words: [u64; WORDS]) -> Record {
        Record { words }
    }

    /// A commit of flags and rings that no ask need have returned.
    #[cfg(feature = "words")]
    pub fn commit_parts(&mut self, memory: Memory<'_>, setting: Setting, flags: (u32, u32), rings: &[u64]) -> Answered {
        let (Setting { interface, alternate }, (drops, adds)) = (setting, flags);
        library::commit(&mut self.words, memory, &Parts { interface, alternate, drops, adds, rings })
    }
}
