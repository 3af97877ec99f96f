//! What a claim would do.

use core::fmt;

use crate::Dci;
use crate::bus::flagged;
use crate::debug::{Hex, Listed};
use crate::layout::EP_ROOM;

/// What an accepted ask has shown: the endpoints that its claim would drop and add, and the rings that it would draw. A
/// commit takes it and makes that claim, unless an ask would show something else by then. Of a refused ask there is none.
///
/// ```
/// use xhci_device::{Answer, Answered, Dci, Memory};
///
/// # let (mut ctx, mut routes, mut log) = ([0; 1056], [0; 64], [0; 64]);
/// # let memory = xhci_device::Memory { ctx: &mut ctx, routes: &mut routes, log: &mut log, outcomes: &[0; 64] };
/// # let args = xhci_device::BringUp { slot: xhci_device::SlotId(1), n: 1, speed: 3, parent: None, port: 1,
/// #     root_port: 1, rings: &[0x1000, 0x2000, 0x3000], header: 8, packet: 64, value: 0, hubs: &[],
/// #     list: &[0x0040_0000, 0x4000_0000, 0xA384_0410, 0x4000_4000, 0xA384_0410] };
/// # let (mut record, _) = xhci_device::Record::bring_up(memory, &args);
/// let asked = record.ask(&ctx, &routes, &log, 0, 1)?;
/// assert_eq!((asked.interface(), asked.alternate()), (0, 1));
/// assert!(asked.added().eq([Dci(3)]) && asked.add_flags() == 1 << 3 && asked.rings() == [0x2000]);
/// let shown = "Asked { interface: 0, alternate: 1, dropped: [], added: [Dci(3)], rings: [0x2000] }";
/// assert_eq!(format!("{asked:?}"), shown);
///
/// let memory = Memory { ctx: &mut ctx, routes: &mut routes, log: &mut log, outcomes: &[0; 64] };
/// record.claim(memory, 0, 0).answer.ok()?; // draws that ring: now Dci 3 would be dropped, too, and added on another
/// let memory = Memory { ctx: &mut ctx, routes: &mut routes, log: &mut log, outcomes: &[0; 64] };
/// assert_eq!(record.commit(memory, asked), Answered { answer: Answer::OutdatedAsk, count: 0 });
/// # Ok::<(), Answer>(())
/// ```
#[derive(Clone, PartialEq, Eq, Hash)]
pub struct Asked {
    pub(crate) interface: u8,
    pub(crate) alternate: u8,
    pub(crate) drops: u32,
    pub(crate) adds: u32,
    pub(crate) rings: [u64; EP_ROOM],
    pub(crate) count: usize,
}

impl fmt::Debug for Asked {
    fn fmt(&self, f: &mut fmt::Formatter<'_>) -> fmt::Result {
        f.debug_struct("Asked")
            .field("interface", &self.interface)
            .field("alternate", &self.alternate)
            .field("dropped", &Listed(|| self.dropped()))
            .field("added", &Listed(|| self.added()))
            .field("rings", &Listed(|| self.rings().iter().copied().map(Hex)))
            .finish()
    }
}

impl Asked {
    /// The interface that was asked for.
    pub fn interface(&self) -> u8 {
        self.interface
    }

    /// Its alternate setting.
    pub fn alternate(&self) -> u8 {
        self.alternate
    }

    /// The endpoints that would go: those of the setting that the interface holds.
    pub fn dropped(&self) -> impl Iterator<Item = Dci> + use<> {
        flagged(self.drops)
    }

    /// The endpoints that would come.
    pub fn added(&self) -> impl Iterator<Item = Dci> + use<> {
        flagged(self.adds)
    }

    /// Bit d for each Dci d that would go, as the first Configure has them; bits 0 and 1 are 0.
    pub fn drop_flags(&self) -> u32 {
        self.drops
    }

    /// Bit d for each Dci d that would come; bits 0 and 1 are 0.
    pub fn add_flags(&self) -> u32 {
        self.adds
    }

    /// The rings that would be drawn, one for each endpoint word of the setting, in the order of the list. Of an address
    /// that is listed twice the last one's would be kept.
    pub fn rings(&self) -> &[u64] {
        self.rings.get(..self.count).unwrap_or(&self.rings)
    }
}
