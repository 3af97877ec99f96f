//! Where the words of an image stand, by the names of host/include/xhci_device.h. What a record gets from now on is appended:
//! no word moves.
//!
//! ```
//! use xhci_device::layout::{GIVEN, GIVEN_COUNT, SLOT, WORDS};
//!
//! /// The rings that a slot was given, of an image that C has left.
//! fn given(image: &[u64; WORDS]) -> &[u64] {
//!     &image[GIVEN..][..image[GIVEN_COUNT] as usize]
//! }
//!
//! # let (mut ctx, mut routes, mut log) = ([0; 1056], [0; 64], [0; 64]);
//! # let memory = xhci_device::Memory { ctx: &mut ctx, routes: &mut routes, log: &mut log, outcomes: &[0; 64] };
//! # let args = xhci_device::BringUp { slot: xhci_device::SlotId(1), n: 1, speed: 3, parent: None, port: 1,
//! #     root_port: 1, rings: &[0x1000, 0x2000], header: 8, packet: 64, value: 0, hubs: &[],
//! #     list: &[0x0040_0000, 0x4000_0000, 0xA384_0410] };
//! # let (record, _) = xhci_device::Record::bring_up(memory, &args);
//! assert_eq!((record.words()[SLOT], given(record.words())), (1, [0x1000, 0x2000].as_slice()));
//! ```

// Flags: 0 or 1.
/// 01's mark: whether calls may use the record.
pub const USABLE: usize = 0;
/// Whether a configuration value was read or set.
pub const CONFIGURED: usize = 1;
/// Whether control's handle is revoked.
pub const CONTROL_REVOKED: usize = 2;
/// Of each endpoint, whether its handle is revoked.
pub const EP_REVOKED: usize = 3;

// Bytes.
/// The slot.
pub const SLOT: usize = 33;
/// How many slots the route table serves.
pub const MAX_SLOTS: usize = 34;
/// The speed, 1 to 5.
pub const PORT_SPEED: usize = 35;
/// The configuration value.
pub const CURRENT_CONFIG_VALUE: usize = 36;
/// The addresses of the endpoints.
pub const EP_ADDRESSES: usize = 37;
/// The interfaces that own them.
pub const EP_INTERFACES: usize = 67;
/// The interfaces that hold a setting.
pub const INTERFACES: usize = 97;
/// The alternate settings that they hold.
pub const ALTERNATES: usize = 129;

// Words of 32 bits.
/// The descriptor words.
pub const LIST: usize = 161;

// Words of 64 bits.
/// The spacing of context blocks, 32 or 64.
pub const SPACING: usize = 417;
/// How many descriptor words.
pub const LIST_LEN: usize = 418;
/// How many endpoints.
pub const EP_COUNT: usize = 419;
/// How many held settings.
pub const HELD_COUNT: usize = 420;
/// How many quarantined rings.
pub const QUARANTINED_COUNT: usize = 421;
/// Control's ring.
pub const CONTROL: usize = 422;
/// The rings of the endpoints.
pub const EP_RINGS: usize = 423;
/// The quarantined rings.
pub const QUARANTINED: usize = 453;

// Flags that were added.
/// Whether the device may be unplugged.
pub const UP: usize = 514;

// The rings that the slot was given: words of 64 bits that were added.
/// How many given rings.
pub const GIVEN_COUNT: usize = 515;
/// The given rings.
pub const GIVEN: usize = 516;

// How many there are.
/// How many words an image has.
pub const WORDS: usize = 580;

// Room in a record's arrays.
/// Descriptor words.
pub const LIST_ROOM: usize = 256;
/// Endpoints.
pub const EP_ROOM: usize = 30;
/// Held settings.
pub const HELD_ROOM: usize = 32;
/// Quarantined rings.
pub const RING_ROOM: usize = 61;
/// Given rings.
pub const GIVEN_ROOM: usize = 64;
