//! Input contexts (xHCI 1.2, section 6.2): 33 blocks, 32 or 64 bytes apart. A step writes its fields, and every other
//! bit stays (docs/BEHAVIOUR.md, "What each command's context gets").

use std::collections::BTreeMap;

use crate::list::{BULK, Companion, EndpointWord, ISOCHRONOUS};
use crate::topology::Translator;

const CONTROL: usize = 0;
const SLOT: usize = 1;

pub struct Context<'a> {
    pub bytes: &'a mut [u8],
    pub spacing: usize,
}

/// By speed, from 1 on.
const FIRST_PACKET_SIZE: [u32; 5] = [64, 8, 64, 512, 512];

pub struct Address {
    pub speed: u8,
    pub route: u32,
    pub root_port: u8,
    pub translator: Option<Translator>,
    pub ring: u64,
}

impl Context<'_> {
    /// Writes the bits from `low` on, `width` of them, of a block's doubleword.
    fn put(&mut self, block: usize, dword: usize, low: u32, width: u32, value: u32) {
        let at = block * self.spacing + 4 * dword;
        let bytes: &mut [u8; 4] = (&mut self.bytes[at..at + 4]).try_into().expect("four bytes");
        let mask = (((1u64 << width) - 1) << low) as u32;
        *bytes = (u32::from_le_bytes(*bytes) & !mask | (value << low) & mask).to_le_bytes();
    }

    fn put_pointer(&mut self, dci: u8, ring: u64) {
        let block = SLOT + usize::from(dci);
        self.put(block, 2, 4, 28, (ring >> 4) as u32);
        self.put(block, 3, 0, 32, (ring >> 32) as u32);
    }

    /// Over zeros, in the upper halves of 64-byte blocks too.
    pub fn address(&mut self, with: &Address) {
        self.bytes.fill(0);
        self.put(CONTROL, 1, 0, 2, 0b11);
        self.put(SLOT, 0, 0, 20, with.route);
        self.put(SLOT, 0, 20, 4, with.speed.into());
        self.put(SLOT, 0, 27, 5, 1);
        self.put(SLOT, 1, 16, 8, with.root_port.into());
        if let Some(translator) = &with.translator {
            self.put(SLOT, 0, 25, 1, translator.multi.into());
            self.put(SLOT, 2, 0, 8, translator.slot.into());
            self.put(SLOT, 2, 8, 8, translator.port.into());
        }
        let control = SLOT + 1;
        self.put(control, 1, 1, 2, 3);
        self.put(control, 1, 3, 3, 4);
        self.put(control, 1, 16, 16, FIRST_PACKET_SIZE[usize::from(with.speed) - 1]);
        self.put(control, 2, 0, 1, 1);
        self.put_pointer(1, with.ring);
        self.put(control, 4, 0, 16, 8);
    }

    /// How every other step begins: drop flags 0 and 1 stay, and of the add flags A0 alone is set.
    fn change(&mut self) {
        self.put(CONTROL, 0, 2, 30, 0);
        self.put(CONTROL, 1, 0, 32, 1);
    }

    /// `setup_max_packet`: at speeds 4 and 5 the byte is an exponent; at the others a byte of 0 stands for 8.
    pub fn control_packet_size(&mut self, speed: u8, byte: u8) {
        self.change();
        self.put(CONTROL, 1, 1, 1, 1);
        let size = match (speed, byte) {
            (4 | 5, exponent) => 1 << exponent,
            (_, 0) => 8,
            (_, size) => size.into(),
        };
        self.put(SLOT + 1, 1, 16, 16, size);
    }

    /// For the last Evaluate of a set configuration, and no other command.
    pub fn configuration(&mut self, value: u8) {
        self.change();
        self.put(CONTROL, 7, 0, 8, value.into());
    }

    /// `update_hub_inner`. Without several translators the flag stays, but at Full speed.
    pub fn hub(&mut self, speed: u8, ports: u8, multi: bool, think_time: u32) {
        self.change();
        self.put(SLOT, 0, 26, 1, 1);
        if multi || speed == 1 {
            self.put(SLOT, 0, 25, 1, multi.into());
        }
        self.put(SLOT, 1, 24, 8, ports.into());
        if speed == 3 {
            self.put(SLOT, 2, 16, 2, think_time);
        }
    }

    /// `prepare_configure_context`. The entries are the highest Dci of what is added and of what the record has and is not
    /// dropped, 1 where there is neither.
    pub fn configure(
        &mut self,
        setting: (u8, u8),
        drop: &[EndpointWord],
        add: &[Added],
        record_dcis: &[u8],
        speed: u8,
    ) {
        self.change();
        self.put(CONTROL, 7, 8, 8, setting.0.into());
        self.put(CONTROL, 7, 16, 8, setting.1.into());
        for word in drop {
            self.put(CONTROL, 0, word.dci().into(), 1, 1);
        }
        for added in add {
            self.put(CONTROL, 1, added.word.dci().into(), 1, 1);
            self.endpoint(added, speed);
        }
        let added = add.iter().map(|added| added.word.dci());
        let staying = record_dcis.iter().copied().filter(|dci| drop.iter().all(|word| word.dci() != *dci));
        let last = staying.chain(added).max().unwrap_or(1);
        self.put(SLOT, 0, 27, 5, last.into());
    }

    fn endpoint(&mut self, added: &Added, speed: u8) {
        let Added { word, ring } = added;
        let block = SLOT + usize::from(word.dci());
        self.put(block, 0, 16, 8, interval(word, speed));
        self.put(block, 1, 1, 2, if word.kind == ISOCHRONOUS { 0 } else { 3 });
        self.put(block, 1, 3, 3, word.kind + if word.input { 4 } else { 0 });
        self.put(block, 1, 16, 16, word.packet_size);
        self.put(block, 2, 0, 1, 1);
        self.put_pointer(word.dci(), *ring);
        if let Some(companion) = word.companion {
            self.burst_data(block, word, &companion);
        } else if word.periodic() {
            let burst = if speed == 3 { word.packets.saturating_sub(1) } else { 0 };
            let payload = word.packet_size * (burst + 1);
            self.put(block, 0, 8, 2, 0);
            self.put(block, 1, 8, 8, burst);
            self.put(block, 4, 0, 16, payload);
            self.put(block, 4, 16, 16, payload);
        }
    }

    /// At speeds 4 and 5: "Burst is written for bulk too; mult, payload (high part 0) and average length for periodic ones,
    /// the last two both as the bytes per interval." Where they stand: xHCI 1.2, section 6.2.3.
    fn burst_data(&mut self, block: usize, word: &EndpointWord, companion: &Companion) {
        self.put(block, 1, 8, 8, companion.burst);
        if word.periodic() {
            self.put(block, 0, 8, 2, companion.mult);
            self.put(block, 0, 24, 8, 0);
            self.put(block, 4, 0, 16, companion.bytes_per_interval);
            self.put(block, 4, 16, 16, companion.bytes_per_interval);
        }
    }
}

/// An endpoint word with the ring it is added with.
pub struct Added {
    pub word: EndpointWord,
    pub ring: u64,
}

/// Each word of an address that is listed twice has the ring of the last.
pub fn added(words: &[EndpointWord], rings: &BTreeMap<u8, u64>) -> Vec<Added> {
    words.iter().map(|word| Added { word: *word, ring: rings[&word.address()] }).collect()
}

/// `calculate_xhci_interval`.
pub fn interval(word: &EndpointWord, speed: u8) -> u32 {
    let byte = u32::from(word.interval);
    match (word.kind, speed) {
        (BULK, _) => byte,
        (_, 3..) => byte.clamp(1, 16) - 1,
        (ISOCHRONOUS, 1) => byte.clamp(1, 16) + 2,
        (_, _) => byte.max(1).ilog2() + 3,
    }
}
