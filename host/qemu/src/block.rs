//! Blocks of a context as fields (xHCI 1.2, 6.2.2 and 6.2.3).

/// The first 8 doublewords of a block.
pub type Block = [u32; 8];

fn bits(word: u32, low: u32, width: u32) -> u32 {
    word >> low & ((1 << width) - 1)
}

#[derive(Clone, Copy, Debug, PartialEq)]
pub struct Slot {
    pub route: u32,
    pub speed: u32,
    pub multi: u32,
    pub hub: u32,
    pub entries: u32,
    pub latency: u32,
    pub root_port: u32,
    pub ports: u32,
    pub translator_slot: u32,
    pub translator_port: u32,
    pub think_time: u32,
    pub interrupter: u32,
}

impl Slot {
    pub fn of(block: &Block) -> Slot {
        Slot {
            route: bits(block[0], 0, 20),
            speed: bits(block[0], 20, 4),
            multi: bits(block[0], 25, 1),
            hub: bits(block[0], 26, 1),
            entries: bits(block[0], 27, 5),
            latency: bits(block[1], 0, 16),
            root_port: bits(block[1], 16, 8),
            ports: bits(block[1], 24, 8),
            translator_slot: bits(block[2], 0, 8),
            translator_port: bits(block[2], 8, 8),
            think_time: bits(block[2], 16, 2),
            interrupter: bits(block[2], 22, 10),
        }
    }

    /// The fields that a hub update writes.
    pub fn hub_fields(&self) -> [u32; 4] {
        [self.hub, self.multi, self.ports, self.think_time]
    }

    /// The same block without them.
    pub fn but_hub_fields(&self) -> Slot {
        Slot { hub: 0, multi: 0, ports: 0, think_time: 0, ..*self }
    }
}

#[derive(Clone, Copy, Debug, PartialEq)]
pub struct Endpoint {
    pub state: u32,
    pub mult: u32,
    pub streams: u32,
    pub interval: u32,
    pub errors: u32,
    pub kind: u32,
    pub burst: u32,
    pub packet: u32,
    /// With the cycle state.
    pub dequeue: u64,
    pub average: u32,
    /// Of both parts.
    pub payload: u32,
}

impl Endpoint {
    pub fn of(block: &Block) -> Endpoint {
        Endpoint {
            state: bits(block[0], 0, 3),
            mult: bits(block[0], 8, 2),
            streams: bits(block[0], 10, 6),
            interval: bits(block[0], 16, 8),
            errors: bits(block[1], 1, 2),
            kind: bits(block[1], 3, 3),
            burst: bits(block[1], 8, 8),
            packet: bits(block[1], 16, 16),
            dequeue: u64::from(block[3]) << 32 | u64::from(block[2]),
            average: bits(block[4], 0, 16),
            payload: bits(block[0], 24, 8) << 16 | bits(block[4], 16, 16),
        }
    }

    /// Without what the controller itself writes.
    pub fn given(&self) -> Endpoint {
        Endpoint { state: 0, dequeue: 0, ..*self }
    }
}
