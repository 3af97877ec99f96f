//! What a call is given and what it leaves.

/// An endpoint of a record, with the interface that owns it.
#[derive(Clone, Copy, Debug, PartialEq, Eq)]
pub struct Endpoint {
    pub address: u8,
    pub ring: u64,
    pub owner: u8,
    pub active: bool,
}

/// The device record. The vectors stand in the order of the record's arrays.
#[derive(Clone, Debug, Default, PartialEq, Eq)]
pub struct Record {
    pub usable: bool,
    /// Whether the device may be unplugged: from a successful bring-up to an accepted unplugging.
    pub up: bool,
    pub slot: u8,
    pub n: u8,
    pub spacing: usize,
    pub speed: u8,
    pub config: Option<u8>,
    pub control: u64,
    pub control_revoked: bool,
    pub list: Vec<u32>,
    pub endpoints: Vec<Endpoint>,
    pub held: Vec<(u8, u8)>,
    pub quarantined: Vec<u64>,
    /// The rings that its bring-up was given.
    pub given: Vec<u64>,
}

/// Room in a record's arrays.
pub const LIST_ROOM: usize = 256;
pub const ENDPOINT_ROOM: usize = 30;
pub const HELD_ROOM: usize = 32;
pub const QUARANTINE_ROOM: usize = 61;
pub const GIVEN_ROOM: usize = 64;

impl Record {
    /// The same record with its maps and given rings in rising order, as records are printed and compared.
    pub fn sorted(&self) -> Record {
        let mut record = self.clone();
        record.endpoints.sort_by_key(|e| e.address);
        record.held.sort_by_key(|h| h.0);
        record.given.sort();
        record
    }

    /// The given rings that are neither control's nor an endpoint's nor quarantined, rising.
    pub fn free(&self) -> Vec<u64> {
        let used = |ring: &u64| {
            *ring == self.control || self.endpoints.iter().any(|e| e.ring == *ring) || self.quarantined.contains(ring)
        };
        let mut free: Vec<u64> = self.given.iter().copied().filter(|ring| !used(ring)).collect();
        free.sort();
        free
    }
}

#[derive(Clone, Debug, Default, PartialEq, Eq)]
pub struct BringUp {
    pub slot: u8,
    pub n: u32,
    pub speed: u8,
    pub has_parent: bool,
    pub parent: u32,
    pub port: u8,
    pub root_port: u8,
    /// The rings that the slot is given, in any order.
    pub rings: Vec<u64>,
    /// Bytes that ReadHeader reads, and the packet byte among them.
    pub header: u32,
    pub packet: u8,
    /// The value that ReadConfiguration reads.
    pub config: u8,
    pub list: Vec<u32>,
    pub hubs: Vec<u64>,
}

#[derive(Clone, Debug, Default, PartialEq, Eq)]
pub struct Claim {
    pub interface: u8,
    pub alternate: u8,
}

/// What an accepted ask returns, and a commit is given: what the claim would drop and add, bit d for Dci d, and the rings
/// that it would draw, in the order of the endpoint words.
#[derive(Clone, Debug, Default, PartialEq, Eq)]
pub struct Asked {
    pub interface: u8,
    pub alternate: u8,
    pub drops: u32,
    pub adds: u32,
    pub rings: Vec<u64>,
}

#[derive(Clone, Debug, Default, PartialEq, Eq)]
pub struct HubUpdate {
    pub ports: u8,
    pub multi: bool,
    pub think: u32,
}

#[derive(Clone, Debug, PartialEq, Eq)]
pub enum Call {
    BringUp(BringUp),
    Claim(Claim),
    Ask(Claim),
    /// None: what the last accepted ask of the scenario returned, and without one nothing at all.
    Commit(Option<Asked>),
    /// A claim that is asked for its reason only.
    Why(Claim),
    Release {
        interface: u8,
    },
    SetConfiguration {
        value: u8,
    },
    HubUpdate(HubUpdate),
    Disconnect,
}

impl Call {
    /// What a claim, an ask, a commit or a why is about.
    pub fn claimed(&self) -> Option<Claim> {
        match self {
            Call::Claim(args) | Call::Ask(args) | Call::Why(args) => Some(args.clone()),
            Call::Commit(asked) => {
                let (interface, alternate) = asked.as_ref().map_or((0, 0), |asked| (asked.interface, asked.alternate));
                Some(Claim { interface, alternate })
            }
            _ => None,
        }
    }
}

/// The memory that a call works on, and the outcomes of its commands.
#[derive(Clone, Debug, Default, PartialEq, Eq)]
pub struct Buffers {
    pub ctx: Vec<u8>,
    pub routes: Vec<u64>,
    pub log: Vec<u32>,
    pub outcomes: Vec<u8>,
}

/// 01's number, the code of a 13, and how many words were logged.
#[derive(Clone, Copy, Debug, Default, PartialEq, Eq)]
pub struct Answer {
    pub number: u8,
    pub code: u8,
    pub count: usize,
}

/// One call of a scenario with what is given beside it.
#[derive(Clone, Debug, PartialEq, Eq)]
pub struct Step {
    pub call: Call,
    /// Of a bring-up: raw configuration descriptors, from which its list is to be read.
    pub raw: Option<Vec<u8>>,
    /// None: the record that the last call returned.
    pub record: Option<Record>,
    pub ctx: Vec<u8>,
    /// None: the words that the last call left.
    pub routes: Option<Vec<(usize, u64)>>,
    /// None: 32 × (n + 1), n of the last bring-up.
    pub routes_len: Option<usize>,
    pub log_len: usize,
    pub outcomes: Vec<u8>,
}

pub const LOG_LEN: usize = 64;

impl Step {
    pub fn new(call: Call) -> Step {
        Step {
            call,
            raw: None,
            record: None,
            ctx: Vec::new(),
            routes: None,
            routes_len: None,
            log_len: LOG_LEN,
            outcomes: Vec::new(),
        }
    }
}

#[derive(Clone, Debug, Default, PartialEq, Eq)]
pub struct Scenario {
    pub name: String,
    pub steps: Vec<Step>,
}
