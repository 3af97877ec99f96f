//! The course of each call after its checks.

use std::collections::BTreeMap;

use scenario::{BringUp, Buffers, Claim, Endpoint, HubUpdate, Record};

use crate::context::{Address, Context, added};
use crate::list::{EndpointWord, configurations, dci, lookup};
use crate::topology::{chain, route_string, think_time, translator};

/// How a course ends when it is not accepted: 01's number, and the code of a 13.
#[derive(Clone, Copy)]
pub struct Ended {
    pub number: u8,
    pub code: u8,
}

const BROKEN: Ended = Ended { number: 14, code: 0 };
const CUT: Ended = Ended { number: 15, code: 0 };
const SHORT_HEADER: Ended = Ended { number: 16, code: 0 };
const INVALID_ENDPOINT: Ended = Ended { number: 18, code: 0 };
const PACKET_EXPONENT: Ended = Ended { number: 19, code: 0 };

/// What an undoing that did not work answers: a cut stays one.
fn broken(end: Ended) -> Ended {
    if end.number == 15 { CUT } else { BROKEN }
}

type Run = Result<(), Ended>;

/// docs/FORMATS.md, "Log word".
const ADDRESS: u32 = 1;
const EVALUATE: u32 = 2;
const CONFIGURE: u32 = 3;
const STOP: u32 = 4;
const RESUME: u32 = 5;
const SET_INTERFACE: u32 = 6;
const SET_CONFIGURATION: u32 = 7;
const READ_HEADER: u32 = 8;
const READ_CONFIGURATION: u32 = 9;
const READ_DEVICE: u32 = 10;
const READ_CONFIG: u32 = 11;
const DISABLE: u32 = 12;

pub struct Course<'a> {
    pub record: Record,
    pub count: usize,
    /// The place and the word of the first command with an outcome other than 0.
    pub first_failed: Option<(usize, u32)>,
    buffers: &'a mut Buffers,
}

impl<'a> Course<'a> {
    pub fn new(record: Record, buffers: &'a mut Buffers) -> Course<'a> {
        Course { record, count: 0, first_failed: None, buffers }
    }

    /// Logs a command and takes its outcome; without one the call is cut.
    fn send(&mut self, operation: u32, first: u8, second: u8) -> Run {
        let (place, word) = (self.count, operation << 28 | u32::from(first) << 20 | u32::from(second) << 12);
        self.buffers.log[place] = word;
        self.count += 1;
        match self.buffers.outcomes.get(place) {
            None => Err(CUT),
            Some(0) => Ok(()),
            Some(code) => {
                self.first_failed.get_or_insert((place, word));
                Err(Ended { number: 13, code: *code })
            }
        }
    }

    fn context(&mut self) -> Context<'_> {
        Context { bytes: &mut self.buffers.ctx, spacing: self.record.spacing }
    }

    fn set_active(&mut self, addresses: &[u8], active: bool) {
        for endpoint in &mut self.record.endpoints {
            if addresses.contains(&endpoint.address) {
                endpoint.active = active;
            }
        }
    }

    /// In rising order.
    fn addresses(&self, owned: impl Fn(&Endpoint) -> bool) -> Vec<u8> {
        let mut addresses: Vec<u8> = self.record.endpoints.iter().filter(|e| owned(e)).map(|e| e.address).collect();
        addresses.sort();
        addresses
    }

    /// After a stop that failed, those stopped before it are resumed, and a resume that fails counts instead.
    fn stop(&mut self, addresses: &[u8]) -> Run {
        for (stopped, address) in addresses.iter().enumerate() {
            let stop = self.send(STOP, dci(*address), 0);
            if let Err(Ended { number: 13, .. }) = stop {
                self.resume(&addresses[..stopped])?;
            }
            stop?;
        }
        Ok(())
    }

    /// Each one resumed is active.
    fn resume(&mut self, addresses: &[u8]) -> Run {
        for address in addresses {
            self.send(RESUME, dci(*address), 0)?;
            self.set_active(&[*address], true);
        }
        Ok(())
    }

    /// Writes the context and sends Configure. The entries count the record's endpoints as they are now.
    fn configure(
        &mut self,
        setting: (u8, u8),
        drop: &[EndpointWord],
        add: &[EndpointWord],
        rings: &BTreeMap<u8, u64>,
    ) -> Run {
        let dcis: Vec<u8> = self.record.endpoints.iter().map(|e| dci(e.address)).collect();
        let speed = self.record.speed;
        self.context().configure(setting, drop, &added(add, rings), &dcis, speed);
        self.send(CONFIGURE, 0, 0)
    }

    fn rings(&self) -> BTreeMap<u8, u64> {
        self.record.endpoints.iter().map(|e| (e.address, e.ring)).collect()
    }

    /// `replace_queues`: everything is tested before anything is written. A word that already holds the ring drawn
    /// does not stop it.
    fn replace_queues(&mut self, old: &[u8], new: &BTreeMap<u8, u64>) -> bool {
        let rings = self.rings();
        let base = 32 * usize::from(self.record.slot);
        let routes = &mut self.buffers.routes;
        let word = |address: u8| base + usize::from(dci(address));
        let old_stand = old.iter().all(|address| routes[word(*address)] == rings[address]);
        let free = |address: &u8, ring: &u64| old.contains(address) || [0, *ring].contains(&routes[word(*address)]);
        if !old_stand || !new.iter().all(|(address, ring)| free(address, ring)) {
            return false;
        }
        for address in old {
            routes[word(*address)] = 0;
        }
        for (address, ring) in new {
            routes[word(*address)] = *ring;
        }
        true
    }

    /// `Device::init`. What fails leaves what was written and read so far.
    pub fn bring_up(&mut self, args: &BringUp) -> Run {
        self.record.slot = args.slot;
        self.record.n = args.n as u8;
        self.record.spacing = self.buffers.ctx.len() / 33;
        self.record.speed = args.speed;
        let ring = args.rings.iter().copied().min().unwrap_or(0);
        self.record.given = args.rings.clone();
        self.record.control = ring;
        self.buffers.routes[32 * usize::from(args.slot) + 1] = ring;

        let chain = chain(args).unwrap_or_default();
        let address = Address {
            speed: args.speed,
            route: route_string(&chain, args.port),
            root_port: args.root_port,
            translator: translator(&chain, args.speed, args.port),
            ring,
        };
        self.context().address(&address);
        self.send(ADDRESS, 0, 0)?;
        self.send(READ_HEADER, 0, 0)?;
        if args.header != 8 {
            return Err(SHORT_HEADER);
        }
        if matches!(args.speed, 4 | 5) && args.packet != 9 {
            return Err(PACKET_EXPONENT);
        }
        self.context().control_packet_size(args.speed, args.packet);
        self.send(EVALUATE, 0, 0)?;
        self.send(READ_CONFIGURATION, 0, 0)?;
        self.record.config = Some(args.config);
        self.send(READ_DEVICE, 0, 0)?;
        let configurations = configurations(&args.list);
        for (index, (_, words)) in configurations.iter().enumerate() {
            self.send(READ_CONFIG, index as u8, 0)?;
            self.record.list.extend(words);
        }
        match configurations.first() {
            Some((value, _)) => self.set_configuration(*value),
            None => Ok(()),
        }
    }

    /// `_claim_interface`. Lost once a Configure was sent, it leaves its rings in doubt: the controller may hold them.
    pub fn claim(&mut self, args: &Claim) -> Run {
        let new = self.lookup(args.interface, args.alternate);
        // One for each word, the first word gets the lowest; of an address that is listed twice the last ring stays.
        let pending: BTreeMap<u8, u64> = new.iter().map(EndpointWord::address).zip(self.record.free()).collect();
        let switched = self.switch(args, &new, &pending);
        if matches!(switched, Err(Ended { number: 14 | 15, .. })) && self.sent(CONFIGURE) {
            self.quarantine(pending.into_values());
        }
        switched
    }

    fn switch(&mut self, args: &Claim, new: &[EndpointWord], pending: &BTreeMap<u8, u64>) -> Run {
        let Claim { interface, alternate } = args;
        let old_alternate = self.record.held.iter().find(|h| h.0 == *interface).map(|h| h.1);
        let old_words = old_alternate.map(|a| self.lookup(*interface, a)).unwrap_or_default();
        let old = self.addresses(|e| e.owner == *interface);

        self.stop_owned(&old)?;
        let configured = self.configure((*interface, *alternate), &old_words, new, pending);
        if let Err(Ended { number: 13, .. }) = configured {
            // As the original: the code of a resume that fails.
            self.resume(&old)?;
        }
        configured?;
        let set = self.send(SET_INTERFACE, *interface, *alternate);
        if let Err(Ended { number: 13, .. }) = set {
            self.undo_claim(*interface, old_alternate, new, &old_words, &old).map_err(broken)?;
        }
        set?;
        if !self.replace_queues(&old, pending) {
            return Err(BROKEN);
        }
        self.forget(*interface);
        let claimed =
            |(address, ring): (&u8, &u64)| Endpoint { address: *address, ring: *ring, owner: *interface, active: true };
        self.record.endpoints.extend(pending.iter().map(claimed));
        self.record.held.push((*interface, *alternate));
        self.sort_maps();
        Ok(())
    }

    /// A claim that is undone makes all old endpoints active, with no Resume sent.
    fn undo_claim(
        &mut self,
        interface: u8,
        alternate: Option<u8>,
        new: &[EndpointWord],
        old_words: &[EndpointWord],
        old: &[u8],
    ) -> Run {
        let rings = self.rings();
        self.configure((interface, alternate.unwrap_or(0)), new, old_words, &rings)?;
        if let Some(alternate) = alternate {
            self.send(SET_INTERFACE, interface, alternate)?;
        }
        self.set_active(old, true);
        Ok(())
    }

    /// Whether a command of this operation is logged.
    fn sent(&self, operation: u32) -> bool {
        self.buffers.log[..self.count].iter().any(|word| word >> 28 == operation)
    }

    /// Each ring enters once.
    fn quarantine(&mut self, rings: impl IntoIterator<Item = u64>) {
        for ring in rings {
            if !self.record.quarantined.contains(&ring) {
                self.record.quarantined.push(ring);
            }
        }
    }

    fn lookup(&self, interface: u8, alternate: u8) -> Vec<EndpointWord> {
        lookup(&self.record.list, interface, alternate).unwrap_or_default()
    }

    /// The stops of a claim or a release. After one that failed all old endpoints are active.
    fn stop_owned(&mut self, old: &[u8]) -> Run {
        self.set_active(old, false);
        let stopped = self.stop(old);
        if let Err(Ended { number: 13, .. }) = stopped {
            self.set_active(old, true);
        }
        stopped
    }

    fn sort_maps(&mut self) {
        self.record.endpoints.sort_by_key(|e| e.address);
        self.record.held.sort();
    }

    fn forget(&mut self, interface: u8) {
        self.record.endpoints.retain(|e| e.owner != interface);
        self.record.held.retain(|h| h.0 != interface);
    }

    /// `_release_interface`, of the setting that the interface holds.
    pub fn release(&mut self, setting: (u8, u8)) -> Run {
        let (interface, alternate) = setting;
        let words = self.lookup(interface, alternate);
        let old = self.addresses(|e| e.owner == interface);
        self.stop_owned(&old)?;
        self.disable(setting, &words, &old)?;
        if !self.replace_queues(&old, &BTreeMap::new()) {
            return Err(INVALID_ENDPOINT);
        }
        self.forget(interface);
        self.sort_maps();
        Ok(())
    }

    /// A Configure that fails counts, whether its resumes are done or not; a cut counts before it.
    fn disable(&mut self, setting: (u8, u8), words: &[EndpointWord], old: &[u8]) -> Run {
        let configured = self.configure(setting, words, &[], &BTreeMap::new());
        if let Err(Ended { number: 13, .. }) = configured
            && let Err(CUT_SHORT) = self.resume(old).map_err(|end| end.number)
        {
            return Err(CUT);
        }
        configured
    }

    /// `_set_configuration`. Lost after its SetConfiguration is done, it leaves the rings of what it ended in doubt.
    pub fn set_configuration(&mut self, value: u8) -> Run {
        let mut held = self.record.held.clone();
        held.sort();
        let words: Vec<EndpointWord> = held.iter().flat_map(|(i, a)| self.lookup(*i, *a)).collect();
        let old = self.addresses(|_| true);
        self.set_active(&old, false);
        self.stop(&old).map_err(broken)?;
        self.disable((0, 0), &words, &old)?;
        let set = self.send(SET_CONFIGURATION, value, 0);
        if let Err(Ended { number: 13, .. }) = set {
            let rings = self.rings();
            self.configure((0, 0), &[], &words, &rings).map_err(broken)?;
            self.resume(&old).map_err(broken)?;
        }
        set?;
        if !self.replace_queues(&old, &BTreeMap::new()) {
            return Err(INVALID_ENDPOINT);
        }
        let ended = self.rings();
        self.record.endpoints.clear();
        self.record.held.clear();
        self.context().configuration(value);
        let evaluated = self.send(EVALUATE, 0, 0).map_err(broken);
        match evaluated {
            Ok(()) => self.record.config = Some(value),
            Err(_) => self.quarantine(ended.into_values()),
        }
        evaluated
    }

    /// `update_hub_inner`.
    pub fn hub_update(&mut self, args: &HubUpdate) -> Run {
        let speed = self.record.speed;
        self.context().hub(speed, args.ports, args.multi, think_time(args.think).unwrap_or(0));
        self.send(EVALUATE, 0, 0)
    }

    /// `_disconnect`, with control's route at Dci 1. A stop that fails does not count; Disable decides.
    pub fn disconnect(&mut self) -> Run {
        let old = self.addresses(|_| true);
        self.record.control_revoked = true;
        self.set_active(&old, false);
        for stopped in [1].into_iter().chain(old.iter().map(|address| dci(*address))) {
            if let Err(CUT_SHORT) = self.send(STOP, stopped, 0).map_err(|end| end.number) {
                return Err(CUT);
            }
        }
        let disabled = self.send(DISABLE, 0, 0);
        if let Err(Ended { number: 13, .. }) = disabled {
            // Control's ring, then the endpoints' by rising address.
            let live = self.rings();
            self.quarantine([self.record.control].into_iter().chain(live.into_values()));
        }
        disabled.map_err(broken)?;
        let row = 32 * usize::from(self.record.slot);
        self.buffers.routes[row..row + 32].fill(0);
        self.record.endpoints.clear();
        self.record.held.clear();
        (self.record.usable, self.record.up) = (false, false);
        Ok(())
    }
}

const CUT_SHORT: u8 = CUT.number;
