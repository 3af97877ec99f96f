//! A pending call as a scenario (docs/SCENARIOS.md).

use core::fmt::{Display, Formatter, Result, Write};

use super::{COMMANDS, CONTEXT, Pending, State};
use crate::layout::{
    EP_COUNT, EP_ROOM, GIVEN_COUNT, GIVEN_ROOM, HELD_COUNT, HELD_ROOM, LIST_LEN, LIST_ROOM, QUARANTINED_COUNT,
    RING_ROOM,
};
use crate::learned::Numbers;
use crate::{Answer, Asked, Attached, Call, Record, UNREADABLE};

impl Pending<'_> {
    /// The call as a scenario, with all that it began with and the outcomes so far (docs/SCENARIOS.md). Run elsewhere it
    /// answers and logs, and leaves record, context and the slot's own routes, as it does here after the last step; but that
    /// a refused bring-up leaves an empty record there. Before the first step it has no routes. What a bring-up could not
    /// use is told in a comment.
    ///
    /// ```
    /// use xhci_device::{Call, Pending, Record};
    ///
    /// # let (mut ctx, mut routes, mut log) = ([0; 1056], [0; 64], [0; 64]);
    /// # let memory = xhci_device::Memory { ctx: &mut ctx, routes: &mut routes, log: &mut log, outcomes: &[0; 64] };
    /// # let args = xhci_device::BringUp { slot: xhci_device::SlotId(1), n: 1, speed: 3, parent: None, port: 1,
    /// #     root_port: 1, rings: &[0x1000], header: 8, packet: 64, value: 0, hubs: &[], list: &[0x0040_0000, 0x4000_0000] };
    /// # let (mut record, _) = Record::bring_up(memory, &args);
    /// # let mut ctx = [0; 1056];
    /// let mut pending = Pending::new(&mut record, &mut ctx, Call::Claim { interface: 0, alternate: 0 });
    /// let _ = pending.next(&mut routes);
    /// pending.outcome(Err(7.try_into().unwrap()));
    /// let _ = pending.next(&mut routes);
    /// assert_eq!(pending.scenario().to_string(), "\
    /// scenario pending
    /// claim
    /// interface 0
    /// alternate 0
    /// record usable=1 up=1 slot=1 n=1 spacing=32 speed=3 config=1 control=1000/active
    /// reclist 00400000 40000000
    /// eps
    /// held
    /// quarantined
    /// given 1000
    /// ctxlen 1056
    /// routes 33=1000
    /// routeslen 64
    /// loglen 64
    /// outcomes 07
    /// go
    /// end
    /// ");
    /// ```
    pub fn scenario(&self) -> impl Display {
        Scenario(self)
    }

    fn begun_ctx(&self) -> &[u8] {
        // One that is longer is refused, and not written to.
        if self.ctx.len() > CONTEXT { self.ctx } else { &self.begun.ctx[..self.ctx.len()] }
    }
}

/// The most that a scenario's reader takes of slots, of words of the table, and of other numbers. More is refused alike.
const MOST_SLOTS: usize = 0xFFFF;
const MOST_ROUTES: usize = 1 << 24;
const MOST: usize = u32::MAX as usize;

struct Scenario<'p, 'a>(&'p Pending<'a>);

impl Display for Scenario<'_, '_> {
    fn fmt(&self, f: &mut Formatter<'_>) -> Result {
        f.write_str("scenario pending\n")?;
        if let (true, Some(unreadable)) =
            (self.0.answered.answer == Answer::Failed(UNREADABLE.get()), self.0.unreadable)
        {
            writeln!(f, "# {unreadable}")?;
        }
        arguments(f, self.0)?;
        if !matches!(self.0.call, Call::BringUp(_)) {
            record(f, &self.0.begun.record)?;
        }
        memory(f, self.0)?;
        f.write_str("go\nend\n")
    }
}

fn line<T>(
    f: &mut Formatter<'_>,
    key: &str,
    values: impl IntoIterator<Item = T>,
    each: impl Fn(&mut Formatter<'_>, T) -> Result,
) -> Result {
    f.write_str(key)?;
    for value in values {
        f.write_char(' ')?;
        each(f, value)?;
    }
    f.write_char('\n')
}

fn hex(f: &mut Formatter<'_>, ring: u64) -> Result {
    write!(f, "{ring:x}")
}

fn word(f: &mut Formatter<'_>, word: u32) -> Result {
    write!(f, "{word:08x}")
}

fn bytes(f: &mut Formatter<'_>, key: &str, bytes: &[u8]) -> Result {
    f.write_str(key)?;
    f.write_str(if bytes.is_empty() { "" } else { " " })?;
    bytes.iter().try_for_each(|byte| write!(f, "{byte:02x}"))?;
    f.write_char('\n')
}

fn arguments(f: &mut Formatter<'_>, pending: &Pending<'_>) -> Result {
    match &pending.call {
        Call::BringUp(attached) => bring_up(f, attached, pending),
        Call::Claim { interface, alternate } => write!(f, "claim\ninterface {interface}\nalternate {alternate}\n"),
        Call::Commit(asked) => commit(f, asked),
        Call::Release { interface } => write!(f, "release\ninterface {interface}\n"),
        Call::SetConfiguration { value } => write!(f, "setconfig\nvalue {value}\n"),
        Call::HubUpdate { ports, multi, ns } => {
            write!(f, "hubupdate\nports {ports}\nmulti {}\nthink {ns}\n", u8::from(*multi))
        }
        Call::Disconnect => f.write_str("disconnect\n"),
    }
}

fn bring_up(f: &mut Formatter<'_>, attached: &Attached<'_>, pending: &Pending<'_>) -> Result {
    let Attached { slot, n, speed, parent, port, root_port, rings, hubs } = *attached;
    let (Numbers { header, packet, value, .. }, list) = pending.learned.before();
    write!(f, "bringup\nslot {}\nn {}\nspeed {speed}\n", slot.0, n.min(MOST_SLOTS))?;
    writeln!(f, "parent {} {}", u8::from(parent.is_some()), parent.unwrap_or(0).min(MOST))?;
    write!(f, "port {port}\nrootport {root_port}\nheader {} {packet}\n", header.min(MOST))?;
    writeln!(f, "config {value}")?;
    line(f, "rings", rings, |f, ring| write!(f, "{ring:#x}"))?;
    line(f, "list", list, word)?;
    line(f, "hubs", hubs, |f, hub| write!(f, "{hub:016x}"))
}

fn commit(f: &mut Formatter<'_>, asked: &Asked) -> Result {
    let Asked { interface, alternate, drops, adds, .. } = *asked;
    write!(f, "commit\nasked {interface} {alternate} {drops:08x} {adds:08x}")?;
    line(f, "", asked.rings().iter().copied(), hex)
}

fn lifecycle(active: bool) -> &'static str {
    if active { "active" } else { "revoked" }
}

/// Where a count is more than its array holds, or a word is out of its range, calls are refused: as of an unusable record.
fn record(f: &mut Formatter<'_>, record: &Record) -> Result {
    let rooms = [
        (LIST_LEN, LIST_ROOM),
        (EP_COUNT, EP_ROOM),
        (HELD_COUNT, HELD_ROOM),
        (QUARANTINED_COUNT, RING_ROOM),
        (GIVEN_COUNT, GIVEN_ROOM),
    ];
    let fits = rooms.iter().all(|(at, room)| record.words()[*at] <= *room as u64);
    let marks = [record.is_usable(), record.is_up()].map(|mark| u8::from(fits && mark));
    write!(f, "record usable={} up={} slot={} n={}", marks[0], marks[1], record.slot().0, record.n())?;
    write!(f, " spacing={} speed={} config=", record.spacing(), record.port_speed())?;
    match record.configuration() {
        Some(value) => write!(f, "{}", value.0)?,
        None => f.write_str("NONE")?,
    }
    writeln!(f, " control={:x}/{}", record.control(), lifecycle(!record.control_revoked()))?;
    line(f, "reclist", record.list(), word)?;
    line(f, "eps", record.endpoints(), |f, endpoint| {
        let state = lifecycle(endpoint.active);
        write!(f, "{:02x}:{:x}:{}:{state}", endpoint.address, endpoint.ring, endpoint.interface)
    })?;
    line(f, "held", record.held(), |f, setting| write!(f, "{}:{}", setting.interface, setting.alternate))?;
    line(f, "quarantined", record.quarantined(), hex)?;
    line(f, "given", record.given(), hex)
}

/// What it is lent, and the outcomes that it was run with last.
fn memory(f: &mut Formatter<'_>, pending: &Pending<'_>) -> Result {
    let ctx = pending.begun_ctx();
    if ctx.iter().all(|byte| *byte == 0) {
        writeln!(f, "ctxlen {}", ctx.len())?;
    } else {
        bytes(f, "ctx", ctx)?;
    }
    if !matches!(pending.state, State::New) {
        let first = pending.own_routes().start;
        let own = pending.begun.routes.iter().enumerate().filter(|(_, ring)| **ring != 0);
        line(f, "routes", own, |f, (dci, ring)| write!(f, "{}={ring:x}", first + dci))?;
        writeln!(f, "routeslen {}", pending.begun.routes_len.min(MOST_ROUTES))?;
    }
    writeln!(f, "loglen {COMMANDS}")?;
    bytes(f, "outcomes", &pending.outcomes[..pending.played])
}
