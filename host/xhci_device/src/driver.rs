//! A call command by command.
//!
//! The library runs a call whole, over outcomes that are known. Here the call is run again after each outcome,
//! with the outcomes so far, over what it began with: record, context and the slot's own routes are put back
//! first. Where it is cut, the last command it logged is the next one to send, over the context that it left.

mod scenario;

use core::fmt;

use crate::debug::Listed;
use crate::learned::{Learned, Numbers};
use crate::{
    Answer, Answered, Attached, BringUp, Bus, Call, Cause, Command, Due, Memory, Outcome, Reason, Record, SlotId,
    UNREADABLE, Unreadable, library,
};

/// How many commands a call may send.
pub(crate) const COMMANDS: usize = 64;

/// The highest code of a failed command: the one above it is [`UNREADABLE`].
const HIGHEST_CODE: u8 = 254;

/// The longest input context: 33 blocks of 64 bytes.
const CONTEXT: usize = 2112;

/// Routes of one slot.
const ROUTES_OF_SLOT: usize = 32;

/// What a pending call wants; [`Pending`] shows what is done with it.
#[derive(Clone, Copy, Debug)]
#[must_use]
#[non_exhaustive]
pub enum Next<'a> {
    /// This command is to be sent, and then its outcome told.
    Send(Due<'a>),
    /// The outcome of the command that was to be sent was not told. Told, the call goes on; left, it is cut.
    /// [`Pending::due`] shows the command.
    Untold,
    /// The call has ended.
    Answer(Answer),
}

/// A call that is being driven. After each step record, context and routes are as the call leaves them when it is
/// cut there, so to drop a pending call is to cut it: rings that a Configure may have begun are then quarantined.
///
/// [`run`](Pending::run) drives it to its end over a [`Bus`]. Or step by step, where commands end by an event:
///
/// ```
/// use xhci_device::{Answer, Call, Command, Next, Pending, Read, Record};
///
/// # let (mut ctx, mut routes, mut log) = ([0; 1056], [0; 64], [0; 64]);
/// # let memory = xhci_device::Memory { ctx: &mut ctx, routes: &mut routes, log: &mut log, outcomes: &[0; 64] };
/// # let args = xhci_device::BringUp { slot: xhci_device::SlotId(1), n: 1, speed: 3, parent: None, port: 1,
/// #     root_port: 1, rings: &[0x1000], header: 8, packet: 64, value: 0, hubs: &[], list: &[0x0040_0000, 0x4000_0000] };
/// # let (mut record, _) = Record::bring_up(memory, &args);
/// let mut pending = Pending::new(&mut record, &mut ctx, Call::Claim { interface: 0, alternate: 0 });
/// let Next::Send(due) = pending.next(&mut routes) else { panic!() };
/// assert_eq!(due.command, Command::Configure); // sent over due.ctx; other slots' calls may run meanwhile
/// pending.outcome(Ok(Read::Nothing));
/// let Next::Send(due) = pending.next(&mut routes) else { panic!() };
/// assert_eq!(due.command.to_string(), "SetInterface 0, alternate 0");
/// pending.outcome(Ok(Read::Nothing));
/// assert!(matches!(pending.next(&mut routes), Next::Answer(Answer::Accepted)));
/// ```
#[must_use]
pub struct Pending<'a> {
    record: &'a mut Record,
    ctx: &'a mut [u8],
    call: Call<'a>,
    begun: Begun,
    learned: Learned,
    log: [u32; COMMANDS],
    outcomes: [u8; COMMANDS],
    /// How many outcomes are known, and with how many of them the call was run last.
    told: usize,
    played: usize,
    /// What the call then answered.
    answered: Answered,
    unreadable: Option<Unreadable>,
    state: State,
}

/// What the call began with. The routes count from the first step on.
struct Begun {
    record: Record,
    ctx: [u8; CONTEXT],
    routes: [u64; ROUTES_OF_SLOT],
    routes_len: usize,
}

#[derive(Clone, Copy, Debug)]
enum State {
    New,
    /// A command is to be sent.
    Waits(Command),
    /// Its outcome was told.
    Told(Command),
    Ended,
}

impl<'a> Pending<'a> {
    /// A call on a record, over an input context. Nothing happens before the first step.
    pub fn new(record: &'a mut Record, ctx: &'a mut [u8], call: Call<'a>) -> Pending<'a> {
        let routes = [0; ROUTES_OF_SLOT];
        let mut begun = Begun { record: record.clone(), ctx: [0; CONTEXT], routes, routes_len: 0 };
        let kept = ctx.len().min(CONTEXT);
        begun.ctx[..kept].copy_from_slice(&ctx[..kept]);
        let speed = if let Call::BringUp(attached) = &call { attached.speed } else { 0 };
        Pending {
            record,
            ctx,
            call,
            begun,
            learned: Learned::nothing(speed),
            log: [0; COMMANDS],
            outcomes: [0; COMMANDS],
            told: 0,
            played: 0,
            answered: Answered { answer: Answer::Cut, count: 0 },
            unreadable: None,
            state: State::New,
        }
    }

    /// Drives the call to its end. Where the outcome of a command is still to be told, nothing is sent, and it answers `Cut`.
    pub fn run<B: Bus + ?Sized>(&mut self, routes: &mut [u64], bus: &mut B) -> Answer {
        loop {
            let outcome = match self.next(routes) {
                Next::Send(due) => bus.send(&due),
                Next::Untold => return Answer::Cut,
                Next::Answer(answer) => return answer,
            };
            self.outcome(outcome);
        }
    }

    /// What the call wants now. The routes are those of all slots; in between, other calls may have written to other
    /// slots'. Routes of another length than at the first step end the call, which stays cut. An archive that has records
    /// of another number of words than [`Record::WORDS`] ends it at once, with `Unusable`, and nothing is run.
    pub fn next<'b>(&'b mut self, routes: &'b mut [u64]) -> Next<'b> {
        match self.state {
            State::New => self.begin(routes, library::record_words()),
            State::Waits(_) => return Next::Untold,
            State::Told(_) if routes.len() == self.begun.routes_len => self.step(routes),
            State::Told(_) => (self.answered.answer, self.state) = (Answer::RoutesLength, State::Ended),
            State::Ended => (),
        }
        match self.due(routes) {
            Some(due) => Next::Send(due),
            None => Next::Answer(self.answered.answer),
        }
    }

    /// The command whose outcome is not told yet, over the routes of all slots.
    ///
    /// ```
    /// use xhci_device::{Attached, Call, Command, Next, Pending, Read, Record};
    ///
    /// # let port = Attached { slot: xhci_device::SlotId(1), n: 1, speed: 3, parent: None, port: 1, root_port: 1,
    /// #     rings: &[0x1000], hubs: &[] };
    /// # let (mut record, mut ctx, mut routes) = (Record::new(), [0; 1056], [0; 64]);
    /// let mut pending = Pending::new(&mut record, &mut ctx, Call::BringUp(port));
    /// assert!(matches!(pending.next(&mut routes), Next::Send(due) if due.command == Command::Address));
    /// assert!(matches!(pending.next(&mut routes), Next::Untold));
    /// assert_eq!(pending.due(&routes).map(|due| due.command), Some(Command::Address));
    /// pending.outcome(Ok(Read::Nothing));
    /// assert!(matches!(pending.next(&mut routes), Next::Send(due) if due.command == Command::ReadHeader));
    /// ```
    pub fn due<'b>(&'b self, routes: &'b [u64]) -> Option<Due<'b>> {
        let State::Waits(command) = self.state else { return None };
        Some(Due { command, slot: self.slot(), ctx: self.ctx, record: self.record, routes, log: self.log() })
    }

    /// Takes the outcome of the command that `next` wanted sent. Where none was, it is not taken.
    pub fn outcome(&mut self, outcome: Outcome<'_>) {
        let State::Waits(command) = self.state else { return };
        self.outcomes[self.told] = match outcome {
            Ok(read) => self.learned.take(command, read).map_or_else(|cause| self.cannot_use(command, cause), |()| 0),
            Err(code) => code.get().min(HIGHEST_CODE),
        };
        self.told += 1;
        self.state = State::Told(command);
    }

    /// The record as the call leaves it so far.
    pub fn record(&self) -> &Record {
        self.record
    }

    /// The input context as the call leaves it so far.
    pub fn ctx(&self) -> &[u8] {
        self.ctx
    }

    /// The words logged so far: of every command that was to be sent, the one that waits included.
    pub fn log(&self) -> &[u32] {
        &self.log[..self.answered.count]
    }

    /// The outcomes so far.
    pub fn outcomes(&self) -> &[u8] {
        &self.outcomes[..self.told]
    }

    /// What a bring-up has read that it cannot use: why an outcome is [`UNREADABLE`].
    ///
    /// ```
    /// use xhci_device::{Attached, Call, Cause, Command, Next, Pending, Read, Record};
    ///
    /// # let port = Attached { slot: xhci_device::SlotId(1), n: 1, speed: 3, parent: None, port: 1, root_port: 1,
    /// #     rings: &[0x1000], hubs: &[] };
    /// # let (mut record, mut ctx, mut routes) = (Record::new(), [0; 1056], [0; 64]);
    /// let mut pending = Pending::new(&mut record, &mut ctx, Call::BringUp(port));
    /// while let Next::Send(due) = pending.next(&mut routes) {
    ///     assert_ne!(due.command, Command::ReadConfig(0));
    ///     pending.outcome(Ok(Read::Bytes(&[18, 1, 0, 2, 0, 0, 0, 64]))); // too few for ReadDevice
    /// }
    /// let unreadable = pending.unreadable().unwrap();
    /// assert_eq!((unreadable.command, unreadable.cause), (Command::ReadDevice, Cause::TooShort { had: 8, wanted: 18 }));
    /// assert_eq!(unreadable.to_string(), "ReadDevice: 8 bytes, and 18 are needed");
    /// ```
    pub fn unreadable(&self) -> Option<Unreadable> {
        self.unreadable
    }

    /// Why a claim or a commit that has ended got its answer. None before its end, and of any other call.
    ///
    /// ```
    /// use xhci_device::{Answer, Call, Next, Pending, Reason, Record};
    ///
    /// # let (mut ctx, mut routes, mut log) = ([0; 1056], [0; 64], [0; 64]);
    /// # let memory = xhci_device::Memory { ctx: &mut ctx, routes: &mut routes, log: &mut log, outcomes: &[0; 64] };
    /// # let args = xhci_device::BringUp { slot: xhci_device::SlotId(1), n: 1, speed: 3, parent: None, port: 1,
    /// #     root_port: 1, rings: &[0x1000], header: 8, packet: 64, value: 0, hubs: &[], list: &[0x0040_0000, 0x4000_0000] };
    /// # let (mut record, _) = Record::bring_up(memory, &args);
    /// let mut pending = Pending::new(&mut record, &mut ctx, Call::Claim { interface: 0, alternate: 0 });
    /// assert!(matches!(pending.next(&mut routes), Next::Send(_)) && pending.why().is_none());
    /// pending.outcome(Err(19.try_into().unwrap()));
    /// assert!(matches!(pending.next(&mut routes), Next::Answer(Answer::Failed(19))));
    /// let reason = pending.why().unwrap();
    /// assert_eq!(reason, Reason::Command { place: 0, word: 0x3000_0000 });
    /// assert_eq!(reason.to_string(), "the command at place 0 of the log failed first: Configure");
    /// ```
    pub fn why(&self) -> Option<Reason> {
        let (interface, alternate) = match (self.state, &self.call) {
            (State::Ended, Call::Claim { interface, alternate }) => (*interface, *alternate),
            (State::Ended, Call::Commit(asked)) => (asked.interface(), asked.alternate()),
            _ => return None,
        };
        Some(self.record.why(interface, alternate, self.answered, &self.log, self.outcomes()))
    }

    /// Gives record and context back. Before the end this cuts the call.
    pub fn into_parts(self) -> (&'a mut Record, &'a mut [u8]) {
        (self.record, self.ctx)
    }

    fn slot(&self) -> SlotId {
        match &self.call {
            Call::BringUp(attached) => attached.slot,
            _ => self.begun.record.slot(),
        }
    }

    /// Where the routes have the slot's own words.
    fn own_routes(&self) -> core::ops::Range<usize> {
        let first = ROUTES_OF_SLOT * usize::from(self.slot().0);
        first..first + ROUTES_OF_SLOT
    }

    /// The first step, with the number of words that the archive's records have.
    fn begin(&mut self, routes: &mut [u64], record_words: usize) {
        self.begun.routes_len = routes.len();
        if let Some(own) = routes.get(self.own_routes()) {
            self.begun.routes.copy_from_slice(own);
        }
        if record_words == Record::WORDS {
            self.step(routes);
        } else {
            (self.answered.answer, self.state) = (Answer::Unusable, State::Ended);
        }
    }

    /// Goes on to the next command or to the end.
    fn step(&mut self, routes: &mut [u64]) {
        self.play(routes);
        if self.answered.count < self.told {
            // Refused, though commands were sent: for the list, with what the last one read.
            self.take_back();
            self.play(routes);
        }
        self.played = self.told;
        self.learned.stepped();
        if self.answered.count == 0 && matches!(self.call, Call::BringUp(_)) {
            // Nothing was sent: the record that the library has emptied is as it was.
            self.record.clone_from(&self.begun.record);
        }
        let next = self.log().get(self.told).and_then(|word| Command::of(*word));
        self.state = match (self.answered.answer, next) {
            (Answer::Cut, Some(command)) => State::Waits(command),
            _ => State::Ended,
        };
    }

    /// The last outcome becomes that of a command whose read cannot be used.
    fn take_back(&mut self) {
        if let State::Told(command) = self.state {
            let cause = self.learned.list_refused(command, self.answered.answer);
            self.learned.forget();
            self.outcomes[self.told - 1] = self.cannot_use(command, cause);
        }
    }

    /// The outcome of a command whose read cannot be used.
    fn cannot_use(&mut self, command: Command, cause: Cause) -> u8 {
        self.unreadable = Some(Unreadable { command, cause });
        UNREADABLE.get()
    }

    /// Runs the call with the outcomes so far.
    fn play(&mut self, routes: &mut [u64]) {
        self.put_back(routes);
        let outcomes = &self.outcomes[..self.told];
        let memory = Memory { ctx: self.ctx, routes, log: &mut self.log, outcomes };
        self.answered = match &self.call {
            Call::BringUp(attached) => self.record.bring_up_here(memory, &known(attached, &self.learned)),
            Call::Claim { interface, alternate } => self.record.claim(memory, *interface, *alternate),
            Call::Commit(asked) => self.record.commit_shown(memory, asked),
            Call::Release { interface } => self.record.release(memory, *interface),
            Call::SetConfiguration { value } => self.record.set_configuration(memory, *value),
            Call::HubUpdate { ports, multi, ns } => self.record.hub_update(memory, *ports, *multi, *ns),
            Call::Disconnect => self.record.disconnect(memory),
        };
    }

    /// Of the routes the slot's own words only: other slots may have changed theirs.
    fn put_back(&mut self, routes: &mut [u64]) {
        self.record.clone_from(&self.begun.record);
        let kept = self.ctx.len().min(CONTEXT);
        self.ctx[..kept].copy_from_slice(&self.begun.ctx[..kept]);
        if let Some(own) = routes.get_mut(self.own_routes()) {
            own.copy_from_slice(&self.begun.routes);
        }
    }
}

impl fmt::Debug for Pending<'_> {
    fn fmt(&self, f: &mut fmt::Formatter<'_>) -> fmt::Result {
        f.debug_struct("Pending")
            .field("slot", &self.slot())
            .field("call", &self.call)
            .field("state", &self.state)
            .field("answered", &self.answered)
            .field("log", &Listed(|| self.log().iter().filter_map(|word| Command::of(*word))))
            .field("outcomes", &self.outcomes())
            .field("unreadable", &self.unreadable)
            .finish_non_exhaustive()
    }
}

/// A bring-up with what is known of the device so far.
fn known<'b>(attached: &Attached<'b>, learned: &'b Learned) -> BringUp<'b> {
    let Attached { slot, n, speed, parent, port, root_port, rings, hubs } = *attached;
    let Numbers { header, packet, value, .. } = learned.numbers();
    BringUp { slot, n, speed, parent, port, root_port, rings, header, packet, value, hubs, list: learned.list() }
}

#[cfg(test)]
mod tests {
    use super::{Call, Next, Pending};
    use crate::{Answer, BringUp, Memory, Record, SlotId};

    /// With an archive whose records have a word more or less, a call ends at once, and nothing has changed.
    #[test]
    fn another_archive_runs_nothing() {
        let (mut ctx, mut routes, mut log) = ([0; 1056], [0; 64], [0; 64]);
        let memory = Memory { ctx: &mut ctx, routes: &mut routes, log: &mut log, outcomes: &[0; 64] };
        let (slot, rings, list) = (SlotId(1), &[0x1000], &[0x0040_0000, 0x4000_0000]);
        let (n, speed, header, packet, value) = (1, 3, 8, 64, 0);
        let (parent, port, root_port, hubs) = (None, 1, 1, &[]);
        let args = BringUp { slot, n, speed, parent, port, root_port, rings, header, packet, value, hubs, list };
        let (mut record, _) = Record::bring_up(memory, &args);
        let before = (record.clone(), ctx, routes);
        for words in [Record::WORDS - 1, Record::WORDS + 1] {
            let mut pending = Pending::new(&mut record, &mut ctx, Call::SetConfiguration { value: 1 });
            pending.begin(&mut routes, words);
            assert!(matches!(pending.next(&mut routes), Next::Answer(Answer::Unusable)));
            assert!(pending.log().is_empty() && pending.due(&routes).is_none());
            assert!((&record, ctx, routes) == (&before.0, before.1, before.2));
        }
        let mut pending = Pending::new(&mut record, &mut ctx, Call::SetConfiguration { value: 1 });
        pending.begin(&mut routes, Record::WORDS);
        assert!(pending.due(&routes).is_some());
    }
}
