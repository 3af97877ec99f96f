//! Two layers on one case, and the listed differences between them.

use std::borrow::Cow;

use scenario::{
    Answer, Asked, BringUp, Buffers, Call, Called, Cannot, Claim, Layer, Left, Made, Reason, Record, left_text,
    scenario_text,
};

use crate::build::rings_wanted;
use crate::case::Case;
use crate::fields;
use crate::groups;
use crate::narrow::{self, Sparse};
use crate::refusal::{self, chain_fault};
use crate::rows;
use crate::tally::Tally;

pub enum Verdict {
    Same,
    /// A row of docs/DIFFERENCES.md.
    Listed(&'static str),
    /// The reference has no such input.
    Uncompared(&'static str),
    /// What is not the same.
    Different(&'static str),
}

/// What a call left.
pub struct Done {
    /// With its maps in rising order.
    pub record: Record,
    pub answer: Answer,
    pub buffers: Buffers,
    /// The record in the order in which it was returned.
    pub returned: Record,
    /// What an accepted ask returned.
    pub asked: Option<Asked>,
    /// Why a claim, an ask or a commit got its answer, where both layers say it.
    pub reason: Option<Reason>,
}

impl Done {
    fn same(&self, other: &Done) -> bool {
        let asked = self.asked == other.asked;
        asked && self.record == other.record && self.answer == other.answer && self.buffers == other.buffers
    }
}

pub struct Pair {
    pub reference: Box<dyn Layer>,
    pub subject: Box<dyn Layer>,
    /// Whether docs/DIFFERENCES.md speaks of the reference.
    pub listed: bool,
    /// Whether the subject cannot be given every input.
    pub narrow: bool,
    /// None: every call is judged.
    pub sparse: Option<Sparse>,
}

fn done(called: Result<Called, Cannot>, buffers: Buffers) -> Result<Done, Cannot> {
    let done = |Called { record: returned, answer, asked, .. }| {
        let record = Record::sorted(&returned);
        Done { record, answer, buffers, returned, asked, reason: None }
    };
    called.map(done)
}

pub fn ask(layer: &mut dyn Layer, case: &Case) -> Result<Done, Cannot> {
    let mut buffers = case.buffers.clone();
    let called = layer.called(&case.record, &case.call, &mut buffers);
    done(called, buffers)
}

impl Pair {
    pub fn judge(&mut self, case: &Case) -> (Result<Done, Cannot>, Verdict) {
        let case = &*self.given(case);
        let mut subject = ask(&mut *self.subject, case);
        let verdict = match &mut subject {
            Err(Cannot::NoSuchInput) if self.narrow => Verdict::Uncompared(narrow::uncompared(case)),
            Err(_) => Verdict::Different("the subject does not answer"),
            Ok(subject) => {
                subject.reason = if self.gives_reasons() { why(&mut *self.subject, case, subject) } else { None };
                self.judge_answer(case, subject)
            }
        };
        (subject, verdict)
    }

    fn given<'a>(&self, case: &'a Case) -> Cow<'a, Case> {
        if self.narrow { narrow::given(case) } else { Cow::Borrowed(case) }
    }

    /// Neither the original nor what stands in its place has reasons.
    fn gives_reasons(&self) -> bool {
        !self.listed && !self.narrow
    }

    fn judge_answer(&mut self, case: &Case, subject: &Done) -> Verdict {
        if !left_alone(case, subject) {
            return Verdict::Different("a refusal changed something");
        }
        let number = subject.answer.number;
        let expected = refusal::expected(case);
        let allowed = refusal::allowed(&case.call, &case.record);
        let judged = case.genuine || !allowed;
        if judged && (expected.is_some() || refusal::is_known(case, number)) && expected != Some(number) {
            return Verdict::Different("the refusal");
        }
        if let Call::Claim(args) = &case.call
            && !self.narrow
            && !self.in_two(case, args, subject)
        {
            return Verdict::Different("a claim, and its ask with its commit");
        }
        if case.genuine && !groups::agree(case, subject) {
            return Verdict::Different("the groups of rings");
        }
        if number == 12 && allowed && self.listed {
            return Verdict::Uncompared("12: the record is not sound");
        }
        let reference = self.ask_reference(case);
        match &reference {
            Ok(reference) if reference.same(subject) => self.judge_reason(case, reference, subject.reason),
            _ if !self.listed => Verdict::Different("the layers"),
            _ => rule(case, subject, &reference),
        }
    }

    /// The reason is the reference's own.
    fn judge_reason(&mut self, case: &Case, reference: &Done, reason: Option<Reason>) -> Verdict {
        let expected = if self.gives_reasons() { why(&mut *self.reference, case, reference) } else { None };
        if reason == expected { Verdict::Same } else { Verdict::Different("the reason") }
    }

    /// Whether the subject's ask of a claim is refused as the claim is, or its commit leaves what the claim left.
    fn in_two(&mut self, case: &Case, args: &Claim, claimed: &Done) -> bool {
        let Ok(shown) = ask(&mut *self.subject, &Case { call: Call::Ask(args.clone()), ..case.clone() }) else {
            return false;
        };
        if shown.answer.number != 0 {
            return shown.answer == claimed.answer && shown.asked.is_none();
        }
        let commit = Case { call: Call::Commit(shown.asked), ..case.clone() };
        ask(&mut *self.subject, &commit).is_ok_and(|committed| committed.same(claimed))
    }

    /// Counts a case and hands back what the subject left.
    pub fn compare(&mut self, tally: &mut Tally, case: &Case) -> Option<Done> {
        if self.sparse.as_mut().is_some_and(Sparse::passes_over) {
            let case = &*self.given(case);
            return self.sparse.as_mut().and_then(|sparse| ask(&mut *sparse.others, case).ok());
        }
        let (subject, verdict) = self.judge(case);
        let number = subject.as_ref().map_or(0, |done| done.answer.number);
        tally.count(case, number, &verdict);
        if let Some(reason) = subject.as_ref().ok().and_then(|done| done.reason) {
            tally.reason(reason, number);
        }
        if let (Ok(done), Verdict::Same) = (&subject, verdict)
            && let Some(mut store) = tally.store.take()
        {
            store.offer(self, case, done);
            tally.store = Some(store);
        }
        subject.ok()
    }

    /// What the reference leaves, with the fields that a public document decides in the original's place.
    pub fn ask_reference(&mut self, case: &Case) -> Result<Done, Cannot> {
        let mut reference = ask(&mut *self.reference, case);
        if self.listed
            && let Ok(done) = &mut reference
        {
            fields::decide(case, done);
        }
        reference
    }

    /// The subject's number.
    pub fn answer(&mut self, case: &Case) -> Option<u8> {
        ask(&mut *self.subject, case).ok().map(|done| done.answer.number)
    }

    pub fn differs(&mut self, case: &Case) -> bool {
        matches!(self.judge(case).1, Verdict::Different(_))
    }

    pub fn report(&mut self, case: &Case) -> String {
        let case = &*self.given(case);
        let (subject, verdict) = self.judge(case);
        let mut reference = self.ask_reference(case);
        if let Ok(done) = &mut reference
            && self.gives_reasons()
        {
            done.reason = why(&mut *self.reference, case, done);
        }
        let mut text = String::from("DIFFERENT");
        if let Verdict::Different(what) = verdict {
            text.push_str(": ");
            text.push_str(what);
        }
        if let (Ok(subject), Ok(reference)) = (&subject, &reference) {
            text.push_str(&format!(" ({})", unlike(subject, reference).join(", ")));
        }
        text.push_str("\nthe smallest scenario found:\n");
        scenario_text(&mut text, &case.scenario("smallest"));
        text.push_str("the subject leaves:\n");
        describe(&mut text, subject);
        text.push_str("the reference leaves:\n");
        describe(&mut text, reference);
        text
    }
}

fn unlike(subject: &Done, reference: &Done) -> Vec<&'static str> {
    let parts = [
        ("answer", subject.answer == reference.answer),
        ("log", subject.buffers.log == reference.buffers.log),
        ("context", subject.buffers.ctx == reference.buffers.ctx),
        ("routes", subject.buffers.routes == reference.buffers.routes),
        ("record", subject.record == reference.record),
        ("what is asked", subject.asked == reference.asked),
        ("reason", subject.reason == reference.reason),
    ];
    parts.iter().filter(|part| !part.1).map(|part| part.0).collect()
}

fn describe(text: &mut String, done: Result<Done, Cannot>) {
    match done {
        Err(cannot) => text.push_str(&format!("no answer: {cannot:?}\n")),
        Ok(Done { record, answer, buffers, asked, reason, .. }) => {
            let Buffers { ctx, routes, log, .. } = buffers;
            left_text(text, &Left { answer, record, log, ctx, table: routes, asked: asked.map(Some), reason: None });
            if let Some(reason) = reason {
                text.push_str(&format!("reason {reason}\n"));
            }
        }
    }
}

/// Why a claim, an ask or a commit got its answer, by a layer that says it.
fn why(layer: &mut dyn Layer, case: &Case, done: &Done) -> Option<Reason> {
    let Case { call, record, buffers, .. } = case;
    call.claimed()?;
    let made = Made { call, record, buffers, left: &done.returned, answer: done.answer, log: &done.buffers.log };
    layer.why(&made).ok()
}

/// A refusal has changed nothing, logged no word and shown nothing; no ask has, but that an accepted one has shown
/// something.
fn left_alone(case: &Case, subject: &Done) -> bool {
    let ask = matches!(case.call, Call::Ask(_));
    if subject.asked.is_some() != (ask && subject.answer.number == 0) {
        return false;
    }
    let refused = ask || matches!(subject.answer.number, 1..=12 | 17 | 20..);
    let record = match case.call {
        Call::BringUp(_) => Record::default(),
        _ => case.record.sorted(),
    };
    let Answer { code, count, .. } = subject.answer;
    !refused || (subject.buffers == case.buffers && subject.record == record && (code, count) == (0, 0))
}

fn rule(case: &Case, subject: &Done, reference: &Result<Done, Cannot>) -> Verdict {
    let number = subject.answer.number;
    match (&case.call, number) {
        (Call::BringUp(_), 26) => Verdict::Uncompared("26: companions"),
        (Call::BringUp(args), 4 | 5 | 6 | 10 | 11) => refused_bring_up(args, number, reference),
        (_, 1..=3) if no_such_input(reference) => Verdict::Uncompared("1, 2, 3: lengths"),
        (Call::Ask(_), _) if no_such_input(reference) => Verdict::Uncompared("an ask"),
        (Call::Commit(_), 22) => Verdict::Uncompared("22: an ask that is outdated"),
        (Call::Claim(_) | Call::Commit(_), 21) if no_such_input(reference) => {
            Verdict::Uncompared("21: a store of rings")
        }
        (Call::HubUpdate(args), _) if args.think > 65535 && no_such_input(reference) => {
            Verdict::Uncompared("a think time of more than 16 bits")
        }
        (Call::HubUpdate(_), 12) if no_such_input(reference) => {
            Verdict::Uncompared("12: the record of a refused bring-up")
        }
        (Call::HubUpdate(_), 12) if !case.record.usable => Verdict::Listed(rows::BROKEN_HUB_UPDATE),
        (Call::HubUpdate(args), 7) if args.think < 666 => Verdict::Listed(rows::THINK_SHORT),
        (Call::HubUpdate(_), 7) => Verdict::Listed(rows::THINK_LONG),
        (Call::BringUp(_), 19) if reference.is_ok() => Verdict::Listed(rows::PACKET_EXPONENT),
        (Call::Disconnect, 0 | 14) => unplugged(case, subject, reference),
        (Call::Release { interface }, 25) => unclaimed(case, *interface, reference),
        (Call::Claim(_) | Call::Commit(_), 15) => in_doubt(case, subject, reference, rows::CUT_CLAIM),
        (Call::SetConfiguration { .. }, 14 | 15) => in_doubt(case, subject, reference, rows::ENDED_RINGS),
        (_, 13) => failed_configure(case, subject, reference),
        _ => Verdict::Different("the layers"),
    }
}

fn no_such_input(reference: &Result<Done, Cannot>) -> bool {
    matches!(reference, Err(Cannot::NoSuchInput))
}

fn refused_bring_up(args: &BringUp, number: u8, reference: &Result<Done, Cannot>) -> Verdict {
    let route_first = reference.as_ref().is_ok_and(|done| done.answer.number == 17);
    let panics = matches!(reference, Err(Cannot::Panics));
    let walks = matches!(reference, Err(Cannot::WalksForever));
    match number {
        11 if args.slot == 0 => Verdict::Listed(rows::SLOT_0),
        11 if args.n > 255 => Verdict::Listed(rows::MANY_SLOTS),
        4..=10 if route_first => Verdict::Listed(rows::TWO_FAULTS),
        6 if args.speed == 6 && panics => Verdict::Listed(rows::UNKNOWN_SPEED),
        6 if no_such_input(reference) => Verdict::Uncompared("6: a speed that has no name"),
        6 if args.speed == 6 && walks => Verdict::Listed(rows::NO_ROOT_HUB),
        4 if no_such_input(reference) => Verdict::Uncompared("4: a word that stands for nothing"),
        4 => Verdict::Listed(rows::LIST_LIMITS),
        5 => refused_chain(chain_fault(args), reference),
        10 if no_such_input(reference) => Verdict::Uncompared("10: rings that a slot is given"),
        _ => Verdict::Different("the bring-up"),
    }
}

fn refused_chain(fault: Option<&'static str>, reference: &Result<Done, Cannot>) -> Verdict {
    match (fault, reference) {
        (None, _) => Verdict::Different("the bring-up"),
        (Some(_), Err(Cannot::WalksForever)) => Verdict::Listed(rows::NO_ROOT_HUB),
        (Some(_), Err(Cannot::Panics)) => Verdict::Listed(rows::HUB_MISSING),
        (Some(_), Err(Cannot::NoSuchInput)) => Verdict::Uncompared("5: a hub word that stands for nothing"),
        (Some(fault), Ok(_)) => Verdict::Listed(fault),
    }
}

/// The row on a release of an interface that holds nothing: the original does not find its alternate 0, or flags that
/// one's endpoints for drop in a Configure, and nothing of its record ends.
fn unclaimed(case: &Case, interface: u8, reference: &Result<Done, Cannot>) -> Verdict {
    let Ok(Done { answer, buffers, record, .. }) = reference else {
        return Verdict::Different("the layers");
    };
    let idle = case.record.held.iter().all(|held| held.0 != interface);
    let kept = Record { usable: record.usable, ..case.record.sorted() };
    let as_listed = match &buffers.log[..answer.count] {
        [] => answer.number == 8 && *buffers == case.buffers,
        [word] => {
            let flags = buffers.ctx[..4].try_into().map_or(0, u32::from_le_bytes) & !3;
            let addresses = rings_wanted(&case.record.list, interface, 0);
            let dropped = addresses.into_iter().fold(0, |flags, address| flags | 1 << dci(address));
            word >> 28 == CONFIGURE && flags == dropped && matches!(answer.number, 0 | 13 | 15)
        }
        _ => false,
    };
    match idle && as_listed && *record == kept && buffers.routes == case.buffers.routes {
        true => Verdict::Listed(rows::UNCLAIMED_RELEASE),
        false => Verdict::Different("the release"),
    }
}

/// The rows on rings in doubt, which the original frees: all else is the same.
fn in_doubt(case: &Case, subject: &Done, reference: &Result<Done, Cannot>, row: &'static str) -> Verdict {
    let Ok(reference) = reference else {
        return Verdict::Different("the layers");
    };
    let freed = Record { quarantined: case.record.quarantined.clone(), ..subject.record.clone() };
    let same = reference.answer == subject.answer && reference.buffers == subject.buffers && reference.record == freed;
    match same && groups::moved_alike(case, subject) {
        true => Verdict::Listed(row),
        false => Verdict::Different("the rings in doubt"),
    }
}

const CONFIGURE: u32 = 3;

/// The two rows on a failed Configure of a release or a set configuration: all else must be the same.
fn failed_configure(case: &Case, subject: &Done, reference: &Result<Done, Cannot>) -> Verdict {
    const RESUME: u32 = 5;
    let Ok(reference) = reference else {
        return Verdict::Different("the layers");
    };
    let Done { answer, buffers, record, .. } = subject;
    let operation = |index: usize| buffers.log[index] >> 28;
    let outcome = |index: usize| case.buffers.outcomes.get(index).copied().unwrap_or(0);
    let configure = (0..answer.count).find(|i| operation(*i) == CONFIGURE);
    let disables = !matches!(case.call, Call::Claim(_) | Call::Commit(_) | Call::HubUpdate(_));
    if configure.map(outcome) != Some(answer.code)
        || !disables
        || reference.buffers != *buffers
        || reference.answer.count != answer.count
    {
        return Verdict::Different("the layers");
    }
    let last = answer.count - 1;
    match (reference.answer.number, reference.answer.code) {
        (13, 0) if reference.record == *record => Verdict::Listed(rows::CONFIGURE_CODE),
        (14, 0) if operation(last) == RESUME && outcome(last) != 0 => {
            let broken = Record { usable: false, ..record.clone() };
            match reference.record == broken {
                true => Verdict::Listed(rows::RESUME_FAILS_TOO),
                false => Verdict::Different("the record"),
            }
        }
        _ => Verdict::Different("the layers"),
    }
}

/// The rows on an unplugging: commands, context and handles are the same, and of the rest what the row says.
fn unplugged(case: &Case, subject: &Done, reference: &Result<Done, Cannot>) -> Verdict {
    let Ok(reference) = reference else {
        return Verdict::Different("the layers");
    };
    let Done { answer, buffers, record, .. } = subject;
    let sent = reference.answer.count == answer.count
        && reference.buffers.log == buffers.log
        && reference.buffers.ctx == buffers.ctx
        && reference.record.control_revoked
        && reference.record.endpoints.iter().all(|endpoint| !endpoint.active);
    if !sent || reference.answer.code != 0 {
        return Verdict::Different("the unplugging");
    }
    let broken = broken_twice(&case.record);
    match (answer.number, reference.answer.number) {
        // The ring entered again.
        (14, 14) if reference.buffers == *buffers && reference.record == broken => match *record == once(&broken) {
            true => Verdict::Listed(rows::QUARANTINED_TWICE),
            false => Verdict::Different("the quarantine"),
        },
        (0, 14) if reference.buffers.routes == case.buffers.routes && reference.record == broken => {
            Verdict::Listed(if control_at_0(case) { rows::FOREIGN_WORD } else { rows::CONTROL_ROUTE })
        }
        (0, 0) if control_at_0(case) && reference.record == *record && routes_at_0(case, reference) => {
            Verdict::Listed(rows::CONTROL_ROUTE)
        }
        _ => Verdict::Different("the unplugging"),
    }
}

/// Whether the slot's word at Dci 0, where the original looks for it, is control's ring.
fn control_at_0(case: &Case) -> bool {
    case.buffers.routes[32 * usize::from(case.record.slot)] == case.record.control
}

fn dci(address: u8) -> usize {
    usize::from(address & 15) * 2 + usize::from(address >> 7)
}

/// Whether of the slot's words those at Dci 0 and at the endpoints' Dcis were cleared, and no other.
fn routes_at_0(case: &Case, reference: &Done) -> bool {
    let mut routes = case.buffers.routes.clone();
    let row = 32 * usize::from(case.record.slot);
    for cleared in [0].into_iter().chain(case.record.endpoints.iter().map(|e| dci(e.address))) {
        routes[row + cleared] = 0;
    }
    reference.buffers.routes == routes
}

/// The record that the original leaves when it breaks: control's ring and every live one enter quarantine, there
/// already or not.
fn broken_twice(record: &Record) -> Record {
    let mut broken = record.sorted();
    broken.usable = false;
    broken.control_revoked = true;
    broken.endpoints.iter_mut().for_each(|endpoint| endpoint.active = false);
    let rings: Vec<u64> = broken.endpoints.iter().map(|endpoint| endpoint.ring).collect();
    broken.quarantined.push(record.control);
    broken.quarantined.extend(rings);
    broken
}

/// A record with each quarantined ring in the place where it first entered.
fn once(record: &Record) -> Record {
    let mut quarantined: Vec<u64> = Vec::new();
    for ring in &record.quarantined {
        if !quarantined.contains(ring) {
            quarantined.push(*ring);
        }
    }
    Record { quarantined, ..record.clone() }
}

#[cfg(test)]
mod tests {
    use std::time::Duration;

    use scenario::{HubUpdate, Outcome, Shown};

    use super::*;
    use crate::random;

    /// The model, but for one thing that it says of reasons.
    #[derive(Clone, Copy, Debug)]
    enum Wrong {
        /// The last failed command.
        Last,
        /// The command that failed with the answer's code.
        Code,
        /// A failed command before a cut.
        Cut,
        /// 14 without a failed command names the last one.
        Routes,
        /// The first endpoint word that anybody owns.
        Own,
        /// The alternate that is held, of one that is missing.
        Held,
        /// The rings, where an owner is missing too.
        Rings,
        /// 22 is the ring check.
        Outdated,
        /// The place is counted from 1.
        FromOne,
    }

    impl Wrong {
        const ALL: [Wrong; 9] = [
            Wrong::Last,
            Wrong::Code,
            Wrong::Cut,
            Wrong::Routes,
            Wrong::Own,
            Wrong::Held,
            Wrong::Rings,
            Wrong::Outdated,
            Wrong::FromOne,
        ];

        fn spoil(self, reason: Reason, made: &Made) -> Reason {
            let Made { record, buffers, log, answer, .. } = made;
            let outcome = |place: usize| buffers.outcomes.get(place).copied().unwrap_or(0);
            let command = |place: usize| Reason::Command { place, word: log[place] };
            let failed = || (0..answer.count).filter(|place| outcome(*place) != 0);
            let claim = made.call.claimed().unwrap_or_default();
            match (self, reason) {
                (Wrong::Last, Reason::Command { .. }) => failed().last().map_or(reason, command),
                (Wrong::Code, Reason::Command { .. }) if answer.number == 13 => {
                    failed().find(|place| outcome(*place) == answer.code).map_or(reason, command)
                }
                (Wrong::Cut, Reason::Number(15)) => failed().next().map_or(reason, command),
                (Wrong::Routes, Reason::Number(14)) => command(answer.count - 1),
                (Wrong::Own, Reason::Endpoint { .. }) => {
                    let address = |word: u32| ((word >> 29 & 1) << 7 | word >> 25 & 15) as u8;
                    let owner = |word: u32| record.endpoints.iter().find(|e| e.address == address(word));
                    let words = record.list.iter().copied();
                    let sought = 1 << 30 | u32::from(claim.interface) << 22 | u32::from(claim.alternate) << 14;
                    let after = words.skip_while(|word| *word != sought).skip(1).take_while(|word| word >> 30 >= 2);
                    let found = after
                        .filter(|word| word >> 30 == 2)
                        .find_map(|word| Some(Reason::Endpoint { word, owner: owner(word)?.owner }));
                    found.unwrap_or(reason)
                }
                (Wrong::Held, Reason::Alternate { interface, .. }) => {
                    let held = record.held.iter().find(|held| held.0 == interface);
                    held.map_or(reason, |(interface, alternate)| Reason::Alternate {
                        interface: *interface,
                        alternate: *alternate,
                    })
                }
                (Wrong::Rings, Reason::Endpoint { .. }) if record.free().is_empty() => Reason::Rings,
                (Wrong::Outdated, Reason::Number(22)) => Reason::Rings,
                (Wrong::FromOne, Reason::Command { place, word }) => Reason::Command { place: place + 1, word },
                _ => reason,
            }
        }
    }

    impl Layer for Wrong {
        fn bring_up(&mut self, args: &BringUp, buffers: &mut Buffers) -> Outcome {
            model::Model.bring_up(args, buffers)
        }
        fn claim(&mut self, record: &Record, args: &Claim, buffers: &mut Buffers) -> Outcome {
            model::Model.claim(record, args, buffers)
        }
        fn ask(&mut self, record: &Record, args: &Claim, buffers: &Buffers) -> Shown {
            model::Model.ask(record, args, buffers)
        }
        fn commit(&mut self, record: &Record, asked: &Asked, buffers: &mut Buffers) -> Outcome {
            model::Model.commit(record, asked, buffers)
        }
        fn release(&mut self, record: &Record, interface: u8, buffers: &mut Buffers) -> Outcome {
            model::Model.release(record, interface, buffers)
        }
        fn set_configuration(&mut self, record: &Record, value: u8, buffers: &mut Buffers) -> Outcome {
            model::Model.set_configuration(record, value, buffers)
        }
        fn hub_update(&mut self, record: &Record, args: &HubUpdate, buffers: &mut Buffers) -> Outcome {
            model::Model.hub_update(record, args, buffers)
        }
        fn disconnect(&mut self, record: &Record, buffers: &mut Buffers) -> Outcome {
            model::Model.disconnect(record, buffers)
        }
        fn why(&mut self, made: &Made) -> Result<Reason, Cannot> {
            Ok(self.spoil(model::Model.why(made)?, made))
        }
    }

    #[test]
    fn a_wrong_reason_is_found() {
        for wrong in Wrong::ALL {
            let reference = runner::layer("model").expect("the model");
            let mut pair = Pair { reference, subject: Box::new(wrong), listed: false, narrow: false, sparse: None };
            let mut found = |seed: u64| {
                let mut tally = Tally::default();
                random::run(&mut pair, &mut tally, seed, 1_000);
                !tally.text(Duration::ZERO).contains(" 0 different\n")
            };
            assert!((1..=20).any(&mut found), "{wrong:?}");
        }
    }

    /// Why is asked of whatever the calls leave, and the library says what the model says.
    #[test]
    fn each_reason_is_met() {
        let [reference, subject] = ["model", "library"].map(|name| runner::layer(name).expect("a layer"));
        let mut pair = Pair { reference, subject, listed: false, narrow: false, sparse: None };
        let mut tally = Tally::default();
        random::run(&mut pair, &mut tally, 1, 10_000);
        assert_eq!(tally.first_difference(&mut pair), None);
        let numbers = [1, 2, 3, 12, 14, 15, 22].map(|number| ("number", number));
        let named = [("none", 0), ("alternate", 8), ("endpoint", 9), ("rings", 21), ("command", 13), ("command", 14)];
        let missing: Vec<_> = numbers.into_iter().chain(named).filter(|of| !tally.has_reason(*of)).collect();
        assert_eq!(missing, []);
    }
}
