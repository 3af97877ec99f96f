//! docs/THEOREM.md, "Twenty lists, worked through": calls through the library, read by a plain slot and by a plain USB device.

use std::collections::{BTreeMap, BTreeSet};

use library::Library;
use scenario::*;

use crate::device::*;
use crate::forms::answer;
use crate::page::{number, table};
use crate::picture::picture;

const SLOT: usize = 1;

/// The lowest is control's.
const GIVEN: [u64; 6] = [96, 32, 64, 16, 80, 48];
const CONTROL: u64 = 16;

/// Interfaces and alternates with the addresses of their endpoints.
const SETTINGS: [(u8, u8, &[u8]); 4] = [(0, 0, &[0x81]), (0, 1, &[0x81, 0x02]), (1, 0, &[0x81]), (2, 0, &[0x83, 0x83])];

fn shared() -> Vec<u32> {
    let mut list = vec![picture("configuration").of(&[("value", 1)]) as u32];
    for (interface, alternate, addresses) in SETTINGS {
        let setting = [("interface", u64::from(interface)), ("alternate", u64::from(alternate))];
        list.push(picture("alternate").of(&setting) as u32);
        list.extend(addresses.iter().map(|address| endpoint(*address, [2, 512, 0, 0])));
    }
    list
}

fn first() -> Call {
    Call::BringUp(BringUp { slot: SLOT as u8, n: 2, rings: GIVEN.to_vec(), ..bring_up(3, &shared()) })
}

/// Every word of the other slots, each another number.
fn others() -> Vec<(usize, u64)> {
    let words = |slot: usize, from: u64| (0..32).map(move |d| (32 * slot + d, from + 16 * d as u64));
    words(0, 4096).chain(words(2, 8192)).collect()
}

fn numbers(text: &str) -> Vec<u64> {
    text.split(' ').map(number).collect()
}

fn setting(text: &str) -> (u8, u8) {
    let (interface, alternate) = text.split_once(':').expect("an alternate");
    (number(interface) as u8, number(alternate) as u8)
}

/// `0:1, drops 3, adds 3 4, rings 48 64`.
fn asked(text: &str) -> Asked {
    let parts: Vec<&str> = text.split(", ").collect();
    let part = |i: usize, name: &str| numbers(parts[i].strip_prefix(name).expect("a part of an ask"));
    let flags = |dcis: Vec<u64>| dcis.iter().map(|dci| 1 << dci).sum();
    let (interface, alternate) = setting(parts[0]);
    let (drops, adds) = (flags(part(1, "drops ")), flags(part(2, "adds ")));
    Asked { interface, alternate, drops, adds, rings: part(3, "rings ") }
}

/// A call of the page, and whether the caller goes on with the record that he had before it.
fn call(text: &str) -> (Step, bool) {
    let (text, outcomes) = text.split_once(" / ").map_or((text, None), |(text, outcomes)| (text, Some(outcomes)));
    let (text, keeps) = text.strip_suffix(" (record kept)").map_or((text, false), |text| (text, true));
    let call = if let Some(rest) = text.strip_prefix("claim ") {
        let (interface, alternate) = setting(rest);
        claim(interface, alternate)
    } else if let Some(rest) = text.strip_prefix("commit ") {
        Call::Commit(Some(asked(rest)))
    } else if let Some(interface) = text.strip_prefix("release ") {
        Call::Release { interface: number(interface) as u8 }
    } else if let Some(value) = text.strip_prefix("set configuration ") {
        Call::SetConfiguration { value: number(value) as u8 }
    } else if let Some(rest) = text.strip_prefix("hub update ") {
        let (ports, ns) = rest.split_once(" ports, ").expect("ports");
        let think = number(ns.strip_suffix(" ns").expect("a think time")) as u32;
        Call::HubUpdate(HubUpdate { ports: number(ports) as u8, multi: false, think })
    } else if text == "unplug" {
        Call::Disconnect
    } else {
        assert_eq!(text, "bring-up");
        first()
    };
    let given = match outcomes {
        None => DONE.to_vec(),
        Some("none") => Vec::new(),
        Some(given) => numbers(given).iter().map(|byte| *byte as u8).collect(),
    };
    (Step { outcomes: given, ..step(call) }, keeps)
}

#[derive(Clone, Copy, PartialEq)]
enum Phase {
    Up,
    Unplugged,
    NotUp,
}

/// A held setting: its rings by Dci, of a repeated address the last word's.
struct Held {
    interface: u8,
    alternate: u8,
    rings: BTreeMap<u64, u64>,
}

/// The plain slot of docs/THEOREM.md: from arguments, answers and logs alone.
struct Plain {
    phase: Phase,
    held: Vec<Held>,
    enabled: Vec<u64>,
    broken: bool,
    free: BTreeSet<u64>,
    live: BTreeSet<u64>,
    quarantined: BTreeSet<u64>,
}

const ADDRESS: u32 = 1;
const CONFIGURE: u32 = 3;
const SET_INTERFACE: u32 = 6;
const SET_CONFIGURATION: u32 = 7;
const READ_CONFIGURATION: u32 = 9;

/// What a reader of the log knows of the USB device: its value, and the alternates of the three interfaces.
#[derive(Default)]
struct Told {
    value: Option<u8>,
    alternates: [Option<u8>; 3],
}

impl Told {
    /// `said` is the value that a bring-up reads.
    fn hear(&mut self, step: &Step, left: &Left, said: Option<u8>) {
        for (index, word) in left.log[..left.answer.count].iter().enumerate() {
            let (first, second) = ((word >> 20) as u8, (word >> 12) as u8);
            match (word >> 28, step.outcomes.get(index)) {
                (ADDRESS, _) => *self = Told::default(),
                (SET_INTERFACE, outcome) => {
                    self.alternates[usize::from(first)] = (outcome == Some(&0)).then_some(second);
                }
                (SET_CONFIGURATION, Some(0)) => *self = Told { value: Some(first), alternates: [Some(0); 3] },
                (SET_CONFIGURATION, None) => *self = Told::default(),
                (READ_CONFIGURATION, Some(0)) => self.value = said,
                _ => {}
            }
        }
    }
}

fn moved(rings: impl IntoIterator<Item = u64>, from: &mut BTreeSet<u64>, to: &mut BTreeSet<u64>) {
    for ring in rings {
        assert!(from.remove(&ring) && to.insert(ring), "ring {ring} is in one group");
    }
}

impl Plain {
    /// After a bring-up that passed its checks.
    fn begun(phase: Phase) -> Plain {
        let free = GIVEN.iter().copied().filter(|ring| *ring != CONTROL).collect();
        let (held, enabled, live) = (Vec::new(), Vec::new(), BTreeSet::from([CONTROL]));
        Plain { phase, held, enabled, broken: false, free, live, quarantined: BTreeSet::new() }
    }

    /// The setting that a claim asks for, with the rings that it draws.
    fn claimed(&self, Claim { interface, alternate }: Claim) -> Held {
        let found = SETTINGS.iter().find(|setting| (setting.0, setting.1) == (interface, alternate));
        let dcis = found.expect("a setting").2.iter().map(|address| u64::from(2 * (address & 15) + (address >> 7)));
        Held { interface, alternate, rings: dcis.zip(self.free.iter().copied()).collect() }
    }

    /// The settings that some interfaces hold end. Their rings are free, or where the call is lost in doubt.
    fn end(&mut self, ends: impl Fn(u8) -> bool, lost: bool) {
        let (ended, held) = std::mem::take(&mut self.held).into_iter().partition::<Vec<Held>, _>(|h| ends(h.interface));
        self.held = held;
        let to = if lost { &mut self.quarantined } else { &mut self.free };
        moved(ended.into_iter().flat_map(|held| held.rings.into_values()), &mut self.live, to);
    }

    /// The ring that the slot's word of a Dci names.
    fn route(&self, dci: u64) -> u64 {
        match dci {
            1 if self.phase != Phase::Unplugged => CONTROL,
            _ => self.held.iter().find_map(|held| held.rings.get(&dci)).copied().unwrap_or(0),
        }
    }

    /// A Configure over a context is done.
    fn configure(&mut self, ctx: &[u8]) {
        let flag = |name: &str, dci: u64, low: u64| read(ctx, "control", name) >> (dci - low) & 1 == 1;
        self.enabled = (2..32)
            .filter(|dci| self.enabled.contains(dci) && !flag("drop flags", *dci, 2) || flag("add flags", *dci, 0))
            .collect();
    }

    /// Of a call that logged some words, and left a context where it was given only the first outcomes.
    fn observe(&mut self, step: &Step, left: &Left, contexts: impl Fn(usize) -> Vec<u8>) {
        let words = &left.log[..left.answer.count];
        let done = |i: usize, operation: u32| words[i] >> 28 == operation && step.outcomes.get(i) == Some(&0);
        for i in (0..words.len()).filter(|i| done(*i, CONFIGURE)) {
            self.configure(&contexts(i));
        }
        let (accepted, broken) = (left.answer.number == 0, left.answer.number == 14);
        let lost = matches!(left.answer.number, 14 | 15);
        let configured = words.iter().any(|word| word >> 28 == CONFIGURE);
        self.broken |= lost;
        match &step.call {
            Call::BringUp(_) if accepted => *self = Plain::begun(Phase::Up),
            Call::BringUp(_) if !words.is_empty() => *self = Plain::begun(Phase::NotUp),
            Call::Claim(_) | Call::Commit(_) if accepted || lost && configured => {
                let new = self.claimed(step.call.claimed().expect("a setting"));
                let to = if accepted { &mut self.live } else { &mut self.quarantined };
                moved(new.rings.values().copied(), &mut self.free, to);
                if accepted {
                    self.end(|interface| interface == new.interface, false);
                    self.held.push(new);
                }
            }
            Call::Release { interface } if accepted => self.end(|held| held == *interface, false),
            Call::SetConfiguration { .. } if (0..words.len()).any(|i| done(i, SET_CONFIGURATION)) => {
                self.end(|_| true, lost);
            }
            Call::Disconnect if accepted => {
                self.free.append(&mut self.live);
                (self.phase, self.held, self.enabled) = (Phase::Unplugged, Vec::new(), Vec::new());
            }
            Call::Disconnect if broken => self.quarantined.append(&mut self.live),
            _ => {}
        }
    }
}

/// Runs a step; the plain slot reads it.
fn observed(session: &mut Session, plain: &mut Plain, step: &Step) -> Left {
    let before = session.clone();
    let left = session.run(&mut Library, step).expect("an answer");
    let contexts = |i: usize| {
        let cut = Step { outcomes: step.outcomes[..i].to_vec(), ..step.clone() };
        before.clone().run(&mut Library, &cut).expect("an answer").ctx
    };
    plain.observe(step, &left, contexts);
    left
}

/// The table is the plain slot's, and the other slots' words stay; a record that is up has its rings in the same groups.
fn agrees(left: &Left, plain: &Plain) {
    let own: Vec<u64> = (0..32).map(|dci| plain.route(dci)).collect();
    assert_eq!((&left.table[32 * SLOT..][..32], left.table.len()), (&own[..], 96));
    assert!(others().iter().all(|(at, word)| left.table[*at] == *word));
    if left.record.up {
        let quarantined: BTreeSet<u64> = left.record.quarantined.iter().copied().collect();
        assert!(left.record.free().into_iter().eq(plain.free.iter().copied()) && quarantined == plain.quarantined);
    }
}

fn joined<T>(values: impl IntoIterator<Item = T>, text: impl Fn(T) -> String) -> String {
    values.into_iter().map(text).collect::<Vec<_>>().join(", ")
}

fn known(number: Option<u8>) -> String {
    number.map_or("?".to_string(), |number| number.to_string())
}

/// The columns from the phase to the device's value.
fn told(plain: &Plain, device: &Told) -> [String; 9] {
    let phase = match plain.phase {
        Phase::Up => "up",
        Phase::Unplugged => "unplugged",
        Phase::NotUp => "not up",
    };
    [
        phase.to_string(),
        joined(&plain.held, |held| format!("{}:{}", held.interface, held.alternate)),
        joined((2..32).filter(|dci| plain.route(*dci) != 0), |dci| format!("{dci}→{}", plain.route(dci))),
        joined(&plain.enabled, u64::to_string),
        if plain.broken { "broken" } else { "" }.to_string(),
        joined(&plain.free, u64::to_string),
        joined(&plain.quarantined, u64::to_string),
        device.alternates.map(known).join(" "),
        known(device.value),
    ]
}

/// The value that ReadConfiguration reads.
fn said(call: &Call) -> Option<u8> {
    match call {
        Call::BringUp(args) => Some(args.config),
        _ => None,
    }
}

#[test]
fn twenty_lists() {
    for row in table("twenty lists") {
        let (mut session, mut plain) = (Session::new(), Plain::begun(Phase::Up));
        let begin = Step { routes: Some(others()), ..step(first()) };
        let mut left = session.run(&mut Library, &begin).expect("an answer");
        assert_eq!(left.answer.number, 0);
        agrees(&left, &plain);
        let mut device = Told::default();
        device.hear(&begin, &left, said(&begin.call));
        for (text, told) in row[1].split("; ").zip(row[2].split(", ")) {
            let (step, keeps) = call(text);
            let own = left.record;
            let step = Step { record: Some(own.clone()), ..step };
            left = observed(&mut session, &mut plain, &step);
            device.hear(&step, &left, said(&step.call));
            assert_eq!((left.answer.number, left.answer.code), answer(told), "{row:?}, {text}");
            if keeps {
                left.record = own;
            }
            agrees(&left, &plain);
        }
        assert_eq!(row[1].split("; ").count(), row[2].split(", ").count(), "{row:?}");
        assert_eq!(row[3..12], told(&plain, &device), "{row:?}");
    }
    assert_eq!(table("twenty lists").len(), 20);
}
