//! The fields that a public document decides: what takes the original's place before it is compared or stored.

use scenario::{BringUp, Call, Record};

use crate::build::{BULK, INTERRUPT, ISOCHRONOUS, is_super};
use crate::case::Case;
use crate::compare::Done;

/// A field of the slot's or an endpoint's block: doubleword, lowest bit, width (xHCI 1.2, sections 6.2.2 and 6.2.3).
struct Field {
    doubleword: usize,
    low: u32,
    width: u32,
}

const CONTEXT_ENTRIES: Field = Field { doubleword: 0, low: 27, width: 5 };
const INTERVAL: Field = Field { doubleword: 0, low: 16, width: 8 };
const MAX_PACKET_SIZE: Field = Field { doubleword: 1, low: 16, width: 16 };
const MAX_BURST_SIZE: Field = Field { doubleword: 1, low: 8, width: 8 };
const MULT: Field = Field { doubleword: 0, low: 8, width: 2 };
const MAX_ESIT_PAYLOAD_HI: Field = Field { doubleword: 0, low: 24, width: 8 };
const AVERAGE_TRB_LENGTH: Field = Field { doubleword: 4, low: 0, width: 16 };
const MAX_ESIT_PAYLOAD_LO: Field = Field { doubleword: 4, low: 16, width: 16 };

/// What a document decides of one call: the field of each of these Dcis' blocks, 0 being the slot's, and its value.
struct Decided {
    field: Field,
    values: Vec<(u8, u32)>,
}

/// The table; docs/DIFFERENCES.md says what the original has in these places.
fn table(case: &Case, reference: &Done) -> [Decided; 8] {
    [
        Decided { field: MAX_BURST_SIZE, values: companion(case, reference, &[ISOCHRONOUS, BULK, INTERRUPT], burst) },
        Decided { field: MULT, values: companion(case, reference, &PERIODIC, mult) },
        Decided { field: MAX_ESIT_PAYLOAD_HI, values: companion(case, reference, &PERIODIC, |_| 0) },
        Decided { field: AVERAGE_TRB_LENGTH, values: companion(case, reference, &PERIODIC, bytes_per_interval) },
        Decided { field: MAX_ESIT_PAYLOAD_LO, values: companion(case, reference, &PERIODIC, bytes_per_interval) },
        Decided { field: CONTEXT_ENTRIES, values: last_in_use(case, reference) },
        Decided { field: MAX_PACKET_SIZE, values: super_packet_size(case, reference) },
        Decided { field: INTERVAL, values: full_isochronous(case, reference) },
    ]
}

/// Puts what the documents decide in the place of what the original wrote.
pub fn decide(case: &Case, reference: &mut Done) {
    let spacing = reference.buffers.ctx.len() / 33;
    for Decided { field, values } in table(case, reference) {
        for (dci, value) in values {
            let at = spacing * (usize::from(dci) + 1) + 4 * field.doubleword;
            let bytes: &mut [u8; 4] = (&mut reference.buffers.ctx[at..at + 4]).try_into().expect("four bytes");
            let mask = ((1 << field.width) - 1) << field.low;
            *bytes = (u32::from_le_bytes(*bytes) & !mask | value << field.low).to_le_bytes();
        }
    }
}

/// USB 3.2, section 9.6.1: the control endpoint's packets have 512 bytes at speeds 4 and 5.
fn super_packet_size(case: &Case, reference: &Done) -> Vec<(u8, u32)> {
    match &case.call {
        Call::BringUp(BringUp { speed: 4 | 5, .. }) if reference.answer.count > 0 => vec![(1, 512)],
        _ => Vec::new(),
    }
}

/// xHCI 1.2, section 6.2.3: what its companion says of an endpoint at speeds 4 and 5 (USB 3.2, section 9.6.7), where it is of
/// one of these types. Of an address that is listed twice the last such word counts.
fn companion(case: &Case, reference: &Done, kinds: &[u32], value: fn(u32) -> u32) -> Vec<(u8, u32)> {
    let mut last = [None; 32];
    for Endpoint { word, companion } in added(case, reference) {
        if is_super(case.record.speed) && kinds.contains(&kind(word)) {
            last[usize::from(dci(word))] = Some(value(companion));
        }
    }
    let there = (0..32).zip(last).filter_map(|(dci, value)| Some((dci, value?)));
    there.collect()
}

const PERIODIC: [u32; 2] = [ISOCHRONOUS, INTERRUPT];

fn burst(companion: u32) -> u32 {
    companion >> 26 & 15
}

fn mult(companion: u32) -> u32 {
    companion >> 24 & 3
}

fn bytes_per_interval(companion: u32) -> u32 {
    companion >> 8 & 0xFFFF
}

fn kind(word: u32) -> u32 {
    word >> 23 & 3
}

/// xHCI 1.2, section 6.2.3.6: of an isochronous endpoint at Full speed the byte is an exponent.
fn full_isochronous(case: &Case, reference: &Done) -> Vec<(u8, u32)> {
    let mut last = [None; 32];
    for Endpoint { word, .. } in added(case, reference) {
        last[usize::from(dci(word))] = Some(word);
    }
    let words = last.into_iter().flatten().filter(|word| case.record.speed == 1 && kind(*word) == ISOCHRONOUS);
    words.map(|word| (dci(word), (word >> 2 & 0xFF).clamp(1, 16) + 2)).collect()
}

/// xHCI 1.2, section 6.2.2: the index of the last endpoint context in use, once a Configure is done.
fn last_in_use(case: &Case, reference: &Done) -> Vec<(u8, u32)> {
    let Some(last) = configures(case, reference).pop() else { return Vec::new() };
    let dropped: Vec<u8> = last.dropped.iter().map(|endpoint| dci(endpoint.word)).collect();
    let recorded = case.record.endpoints.iter().map(|e| 2 * (e.address & 15) + (e.address >> 7));
    let recorded = recorded.filter(|_| !matches!(case.call, Call::BringUp(_)));
    let staying = recorded.filter(|dci| !dropped.contains(dci));
    let entries = staying.chain(last.added.iter().map(|endpoint| dci(endpoint.word))).max().unwrap_or(1);
    vec![(0, entries.into())]
}

fn dci(word: u32) -> u8 {
    ((word >> 25 & 15) * 2 + (word >> 29 & 1)) as u8
}

/// An endpoint word with the companion behind it, 0 where there is none.
#[derive(Clone, Copy)]
struct Endpoint {
    word: u32,
    companion: u32,
}

/// The endpoint words of a Configure.
struct Configure {
    dropped: Vec<Endpoint>,
    added: Vec<Endpoint>,
}

/// The Configures that the call sent, in their order.
fn configures(case: &Case, reference: &Done) -> Vec<Configure> {
    const CONFIGURE: u32 = 3;
    let sent = &reference.buffers.log[..reference.answer.count];
    let count = sent.iter().filter(|word| *word >> 28 == CONFIGURE).count();
    let record = &case.record;
    let held = |interface: u8| record.held.iter().find(|held| held.0 == interface).map(|held| held.1);
    let (dropped, added) = match (&case.call, case.call.claimed()) {
        (_, Some(args)) => {
            let old = held(args.interface).map(|alternate| words(record, args.interface, alternate));
            (old.unwrap_or_default(), words(record, args.interface, args.alternate))
        }
        (Call::Release { interface }, None) => {
            let old = held(*interface).map(|alternate| words(record, *interface, alternate));
            (old.unwrap_or_default(), Vec::new())
        }
        (Call::SetConfiguration { .. }, None) => {
            (record.held.iter().flat_map(|held| words(record, held.0, held.1)).collect(), Vec::new())
        }
        _ => (Vec::new(), Vec::new()),
    };
    // The second undoes the first.
    let undone = Configure { dropped: added.clone(), added: dropped.clone() };
    [Configure { dropped, added }, undone].into_iter().take(count).collect()
}

/// The endpoint words that they added.
fn added(case: &Case, reference: &Done) -> Vec<Endpoint> {
    configures(case, reference).into_iter().flat_map(|configure| configure.added).collect()
}

/// The endpoint words of the first alternate that matches.
fn words(record: &Record, interface: u8, alternate: u8) -> Vec<Endpoint> {
    let wanted = 1 << 30 | u32::from(interface) << 22 | u32::from(alternate) << 14;
    let mut found: Vec<Endpoint> = Vec::new();
    for word in record.list.iter().copied().skip_while(|word| *word != wanted).skip(1) {
        match word >> 30 {
            2 => found.push(Endpoint { word, companion: 0 }),
            3 => found.last_mut().into_iter().for_each(|last| last.companion = word),
            _ => break,
        }
    }
    found
}
