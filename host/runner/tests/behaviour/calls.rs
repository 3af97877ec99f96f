//! "Answers" and "The course of each call".

use scenario::*;

use crate::device::*;
use crate::forms::{answer, command};
use crate::page::{hex, number, quoted, table};

const HEADER: &str = include_str!("../../../include/xhci_device.h");

/// The constants of the header's enum under a comment, by their names without a prefix.
pub fn constants(comment: &str, prefix: &str) -> Vec<(String, u64)> {
    let part = HEADER.split(comment).nth(1).and_then(|rest| rest.split("};").next()).expect("the part of the header");
    let constant = |line: &str| {
        let (name, value) = line.trim().strip_prefix(prefix)?.split_once(" = ")?;
        let digits: String = value.chars().take_while(char::is_ascii_digit).collect();
        Some((name.to_string(), number(&digits)))
    };
    part.lines().filter_map(constant).collect()
}

#[test]
fn answers_are_the_header_s() {
    let rows: Vec<(String, u64)> = table("answers").iter().map(|row| (row[1].clone(), number(&row[0]))).collect();
    assert_eq!(rows, constants("/* Answers. */", "XHCI_DEVICE_ANSWER_"));
}

/// A call on the page's record, or its bring-up.
fn calls(name: &str) -> Vec<Step> {
    let call = match name {
        "bring-up" => return holding()[..1].to_vec(),
        "claim" => claim(0, 0),
        "ask" => Call::Ask(Claim { interface: 0, alternate: 0 }),
        "commit" => Call::Commit(Some(shown())),
        "release" => Call::Release { interface: 0 },
        "set configuration" => Call::SetConfiguration { value: 9 },
        "hub update" => Call::HubUpdate(HubUpdate { ports: 4, ..HubUpdate::default() }),
        "unplugging" => Call::Disconnect,
        _ => panic!("no call '{name}'"),
    };
    [&holding()[..], &[step(call)]].concat()
}

/// What an ask for interface 0, alternate 0 returns, while it holds alternate 1.
fn shown() -> Asked {
    let ask = step(Call::Ask(Claim { interface: 0, alternate: 0 }));
    run(&[&holding()[..], &[ask]].concat()).asked.flatten().expect("an accepted ask")
}

/// "An ask": what the page says that it returns, for interface 0 and for interface 2.
#[test]
fn asks() {
    for row in table("asks") {
        let (interface, alternate) = row[0].split_once(':').expect("an alternate");
        let args = Claim { interface: number(interface) as u8, alternate: number(alternate) as u8 };
        let left = run(&[&holding()[..], &[step(Call::Ask(args))]].concat());
        let Some(Some(Asked { drops, adds, rings, .. })) = left.asked else {
            assert_eq!(format!("answer {}", left.answer.number), row[1], "{row:?}");
            continue;
        };
        let rings: Vec<String> = rings.iter().map(|ring| format!("{ring:x}")).collect();
        assert_eq!([format!("{drops:08x}"), format!("{adds:08x}"), rings.join(" ")], row[1..4], "{row:?}");
    }
}

/// Makes a call one that must be refused with a number; whether it can be.
fn spoil(steps: &mut [Step], number: u64) -> bool {
    let table = run(steps).table;
    let (last, before) = steps.split_last_mut().expect("a call");
    match (&mut last.call, number) {
        (_, 1) => last.ctx.truncate(1055),
        (_, 2) => last.routes_len = Some(table.len() - 1),
        (_, 3) => last.log_len = 63,
        (Call::BringUp(args), 4) => args.list.push(0x4000_0001),
        (Call::BringUp(args), 5) => args.has_parent = true,
        (Call::BringUp(args), 6) => args.speed = 6,
        (Call::BringUp(args), 10) => args.rings.push(8),
        (Call::BringUp(args), 11) => args.slot = 9,
        // The list's endpoints have no companions.
        (Call::BringUp(args), 26) => args.speed = args.speed.max(4),
        (Call::BringUp(args), 17) => last.routes = Some(vec![(32 * usize::from(args.slot) + 1, 0x10)]),
        (Call::HubUpdate(args), 7) => args.think = 1,
        (Call::Claim(args) | Call::Ask(args), 8) => args.interface = 9,
        (Call::Commit(Some(asked)), 8) => asked.interface = 9,
        (Call::Release { interface }, 25) => *interface = 1,
        (Call::Claim(args) | Call::Ask(args), 9) if args.interface != 9 => args.interface = 1,
        (Call::Commit(Some(asked)), 9) if asked.interface != 9 => asked.interface = 1,
        (Call::Claim(_) | Call::Ask(_) | Call::Commit(_), 9) => {}
        (Call::Commit(Some(asked)), 22) => asked.adds = 0,
        (Call::Claim(_) | Call::Ask(_) | Call::Commit(_), 21) => {
            if let Call::BringUp(args) = &mut before[0].call {
                args.rings.retain(|ring| *ring < 0x5000);
            }
        }
        (Call::BringUp(_), 12) => return false,
        (_, 12) => last.record = Some(Record { usable: false, up: false, ..run(before).record }),
        _ => return false,
    }
    true
}

/// Each refusal alone, and with each that is asked later: the first in the page's order is the answer, and nothing changes.
#[test]
fn the_order_of_checks() {
    for row in table("order") {
        let order: Vec<u64> = row[1].split(", ").map(number).collect();
        let mut rising = order.clone();
        rising.sort();
        assert_eq!(rising, (1..=26).filter(|n| spoil(&mut calls(&row[0]), *n)).collect::<Vec<_>>(), "{row:?}");
        for (at, first) in order.iter().enumerate() {
            for later in &order[at..] {
                let mut steps = calls(&row[0]);
                spoil(&mut steps, *first);
                if later != first {
                    spoil(&mut steps, *later);
                }
                let left = run(&steps);
                assert_eq!(u64::from(left.answer.number), *first, "{}: {first} and {later}", row[0]);
                assert_eq!((left.answer.count, left.log[0]), (0, filled_words(1)[0]));
            }
        }
        assert_eq!(run(&calls(&row[0])).answer.number, 0);
    }
}

/// One change each of a bring-up: a buffer's length, or an argument.
#[test]
fn bounds() {
    for row in table("bounds") {
        let (name, value) = row[0].split_once(' ').expect("a number");
        let value = number(value);
        let mut args = bring_up(3, &list());
        match name {
            "slot" => args.slot = value as u8,
            "n" => args.n = value as u32,
            "speed" => args = BringUp { slot: args.slot, n: args.n, ..bring_up(value as u8, &args.list) },
            "rings" => args.rings = (1..=value).map(|at| 16 * at).collect(),
            "ring" => args.rings = vec![value],
            "another" => args.rings.push(value),
            "header" => args.header = value as u32,
            _ => {}
        }
        let mut step = step(Call::BringUp(args));
        match name {
            "context" => step.ctx.resize(value as usize, 0),
            "routes" => step.routes_len = Some(value as usize),
            "log" => step.log_len = value as usize,
            _ => assert!(["slot", "n", "speed", "rings", "ring", "another", "header"].contains(&name), "{row:?}"),
        }
        assert_eq!(u64::from(run(&[step]).answer.number), number(&row[1]), "{row:?}");
    }
}

/// Addresses of endpoints in one lifecycle.
fn of_lifecycle(record: &Record, active: bool, name: &str) -> Option<String> {
    let of = record.endpoints.iter().filter(|e| e.active == active).map(|e| format!(" {:02x}", e.address));
    let addresses: String = of.collect();
    (!addresses.is_empty()).then(|| format!("{name}{addresses}"))
}

/// What a call left of the record, as the page writes it.
fn left_text(record: &Record, configuration: bool, words: bool) -> String {
    let record = record.sorted();
    let held: String = record.held.iter().map(|(interface, alternate)| format!(" {interface}:{alternate}")).collect();
    let quarantined: String = record.quarantined.iter().map(|ring| format!(" {ring:x}")).collect();
    let value = record.config.map_or("no configuration".to_string(), |value| format!("configuration {value}"));
    let parts = [
        (!record.usable).then(|| if record.up { "unusable, up" } else { "unusable" }.to_string()),
        record.control_revoked.then(|| "control revoked".to_string()),
        configuration.then_some(value),
        words.then(|| format!("{} words", record.list.len())),
        Some(if held.is_empty() { "nothing held".to_string() } else { format!("held{held}") }),
        of_lifecycle(&record, true, "active"),
        of_lifecycle(&record, false, "revoked"),
        (!quarantined.is_empty()).then(|| format!("quarantined{quarantined}")),
    ];
    parts.into_iter().flatten().collect::<Vec<_>>().join("; ")
}

/// Outcomes, and a word of the table that another writer made, as `.. and word 99 is 9990`.
fn given(last: &mut Step, before: &[u64], cell: &str) {
    let outcomes = quoted(cell).join(" ");
    if outcomes != ".." {
        last.outcomes = outcomes.split_whitespace().map(|byte| hex(byte) as u8).collect();
    }
    if let Some((_, other)) = cell.split_once(" and word ") {
        let (word, ring) = other.split_once(" is ").expect("a ring");
        let mut words: Vec<(usize, u64)> = before.iter().copied().enumerate().collect();
        words[number(word) as usize].1 = hex(ring);
        last.routes = Some(words);
    }
}

fn course(name: &str, steps: &[Step], configuration: bool, words: bool) {
    let before = if steps.len() > 1 { run(&steps[..steps.len() - 1]).table } else { vec![0; 288] };
    for row in table(&format!("course {name}")) {
        let mut steps = steps.to_vec();
        given(steps.last_mut().expect("a call"), &before, &row[0]);
        let left = run(&steps);
        let sent: Vec<String> = left.log[..left.answer.count].iter().map(|word| command(*word)).collect();
        assert_eq!(sent.join(", "), row[1], "{name}: {row:?}");
        assert_eq!((left.answer.number, left.answer.code), answer(&row[2]), "{name}: {row:?}");
        assert_eq!(left_text(&left.record, configuration, words), row[3], "{name}: {row:?}");
    }
}

#[test]
fn courses() {
    let on = |call: Call| [&holding()[..], &[step(call)]].concat();
    course("bring-up", &calls("bring-up"), true, true);
    course("claim", &calls("claim"), false, false);
    course("first claim", &on(claim(2, 0)), false, false);
    course("release", &calls("release"), false, false);
    course("set configuration", &calls("set configuration"), true, false);
    course("hub update", &calls("hub update"), false, false);
    course("unplugging", &calls("unplugging"), false, false);
    let failed = Step { outcomes: vec![0, 0, 0, 7], ..step(Call::Disconnect) };
    course("unplugging again", &[&holding()[..], &[failed, step(Call::Disconnect)]].concat(), false, false);
}

/// "Done: the 32 words of the slot become 0, that of Dci 0 too, whatever stood in them"; "the record .. keeps". Then
/// "every call on the record answers 12, this one too", and the slot is brought up anew.
#[test]
fn an_unplugging_clears_the_row() {
    let steps = calls("unplugging");
    let before = run(&steps[..2]);
    let row = 32 * SLOT..32 * SLOT + 32;
    let strange: Vec<(usize, u64)> = before.table.iter().copied().enumerate().map(|(i, w)| (i, w | 0x9990)).collect();
    let mut last = step(Call::Disconnect);
    (last.ctx, last.routes) = (vec![0xA5; 1056], Some(strange.clone()));
    let mut steps = [&steps[..2], &[last]].concat();
    let left = run(&steps);
    assert_eq!((left.answer.number, &left.ctx), (0, &vec![0xA5; 1056]));
    assert!(strange.iter().all(|(i, word)| left.table[*i] == if row.contains(i) { 0 } else { *word }));
    let kept = Record {
        usable: false,
        up: false,
        control_revoked: true,
        endpoints: Vec::new(),
        held: Vec::new(),
        ..before.record
    };
    assert_eq!(left.record, kept);
    for name in ["claim", "release", "set configuration", "hub update", "unplugging"] {
        steps.push(calls(name).pop().expect("a call"));
        let left = run(&steps);
        assert_eq!((left.answer.number, left.record == kept), (12, true), "{name}");
    }
    steps.push(calls("bring-up").pop().expect("a call"));
    let left = run(&steps);
    assert_eq!((left.answer.number, left.record.usable, left.record.up), (0, true, true));
}

/// "A bring-up that failed".
#[test]
fn a_failed_bring_up_is_not_up() {
    let mut failed = calls("bring-up").pop().expect("a call");
    failed.outcomes = vec![0, 7];
    let (again, unplug) = (calls("bring-up").pop().expect("a call"), step(Call::Disconnect));
    for (call, number) in [(unplug, 12), (again, 17)] {
        let left = run(&[failed.clone(), call]);
        assert_eq!((left.answer.number, left.table[32 * SLOT + 1]), (number, 0x1000));
    }
}

/// "If the header has not 8 bytes: 16"; "with an empty list, accepted".
#[test]
fn a_bring_up_may_end_early() {
    let (mut short, mut empty) = (bring_up(3, &list()), bring_up(3, &[]));
    (short.header, empty.config) = (7, 5);
    let left = run(&[step(Call::BringUp(short))]);
    assert_eq!((left.answer.number, left.answer.count), (16, 2));
    let left = run(&[step(Call::BringUp(empty))]);
    assert_eq!((left.answer.number, left.answer.count, left.record.config), (0, 5, Some(5)));
}
