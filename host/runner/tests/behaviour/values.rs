//! "Values" and "What each command's context gets".

use scenario::*;

use crate::device::*;
use crate::page::{number, table, words};

/// A number, or `answer N`.
fn matches(cell: &str, answer: u8, value: u64) -> bool {
    match cell.strip_prefix("answer ") {
        Some(refusal) => u64::from(answer) == number(refusal),
        None => matches!(answer, 0 | 15) && value == number(cell),
    }
}

#[test]
fn packet_sizes() {
    let rows = table("speeds");
    assert_eq!(rows.iter().map(|row| number(&row[0])).collect::<Vec<_>>(), [1, 2, 3, 4, 5]);
    let bytes = ["byte 0", "byte 8", "byte 9", "byte 64", "byte 255"];
    assert!(crate::page::marked("speeds")[0].ends_with(&format!("| first size | {} |", bytes.join(" | "))));
    for row in rows {
        let cut = |packet: &str, outcomes: usize| {
            let packet = number(packet.trim_start_matches("byte ")) as u8;
            let args = BringUp { packet, ..bring_up(number(&row[0]) as u8, &[]) };
            run(&[Step { outcomes: vec![0; outcomes], ..step(Call::BringUp(args)) }])
        };
        let size = |left: &Left| read(&left.ctx, "Dci 1", "max packet size");
        assert_eq!(size(&cut("byte 1", 0)), number(&row[2]), "{row:?}");
        for (byte, cell) in bytes.iter().zip(&row[3..]) {
            let left = cut(byte, 2);
            assert!(matches(cell, left.answer.number, size(&left)), "{row:?}, {byte}: {:?}", left.answer);
        }
    }
    for speed in [0, 6, 255] {
        assert_eq!(run(&[step(Call::BringUp(bring_up(speed, &[])))]).answer.number, 6);
    }
}

/// The context of a first claim of Dci 3 with one endpoint word, whose companion, at speeds 4 and 5, is zeros.
fn added(speed: u8, of: [u64; 4], fill: u8) -> Vec<u8> {
    added_words(speed, &[endpoint(0x81, of)], fill)
}

fn added_words(speed: u8, words: &[u32], fill: u8) -> Vec<u8> {
    let list = listed(&[words.to_vec()], &[]);
    let claim = Step { ctx: vec![fill; 1056], ..step(claim(0, 0)) };
    let left = run(&[step(Call::BringUp(bring_up(speed, &list))), claim]);
    assert_eq!(left.answer.number, 0);
    left.ctx
}

/// The number that a cell such as `2 bulk` begins with.
fn kind(cell: &str) -> u64 {
    number(cell.split(' ').next().expect("a type"))
}

#[test]
fn intervals() {
    for row in table("intervals") {
        for speed in row[1].split(' ').map(number) {
            for pair in row[2].split(' ') {
                let (byte, interval) = pair.split_once('→').expect("an arrow");
                let ctx = added(speed as u8, [kind(&row[0]), 64, 1, number(byte)], 0);
                assert_eq!(read(&ctx, "Dci 3", "interval"), number(interval), "{row:?}, speed {speed}, byte {byte}");
            }
        }
    }
}

#[test]
fn bursts() {
    let fields = ["max burst size", "max ESIT payload", "average TRB length"];
    for row in table("bursts") {
        let [speed, size, packets] = [1, 2, 3].map(|column| number(&row[column]));
        let filled = |fill| added(speed as u8, [kind(&row[0]), size, packets, 1], fill);
        let (zeros, ones) = (filled(0), filled(255));
        for (name, cell) in fields.iter().zip(&row[4..]) {
            let of = [&zeros, &ones].map(|ctx| read(ctx, "Dci 3", name));
            assert!(if cell == "kept" { of[0] == 0 && of[1] > 0 } else { of == [number(cell); 2] }, "{row:?}, {name}");
        }
    }
}

#[test]
fn companions() {
    let fields = ["max burst size", "mult", "max ESIT payload", "high ESIT payload", "average TRB length"];
    for row in table("companions") {
        let companion = words(&row[1])[0] as u32;
        for (speed, packets) in [(4, 0), (4, 3), (5, 1)] {
            let pair = [endpoint(0x81, [kind(&row[0]), 1024, packets, 1]), companion];
            let [zeros, ones] = [0, 255].map(|fill| added_words(speed, &pair, fill));
            for (name, cell) in fields.iter().zip(&row[2..]) {
                let of = [&zeros, &ones].map(|ctx| read(ctx, "Dci 3", name));
                let holds = if cell == "kept" { of[0] == 0 && of[1] > 0 } else { of == [number(cell); 2] };
                assert!(holds, "{row:?}, {name}, speed {speed}");
            }
        }
    }
}

/// The Dcis of a cell as bulk endpoint words.
fn bulk(cell: &str) -> Vec<u32> {
    cell.split_whitespace().map(|dci| endpoint(address(number(dci)), [2, 512, 0, 0])).collect()
}

#[test]
fn entries() {
    for row in table("entries") {
        let (kept, dropped, new) = (bulk(&row[0]), bulk(&row[1]), bulk(&row[2]));
        let list = listed(&[dropped.clone(), new.clone()], &kept);
        let mut steps = vec![step(Call::BringUp(bring_up(3, &list))), step(claim(1, 0))];
        steps.push(step(claim(0, 0)));
        steps.push(step(claim(0, 1)));
        let left = run(&steps);
        assert_eq!((left.answer.number, read(&left.ctx, "slot", "context entries")), (0, number(&row[3])), "{row:?}");
    }
}

fn hub_update(speed: u8, multi: bool, think: u32, fill: u8) -> Left {
    let update = Call::HubUpdate(HubUpdate { ports: 4, multi, think });
    run(&[step(Call::BringUp(bring_up(speed, &[]))), Step { ctx: vec![fill; 1056], ..step(update) }])
}

#[test]
fn think_times() {
    for row in table("think") {
        let think = number(&row[0]) as u32;
        let left = hub_update(3, false, think, 0);
        assert!(matches(&row[1], left.answer.number, read(&left.ctx, "slot", "think time")), "{row:?}");
        for speed in [1, 2, 4, 5] {
            assert_eq!(hub_update(speed, false, think, 0).answer.number, 0, "{row:?} at speed {speed}");
        }
    }
}

/// The contexts of a step, where the lent one was zeros and where it was ones: what is the same in both is written.
fn filled(step_name: &str) -> Option<[Vec<u8>; 2]> {
    let (name, detail) = step_name.split_once(", ").unwrap_or((step_name, ""));
    let of = |speed: u8, kind: u64| [0, 255].map(|fill| added(speed, [kind, 64, 1, 4], fill));
    Some(match (name, detail) {
        ("Configure", "") | ("Configure", "added bulk") => of(3, 2),
        ("Configure", "added interrupt") => of(3, 3),
        ("Configure", "added isochronous") => of(3, 1),
        ("Configure at speed 4", "added bulk") => of(4, 2),
        ("Configure at speed 4", "added interrupt") => of(4, 3),
        ("Configure at speed 5", "added isochronous") => of(5, 1),
        ("Configure", "dropped") => [0, 255].map(|fill| {
            let list = listed(&[vec![endpoint(0x81, [2, 512, 0, 0])]], &[]);
            let release = Step { ctx: vec![fill; 1056], ..step(Call::Release { interface: 0 }) };
            run(&[step(Call::BringUp(bring_up(3, &list))), step(claim(0, 0)), release]).ctx
        }),
        ("hub update", "") => [0, 255].map(|fill| hub_update(4, false, 0, fill).ctx),
        _ => {
            let speed = name.strip_prefix("hub update at speed ").map(number)? as u8;
            [0, 255].map(|fill| hub_update(speed, detail == "several", 0, fill).ctx)
        }
    })
}

/// The contexts before and after a step inside a call: what differs is written.
fn before_and_after(step_name: &str) -> [Vec<u8>; 2] {
    let cut = |steps: &[Step], outcomes: usize| {
        let (last, first) = steps.split_last().expect("a call");
        let last = Step { outcomes: vec![0; outcomes], ..last.clone() };
        run(&[first, &[last]].concat()).ctx
    };
    let mut steps = holding().to_vec();
    match step_name {
        "packet size" => {
            let odd = step(Call::BringUp(BringUp { packet: 9, ..bring_up(3, &list()) }));
            [1, 2].map(|outcomes| cut(std::slice::from_ref(&odd), outcomes))
        }
        "value" => {
            steps.push(Step { ctx: vec![0; 1056], ..step(Call::SetConfiguration { value: 255 }) });
            [3, 4].map(|outcomes| cut(&steps, outcomes))
        }
        _ => panic!("no step '{step_name}'"),
    }
}

/// The fields of a block's kind that a cell lists.
fn listed_fields(kind: &str, cell: &str) -> Vec<Field> {
    let names = table("fields").into_iter().filter(|row| row[0] == kind).map(|row| row[3].clone());
    let listed: Vec<String> = names.filter(|name| format!(", {cell},").contains(&format!(", {name},"))).collect();
    let length: usize = listed.iter().map(|name| name.len() + 2).sum();
    assert!(length == cell.len() + 2 || cell == "no", "'{cell}' lists no other fields");
    listed.iter().map(|name| field(kind, name)).collect()
}

/// Whether a row is about a step: `hub update` also about `hub update at speed 3`, `Configure` about `Configure, dropped`.
fn is_about(row: &str, step_name: &str) -> bool {
    let more = step_name.strip_prefix(row);
    more.is_some_and(|more| {
        more.is_empty() || more.starts_with(", ") && !row.contains(" at ") || more.starts_with(" at ")
    })
}

/// The bits that the rows about a step list, of a block's doubleword.
fn listed_bits(rows: &[Vec<String>], step_name: &str, number: usize, dword: usize) -> u32 {
    let about = rows.iter().filter(|row| is_about(&row[0], step_name) && block(&row[1]).0 == number);
    let fields = about.flat_map(|row| listed_fields(block(&row[1]).1, &row[2]));
    let bits = |field: Field| u32::MAX >> (31 - field.high + field.low) << field.low;
    fields.filter(|field| field.dword == dword).map(bits).fold(0, |all, bits| all | bits)
}

/// Of each step, what it writes in all blocks of the context. (A step that others are about stands in their rows.)
#[test]
fn writes() {
    let rows = table("writes");
    for step_name in rows.iter().map(|row| &row[0]) {
        if rows.iter().any(|row| row[0] != *step_name && is_about(step_name, &row[0])) {
            continue;
        }
        let exact = filled(step_name);
        let [one, other] = exact.clone().unwrap_or_else(|| before_and_after(step_name));
        for at in 0..33 * 8 {
            let word = |ctx: &[u8]| u32::from_le_bytes(ctx[4 * at..4 * at + 4].try_into().expect("four bytes"));
            let differ = word(&one) ^ word(&other);
            let listed = listed_bits(&rows, step_name, at / 8, at % 8);
            let holds = if exact.is_some() { !differ == listed } else { differ & !listed == 0 };
            assert!(holds, "{step_name}, block {}, doubleword {}: {differ:08x}, {listed:08x}", at / 8, at % 8);
        }
    }
}
