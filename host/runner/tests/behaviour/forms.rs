//! "Forms": the pictures, the example words, and that the library reads them so.

use scenario::*;

use crate::device::*;
use crate::page::{self, hex, number, pairs, quoted, table, words};
use crate::picture::picture;

/// Values for a field: its lowest, its highest, and some between.
fn some(of: &str, field: &str, least: u64) -> Vec<u64> {
    let most = picture(of).most(field);
    vec![least, most, (least + most) / 2, least + most / 3]
}

#[test]
fn pictures_are_whole_words() {
    for name in ["configuration", "alternate", "endpoint", "companion", "log"] {
        assert_eq!(picture(name).bits(), 32, "{name}");
    }
    assert_eq!(picture("hub").bits(), 64);
}

#[test]
fn example_words_have_the_fields_beside_them() {
    for row in table("words").into_iter().chain(table("super words")) {
        let (kind, fields) = row[1].split_once(": ").expect("a kind");
        assert_eq!(words(&row[0]), [picture(kind).pack(&pairs(fields))], "{row:?}");
    }
    for (place, row) in table("hubs").iter().enumerate() {
        assert_eq!(number(&row[0]), place as u64);
        assert_eq!(words(&row[1]), [picture("hub").pack(&pairs(&row[2]))], "{row:?}");
    }
}

/// Value, interface and alternate come back in the record and in the context.
#[test]
fn the_library_reads_configurations_and_alternates_so() {
    for value in some("configuration", "value", 0) {
        for (interface, alternate) in
            some("alternate", "interface", 0).into_iter().zip(some("alternate", "alternate", 1))
        {
            let setting = picture("alternate").of(&[("interface", interface), ("alternate", alternate)]);
            let list = [picture("configuration").of(&[("value", value)]) as u32, setting as u32];
            let left = run(&[step(Call::BringUp(bring_up(3, &list))), step(claim(interface as u8, alternate as u8))]);
            assert_eq!((left.answer.number, left.record.config), (0, Some(value as u8)));
            assert_eq!(read(&left.ctx, "control", "interface number"), interface);
            assert_eq!(read(&left.ctx, "control", "alternate setting"), alternate);
        }
    }
}

/// An endpoint word's fields come back in its block of the context.
#[test]
fn the_library_reads_endpoints_so() {
    for kind in 1..=3 {
        for (i, size) in some("endpoint", "packet size", 0).into_iter().enumerate() {
            let (interval, packets) = (some("endpoint", "interval", 1)[i], some("endpoint", "packets", 0)[i]);
            for dci in 2..=30 {
                let list = listed(&[vec![endpoint(address(dci), [kind, size, packets, interval])]], &[]);
                let rings = vec![0x10, 0x1234_5678_9ABC_DEF0];
                let up = BringUp { rings, ..bring_up(3, &list) };
                let left = run(&[step(Call::BringUp(up)), step(claim(0, 0))]);
                let of = |name: &str| read(&left.ctx, &format!("Dci {dci}"), name);
                assert_eq!(left.table[32 * SLOT + dci as usize], 0x1234_5678_9ABC_DEF0);
                assert_eq!((of("max packet size"), of("endpoint type")), (size, kind + dci % 2 * 4));
                assert_eq!(of("dequeue pointer, high") << 32 | of("dequeue pointer, low") << 4, 0x1234_5678_9ABC_DEF0);
                let interval = if kind == 2 { interval } else { interval.min(16) - 1 };
                let burst = if kind == 2 { 0 } else { packets.saturating_sub(1) };
                assert_eq!((of("interval"), of("max burst size"), of("cycle state")), (interval, burst, 1));
                assert_eq!(read(&left.ctx, "control", "add flags"), 1 | 1 << dci);
            }
        }
    }
}

/// A companion's fields come back in the block of the context, of an isochronous endpoint each of them.
#[test]
fn the_library_reads_companions_so() {
    for (i, bytes) in some("companion", "bytes", 0).into_iter().enumerate() {
        let (burst, mult) = (some("companion", "burst", 0)[i], [0, 2, 1, 2][i]);
        let companion = picture("companion").of(&[("burst", burst), ("mult", mult), ("bytes", bytes)]) as u32;
        for (speed, dci) in [(4, 3), (5, 30)] {
            let list = listed(&[vec![endpoint(address(dci), [1, 1024, 1, 1]), companion]], &[]);
            let left = run(&[step(Call::BringUp(bring_up(speed, &list))), step(claim(0, 0))]);
            let of = |name: &str| read(&left.ctx, &format!("Dci {dci}"), name);
            assert_eq!((left.answer.number, of("max burst size"), of("mult")), (0, burst, mult));
            assert_eq!((of("average TRB length"), of("max ESIT payload"), of("high ESIT payload")), (bytes, bytes, 0));
        }
    }
    assert_eq!((picture("companion").most("mult"), picture("companion").most("burst")), (3, 15));
}

/// The first table is of speeds 1 to 3, the second of 4 and 5.
#[test]
fn lists() {
    for (mark, speeds) in [("lists", 1..=3), ("super lists", 4..=5)] {
        for (row, speed) in table(mark).iter().flat_map(|row| speeds.clone().map(move |speed| (row, speed))) {
            let list: Vec<u32> = words(&row[0]).into_iter().map(|word| word as u32).collect();
            let left = run(&[step(Call::BringUp(BringUp { list, ..bring_up(speed, &[]) }))]);
            assert_eq!(u64::from(left.answer.number), number(&row[1]), "{row:?}, speed {speed}");
        }
    }
}

/// A bring-up cut at its Address, below some hubs.
fn addressed(speed: u8, parent: Option<u32>, port: u8, hubs: &[u64]) -> Left {
    let below = BringUp {
        has_parent: parent.is_some(),
        parent: parent.unwrap_or(0),
        port,
        hubs: hubs.to_vec(),
        ..bring_up(speed, &[])
    };
    run(&[Step { outcomes: Vec::new(), ..step(Call::BringUp(below)) }])
}

/// Route string; slot, port and several of the translator.
fn place(left: &Left) -> [u64; 4] {
    ["route string", "parent hub slot", "parent port number", "multi-TT"].map(|name| read(&left.ctx, "slot", name))
}

#[test]
fn routes() {
    let hubs: Vec<u64> = table("hubs").iter().flat_map(|row| words(&row[1])).collect();
    for row in table("routes") {
        let parent = (row[1] != "none").then(|| number(&row[1]) as u32);
        let left = addressed(number(&row[0]) as u8, parent, number(&row[2]) as u8, &hubs);
        let expected: Vec<u64> = row[3..].iter().map(|cell| number(cell)).collect();
        assert_eq!((left.answer.number, &place(&left)[..]), (15, &expected[..]), "{row:?}");
    }
}

#[test]
fn chains() {
    for row in table("chains") {
        let hubs = words(&row[0]);
        let left = addressed(3, Some(hubs.len() as u32 - 1), 1, &hubs);
        let answer = if left.answer.number == 15 { 0 } else { left.answer.number };
        assert_eq!(u64::from(answer), number(&row[1]), "{row:?}");
    }
}

/// The places of the fields are those of the definitions.
#[test]
fn fields() {
    let path = concat!(env!("CARGO_MANIFEST_DIR"), "/../../crates/context_block/specs/Fields.antt");
    let definitions = std::fs::read_to_string(path).expect("the definitions");
    let placed = |name: &str| {
        let place = definitions.lines().find_map(|line| line.strip_prefix(&format!("{name} = field ")));
        place.unwrap_or_else(|| panic!("no field {name}")).split(' ').map(number).collect::<Vec<_>>()
    };
    for row in table("fields") {
        let Field { dword, high, low } = field(&row[0], &row[3]);
        let place = [dword as u64, low.into(), (high - low + 1).into()];
        assert_eq!(placed(quoted(&row[4])[0]), place, "{row:?}");
    }
}

/// Slot, port and several of a High hub, and its own port and parent, come back in the slot context.
#[test]
fn the_library_reads_hubs_so() {
    let hub = |parent, slot, depth, speed, port, several| {
        let up = u64::from(depth > 0);
        let fields = [("P", 1), ("U", up), ("parent", parent), ("slot", slot), ("depth", depth)];
        picture("hub").of(&[&fields[..], &[("speed", speed), ("port", port), ("M", several)]].concat())
    };
    let slots = some("hub", "slot", 0);
    for (i, port) in some("hub", "port", 0).into_iter().enumerate() {
        for (parent, several) in [(0, 0), (1, 1), (255, 1)] {
            let mut hubs = vec![0; 256];
            let (near, far) = if parent == 0 { (2, 1) } else { (0, 2) };
            hubs[parent as usize] = hub(7, 9, 0, 5, 3, 0);
            hubs[far] = hub(parent, slots[i], 1, 3, 250, several);
            hubs[near] = hub(far as u64, 77, 2, 1, port, 1 - several);
            let left = addressed(1, Some(near as u32), 4, &hubs);
            assert_eq!(place(&left), [4 << 4 | port.min(15), slots[i], port, several], "port {port}, parent {parent}");
        }
    }
    assert_eq!((picture("hub").most("speed"), picture("hub").most("depth")), (7, 7));
}

#[test]
fn the_route_table() {
    let left = run(&holding());
    let nonzero: Vec<[u64; 4]> = (0..left.table.len() as u64)
        .filter(|word| left.table[*word as usize] != 0)
        .map(|word| [word, word / 32, word % 32, left.table[word as usize]])
        .collect();
    let row = |row: &Vec<String>| [number(&row[0]), number(&row[1]), number(&row[2]), hex(&row[3])];
    assert_eq!(nonzero, table("table").iter().map(row).collect::<Vec<_>>());
}

/// A log word as the page writes commands.
pub fn command(word: u32) -> String {
    let log = picture("log");
    let operation = log.field("operation", word.into());
    let rows = table("operations");
    let row = rows.iter().find(|row| number(&row[0]) == operation).expect("an operation");
    let operand = |column: usize, name: &str| match row[column].as_str() {
        "" => String::new(),
        _ => format!(" {}", log.field(name, word.into())),
    };
    let fields = ["operation", "first", "second"].map(|name| (name, log.field(name, word.into())));
    assert_eq!(log.of(&fields), u64::from(word), "a bit beside the fields");
    format!("{}{}{}", row[1], operand(2, "first"), operand(3, "second"))
}

#[test]
fn operations() {
    for row in table("operations") {
        let word = hex(quoted(&row[4])[0]) as u32;
        let text = row[4].rsplit('`').next().expect("a text").trim();
        assert_eq!(command(word), text);
        assert_eq!(picture("log").field("operation", word.into()), number(&row[0]), "{row:?}");
    }
}

/// `7` or `13 code 7`.
pub fn answer(cell: &str) -> (u8, u8) {
    let (answer, code) = cell.split_once(" code ").unwrap_or((cell, "0"));
    (number(answer) as u8, number(code) as u8)
}

#[test]
fn outcomes() {
    for row in table("outcomes") {
        let outcomes: Vec<u8> = page::words(&row[0]).into_iter().map(|byte| byte as u8).collect();
        let update = Call::HubUpdate(HubUpdate { ports: 4, ..HubUpdate::default() });
        let left = run(&[step(Call::BringUp(bring_up(3, &list()))), Step { outcomes, ..step(update) }]);
        assert_eq!((left.answer.number, left.answer.code), answer(&row[1]), "{row:?}");
        assert_eq!(left.answer.count, 1);
    }
}
