//! The pages' device, and calls on it through the library.

use library::Library;
use scenario::*;

use crate::page;
use crate::picture::picture;

pub const SLOT: usize = 3;

/// The rings that its slot is given.
pub const RINGS: [u64; 5] = [0x1000, 0x3000, 0x4000, 0x5000, 0x6000];

/// Outcomes for any call.
pub const DONE: [u8; 64] = [0; 64];

/// "The device of the examples."
pub fn list() -> Vec<u32> {
    page::table("words").iter().flat_map(|row| page::words(&row[0])).map(|word| word as u32).collect()
}

/// A list as it is at a speed: at 4 and 5 with a companion of zeros behind each endpoint word that has none.
pub fn at_speed(speed: u8, list: &[u32]) -> Vec<u32> {
    let mut words = Vec::new();
    for (at, word) in list.iter().enumerate() {
        words.push(*word);
        let has_one = list.get(at + 1).is_some_and(|next| next >> 30 == 3);
        words.extend((matches!(speed, 4 | 5) && word >> 30 == 2 && !has_one).then_some(3 << 30));
    }
    words
}

/// Of a list, which gets its companions.
pub fn bring_up(speed: u8, list: &[u32]) -> BringUp {
    BringUp {
        slot: SLOT as u8,
        n: 8,
        speed,
        port: 1,
        root_port: 2,
        rings: RINGS.to_vec(),
        header: 8,
        packet: if speed > 3 { 9 } else { 64 },
        list: at_speed(speed, list),
        ..BringUp::default()
    }
}

pub fn claim(interface: u8, alternate: u8) -> Call {
    Call::Claim(Claim { interface, alternate })
}

/// A call over a context of zeros at spacing 32, every outcome done.
pub fn step(call: Call) -> Step {
    Step { ctx: vec![0; 1056], outcomes: DONE.to_vec(), ..Step::new(call) }
}

/// What the last of these calls leaves.
pub fn run(steps: &[Step]) -> Left {
    let mut session = Session::new();
    let lefts: Vec<Left> = steps.iter().map(|step| session.run(&mut Library, step).expect("an answer")).collect();
    lefts.last().expect("a call").clone()
}

/// "After the bring-up of the example's device on slot 3 of 8, .. and the claim of interface 0, alternate 1".
pub fn holding() -> [Step; 2] {
    [step(Call::BringUp(bring_up(3, &list()))), step(claim(0, 1))]
}

/// A list of one configuration: interface 0 with alternates of these endpoints, then interface 1 with some.
pub fn listed(alternates: &[Vec<u32>], other: &[u32]) -> Vec<u32> {
    let (configuration, alternate) = (picture("configuration"), picture("alternate"));
    let setting = |i: u64, a: u64| alternate.of(&[("interface", i), ("alternate", a)]) as u32;
    let mut list = vec![configuration.of(&[("value", 1)]) as u32];
    for (a, words) in alternates.iter().enumerate() {
        list.push(setting(0, a as u64));
        list.extend(words);
    }
    list.push(setting(1, 0));
    list.extend(other);
    list
}

/// An endpoint word of a type, packet size, packets and interval at an address.
pub fn endpoint(address: u8, of: [u64; 4]) -> u32 {
    let [kind, size, packets, interval] = of;
    let (input, number) = (u64::from(address >> 7), u64::from(address & 15));
    let fields = [("IN", input), ("number", number), ("type", kind), ("packet size", size)];
    picture("endpoint").of(&[&fields[..], &[("packets", packets), ("interval", interval)]].concat()) as u32
}

/// The address of a Dci.
pub fn address(dci: u64) -> u8 {
    (dci / 2 + dci % 2 * 128) as u8
}

/// A field of a context block, by the page's table of fields.
pub struct Field {
    pub dword: usize,
    pub high: u32,
    pub low: u32,
}

/// A block's number in a context, and the name of its kind.
pub fn block(name: &str) -> (usize, &str) {
    match name.strip_prefix("Dci ") {
        Some(dci) => (page::number(dci) as usize + 1, "endpoint"),
        None => (["control", "slot"].iter().position(|kind| *kind == name).expect("a block"), name),
    }
}

pub fn field(kind: &str, name: &str) -> Field {
    let rows = page::table("fields");
    let row = rows.iter().find(|row| row[0] == kind && row[3] == name);
    let row = row.unwrap_or_else(|| panic!("no field '{name}' of a {kind} block"));
    let (high, low) = row[2].split_once("..").unwrap_or((&row[2], &row[2]));
    Field { dword: page::number(&row[1]) as usize, high: page::number(high) as u32, low: page::number(low) as u32 }
}

/// What a field of a context at spacing 32 or 64 holds.
pub fn read(ctx: &[u8], of: &str, name: &str) -> u64 {
    let (number, kind) = block(of);
    let Field { dword, high, low } = field(kind, name);
    let at = number * ctx.len() / 33 + 4 * dword;
    let word = u32::from_le_bytes(ctx[at..at + 4].try_into().expect("four bytes"));
    u64::from(word) << (63 - high) >> (63 - high + low)
}
