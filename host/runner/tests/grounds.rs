//! What `--explain` says of a refusal beside its number: what was asked for and seen, and which condition of a sound record
//! does not hold.
#![forbid(unsafe_code)]

mod common;

use common::run;
use runner::layer;
use scenario::*;

/// What stands behind the answer.
fn told(text: &str, number: u8) -> Option<String> {
    let [said, model] = ["library", "model"].map(|layer| {
        let ran = run(&["--explain", "--layer", layer, "-"], text);
        assert_eq!((ran.status, ran.err.as_str()), (Some(0), ""), "{text}");
        ran.out
    });
    assert_eq!(said, model);
    let behind = said.split(&format!("\n  answer {number}: ")).nth(1).unwrap_or_else(|| panic!("{said}"));
    let line = behind.lines().nth(1).expect("a line");
    line.strip_prefix("    ").filter(|line| !line.starts_with("reason: ")).map(str::to_string)
}

/// Lines, of which the later ones take the place of those with their key.
fn lines(usual: &[&str], changes: &[&str]) -> String {
    let key = |line: &str| line.split(' ').next().unwrap_or("").to_string();
    let kept = usual.iter().filter(|line| changes.iter().all(|change| key(change) != key(line)));
    kept.chain(changes).map(|line| format!("{line}\n")).collect()
}

fn bring_up(changes: &[&str]) -> String {
    let usual = ["slot 3", "n 8", "speed 3", "rings 0x1000", "header 8 64", "ctxlen 1056"];
    format!("scenario a\nbringup\n{}go\nend\n", lines(&usual, changes))
}

#[test]
fn lengths_slots_and_routes_of_a_bring_up() {
    let slots = "wanted n from 1 to 255, and a slot from 1 to n";
    for (changes, number, expected) in [
        (&["ctxlen 1055"][..], 1, "context length 1055, wanted 1056 or 2112"),
        (&["ctxlen 0"], 1, "context length 0, wanted 1056 or 2112"),
        (&["routeslen 287"], 2, "routes length 287, wanted 288 (32 for each slot from 0 to 8)"),
        (&["n 255", "routeslen 288"], 2, "routes length 288, wanted 8192 (32 for each slot from 0 to 255)"),
        (&["slot 9"], 11, &format!("slot 9, n 8; {slots}")),
        (&["slot 0"], 11, &format!("slot 0, n 8; {slots}")),
        (&["n 0"], 11, &format!("slot 3, n 0; {slots}")),
        (&["n 256"], 11, &format!("slot 3, n 256; {slots}")),
        (&["routes 97=4000"], 17, "the route of slot 3, Dci 1, word 97, is ring 0x4000"),
    ] {
        assert_eq!(told(&bring_up(changes), number).as_deref(), Some(expected), "{changes:?}");
    }
    for (changes, number) in [(&["loglen 63"][..], 3), (&["speed 6"], 6), (&[], 15)] {
        assert_eq!(told(&bring_up(changes), number), None, "{changes:?}");
    }
}

#[test]
fn what_a_call_is_given() {
    let told = |text: &str| run(&["--explain", "-"], text).out;
    let unread = "\n    configuration 0\n    (in a printed call the word 0 is a configuration that was not read yet)\n";
    assert!(told(&bring_up(&["list 00400000 00000000"])).contains(unread));
    assert!(!told(&bring_up(&["list 00400000"])).contains("printed call"));
    for (multi, expected) in [
        (1, "hub update: 4 ports, several translators, think time 666 ns"),
        (0, "hub update: 4 ports, think time 666 ns"),
    ] {
        let text = told(&format!("scenario a\nhubupdate\nports 4\nmulti {multi}\nthink 666\ngo\nend\n"));
        assert_eq!(text.lines().nth(2), Some(expected));
    }
}

/// A driver tells 255 of what it has read and cannot use, and of nothing else.
#[test]
fn reads_without_use() {
    for (outcomes, failed) in [
        ("000000ff", "4. ReadConfiguration                failed, code 255: a driver cannot use what was read"),
        ("00000000ff", "5. ReadDevice                       failed, code 255: a driver cannot use what was read"),
        ("0000000000ff", "6. ReadConfig 0                     failed, code 255: a driver cannot use what was read"),
        ("0000000000fe", "6. ReadConfig 0                     failed, code 254"),
        ("00ff", "2. ReadHeader                       failed, code 255"),
        ("0000ff", "3. Evaluate                         failed, code 255"),
    ] {
        let ran = run(&["--explain", "-"], &bring_up(&["list 00400000", &format!("outcomes {outcomes}")]));
        let lines: Vec<_> = ran.out.lines().filter(|line| line.contains("failed, code")).map(str::trim).collect();
        assert_eq!(lines, [failed], "{}", ran.out);
    }
}

/// A device that holds 81 for interface 0; interface 1 has 02 and 81 in alternate 0, 02 alone in alternate 1.
const FIELDS: [&str; 8] =
    ["usable=1", "up=1", "slot=1", "n=1", "spacing=32", "speed=3", "config=1", "control=1000/active"];
const DEVICE: [&str; 4] = [
    "reclist 00400000 40000000 a3840410 40400000 85200000 a3840410 40404000 85200000",
    "eps 81:2000:0:active",
    "held 0:0",
    "given 1000 2000 3000",
];

/// The device with other fields, and other lines.
fn record(changes: &[&str]) -> String {
    let (fields, others): (Vec<&str>, Vec<&str>) = changes.iter().partition(|change| change.contains('='));
    let name = |field: &str| field.split('=').next().unwrap_or("").to_string();
    let kept = FIELDS.iter().filter(|field| fields.iter().all(|change| name(change) != name(field)));
    let fields: Vec<&str> = kept.chain(&fields).copied().collect();
    format!("record {}\n{}", fields.join(" "), lines(&DEVICE, &others))
}

fn call(call: &str, changes: &[&str]) -> String {
    format!("scenario a\n{call}\n{}go\nend\n", record(changes))
}

#[test]
fn lengths_and_alternates_of_a_call_on_a_record() {
    let up = "ctxlen 1056\nrouteslen 64\noutcomes 00 00";
    for name in
        ["claim\ninterface 1", "ask\ninterface 1", "commit\nasked 1 7 0 0", "release", "setconfig", "disconnect"]
    {
        let lent = |lent: &str, number: u8| told(&call(&format!("{name}\n{lent}"), &[]), number);
        let expected = "context length 2112, wanted 1056 (33 blocks at spacing 32)";
        assert_eq!(lent("ctxlen 2112\nrouteslen 64", 1).as_deref(), Some(expected), "{name}");
        let expected = "routes length 63, wanted 64 (32 for each slot from 0 to 1)";
        assert_eq!(lent("ctxlen 1056\nrouteslen 63", 2).as_deref(), Some(expected), "{name}");
    }
    for name in ["claim\ninterface I\nalternate 7", "ask\ninterface I\nalternate 7", "commit\nasked I 7 0 0"] {
        for (interface, expected) in
            [("1", "alternates of interface 1 in the list: 0, 1"), ("9", "the list has no interface 9")]
        {
            let text = call(&format!("{}\n{up}", name.replace('I', interface)), &[]);
            assert_eq!(told(&text, 8).as_deref(), Some(expected), "{name}");
        }
    }
    let twice = "reclist 00400000 40000000 a3840410 40404000 00800000 40400000 40404000";
    let text = call(&format!("why\ninterface 1\nalternate 7\n{up}"), &[twice]);
    assert_eq!(told(&text, 8).as_deref(), Some("alternates of interface 1 in the list: 1, 0"));
}

#[test]
fn marks_of_a_record() {
    let marked = |name: &str, changes: &[&str]| told(&call(name, changes), 12);
    let broken = "the record is marked unusable; it is up, and may be unplugged";
    let gone = "the record is marked unusable, and is not up";
    for name in ["claim", "ask", "commit", "why", "release", "setconfig", "hubupdate"] {
        assert_eq!(marked(name, &["usable=0"]).as_deref(), Some(broken), "{name}");
        assert_eq!(marked(name, &["usable=0", "up=0"]).as_deref(), Some(gone), "{name}");
        assert_eq!(marked(name, &["slot=2"]).as_deref(), Some("the record is not sound: slot 2, and n is 1"));
        // The mark is looked at first.
        assert_eq!(marked(name, &["usable=0", "slot=2"]).as_deref(), Some(broken), "{name}");
    }
    let expected = "the record is not up: its bring-up was not accepted, or it was unplugged before";
    assert_eq!(marked("disconnect", &["usable=0", "up=0", "slot=2"]).as_deref(), Some(expected));
    let expected = "the record is not sound: slot 2, and n is 1";
    assert_eq!(marked("disconnect", &["usable=0", "slot=2"]).as_deref(), Some(expected));
    let choose = |changes: &[&str]| told(&format!("case a\nchoose\n{}go\n", record(changes)), 12);
    assert_eq!(choose(&["usable=0"]).as_deref(), Some(broken));
    assert_eq!(
        choose(&["held 0:9"]).as_deref(),
        Some("the record is not sound: it holds interface 0, alternate 9, which its list has not")
    );
    // Before any bring-up.
    assert_eq!(told("scenario a\nrelease\ngo\nend\n", 12).as_deref(), Some(gone));
}

/// 62 rings: control's, an endpoint's, and 60 in quarantine.
fn many() -> [String; 2] {
    let rings = |from: u32| (from..64).map(|at| format!(" {:x}", 0x1000 + 16 * at)).collect::<String>();
    [format!("given{}", rings(0)), format!("quarantined{}", rings(4))]
}

fn is_unsound(changes: &[&str], expected: &str) {
    let expected = format!("the record is not sound: {expected}");
    assert_eq!(told(&call("release", changes), 12), Some(expected), "{changes:?}");
}

/// The first condition that does not hold, in the order of docs/BEHAVIOUR.md.
#[test]
fn conditions_of_numbers_list_settings_and_endpoints() {
    let shared = "eps 81:2000:0:active 81:3000:1:active 02:1000:1:active";
    for (changes, expected) in [
        (&["slot=0"][..], "slot 0, and n is 1"),
        (&["slot=2", "spacing=1"], "slot 2, and n is 1"),
        (&["n=0"], "slot 1, and n is 0"),
        (&["spacing=48", "speed=6"], "spacing 48, and 32 and 64 are allowed"),
        (&["speed=6", "reclist 40000000"], "speed 6, and 1 to 5 are allowed"),
        (&["speed=0"], "speed 0, and 1 to 5 are allowed"),
        (
            &["reclist 40000000", "held 0:0 0:0"],
            "its list, word 1 of 1, 40000000: the list does not begin with a configuration",
        ),
        (&["speed=4"], "its list, word 3 of 8, a3840410: no companion stands directly behind this endpoint"),
        (&["held 0:5 0:0"], "it holds interface 0 twice"),
        (&["held 0:5", "eps"], "it holds interface 0, alternate 5, which its list has not"),
        (&["eps", "given"], "endpoint 81 of interface 0 is missing"),
        (&["eps 81:2000:1:active"], "endpoint 81 is interface 1's, and interface 0 has it"),
        (&["eps 81:2000:0:active 81:3000:0:active"], "endpoint 81 is there twice"),
        (&["eps 81:2000:0:active 81:3000:1:active"], "endpoint 81 of interface 1 is of no held setting"),
        (&["eps 83:3000:0:active 81:2000:0:active"], "endpoint 83 of interface 0 is of no held setting"),
        (&["held 0:0 1:0", shared], "endpoint 81 is of interfaces 0 and 1"),
        (&["held 0:0 1:1", "eps 81:2000:0:active"], "endpoint 02 of interface 1 is missing"),
    ] {
        is_unsound(changes, expected);
    }
}

#[test]
fn conditions_of_rings() {
    let [given, quarantined] = many();
    for (changes, expected) in [
        (&["given", "control=2000/active"][..], "rings given: 0, and 1 to 64 are allowed"),
        (&["given 1000 2000 3008"], "ring 0x3008 is not a multiple of 16"),
        (&["given 1000 2000 0"], "ring 0x0 is none"),
        (&["given 1000 2000 1000"], "ring 0x1000 is given twice"),
        (&["given 2000 3000"], "ring 0x1000, control's, is not given"),
        (&["given 1000"], "ring 0x2000, endpoint 81's, is not given"),
        (&["quarantined 7000"], "ring 0x7000, quarantined, is not given"),
        (&["control=2000/active", "quarantined 3000"], "ring 0x2000 is control's and endpoint 81's"),
        (&["quarantined 3000 3000"], "ring 0x3000 is quarantined twice"),
        (
            &["control=1000/active", "eps 81:1010:0:active", &given, &quarantined],
            "rings in use or quarantine: 62, and 61 are allowed",
        ),
        (&["quarantined 3000"], "it is usable, and ring 0x3000 is quarantined"),
    ] {
        is_unsound(changes, expected);
    }
}

struct Rng(u64);

impl Rng {
    fn below(&mut self, n: u64) -> u64 {
        self.0 = self.0.wrapping_mul(6364136223846793005).wrapping_add(1442695040888963407);
        (self.0 >> 33) % n
    }

    fn ring(&mut self) -> u64 {
        0x1000 + 16 * self.below(6)
    }
}

/// The device's record, with an alternate of interface 1 held too.
fn sound() -> Record {
    let changes = ["held 0:0 1:1", "eps 81:1010:0:active 02:1020:1:active", "given 1000 1010 1020 1030 1040 1050"];
    parse(&call("release", &changes)).expect("a scenario").scenarios[0].steps[0].record.clone().expect("a record")
}

/// One thing of a record otherwise.
fn change(rng: &mut Rng, record: &mut Record) {
    let at = |rng: &mut Rng, len: usize| rng.below(len.max(1) as u64) as usize;
    let endpoint = at(rng, record.endpoints.len());
    let setting = at(rng, record.held.len());
    match rng.below(14) {
        0 => record.slot = rng.below(3) as u8,
        1 => record.spacing = [32, 48, 64][at(rng, 3)],
        2 => record.speed = rng.below(7) as u8,
        3 => _ = record.held.get_mut(setting).map(|held| held.1 = rng.below(3) as u8),
        4 => record.held.push((rng.below(3) as u8, rng.below(2) as u8)),
        5 => _ = record.endpoints.get_mut(endpoint).map(|e| e.address = [0x81, 2, 0x83][rng.below(3) as usize]),
        6 => _ = record.endpoints.get_mut(endpoint).map(|e| e.owner = rng.below(3) as u8),
        7 => _ = record.endpoints.get_mut(endpoint).map(|e| e.ring = rng.ring()),
        8 => {
            record.endpoints.push(Endpoint { address: 0x81, ring: rng.ring(), owner: rng.below(2) as u8, active: true })
        }
        9 => record.given.push(rng.ring() + rng.below(2)),
        10 => _ = record.given.pop(),
        11 => record.quarantined.push(rng.ring()),
        12 => record.usable = rng.below(4) > 0,
        _ => record.control = rng.ring(),
    }
    if rng.below(10) == 0 {
        let at = at(rng, record.list.len());
        record.list[at] ^= 1 << rng.below(32);
    }
}

fn answered(call: &Call, record: &Record, buffers: &Buffers) -> u8 {
    let answer = layer("library").expect("the library").call(record, call, &mut buffers.clone());
    answer.expect("an answer").1.number
}

/// A condition is told exactly where a call is refused with 12.
#[test]
fn a_condition_is_told_exactly_where_a_record_is_refused() {
    let (mut rng, mut met) = (Rng(7), [0; 2]);
    let buffers = Buffers { ctx: vec![0; 1056], routes: vec![0; 64], log: vec![0; 64], outcomes: vec![] };
    for _ in 0..20_000 {
        let mut record = sound();
        (0..rng.below(4)).for_each(|_| change(&mut rng, &mut record));
        record.up |= record.usable;
        for call in [Call::SetConfiguration { value: 1 }, Call::Disconnect] {
            let number = answered(&call, &record, &buffers);
            let told = fault(12, &Given { call: &call, record: &record, buffers: &buffers });
            assert_eq!(told.is_some(), number == 12, "{call:?} on {record:?}: {told:?}");
            met[usize::from(number == 12)] += 1;
        }
    }
    assert!(met.iter().all(|count| *count > 4_000), "{met:?}");
}

/// Lengths, slot and route are told exactly where a bring-up is refused for them.
#[test]
fn numbers_are_told_exactly_where_a_bring_up_is_refused() {
    let (mut rng, mut met) = (Rng(8), [0; 18]);
    for _ in 0..5_000 {
        let mut pick = |usual: u64, other: u64| if rng.below(3) == 0 { other } else { usual };
        let (slot, n) = (pick(1, 3) as u8, pick(2, 0) as u32);
        let (ctx, mut routes) = (vec![0; pick(1056, 1057) as usize], vec![0; pick(96, 128) as usize]);
        routes[33] = pick(0, 0x10);
        let call = Call::BringUp(BringUp { slot, n, speed: 3, rings: vec![16], ..BringUp::default() });
        let buffers = Buffers { ctx, routes, log: vec![0; 64], outcomes: vec![] };
        let record = Record::default();
        let number = answered(&call, &record, &buffers);
        let told = |number: u8| fault(number, &Given { call: &call, record: &record, buffers: &buffers }).is_some();
        let first = [11, 1, 2, 17].into_iter().find(|number| told(*number)).unwrap_or(15);
        assert_eq!(first, number, "{call:?}");
        met[usize::from(number)] += 1;
    }
    assert!([11, 1, 2, 17, 15].iter().all(|number| met[*number] > 100), "{met:?}");
}
