//! What is printed for people: the refusals with their word or ring, and the reasons of claims.

use std::process::Command;

use runner::{functions, layer};
use scenario::{
    BringUp, Buffers, Call, Choice, Conversion, Form, Given, Kind, Record, candidates, fault, settings_fault,
};

#[test]
fn the_refusals_are_explained() {
    let file = concat!(env!("CARGO_MANIFEST_DIR"), "/scenarios/refused.txt");
    for layer in ["library", "model"] {
        let run = Command::new(env!("CARGO_BIN_EXE_scenario")).args(["--explain", "--layer", layer, file]).output();
        let run = run.expect("the program");
        assert_eq!(String::from_utf8_lossy(&run.stdout), include_str!("../scenarios/refused.explained"), "{layer}");
    }
}

struct Rng(u64);

impl Rng {
    fn below(&mut self, n: u64) -> u64 {
        self.0 = self.0.wrapping_mul(6364136223846793005).wrapping_add(1442695040888963407);
        (self.0 >> 33) % n
    }
}

fn buffers() -> Buffers {
    Buffers { ctx: vec![0; 1056], routes: vec![0; 64], log: vec![0; 64], outcomes: vec![] }
}

fn answer(call: &Call) -> u8 {
    let outcome = layer("library").expect("the library").call(&Record::default(), call, &mut buffers());
    outcome.expect("an answer").1.number
}

/// Whether anything is told of a bring-up that is refused with a number.
fn is_told(number: u8, call: &Call) -> bool {
    fault(number, &Given { call, record: &Record::default(), buffers: &buffers() }).is_some()
}

/// A list that is valid at a speed more often than not.
fn list(rng: &mut Rng, speed: u8) -> Vec<u32> {
    let mut words = vec![];
    for _ in 0..rng.below(10) {
        words.push((rng.below(256) as u32) << 22);
        for _ in 0..rng.below(5) {
            words.push(1 << 30 | (rng.below(40) as u32) << 22 | (rng.below(3) as u32) << 14);
            let most = if rng.below(20) == 0 { 40 } else { 4 };
            for _ in 0..rng.below(most) {
                words.push(2 << 30 | (rng.below(30) as u32 + 1) << 25 | (1 + rng.below(3) as u32) << 23 | 64 << 12);
                let mult = if rng.below(30) == 0 { rng.below(4) as u32 } else { 0 };
                words.extend((speed > 3).then(|| 3 << 30 | mult << 24 | (rng.below(1 << 16) as u32) << 8));
            }
        }
    }
    if rng.below(2) == 0 && !words.is_empty() {
        let at = rng.below(words.len() as u64) as usize;
        match rng.below(3) {
            0 if speed > 3 => drop(words.remove(at)),
            1 if speed > 3 => words.swap(at, 0),
            _ => words[at] ^= 1 << rng.below(32),
        }
    }
    words
}

#[test]
fn a_word_is_named_exactly_where_the_list_is_refused() {
    let mut rng = Rng(1);
    let mut refused = [0; 27];
    for _ in 0..20_000 {
        let speed = 2 + rng.below(4) as u8;
        let list = if rng.below(50) == 0 { vec![0x4000_0000; rng.below(300) as usize] } else { list(&mut rng, speed) };
        let list = if rng.below(50) == 0 { [vec![0], list.repeat(4)].concat() } else { list };
        let args = BringUp { slot: 1, n: 1, speed, rings: vec![16], list, ..BringUp::default() };
        let call = Call::BringUp(args);
        let number = answer(&call);
        assert_eq!(is_told(4, &call), number == 4, "{call:?}");
        if number != 4 && speed > 3 {
            assert_eq!(is_told(26, &call), number == 26, "{call:?}");
        }
        refused[usize::from(number)] += 1;
    }
    assert!([4, 26, 15].iter().all(|number| (500..18_000).contains(&refused[*number])), "{refused:?}");
}

/// A ring, or the number of them, is named exactly where a bring-up is refused for it.
#[test]
fn a_given_ring_is_named_exactly_where_one_is_refused() {
    let mut rng = Rng(3);
    let mut refused = 0;
    for _ in 0..5_000 {
        let mut rings: Vec<u64> = (0..rng.below(70)).map(|at| 0x1000 + 16 * at).collect();
        if rng.below(2) == 0 && !rings.is_empty() {
            let at = rng.below(rings.len() as u64) as usize;
            rings[at] = [0, 0x1000, 0x1010, 0x1008, 0x9000][rng.below(5) as usize];
        }
        let call = Call::BringUp(BringUp { slot: 1, n: 1, speed: 3, rings, ..BringUp::default() });
        let number = answer(&call);
        assert_eq!(is_told(10, &call), number == 10, "{call:?}");
        refused += u32::from(number == 10);
    }
    assert!((500..4_500).contains(&refused), "{refused}");
}

/// What is wrong with settings is told exactly where they are refused with 23.
#[test]
fn a_ground_is_named_exactly_where_settings_are_refused() {
    let mut rng = Rng(4);
    let mut met = [0; 256];
    let functions = functions("library").expect("the library");
    for _ in 0..20_000 {
        let mut list = vec![1 << 22];
        for _ in 0..rng.below(6) {
            let configuration = rng.below(4) == 0;
            let setting = 1 << 30 | (rng.below(3) as u32) << 22 | (rng.below(2) as u32) << 14;
            list.push(if configuration { (1 + rng.below(2) as u32) << 22 } else { setting });
        }
        list.truncate(if rng.below(50) == 0 { 0 } else { list.len() });
        let count = rng.below(4);
        let mut settings: Vec<u8> = (0..2 * count).map(|_| rng.below(3) as u8).collect();
        let to = if rng.below(2) == 0 { Form::New } else { Form::Old };
        if to == Form::Old {
            settings = settings.iter().map(|byte| byte << 2).collect();
            settings.splice(0..0, [1 + rng.below(3) as u8, (count << 2) as u8]);
        }
        match rng.below(8) {
            0 => settings.push(0),
            1 => _ = settings.pop(),
            2 => {
                if let Some(last) = settings.last_mut() {
                    *last ^= 1 << rng.below(8);
                }
            }
            _ => {}
        }
        let conversion = Conversion { speed: 3, list, settings, ..Conversion::to(to) };
        let number = conversion.ask(&*functions).0.number;
        let fault = settings_fault(to.other(), &conversion.settings, &conversion.list);
        assert_eq!(fault.is_some(), number == 23, "{conversion:?}: {fault:?}");
        met[usize::from(number)] += 1;
    }
    assert!(met[0] > 1_000 && met[23] > 1_000 && met[24] > 100, "{met:?}");
}

/// A device that holds 81 for interface 0; interface 1 has 02 and 81 in alternate 0, 02 alone in alternate 1.
const DEVICE: &str = "  record usable=1 up=1 slot=1 n=1 spacing=32 speed=3 config=1 control=1000/active
  reclist 00400000 40000000 a3840410 40400000 85200000 a3840410 40404000 85200000
  eps 81:2000:0:active
  held 0:0
  routes 33=1000 35=2000
  routeslen 64";

/// The line of the reason that is told of a call on the device.
fn told(call: &str, given: &str, outcomes: &str, layer: &str) -> Option<String> {
    let zeros = "00".repeat(1056);
    let text =
        format!("scenario a\n{call}\n{DEVICE}\n  given {given}\n  ctx {zeros}\n  outcomes {outcomes}\ngo\nend\n");
    let path = std::env::temp_dir().join(format!("explain-{}-{layer}.txt", std::process::id()));
    std::fs::write(&path, text).expect("room");
    let run = Command::new(env!("CARGO_BIN_EXE_scenario")).args(["--explain", "--layer", layer]).arg(&path).output();
    std::fs::remove_file(&path).expect("the file");
    let run = String::from_utf8(run.expect("the program").stdout).expect("text");
    let mut lines = run.lines().filter_map(|line| line.strip_prefix("    reason: "));
    let found = lines.next().map(str::to_string);
    assert_eq!(lines.next(), None, "{run}");
    found
}

#[test]
fn the_reason_is_told_of_claims_asks_and_commits() {
    let first = "command 2, SetInterface 1, alternate 1, failed first, with code 9 (place 1 of the log, word 60101000)";
    for layer in ["library", "model"] {
        let claim =
            |setting: &str, given: &str, outcomes: &str| told(&format!("claim\n{setting}"), given, outcomes, layer);
        let free = "1000 2000 3000";
        for (setting, given, outcomes, expected) in [
            ("interface 1\nalternate 1", free, "0000", "none"),
            ("interface 1\nalternate 1", free, "000905", first),
            ("interface 1\nalternate 1", free, "0009", "the number says it all"),
            ("interface 1\nalternate 1", free, "", "the number says it all"),
            ("interface 1\nalternate 2", free, "", "the list has no alternate 2 of interface 1"),
            ("interface 1", free, "", "word a3840410: endpoint 81 is owned by interface 0"),
            ("interface 1\nalternate 1", "1000 2000", "", "free rings: 0 of 2, endpoint words: 1"),
        ] {
            assert_eq!(claim(setting, given, outcomes).as_deref(), Some(expected), "{layer}");
        }
        let asked = |ask: &str| told(ask, free, "0000", layer);
        assert_eq!(asked("ask\ninterface 1\nalternate 1"), None);
        let owned = Some("word a3840410: endpoint 81 is owned by interface 0".to_string());
        assert_eq!(asked("ask\ninterface 1"), owned);
        assert_eq!(asked("commit\nasked 1 0 0 0"), owned);
        assert_eq!(asked("commit\nasked 1 1 0 10 3000"), Some("none".to_string()));
        assert_eq!(asked("commit\nasked 1 1 0 18 3000"), Some("the number says it all".to_string()));
        assert_eq!(asked("release\ninterface 0"), None);
    }
}

/// A sound record with a list of few interfaces, which share few addresses.
fn choice(rng: &mut Rng) -> Choice {
    let (speed, mut list) = (1 + rng.below(5) as u8, vec![1 << 22]);
    for _ in 0..4 + rng.below(6) {
        list.push(1 << 30 | (rng.below(3) as u32) << 22 | (rng.below(4) as u32) << 14);
        for _ in 0..rng.below(3) {
            let (number, kind, interval) = (1 + rng.below(3), 1 + rng.below(3), rng.below(8));
            list.push(5 << 29 | (number as u32) << 25 | (kind as u32) << 23 | (interval as u32) << 2);
            list.extend((speed > 3).then_some(3 << 30));
        }
        if rng.below(20) == 0 {
            list.push(2 << 22);
        }
    }
    let record = Record {
        usable: true,
        up: true,
        slot: 1,
        n: 1,
        spacing: 32,
        speed,
        control: 16,
        given: vec![16],
        list,
        ..Record::default()
    };
    let names = (0..rng.below(5)).map(|_| if rng.below(20) == 0 { 3 } else { rng.below(3) as u8 }).collect();
    Choice { record, names, longest: rng.below(16) as u32 }
}

/// Of a choice that does not exist, each name without a candidate is told, or names of which none can be left out.
#[test]
fn names_are_told_exactly_where_there_is_no_choice() {
    let mut rng = Rng(5);
    let (mut chosen, mut lacking, mut apart) = (0, 0, 0);
    let functions = functions("library").expect("the library");
    for _ in 0..20_000 {
        let choice = choice(&mut rng);
        let number = choice.ask(&*functions).number;
        let mut told = String::new();
        choice.explain(&*functions, &mut told);
        let line = |name: &u8| format!("\n    interface {name} has no candidate:");
        let without = |name: &u8| candidates(&choice.record, *name, choice.longest).is_empty();
        for name in 0..4 {
            let expected = number == 30 && choice.names.contains(&name) && without(&name);
            assert_eq!(told.contains(&line(&name)), expected, "{choice:?}:\n{told}");
        }
        let together = told.contains(" cannot stand together:");
        assert_eq!(together, number == 30 && !choice.names.iter().any(without), "{choice:?}:\n{told}");
        chosen += u32::from(number == 0);
        lacking += u32::from(number == 30 && !together);
        apart += u32::from(together);
    }
    assert!(chosen > 2_000 && lacking > 2_000 && apart > 500, "{chosen} {lacking} {apart}");
}
