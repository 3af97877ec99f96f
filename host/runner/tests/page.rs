//! docs/SCENARIOS.md: its whole scenario, and what it says that is printed.
#![forbid(unsafe_code)]

mod common;

use common::run;

/// The fenced blocks of the section: the scenario, what is told of it, and what is printed.
fn blocks() -> Vec<&'static str> {
    let page = include_str!("../../../docs/SCENARIOS.md");
    let section = page.split("\n## A whole scenario\n").nth(1).and_then(|rest| rest.split("\n## ").next());
    section.expect("the section").split("```\n").skip(1).step_by(2).collect()
}

#[test]
fn the_whole_scenario() {
    let [scenario, told, printed] = blocks()[..] else { panic!("three blocks") };
    for layer in ["library", "model"] {
        let explained = run(&["--layer", layer, "--explain", "-"], scenario);
        assert_eq!((explained.status, explained.err.as_str()), (Some(0), ""));
        assert_eq!(explained.out.trim_end(), told.trim_end());
        let plain = run(&["--layer", layer, "-"], scenario).out;
        assert_eq!(plain.lines().count(), printed.lines().count());
        for (line, shown) in plain.lines().zip(printed.lines()) {
            let is_so = shown.strip_suffix("...").map_or(line == shown, |begin| line.starts_with(begin));
            assert!(is_so, "{shown}: {line}");
        }
    }
    let answers: Vec<&str> = printed.lines().filter(|line| line.starts_with("answer ")).collect();
    assert_eq!(answers, ["answer 0 0 9", "answer 0 0 2", "answer 8 0 0"]);
    assert_eq!(run(&["--check", "-"], scenario).status, Some(1));
}

/// "With `0x`, so that what is copied from there is read as the same ring under every key."
#[test]
fn rings_are_read_as_they_are_told() {
    let [scenario, told, _] = blocks()[..] else { panic!("three blocks") };
    let ring = told.split("control's ring ").nth(1).and_then(|rest| rest.split(' ').next()).expect("the ring");
    assert_eq!(ring, "0x1000");
    let again = scenario.replace("  rings 0x1000 0x2000\n", &format!("  rings 0x2000 {ring}\n"));
    assert_ne!(again, scenario);
    assert_eq!(run(&["--explain", "-"], &again).out.trim_end(), told.trim_end());
}

#[test]
fn no_ring_is_told_without_its_mark() {
    let folder = concat!(env!("CARGO_MANIFEST_DIR"), "/scenarios");
    let paths = std::fs::read_dir(folder).expect("the folder").flatten().map(|entry| entry.path());
    let told: Vec<_> = paths.filter(|path| path.extension().is_some_and(|of| of == "explained")).collect();
    assert!(told.len() > 5);
    told.iter().for_each(|path| bare_rings(&std::fs::read_to_string(path).expect("text")));
}

/// No ring stands in a text without its mark.
fn bare_rings(text: &str) {
    for rest in text.split(" ring ").skip(1) {
        let word: String = rest.chars().take_while(char::is_ascii_alphanumeric).collect();
        let is_number = word.chars().all(|c| c.is_ascii_hexdigit());
        assert!(!is_number || word.is_empty(), "ring {word}");
    }
    for line in text.lines().filter(|line| line.starts_with("  route of slot ")) {
        let rings = line.split(": ").nth(1).expect("two rings");
        assert!(rings.split(" -> ").all(|ring| ring.starts_with("0x")), "{line}");
    }
}
