//! The program: the shipped scenarios and cases, and lines that are not of the form.

use std::io::Write;
use std::process::{Command, Output, Stdio};

fn run(arguments: &[&str], input: &str) -> Output {
    let mut child = Command::new(env!("CARGO_BIN_EXE_scenario"))
        .args(arguments)
        .stdin(Stdio::piped())
        .stdout(Stdio::piped())
        .stderr(Stdio::piped())
        .spawn()
        .expect("the program");
    child.stdin.take().expect("its input").write_all(input.as_bytes()).expect("room");
    child.wait_with_output().expect("an end")
}

const SWITCH: &str = include_str!("../scenarios/switch.txt");

#[test]
fn the_shipped_scenario() {
    let plain = run(&["-"], SWITCH);
    assert_eq!(plain.status.code(), Some(0));
    assert_eq!(String::from_utf8_lossy(&plain.stdout), include_str!("../scenarios/switch.out"));
    let explained = run(&["--explain", "-"], SWITCH);
    assert_eq!(String::from_utf8_lossy(&explained.stdout), include_str!("../scenarios/switch.explained"));
    assert_eq!(run(&["--layer", "model", "-"], SWITCH).stdout, plain.stdout);
    if runner::layer("original").is_some() {
        let original = run(&["--layer", "original", "-"], SWITCH).stdout;
        assert_ne!(original, plain.stdout);
        assert_eq!(but_entries(&original), but_entries(&plain.stdout));
    }
}

/// The contexts, of spacing 32, without the byte of the context entries, in which the original differs.
fn but_entries(output: &[u8]) -> String {
    let line = |line: &str| match line.strip_prefix("ctx ") {
        Some(bytes) => format!("ctx {}..{}\n", &bytes[..70], &bytes[72..]),
        None => format!("{line}\n"),
    };
    String::from_utf8_lossy(output).lines().map(line).collect()
}

/// Without the original.
fn shipped(scenario: &str, printed: &str, explained: &str) {
    for layer in ["library", "model"] {
        let plain = run(&["--layer", layer, "-"], scenario);
        assert_eq!(String::from_utf8_lossy(&plain.stdout), printed, "{layer}");
        let told = run(&["--layer", layer, "--explain", "-"], scenario);
        assert_eq!(String::from_utf8_lossy(&told.stdout), explained, "{layer}");
    }
}

/// The original's unplugging is a row of docs/DIFFERENCES.md.
#[test]
fn the_shipped_unplugging() {
    let told = include_str!("../scenarios/unplug.explained");
    shipped(include_str!("../scenarios/unplug.txt"), include_str!("../scenarios/unplug.out"), told);
}

/// After silence the original frees what a Configure may have begun: a row of docs/DIFFERENCES.md.
#[test]
fn the_shipped_rings_in_doubt() {
    let told = include_str!("../scenarios/doubt.explained");
    shipped(include_str!("../scenarios/doubt.txt"), include_str!("../scenarios/doubt.out"), told);
    for why in ["a Configure that adds it was sent", "its setting ended"] {
        assert!(told.contains(&format!(" is quarantined: {why} before the call was lost\n")), "{why}");
    }
}

/// The original has no ask.
#[test]
fn the_shipped_asks() {
    let told = include_str!("../scenarios/ask.explained");
    shipped(include_str!("../scenarios/ask.txt"), include_str!("../scenarios/ask.out"), told);
}

#[test]
fn the_shipped_turns() {
    let told = include_str!("../scenarios/turns.explained");
    shipped(include_str!("../scenarios/turns.txt"), include_str!("../scenarios/turns.out"), told);
    if runner::layer("original").is_some() {
        let asked = run(&["--layer", "original", "-"], "scenario a\ndispatcher\nturn\nend\n");
        assert_eq!(
            String::from_utf8_lossy(&asked.stdout),
            "no answer: this layer has no functions outside a slot\n.\n"
        );
    }
}

#[test]
fn the_shipped_cases() {
    let told = include_str!("../scenarios/descriptors.explained");
    shipped(include_str!("../scenarios/descriptors.txt"), include_str!("../scenarios/descriptors.out"), told);
    let told = include_str!("../scenarios/settings.explained");
    shipped(include_str!("../scenarios/settings.txt"), include_str!("../scenarios/settings.out"), told);
    let told = include_str!("../scenarios/choice.explained");
    shipped(include_str!("../scenarios/choice.txt"), include_str!("../scenarios/choice.out"), told);
    let told = include_str!("../scenarios/block.explained");
    shipped(include_str!("../scenarios/block.txt"), include_str!("../scenarios/block.out"), told);
}

/// Devices at SuperSpeed, which the original knows nothing of, and every ground of 26.
#[test]
fn the_shipped_companions() {
    let (printed, told) =
        (include_str!("../scenarios/companions.out"), include_str!("../scenarios/companions.explained"));
    shipped(include_str!("../scenarios/companions.txt"), printed, told);
    let answers = |number: u32| printed.matches(&format!("answer {number} 0")).count();
    assert_eq!((answers(4), answers(6), answers(20), answers(26)), (4, 2, 2, 12));
}

/// Devices from their raw descriptors, and bring-ups that are not made.
#[test]
fn the_shipped_raw_descriptors() {
    let printed = include_str!("../scenarios/raw.out");
    shipped(include_str!("../scenarios/raw.txt"), printed, include_str!("../scenarios/raw.explained"));
    let refused: Vec<&str> = printed.lines().filter_map(|line| line.strip_prefix("no call: ")).collect();
    assert_eq!(refused, [20, 4, 26].map(|number| format!("raw descriptors refused with {number}")));
}

/// The original has no reasons. Each kind of reason is there.
#[test]
fn the_shipped_reasons() {
    let (printed, told) = (include_str!("../scenarios/why.out"), include_str!("../scenarios/why.explained"));
    shipped(include_str!("../scenarios/why.txt"), printed, told);
    for kind in ["none", "alternate 2 0", "endpoint a3840410 0", "rings", "command 2 60001000", "number 15"] {
        assert!(printed.contains(&format!("\nreason {kind}\n.\n")), "{kind}");
    }
    // 01's log: as the why says it, the claim behind it goes.
    let answers: Vec<&str> = printed.lines().filter(|line| line.starts_with("answer 13 7 5")).collect();
    assert_eq!((answers.len(), printed.matches("reason ").count()), (2, 14));
    if runner::layer("original").is_some() {
        let asked = run(&["--layer", "original", "-"], "scenario a\nwhy\ngo\nend\n");
        assert_eq!(String::from_utf8_lossy(&asked.stdout), "no answer: NoSuchInput\n.\n");
    }
}

/// What docs/SCENARIOS.md shows of settings and of a choice.
#[test]
fn the_worked_examples() {
    worked_example("held by an old board", 4);
    worked_example("two of three", 2);
}

/// What docs/SCENARIOS.md has as an example under a name, and what it says that is printed.
fn worked_example(named: &str, lines: usize) {
    let page = include_str!("../../../docs/SCENARIOS.md");
    let example = page.split(&format!("    case {named}\n")).nth(1).expect("the example");
    let cases: String = example.lines().take_while(|line| !line.is_empty()).map(|line| format!("{line}\n")).collect();
    let run = run(&["-"], &format!("case {named}\n{cases}"));
    let printed = String::from_utf8_lossy(&run.stdout).replace(".\n", "");
    let quoted: Vec<&str> =
        example.split("\n\n").nth(1).expect("what it prints").split('`').skip(1).step_by(2).collect();
    let ran: Vec<&str> = printed.lines().collect();
    assert_eq!((quoted.len(), ran.len()), (lines, lines));
    for (quoted, line) in quoted.iter().zip(ran) {
        assert!(line.starts_with(quoted.trim_end_matches("...")), "{quoted}: {line}");
    }
}

#[test]
fn the_original_has_no_functions_for_cases() {
    if runner::layer("original").is_some() {
        let asked = run(&["--layer", "original", "-"], "case a\nrawread\ngo\n");
        assert_eq!(asked.status.code(), Some(0));
        let expected = "no answer: this layer has no functions outside a slot\n.\n";
        assert_eq!(String::from_utf8_lossy(&asked.stdout), expected);
    }
}

#[test]
fn a_malformed_line_of_a_case_ends_the_run() {
    let ended = run(&["-"], "case a\nrawread\nroom 0\ngo\ncase b\nrawread\nbytes 0\ngo\n");
    assert_eq!(ended.status.code(), Some(2));
    assert_eq!(String::from_utf8_lossy(&ended.stdout), "answer 3 0\nwords\n.\n");
    assert_eq!(String::from_utf8_lossy(&ended.stderr), "-:7: bytes are two hexadecimal digits each\n");
    assert_eq!(run(&["-"], "case a\nrawread\n").status.code(), Some(2));
}

#[test]
fn a_malformed_line_ends_the_run() {
    let ended = run(&["-"], "scenario a\nclaim\ngo\nclaim\nno such key\ngo\nend\n");
    assert_eq!(ended.status.code(), Some(2));
    assert!(String::from_utf8_lossy(&ended.stdout).starts_with("answer 12 0 0\n"));
    assert_eq!(String::from_utf8_lossy(&ended.stderr), "-:5: this call has no 'no'\n");
    assert_eq!(run(&["/no/such/file"], "").status.code(), Some(2));
    assert_eq!(run(&[], "").status.code(), Some(2));
}
