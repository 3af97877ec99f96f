//! `--check`: 1 where anything was answered other than 0, or not at all.
#![forbid(unsafe_code)]

mod common;

use common::run;

const UP: &str = "bringup
slot 1
n 1
speed 3
rings 0x1000 0x2000
header 8 64
raw 09021900 01010080 32 090400000103000000 07058103080004
ctxlen 1056
outcomes 00:00:00:00:00:00:00:00:00
";

fn scenario(lines: &str) -> String {
    format!("scenario a\n{UP}go\n{lines}end\n")
}

fn dispatched(lines: &str) -> String {
    format!("scenario a\ndispatcher\n{UP}submit\n{lines}end\n")
}

/// What is accepted ends with 0, what is refused or fails with 1; without `--check` both end with 0, and what is printed is
/// the same.
fn ends(text: &str, status: i32) {
    for layer in ["library", "model"] {
        for explain in [&[][..], &["--explain"]] {
            let plain = run(&[&["--layer", layer][..], explain, &["-"]].concat(), text);
            let checked = run(&[&["--check", "--layer", layer][..], explain, &["-"]].concat(), text);
            assert_eq!((plain.status, checked.status), (Some(0), Some(status)), "{text}");
            assert_eq!((plain.out, plain.err.as_str()), (checked.out, checked.err.as_str()));
        }
    }
}

#[test]
fn a_call_that_is_refused_or_fails() {
    ends("scenario a\nend\n", 0);
    ends(&scenario(""), 0);
    ends(&scenario("claim\nctxlen 1056\noutcomes 00 00\ngo\n"), 0);
    // Refused, failed, broken, cut.
    ends(&scenario("claim\ninterface 1\nctxlen 1056\ngo\n"), 1);
    ends(&scenario("claim\nctxlen 1056\noutcomes 07\ngo\n"), 1);
    ends(&scenario("claim\nctxlen 1056\noutcomes 00 07 07\ngo\n"), 1);
    ends(&scenario("claim\nctxlen 1056\ngo\n"), 1);
    // Also where the last one is accepted.
    ends(&scenario("claim\nctxlen 1056\noutcomes 07\ngo\nclaim\nctxlen 1056\noutcomes 00 00\ngo\n"), 1);
    ends(&scenario("claim\ngo\n").replace("go\nend\n", "go\nend\nscenario b\nend\n"), 1);
}

#[test]
fn an_ask_a_why_and_a_call_that_is_not_made() {
    ends(&scenario("ask\nctxlen 1056\ngo\n"), 0);
    ends(&scenario("ask\ninterface 1\nctxlen 1056\ngo\n"), 1);
    ends(&scenario("why\nctxlen 1056\noutcomes 00 00\ngo\n"), 0);
    ends(&scenario("why\nctxlen 1056\noutcomes 07\ngo\n"), 1);
    ends(&scenario("bringup\nspeed 3\nraw 09\ngo\n"), 1);
}

#[test]
fn submissions_and_turns() {
    ends(&dispatched(""), 0);
    ends(&dispatched("turn\nturn\n"), 0);
    ends(&dispatched("disconnect\non 2\nsubmit\n"), 0);
    // The slot waits already; the call of slot 0 has no record.
    ends(&dispatched(&format!("{UP}submit\n")), 1);
    ends(&dispatched("disconnect\non 2\nsubmit\nturn\nturn\n"), 1);
    ends("case a\ndispatch\nsubmit 1\nsubmit 2\nturn\nsubmit 1\ngo\n", 0);
    ends("case a\ndispatch\nsubmit 1\nsubmit 1\nsubmit 2\ngo\n", 1);
}

#[test]
fn cases() {
    ends("case a\nrawread\nspeed 3\ngo\n", 0);
    ends("case a\nrawread\ngo\n", 1);
    ends("case a\nrawwrite\nspeed 3\nlist 00400000\ngo\n", 0);
    ends("case a\nrawwrite\nspeed 3\nlist 40000000\ngo\n", 1);
    ends("case a\ntonew\nspeed 3\nlist 00400000\ngo\n", 0);
    ends("case a\ntoold\nspeed 3\nlist 00400000\nsettings 02 00\ngo\n", 1);
    let lent = format!("input {}\noutput {}", "00".repeat(1056), "00".repeat(1024));
    ends(&format!("case a\nblock\n{lent}\ndci 1\ngo\n"), 0);
    ends(&format!("case a\nblock\n{lent}\ngo\n"), 1);
    let choose = "choose\nrecord usable=1 slot=1 n=1 spacing=32 speed=3 control=1000/active\ngiven 1000";
    ends(&format!("case a\n{choose}\ngo\n"), 0);
    ends(&format!("case a\n{choose}\nnames 0\ngo\n"), 1);
}

#[test]
fn a_malformed_line_ends_with_2_all_the_same() {
    for text in [scenario("claim\ngo\nno\n"), "scenario a\n".to_string(), String::new()] {
        assert_eq!(run(&["--check", "-"], &text).status, Some(2), "{text}");
    }
    assert_eq!(run(&["--check"], "").status, Some(2));
}

/// What the original cannot answer is not accepted.
#[test]
fn no_answer() {
    if runner::layer("original").is_some() {
        for text in
            ["case a\nrawread\nspeed 3\ngo\n", "scenario a\ndispatcher\nturn\nend\n", "scenario a\nwhy\ngo\nend\n"]
        {
            let checked = run(&["--check", "--layer", "original", "-"], text);
            assert!(checked.out.starts_with("no answer: "), "{}", checked.out);
            assert_eq!(checked.status, Some(1));
        }
    }
}
