//! "Why a claim got its answer" and "An endpoint's block": the tables.

use library::Library;
use scenario::*;

use crate::device::{DONE, RINGS, holding, run, step};
use crate::page::{number, table};

/// What comes before a why, and its routes, by what stands behind the setting.
fn given(case: Option<&str>) -> ([Step; 2], Option<Vec<(usize, u64)>>) {
    let mut before = holding();
    let mut routes = None;
    match case {
        None => {}
        Some("ring 6000 is not given") => {
            let Call::BringUp(args) = &mut before[0].call else { panic!("a bring-up") };
            args.rings = RINGS[..4].to_vec();
        }
        Some("word 99 is 9990") => routes = Some(vec![(97, 0x1000), (99, 0x9990), (100, 0x4000)]),
        Some(other) => panic!("'{other}'"),
    }
    (before, routes)
}

#[test]
fn reasons() {
    let mut met = Vec::new();
    for row in table("reasons") {
        let (setting, case) = match row[0].split_once(" and ") {
            Some((setting, case)) => (setting, Some(case)),
            None => (row[0].as_str(), None),
        };
        let (interface, alternate) = setting.split_once(':').expect("an alternate");
        let args = Claim { interface: number(interface) as u8, alternate: number(alternate) as u8 };
        let outcomes = match row[1].trim_matches('`') {
            ".." => DONE.to_vec(),
            bytes => bytes.split_whitespace().map(|byte| u8::from_str_radix(byte, 16).expect("a byte")).collect(),
        };
        let (before, routes) = given(case);
        let why = Step { outcomes: outcomes.clone(), routes: routes.clone(), ..step(Call::Why(args.clone())) };
        let left = run(&[&before[..], &[why]].concat());
        let reason = left.reason.expect("a reason");
        assert_eq!((left.answer.number.to_string(), reason.to_string()), (row[2].clone(), row[3].clone()), "{row:?}");
        met.push((reason.kind(), left.answer.number));
        // The claim itself answers so.
        let claim = Step { outcomes, routes, ..step(Call::Claim(args)) };
        assert_eq!(run(&[&before[..], &[claim]].concat()).answer, left.answer, "{row:?}");
    }
    let kinds = [("none", 0), ("alternate", 8), ("endpoint", 9), ("rings", 21), ("command", 13), ("command", 14)];
    let missing: Vec<_> =
        kinds.into_iter().chain([("number", 14), ("number", 15)]).filter(|of| !met.contains(of)).collect();
    assert_eq!(missing, []);
}

#[test]
fn blocks() {
    let rows = table("blocks");
    for row in &rows {
        let [input, output, dci, answer, offset, length] =
            [0, 1, 3, 4, 5, 6].map(|at: usize| number(&row[at]) as usize);
        let from = if row[2] == "input" { Side::Input } else { Side::Output };
        let block = Block { input: vec![1; input], output: vec![2; output], from, dci: dci as u8 };
        let part = block.ask(&Library);
        let expected = Part { number: answer as u8, offset, bytes: &block.shown()[offset..offset + length] };
        assert_eq!(part, expected, "{row:?}");
    }
    assert!([0, 1, 4].iter().all(|answer| rows.iter().any(|row| number(&row[4]) == *answer)));
}
