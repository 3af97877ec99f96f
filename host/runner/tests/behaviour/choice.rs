//! "Settings for a wanted polling period": the examples, by the library.

use library::Library;
use scenario::*;

use crate::device::{run, step};
use crate::page::{number, table, words};

/// The record of a device at High speed that was brought up with a list.
fn record(list: Vec<u32>) -> Record {
    let args = BringUp {
        slot: 1,
        n: 1,
        speed: 3,
        port: 1,
        root_port: 1,
        rings: vec![0x1000],
        header: 8,
        packet: 64,
        list,
        ..BringUp::default()
    };
    let left = run(&[step(Call::BringUp(args))]);
    assert_eq!(left.answer.number, 0);
    left.record
}

fn bytes(cell: &str) -> Vec<u8> {
    cell.split_whitespace().map(|text| number(text) as u8).collect()
}

#[test]
fn examples() {
    let mut met = [0; 31];
    for row in table("choices") {
        let list = words(&row[0]).into_iter().map(|word| word as u32).collect();
        let choice = Choice { record: record(list), names: bytes(&row[1]), longest: number(&row[2]) as u32 };
        let expected = Chosen { number: number(&row[3]) as u8, alternates: bytes(&row[4]) };
        assert_eq!(choice.ask(&Library), expected, "{row:?}");
        met[usize::from(expected.number)] += 1;
        let unusable = Choice { record: Record { usable: false, ..choice.record.clone() }, ..choice };
        assert_eq!(unusable.ask(&Library).number, 12, "{row:?}, unusable");
    }
    assert!([0, 29, 30].iter().all(|answer| met[*answer] > 0), "{met:?}");
}
