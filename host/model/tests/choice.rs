//! Item 14 of 02, asked of the model: 02's words one by one, and every ground of 30.

use std::collections::BTreeSet;

use model::{ChoiceGround, Model, choice_grounds};
use scenario::{Chosen, Endpoint, Functions, Record};

const ISOCHRONOUS: u32 = 1;
const BULK: u32 = 2;
const INTERRUPT: u32 = 3;

fn configuration(value: u32) -> u32 {
    value << 22
}

fn alternate(interface: u32, alternate: u32) -> u32 {
    1 << 30 | interface << 22 | alternate << 14
}

/// An IN endpoint.
fn endpoint(number: u32, kind: u32, interval: u32) -> u32 {
    5 << 29 | number << 25 | kind << 23 | 8 << 12 | interval << 2
}

/// Of a list, at speeds 4 and 5 with a companion behind each endpoint word.
fn record(speed: u8, list: &[u32]) -> Record {
    let companion = |word: u32| (speed > 3 && word >> 30 == 2).then_some(3 << 30);
    Record {
        usable: true,
        up: true,
        slot: 1,
        n: 1,
        spacing: 32,
        speed,
        control: 16,
        given: vec![16, 32, 48],
        list: list.iter().flat_map(|word| [*word].into_iter().chain(companion(*word))).collect(),
        ..Record::default()
    }
}

fn chosen(record: &Record, names: &[u8], longest: u32) -> Result<Vec<u8>, u8> {
    match Model.choose(record, names, longest) {
        Chosen { number: 0, alternates } => Ok(alternates),
        Chosen { number, alternates } => {
            assert_eq!(alternates, []);
            Err(number)
        }
    }
}

fn grounds(record: &Record, names: &[u8], longest: u32) -> Vec<ChoiceGround> {
    assert_eq!(chosen(record, names, longest), Err(30));
    choice_grounds(record, names, longest).into_iter().collect()
}

/// Interface 0: alternates 2 (0x81), 1 (0x82) and 0 (none); interface 1: alternate 0 (0x82).
fn sample() -> Vec<u32> {
    vec![
        configuration(1),
        alternate(0, 2),
        endpoint(1, INTERRUPT, 5),
        alternate(0, 1),
        endpoint(2, INTERRUPT, 3),
        alternate(0, 0),
        alternate(1, 0),
        endpoint(2, BULK, 255),
    ]
}

/// "The earliest in list order, compared by interface as named": not by alternate number.
#[test]
fn earliest() {
    let record = record(3, &sample());
    assert_eq!(chosen(&record, &[0], 4), Ok(vec![2]));
    assert_eq!(chosen(&record, &[0], 3), Ok(vec![1]));
    assert_eq!(chosen(&record, &[0], 1), Ok(vec![0]));
    assert_eq!(chosen(&record, &[0, 1], 3), Ok(vec![0, 0]));
    // Each of two wants the first; who is named first has it.
    let list = [
        configuration(1),
        alternate(0, 0),
        endpoint(1, BULK, 0),
        alternate(0, 1),
        alternate(1, 0),
        endpoint(1, BULK, 0),
        alternate(1, 1),
    ];
    let record = self::record(3, &list);
    assert_eq!(chosen(&record, &[0, 1], 0), Ok(vec![0, 1]));
    assert_eq!(chosen(&record, &[1, 0], 0), Ok(vec![0, 1]));
}

/// "The names may be none or repeat; a repeated name takes one alternate, returned at each of its places."
#[test]
fn names() {
    let record = record(3, &sample());
    assert_eq!(chosen(&record, &[], 0), Ok(vec![]));
    assert_eq!(chosen(&self::record(3, &[]), &[], 0), Ok(vec![]));
    assert_eq!(chosen(&record, &[0, 1, 0], 4), Ok(vec![2, 0, 2]));
    assert_eq!(chosen(&record, &[0; 8], 4), Ok(vec![2; 8]));
}

/// "Whose interrupt endpoint words all give a context interval no longer": those of other types may be longer, and every
/// interrupt one counts. At speeds 1 and 2 the byte is in milliseconds.
#[test]
fn intervals() {
    let of = |speed: u8, kind: u32, interval: u32, longest: u32| {
        chosen(&record(speed, &[configuration(1), alternate(0, 0), endpoint(1, kind, interval)]), &[0], longest).is_ok()
    };
    for speed in 3..=5 {
        for (interval, context) in [(0, 0), (1, 0), (2, 1), (16, 15), (17, 15), (255, 15)] {
            assert!(
                of(speed, INTERRUPT, interval, context)
                    && (context == 0 || !of(speed, INTERRUPT, interval, context - 1))
            );
        }
    }
    for speed in 1..=2 {
        for (interval, context) in [(0, 3), (1, 3), (2, 4), (3, 4), (4, 5), (255, 10)] {
            assert!(of(speed, INTERRUPT, interval, context) && !of(speed, INTERRUPT, interval, context - 1));
        }
    }
    for kind in [ISOCHRONOUS, BULK] {
        assert!((1..=5).all(|speed| of(speed, kind, 255, 0)));
    }
    let list = [configuration(1), alternate(0, 0), endpoint(1, INTERRUPT, 1), endpoint(2, INTERRUPT, 2)];
    assert_eq!(chosen(&record(3, &list), &[0], 0), Err(30));
    assert_eq!(chosen(&record(3, &list), &[0], u32::MAX), Ok(vec![0]));
}

/// "With no address in two interfaces": of endpoints of every type; twice in one alternate is no matter.
#[test]
fn addresses() {
    for (one, other) in [(INTERRUPT, BULK), (BULK, ISOCHRONOUS), (ISOCHRONOUS, ISOCHRONOUS)] {
        let list = [configuration(1), alternate(0, 0), endpoint(1, one, 1), alternate(1, 0), endpoint(1, other, 1)];
        assert_eq!(grounds(&record(3, &list), &[0, 1], 15), [ChoiceGround::Together]);
    }
    let list = [configuration(1), alternate(0, 0), endpoint(1, BULK, 0), endpoint(1, INTERRUPT, 1), alternate(1, 0)];
    assert_eq!(chosen(&record(3, &list), &[0, 1], 0), Ok(vec![0, 0]));
    // OUT is another address.
    let out = endpoint(1, BULK, 0) ^ 1 << 29;
    let list = [configuration(1), alternate(0, 0), endpoint(1, BULK, 0), alternate(1, 0), out];
    assert_eq!(chosen(&record(3, &list), &[0, 1], 0), Ok(vec![0, 0]));
}

/// "An unknown interface has no alternate to choose, and only a word that lookup would find counts"; "from the first
/// configuration".
#[test]
fn no_candidate() {
    let list = [
        configuration(1),
        alternate(0, 0),
        endpoint(1, INTERRUPT, 9),
        alternate(0, 0),
        endpoint(1, INTERRUPT, 1),
        alternate(1, 0),
        endpoint(2, INTERRUPT, 9),
        configuration(1),
        alternate(1, 1),
        alternate(2, 0),
    ];
    let record = record(3, &list);
    assert_eq!(grounds(&record, &[0], 3), [ChoiceGround::NotFound]);
    assert_eq!(grounds(&record, &[1], 3), [ChoiceGround::TooLong]);
    assert_eq!(grounds(&record, &[2], 15), [ChoiceGround::Later]);
    assert_eq!(grounds(&record, &[3], 15), [ChoiceGround::Unknown]);
    assert_eq!(choice_grounds(&record, &[0, 1], 15), BTreeSet::new());
    assert_eq!(grounds(&self::record(3, &[]), &[0], 15), [ChoiceGround::Unknown]);
    assert_eq!(grounds(&self::record(3, &list[..1]), &[0], 15), [ChoiceGround::Unknown]);
    // An alternate of a later configuration, found though its interface is not in the first.
    assert_eq!(grounds(&record, &[2, 3], 15), [ChoiceGround::Unknown, ChoiceGround::Later]);
}

/// "12 comes first. Errors: 29, more than eight names; 30, no such choice exists, and only then, after 29."
#[test]
fn order() {
    let record = record(3, &sample());
    assert_eq!(chosen(&record, &[0; 9], 4), Err(29));
    assert_eq!(chosen(&record, &[7; 9], 4), Err(29));
    assert_eq!(chosen(&record, &[7; 8], 4), Err(30));
    let unusable = Record { usable: false, ..record.clone() };
    let unsound = Record { slot: 2, ..record.clone() };
    for refused in [&unusable, &unsound, &Record::default()] {
        assert_eq!([chosen(refused, &[0; 9], 4), chosen(refused, &[], 4)], [Err(12), Err(12)]);
    }
}

/// "List and speed are the record's": what it holds is not asked.
#[test]
fn what_is_held() {
    let list = [configuration(1), alternate(0, 0), endpoint(1, BULK, 0), alternate(1, 0), endpoint(1, BULK, 0)];
    let endpoint = Endpoint { address: 0x81, ring: 32, owner: 0, active: true };
    let holding = Record { held: vec![(0, 0)], endpoints: vec![endpoint], ..record(3, &list) };
    assert_eq!(chosen(&holding, &[1], 0), Ok(vec![0]));
}
