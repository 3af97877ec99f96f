//! "Settings of old boards": the picture, the examples, and that the library reads them so.

use library::Library;
use scenario::*;

use crate::page::{number, quoted, table, words};
use crate::picture::picture;

/// The answer, and what was written; what is past it must be as it was lent.
fn converted(to: Form, settings: &[u8], list: &[u32], room: usize) -> (u8, Vec<u8>) {
    let (list, settings) = (list.to_vec(), settings.to_vec());
    let conversion = Conversion { speed: 3, list, settings, room, ..Conversion::to(to) };
    let (reply, bytes) = conversion.ask(&Library);
    assert_eq!(bytes[reply.count..], filled_bytes(room)[reply.count..]);
    (reply.number, bytes[..reply.count].to_vec())
}

fn form(cell: &str) -> Form {
    match cell {
        "to new" => Form::New,
        "to old" => Form::Old,
        _ => panic!("'{cell}' is no function"),
    }
}

/// Bytes, two digits each.
fn bytes(cell: &str) -> Vec<u8> {
    let digits = quoted(cell).concat();
    let byte = |at: usize| u8::from_str_radix(&digits[2 * at..2 * at + 2], 16).expect("two digits");
    (0..digits.len() / 2).map(byte).collect()
}

#[test]
fn examples() {
    let mut met = [0; 25];
    for row in table("settings") {
        let list: Vec<u32> = words(&row[0]).into_iter().map(|word| word as u32).collect();
        let (to, settings, answer) = (form(&row[1]), bytes(&row[2]), number(&row[3]));
        assert_eq!(converted(to, &settings, &list, 66), (answer as u8, bytes(&row[4])), "{row:?}");
        if answer == 0 {
            assert_eq!(converted(to.other(), &bytes(&row[4]), &list, 66), (0, settings), "{row:?}, back");
        }
        met[answer as usize] += 1;
    }
    assert!([0, 4, 23, 24].iter().all(|answer| met[*answer] > 0), "{met:?}");
}

/// "Each pair more puts 16 before the zeros": one pair's bits are the picture's; of two the first is, but for the count.
#[test]
fn the_library_reads_settings_so() {
    let picture = picture("settings");
    assert_eq!(picture.bits(), 32);
    for value in [0, 1, 128, 255] {
        for (interface, alternate) in [(0, 0), (1, 2), (64, 129), (254, 255)] {
            let word = |kind: u32, high: u8, low: u8| kind << 30 | u32::from(high) << 22 | u32::from(low) << 14;
            let list = [word(0, value, 0), word(1, interface, alternate), word(1, 255, 3)];
            let fields = |count| {
                [
                    ("value", value.into()),
                    ("count", count),
                    ("interface", interface.into()),
                    ("alternate", alternate.into()),
                ]
            };
            let one = (picture.of(&fields(1)) as u32).to_be_bytes();
            assert_eq!(converted(Form::New, &[interface, alternate], &list, 66), (0, one.to_vec()));
            let two = picture.of(&fields(2)) << 16 | 255 << 10 | 3 << 2;
            let old = [interface, alternate, 255, 3];
            assert_eq!(converted(Form::New, &old, &list, 66), (0, two.to_be_bytes()[2..].to_vec()));
            assert_eq!(converted(Form::Old, &two.to_be_bytes()[2..], &list, 66), (0, old.to_vec()));
        }
    }
    assert_eq!((picture.most("value"), picture.most("count"), picture.most("interface")), (255, 63, 255));
}

/// "Both functions need 66 bytes", and 3 comes before all else; "at most 32 pairs".
#[test]
fn bounds_of_settings() {
    let list: Vec<u32> = [1 << 22].into_iter().chain((0..32).map(|interface| 1 << 30 | interface << 22)).collect();
    let pairs = |count: u8| -> Vec<u8> { (0..count).flat_map(|interface| [interface.min(31), 0]).collect() };
    let (answer, new) = converted(Form::New, &pairs(32), &list, 66);
    assert_eq!((answer, new.len()), (0, 66));
    assert_eq!(converted(Form::Old, &new, &list, 66), (0, pairs(32)));
    assert_eq!(converted(Form::New, &pairs(33), &list, 66).0, 23);
    for settings in [pairs(0), pairs(1), vec![1, 0], vec![9]] {
        for to in [Form::New, Form::Old] {
            assert_eq!(converted(to, &settings, &[0xC000_0000], 65), (3, vec![]));
            assert_eq!(converted(to, &settings, &[0xC000_0000], 66), (4, vec![]));
        }
    }
}
