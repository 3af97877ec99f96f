//! "Raw configuration descriptors": the examples, by the library.

use library::Library;
use scenario::*;

use crate::page::{number, quoted, table, words};

/// Bytes, two digits each, with blanks between descriptors.
fn bytes(cell: &str) -> Vec<u8> {
    let digits: String = quoted(cell).concat().split(' ').collect();
    let byte = |at: usize| u8::from_str_radix(&digits[2 * at..2 * at + 2], 16).expect("two digits");
    (0..digits.len() / 2).map(byte).collect()
}

/// What is read is written, and read again.
#[test]
fn examples() {
    let mut met = [0; 27];
    for row in table("raw") {
        let (speed, answer) = (number(&row[0]) as u8, number(&row[2]));
        let list: Vec<u32> = words(&row[3]).into_iter().map(|word| word as u32).collect();
        let read = |bytes: Vec<u8>| {
            let (reply, words) = RawRead { speed, bytes, room: 256 }.ask(&Library);
            assert_eq!(words[reply.count..], filled_words(256)[reply.count..]);
            (u64::from(reply.number), words[..reply.count].to_vec())
        };
        assert_eq!(read(bytes(&row[1])), (answer, list.clone()), "{row:?}");
        if answer == 0 {
            let (reply, written) = RawWrite { speed, list: list.clone(), room: 2304 }.ask(&Library);
            assert_eq!((reply.number, read(written[..reply.count].to_vec())), (0, (0, list)), "{row:?}, back");
        }
        met[answer as usize] += 1;
    }
    assert!([0, 4, 6, 20, 26].iter().all(|answer| met[*answer] > 0), "{met:?}");
}
