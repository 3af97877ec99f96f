//! "Record image" and "A sound record".

use scenario::*;
use xhci_device::Record as Image;

use crate::calls::constants;
use crate::device::*;
use crate::page::{number, quoted, table};

/// The first and the last word of a row.
fn span(cell: &str) -> (usize, usize) {
    let (from, to) = cell.split_once("..").unwrap_or((cell, cell));
    (number(from) as usize, number(to) as usize)
}

fn image() -> Image {
    library::words::image(&run(&holding()).record).expect("an image")
}

#[test]
fn the_image_s_words_are_the_header_s() {
    let rows = table("image");
    let starts: Vec<(String, u64)> = rows.iter().map(|row| (row[1].clone(), span(&row[0]).0 as u64)).collect();
    assert_eq!(starts, constants("/* Where the words stand.", "XHCI_DEVICE_AT_"));
    let next: Vec<usize> = rows.iter().map(|row| span(&row[0]).1 + 1).collect();
    assert!(rows.iter().skip(1).zip(&next).all(|(row, next)| span(&row[0]).0 == *next), "no word is left out");
    assert_eq!((span(&rows[0][0]).0, next.last()), (0, Some(&Image::WORDS)));
}

/// A word above its range makes the buffer no image; one at its end does not, for that reason.
#[test]
fn ranges() {
    for row in table("image") {
        let most = match row[2].as_str() {
            "flag" => 1,
            "byte" => 0xFF,
            "32 bits" => 0xFFFF_FFFF,
            _ => u64::MAX,
        };
        for at in [span(&row[0]).0, span(&row[0]).1] {
            for (word, whole) in [(most, true), (most.wrapping_add(1), most == u64::MAX)] {
                let mut words = *image().words();
                (words[0], words[at]) = (1, word);
                assert_eq!(Image::from_words(words).is_usable(), whole && (at != 0 || word != 0), "word {at}: {word}");
            }
        }
    }
}

#[test]
fn the_example_s_image() {
    let list = span(&table("image").iter().find(|row| row[1] == "LIST").expect("the list")[0]);
    let nonzero: Vec<(u64, u64)> = (0..Image::WORDS)
        .filter(|at| !(list.0..=list.1).contains(at) && image().words()[*at] != 0)
        .map(|at| (at as u64, image().words()[at]))
        .collect();
    let rows: Vec<(u64, u64)> = table("example image").iter().map(|row| (number(&row[0]), number(&row[1]))).collect();
    assert_eq!(rows, nonzero);
}

/// The page's record with one thing changed: a field of its first line, or a whole line.
fn changed(change: &str) -> Record {
    let record = Some(run(&holding()).record);
    let mut text = String::new();
    scenario::step_text(&mut text, &Step { record, ..step(Call::Release { interface: 0 }) });
    let key = change.split([' ', '=']).next().expect("a key");
    let of_line = |line: &str| match line.strip_prefix("record ") {
        Some(fields) if change.contains('=') => {
            let fields =
                fields.split(' ').map(|field| if field.starts_with(&format!("{key}=")) { change } else { field });
            format!("record {}", fields.collect::<Vec<_>>().join(" "))
        }
        _ if line.split(' ').next() == Some(key) => change.to_string(),
        _ => line.to_string(),
    };
    let lines: Vec<String> = text.lines().map(of_line).collect();
    assert_ne!(lines, text.lines().collect::<Vec<_>>(), "'{change}' changes nothing");
    let scenarios = scenario::parse(&format!("scenario changed\n{}\nend\n", lines.join("\n"))).expect("a scenario");
    scenarios.scenarios[0].steps[0].record.clone().expect("a record")
}

#[test]
fn sound_records() {
    assert!(image().is_sound());
    for row in table("sound") {
        let mut record = run(&holding()).record;
        for change in quoted(&row[0]) {
            let next = changed(change);
            match change.split([' ', '=']).next() {
                Some("quarantined") => record.quarantined = next.quarantined,
                Some("reclist") => record.list = next.list,
                _ => record = next,
            }
        }
        let sound = library::words::image(&record).expect("an image").is_sound();
        assert_eq!(sound, row[1] == "yes", "{row:?}");
    }
}
