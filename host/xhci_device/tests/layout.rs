//! The code, the specs, the header and this binding have the same words of an image under the same names.

use std::collections::BTreeMap;
use std::path::Path;

type Names = BTreeMap<String, usize>;

fn text(file: &str) -> String {
    let path = Path::new(env!("CARGO_MANIFEST_DIR")).join("../..").join(file);
    std::fs::read_to_string(&path).unwrap_or_else(|e| panic!("{}: {e}", path.display()))
}

/// The names and numbers of the lines that `part` takes.
fn names(text: &str, part: impl Fn(&str) -> Option<(&str, &str)>) -> Names {
    let number = |(name, number): (&str, &str)| Some((name.replace('-', "_"), number.parse().ok()?));
    text.lines().filter_map(part).filter_map(number).collect()
}

fn constants(file: &str) -> Names {
    names(&text(file), |line| line.strip_prefix("pub const ")?.strip_suffix(';')?.split_once(": usize = "))
}

/// The enum of the header that stands under a comment, without the prefix of its names.
fn header(comment: &str, prefix: &str) -> Names {
    let header = text("host/include/xhci_device.h");
    let (_, below) = header.split_once(comment).expect(comment);
    let (members, _) = below.split_once("};").expect("an enum");
    names(members, |line| {
        let (name, number) = line.trim().strip_prefix(prefix)?.split_once(" = ")?;
        Some((name, number.split([',', ' ']).next()?))
    })
}

#[test]
fn words_and_rooms_have_one_number_each() {
    let code = constants("crates/device_image/src/layout.rt");
    assert_eq!((code.len(), code["WORDS"]), (25, xhci_device::layout::WORDS));
    assert_eq!(names(&text("crates/device_image/specs/Layout.antt"), |line| line.split_once(" = ")), code);

    let (rooms, words): (Names, Names) =
        constants("host/xhci_device/src/layout.rs").into_iter().partition(|(name, _)| name.ends_with("_ROOM"));
    assert_eq!(words, code);
    let mut listed = header("/* Where the words stand.", "XHCI_DEVICE_AT_");
    listed.extend(names(&text("host/include/xhci_device.h"), |line| {
        line.strip_prefix("#define XHCI_DEVICE_RECORD_")?.split_once(' ')
    }));
    assert_eq!(listed, code);
    assert_eq!(header("/* Room in a record's arrays.", "XHCI_DEVICE_"), rooms);
}
