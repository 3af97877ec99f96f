//! The header for C says what the binding says.

use xhci_device::{
    Answer, ChoiceRefusal, Command, Context, Dci, MOST_NAMES, READ_WORDS, RawRefusal, Reason, Record, SETTINGS_BYTES,
    SettingsRefusal, SubmitRefusal, WRITE_BYTES, endpoint_block,
};

const HEADER: &str = include_str!("../../include/xhci_device.h");

/// The constants of the header, by name.
fn constant(name: &str) -> Option<&'static str> {
    let of_line = |line: &'static str| {
        let line = line.trim();
        let (found, value) = match line.strip_prefix("#define ") {
            Some(rest) => rest.split_once(' ')?,
            None => line.split_once(" = ")?,
        };
        (found == name).then(|| value.split([',', ' ']).next().unwrap_or(value))
    };
    HEADER.lines().find_map(of_line)
}

fn number(name: &str) -> usize {
    constant(name).and_then(|value| value.parse().ok()).unwrap_or_else(|| panic!("{name} in the header"))
}

/// The answers of functions outside a slot that no call gives.
fn outside() -> [(u8, String); 7] {
    use ChoiceRefusal::{NoChoice, TooManyNames};
    use SettingsRefusal::{OtherConfiguration, Settings};
    use SubmitRefusal::{AlreadyWaiting, TooManySlots};
    [
        (RawRefusal::Malformed.number(), RawRefusal::Malformed.to_string()),
        (Settings.number(), Settings.to_string()),
        (OtherConfiguration.number(), OtherConfiguration.to_string()),
        (AlreadyWaiting.number(), AlreadyWaiting.to_string()),
        (TooManySlots.number(), TooManySlots.to_string()),
        (TooManyNames.number(), TooManyNames.to_string()),
        (NoChoice.number(), NoChoice.to_string()),
    ]
}

#[test]
fn answers_have_their_numbers_and_names() {
    let mut count = 0;
    for line in HEADER.lines() {
        let Some((name, text)) = line.trim().strip_prefix("case ").and_then(|line| line.split_once(": return \""))
        else {
            continue;
        };
        if name.starts_with("XHCI_DEVICE_REASON_") {
            continue;
        }
        let number = number(name) as u8;
        let words = match Answer::of(number, 0) {
            Some(answer) => answer.to_string(),
            None => outside().into_iter().find(|(of, _)| *of == number).expect("a name").1,
        };
        assert_eq!(text.trim_end_matches("\";"), words.trim_end_matches(", with code 0"), "{name}");
        count += 1;
    }
    assert_eq!((count, outside().map(|(number, _)| Answer::of(number, 0))), (31, [None; 7]));
}

#[test]
fn operations_have_their_numbers() {
    for operation in 1..=12 {
        let command = Command::of(operation << 28).expect("a command").to_string();
        let name = command.split(' ').next().expect("a name").to_string();
        let is_it = |line: &&str| {
            let constant = line.trim().strip_prefix("XHCI_DEVICE_OP_").and_then(|line| line.split_once(" = "));
            constant.is_some_and(|(found, _)| found.replace('_', "").eq_ignore_ascii_case(&name))
        };
        let line = HEADER.lines().find(is_it).unwrap_or_else(|| panic!("{name} in the header"));
        assert_eq!(number(line.trim().split(' ').next().expect("a name")), operation as usize);
    }
    assert_eq!(Command::of(13 << 28), None);
}

#[test]
fn the_version_and_the_sizes_are_the_binding_s() {
    let version = [
        constant("XHCI_DEVICE_VERSION_MAJOR"),
        constant("XHCI_DEVICE_VERSION_MINOR"),
        constant("XHCI_DEVICE_VERSION_PATCH"),
    ];
    let version = version.map(|part| part.expect("a part")).join(".");
    assert_eq!((version.as_str(), env!("CARGO_PKG_VERSION")), (xhci_device::VERSION, xhci_device::VERSION));
    assert_eq!(constant("XHCI_DEVICE_VERSION"), Some(format!("\"{version}\"").as_str()));
    assert_eq!(number("XHCI_DEVICE_RECORD_WORDS"), Record::WORDS);
    let rooms =
        ["LIST_ROOM", "WRITE_BYTES", "SETTINGS_BYTES", "NAMES"].map(|name| number(&format!("XHCI_DEVICE_{name}")));
    assert_eq!(rooms, [READ_WORDS, WRITE_BYTES, SETTINGS_BYTES, MOST_NAMES]);
}

/// The kinds of reasons, by the numbers that the archive gives: the binding's variants in their order.
#[test]
fn reasons_have_their_kinds() {
    let names = ["NOTHING", "ALTERNATE", "ENDPOINT", "RINGS", "COMMAND", "NUMBER"];
    for (kind, name) in names.iter().enumerate() {
        assert_eq!(number(&format!("XHCI_DEVICE_REASON_{name}")), kind);
        assert!(HEADER.contains(&format!("case XHCI_DEVICE_REASON_{name}: return \"")), "{name}");
    }
    assert_eq!(HEADER.lines().filter(|line| line.trim().starts_with("XHCI_DEVICE_REASON_")).count(), names.len());
    for (reason, name) in [(Reason::Nothing, "NOTHING"), (Reason::Rings, "RINGS")] {
        assert!(HEADER.contains(&format!("case XHCI_DEVICE_REASON_{name}: return \"{reason}\";")), "{name}");
    }
}

/// A compiler warns where an answer is not looked at.
#[test]
fn answers_must_be_used() {
    let returned = ["answered", "asked", "chosen", "submitted", "placed"];
    let returned = returned.map(|name| format!("struct xhci_device_{name} xhci_device_"));
    let functions = HEADER.lines().filter(|line| returned.iter().any(|start| line.contains(start.as_str())));
    let (must, others): (Vec<&str>, Vec<&str>) = functions.partition(|line| line.starts_with("XHCI_DEVICE_MUST_USE "));
    assert_eq!((must.len(), others), (15, Vec::new()));
}

/// An output context has no control block.
#[test]
fn contexts_have_their_lengths() {
    for spacing in [32, 64] {
        let lengths = ["CONTEXT", "OUTPUT"].map(|name| number(&format!("XHCI_DEVICE_{name}_BYTES_{spacing}")));
        assert_eq!(lengths, [33 * spacing, 32 * spacing]);
        let (input, output) = (vec![0; lengths[0]], vec![0; lengths[1]]);
        let block = endpoint_block(&input, &output, Context::Output, Dci(1)).expect("a block");
        assert_eq!(block.len(), spacing);
    }
}

/// The binding can be taken alone.
#[test]
fn the_binding_has_the_licence_of_the_repository() {
    let root = concat!(env!("CARGO_MANIFEST_DIR"), "/../../");
    for name in ["LICENSE", "NOTICE"] {
        let read = |path: String| std::fs::read_to_string(path).expect("a licence");
        assert_eq!(read(format!("{root}{name}")), read(format!("{root}host/xhci_device/{name}")));
    }
}
