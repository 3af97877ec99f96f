//! docs/FORMATS.md, docs/BEHAVIOUR.md, the twenty lists of docs/THEOREM.md and the answers of docs/INTEGRATION.md, held against
//! the proved library: pictures, examples and tables are read out of the pages.
#![forbid(unsafe_code)]

mod calls;
mod choice;
mod device;
mod forms;
mod lists;
mod page;
mod picture;
mod raw;
mod records;
mod settings;
mod trouble;
mod turns;
mod values;
mod why;

/// What the modules read, by its mark.
const CHECKED: [&str; 48] = [
    "picture configuration",
    "picture alternate",
    "picture endpoint",
    "picture companion",
    "words",
    "super words",
    "lists",
    "super lists",
    "raw",
    "picture settings",
    "settings",
    "picture hub",
    "hubs",
    "routes",
    "chains",
    "table",
    "picture log",
    "operations",
    "outcomes",
    "fields",
    "blocks",
    "image",
    "example image",
    "speeds",
    "intervals",
    "bursts",
    "companions",
    "entries",
    "think",
    "writes",
    "answers",
    "order",
    "bounds",
    "course bring-up",
    "course claim",
    "course first claim",
    "asks",
    "reasons",
    "course release",
    "course set configuration",
    "course hub update",
    "course unplugging",
    "course unplugging again",
    "sound",
    "choices",
    "turns",
    "twenty lists",
    "trouble",
];

#[test]
fn nothing_is_marked_in_vain() {
    assert_eq!(page::marks(), CHECKED);
}
