//! Calls on one slot, and functions outside a slot, as values and as text, and the traits of whoever answers them.
//! docs/SCENARIOS.md describes the text.
#![forbid(unsafe_code)]

mod asked_text;
mod block;
mod call;
mod call_key;
mod case;
mod choice;
mod clock;
mod companion;
mod context_text;
mod descriptors;
mod desk;
mod dispatch;
mod explain;
mod fault;
mod layer;
mod memory;
mod parse;
mod print;
mod raw;
mod raw_fault;
mod raw_list;
mod reason;
mod record_key;
mod record_text;
mod seen;
mod session;
mod settings;
mod sound;
mod value;

pub use block::{Block, Part, Side};
pub use call::*;
pub use case::{Case, Functions, Kind, Reply};
pub use choice::{Choice, Chosen, MOST_NAMES, candidates};
pub use clock::{proper, start_clock, stop_clock};
pub use desk::{Desk, Dispatched, Line, Served, Submission};
pub use dispatch::{Dispatch, Entry, Turns, submitted, turn_text};
pub use explain::{Given, explain_text};
pub use fault::fault;
pub use layer::{Called, Cannot, Layer, Made, Outcome, Shown};
pub use memory::{filled_bytes, filled_words};
pub use parse::{Contents, Event, Malformed, Reader, parse};
pub use print::{dispatched_text, left_text, scenario_text, step_text};
pub use raw::{BYTES_ROOM, RawRead, RawWrite, WORDS_ROOM};
pub use raw_fault::raw_fault;
pub use raw_list::{explain_no_call, no_call_text};
pub use reason::Reason;
pub use session::{Left, Session};
pub use settings::{Conversion, Form, SETTINGS_ROOM, settings_fault};
