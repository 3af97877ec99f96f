//! What was asked of the controller, and what it showed.

use std::collections::BTreeMap;

/// Departures that are known: rows of docs/DIFFERENCES.md by name. One that no longer occurs is to be removed.
pub const LOOKUP: &str = "lookup outside the active configuration";
pub const HUB_FIELDS: &str = "hub fields leave no trace";
pub const DEPARTURES: [&str; 2] = [LOOKUP, HUB_FIELDS];

/// By what a fault was noticed.
#[derive(Clone, Copy, Debug, PartialEq, Eq, PartialOrd, Ord)]
pub enum Kind {
    /// The answer of a call.
    Answer,
    /// A block of the output context that is not the one given.
    Context,
    /// A block of the output context that is not what the device's descriptors and its place ask for.
    Descriptor,
    /// Which endpoints are enabled, held and routed.
    Enabled,
    /// A completion that did not come as it should.
    Completion,
    /// A completion that came to the wrong ring, twice, or to nobody.
    Stray,
    /// What the device or QEMU itself says.
    Device,
}

#[derive(Default)]
pub struct Findings {
    pub held: u32,
    pub departures: BTreeMap<&'static str, u32>,
    pub faults: Vec<(Kind, String)>,
    /// The call or the step.
    pub at: String,
}

impl Findings {
    pub fn check(&mut self, kind: Kind, holds: bool, fault: impl FnOnce() -> String) {
        if holds {
            self.held += 1;
        } else {
            self.faults.push((kind, format!("{}: {}", self.at, fault())));
        }
    }

    /// A check that fails in one way that is known, as long as it is a known departure.
    pub fn check_but(&mut self, name: &'static str, holds: bool, known: bool, fault: impl FnOnce() -> String) {
        if !holds && known && DEPARTURES.contains(&name) {
            *self.departures.entry(name).or_default() += 1;
        } else {
            self.check(Kind::Descriptor, holds, fault);
        }
    }
}

#[cfg(test)]
mod tests {
    use super::DEPARTURES;

    #[test]
    fn departures_are_rows() {
        let page = include_str!("../../../docs/DIFFERENCES.md");
        for name in DEPARTURES {
            assert!(page.contains(&format!("\n| {name} |")), "{name}");
        }
    }
}
