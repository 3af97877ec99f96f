//! The rows of docs/DIFFERENCES.md that a call can meet, by their first cells.

pub const UNKNOWN_SPEED: &str = "unknown speed";
pub const HUB_MISSING: &str = "a hub that is missing";
pub const NO_ROOT_HUB: &str = "a chain that does not lead to a root hub";
pub const DEPTHS: &str = "a chain whose depths do not fall by one";
pub const NO_PARENT: &str = "a hub of depth 0 or more without a parent";
pub const HUB_SPEED: &str = "a hub of an unknown speed";
pub const MANY_HUBS: &str = "more than 256 hubs";
pub const SLOT_0: &str = "slot 0";
pub const MANY_SLOTS: &str = "more than 255 slots";
pub const LIST_LIMITS: &str = "a list beyond the limits";
pub const TWO_FAULTS: &str = "two faults in one bring-up";
pub const THINK_SHORT: &str = "think time too short";
pub const THINK_LONG: &str = "think time too long";
pub const BROKEN_HUB_UPDATE: &str = "a hub update on an unusable record";
pub const CONFIGURE_CODE: &str = "the code of a failed Configure, in a release, a set configuration or a bring-up";
pub const RESUME_FAILS_TOO: &str = "a failed Configure whose resume fails too, in a release or a set configuration";

pub const PACKET_EXPONENT: &str = "a packet byte other than 9 at SuperSpeed";
pub const CONTROL_ROUTE: &str = "control's route in an unplugging";
pub const FOREIGN_WORD: &str = "a foreign word in an unplugging";
pub const QUARANTINED_TWICE: &str = "a ring that is in quarantine already";
pub const UNCLAIMED_RELEASE: &str = "a release of an interface that holds nothing";

pub const CUT_CLAIM: &str = "the rings of a claim that is cut";
pub const ENDED_RINGS: &str = "the rings of what a broken or cut set configuration ended";

pub const ALL: [&str; 23] = [
    UNKNOWN_SPEED,
    HUB_MISSING,
    NO_ROOT_HUB,
    DEPTHS,
    NO_PARENT,
    HUB_SPEED,
    MANY_HUBS,
    SLOT_0,
    MANY_SLOTS,
    LIST_LIMITS,
    TWO_FAULTS,
    THINK_SHORT,
    THINK_LONG,
    BROKEN_HUB_UPDATE,
    CONFIGURE_CODE,
    RESUME_FAILS_TOO,
    PACKET_EXPONENT,
    CONTROL_ROUTE,
    FOREIGN_WORD,
    QUARANTINED_TWICE,
    UNCLAIMED_RELEASE,
    CUT_CLAIM,
    ENDED_RINGS,
];

#[cfg(test)]
mod tests {
    #[test]
    fn each_is_a_row_of_the_document() {
        let document = include_str!("../../../docs/DIFFERENCES.md");
        for row in super::ALL {
            assert!(document.lines().any(|line| line.starts_with(&format!("| {row} |"))), "no row '{row}'");
        }
    }
}
