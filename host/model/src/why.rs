//! Item 9 of 02: why a claim got its answer. The reason is that of the condition which is met first, or of the command
//! which failed first in the course; what the claim answered is not looked at.

use scenario::{Asked, Buffers, Call, Claim, Reason, Record};

use crate::check::{self, ask_of};
use crate::course::Course;
use crate::list::lookup;

/// "The missing alternate, the first endpoint word with its owner, the ring check, or the first failed command with its
/// place in the log." Of an ask there is no command, and before a commit's there is 22.
pub fn why(call: &Call, record: &Record, buffers: &Buffers) -> Reason {
    let claim = call.claimed().unwrap_or_default();
    if let Some(reason) = unmet(record, &claim, buffers) {
        return reason;
    }
    match call {
        Call::Ask(_) => Reason::Nothing,
        Call::Commit(asked) if *asked.as_ref().unwrap_or(&Asked::default()) != now(record, &claim) => {
            Reason::Number(22)
        }
        _ => ended(record, &claim, buffers),
    }
}

/// What an ask would return now.
fn now(record: &Record, claim: &Claim) -> Asked {
    ask_of(record, claim.interface, claim.alternate)
}

/// The first condition of the claim that is not met.
fn unmet(record: &Record, claim: &Claim, buffers: &Buffers) -> Option<Reason> {
    let Claim { interface, alternate } = *claim;
    if let Err(number) = check::record(record, buffers) {
        return Some(Reason::Number(number));
    }
    let Some(words) = lookup(&record.list, interface, alternate) else {
        return Some(Reason::Alternate { interface, alternate });
    };
    for endpoint in &words {
        let address = endpoint.address();
        if let Some(owned) = record.endpoints.iter().find(|e| e.address == address && e.owner != interface) {
            return Some(Reason::Endpoint { word: endpoint.word, owner: owned.owner });
        }
    }
    (record.free().len() < words.len()).then_some(Reason::Rings)
}

/// The first command that failed, of a claim that is neither accepted nor cut.
fn ended(record: &Record, claim: &Claim, buffers: &Buffers) -> Reason {
    let mut lent = buffers.clone();
    let mut course = Course::new(record.clone(), &mut lent);
    let end = course.claim(claim);
    match (end.err(), course.first_failed) {
        (None, _) => Reason::Nothing,
        (Some(end), Some((place, word))) if end.number == 13 || end.number == 14 => Reason::Command { place, word },
        (Some(end), _) => Reason::Number(end.number),
    }
}
