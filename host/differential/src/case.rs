//! One call with all that it is given.

use scenario::{Buffers, Call, Record, Scenario, Step};

#[derive(Clone, Debug)]
pub struct Case {
    pub call: Call,
    /// Ignored by a bring-up.
    pub record: Record,
    pub buffers: Buffers,
    /// Whether the record is as a call returned it, but for the order of its arrays.
    pub genuine: bool,
}

impl Case {
    pub fn new(call: Call, record: &Record, buffers: Buffers) -> Case {
        Case { call, record: record.clone(), buffers, genuine: true }
    }

    pub fn name(&self) -> &'static str {
        match self.call {
            Call::BringUp(_) => "bringup",
            Call::Claim(_) => "claim",
            Call::Ask(_) => "ask",
            Call::Commit(_) => "commit",
            Call::Why(_) => "why",
            Call::Release { .. } => "release",
            Call::SetConfiguration { .. } => "setconfig",
            Call::HubUpdate(_) => "hubupdate",
            Call::Disconnect => "disconnect",
        }
    }

    /// The case as a scenario that a runner can run.
    pub fn scenario(&self, name: &str) -> Scenario {
        let words = self.buffers.routes.iter().copied().enumerate().filter(|w| w.1 != 0);
        let record = match self.call {
            Call::BringUp(_) => None,
            _ => Some(self.record.clone()),
        };
        let step = Step {
            record,
            ctx: self.buffers.ctx.clone(),
            routes: Some(words.collect()),
            routes_len: Some(self.buffers.routes.len()),
            log_len: self.buffers.log.len(),
            outcomes: self.buffers.outcomes.clone(),
            ..Step::new(self.call.clone())
        };
        Scenario { name: name.to_string(), steps: vec![step] }
    }
}
