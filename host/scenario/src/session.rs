//! Record and route table from call to call.

use crate::call::*;
use crate::layer::{Called, Cannot, Layer};
use crate::memory::filled_words;
use crate::reason::Reason;

/// What a call leaves: its answer, the record, the log and context it was given, the whole table.
#[derive(Clone, Debug, PartialEq, Eq)]
pub struct Left {
    pub answer: Answer,
    pub record: Record,
    pub log: Vec<u32>,
    pub ctx: Vec<u8>,
    pub table: Vec<u64>,
    /// Of an ask: what it returned, if it was accepted.
    pub asked: Option<Option<Asked>>,
    /// Of a why.
    pub reason: Option<Reason>,
}

#[derive(Clone, Debug, Default)]
pub struct Session {
    record: Record,
    /// What the last accepted ask returned.
    asked: Option<Asked>,
    table: Vec<u64>,
    n: u32,
}

impl Session {
    pub fn new() -> Session {
        Session::default()
    }

    /// A step's call, and the record and buffers that it is given. What a why is given no later call is.
    pub fn prepare(&mut self, step: &Step) -> (Call, Record, Buffers) {
        match step.call {
            Call::Why(_) => self.clone().prepared(step),
            _ => self.prepared(step),
        }
    }

    fn prepared(&mut self, step: &Step) -> (Call, Record, Buffers) {
        if let Call::BringUp(args) = &step.call {
            self.n = args.n;
        }
        if let Some(words) = &step.routes {
            self.table.clear();
            for &(index, word) in words {
                self.grow(index + 1);
                self.table[index] = word;
            }
        }
        let routes_len = step.routes_len.unwrap_or(32 * (self.n as usize + 1));
        self.grow(routes_len);
        let record = step.record.as_ref().unwrap_or(&self.record).clone();
        let buffers = Buffers {
            ctx: step.ctx.clone(),
            routes: self.table[..routes_len].to_vec(),
            log: filled_words(step.log_len),
            outcomes: step.outcomes.clone(),
        };
        let call = match &step.call {
            Call::Commit(None) => Call::Commit(self.asked.clone()),
            call => call.clone(),
        };
        (call, record, buffers)
    }

    /// Takes over what a call left.
    pub fn settle(&mut self, call: &Call, called: Called, buffers: Buffers) -> Left {
        let Called { record, answer, asked, reason } = called;
        if reason.is_some() {
            let Buffers { ctx, routes: table, log, .. } = buffers;
            return Left { answer, record, log, ctx, table, asked: None, reason };
        }
        self.table[..buffers.routes.len()].copy_from_slice(&buffers.routes);
        self.record = record.clone();
        if asked.is_some() {
            self.asked.clone_from(&asked);
        }
        let asked = matches!(call, Call::Ask(_)).then_some(asked);
        Left { answer, record, log: buffers.log, ctx: buffers.ctx, table: self.table.clone(), asked, reason }
    }

    pub fn run(&mut self, layer: &mut dyn Layer, step: &Step) -> Result<Left, Cannot> {
        let (call, record, mut buffers) = self.prepare(step);
        let called = layer.called(&record, &call, &mut buffers)?;
        Ok(self.settle(&call, called, buffers))
    }

    pub(crate) fn record(&self) -> &Record {
        &self.record
    }

    /// What the last accepted ask that ran here returned, told once.
    pub(crate) fn last_asked(&mut self) -> Option<Asked> {
        self.asked.take()
    }

    /// The table of all slots, for a call.
    pub(crate) fn lend(&mut self, table: Vec<u64>) {
        self.table = table;
    }

    pub(crate) fn take_back(&mut self) -> Vec<u64> {
        std::mem::take(&mut self.table)
    }

    fn grow(&mut self, len: usize) {
        if self.table.len() < len {
            self.table.resize(len, 0);
        }
    }
}
