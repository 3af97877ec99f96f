//! Calls of many slots through a dispatcher: homes with their records, one table, and the calls that wait.

use std::collections::BTreeMap;

use crate::call::{Asked, Call, Record, Step};
use crate::dispatch::Dispatch;
use crate::session::Session;

/// A call that is to wait, and whose it is.
#[derive(Clone, Debug, PartialEq, Eq)]
pub struct Submission {
    /// The slot that a bring-up names; of another call its `on`.
    pub home: u8,
    pub step: Step,
}

/// A line of a scenario with a dispatcher.
#[derive(Clone, Debug, PartialEq, Eq)]
pub enum Line {
    Submit(Submission),
    Turn,
}

#[derive(Clone, Debug, PartialEq, Eq)]
pub struct Dispatched {
    pub name: String,
    pub lines: Vec<Line>,
}

pub struct Desk {
    dispatcher: Box<dyn Dispatch>,
    table: Vec<u64>,
    /// Each home's record, and what its last bring-up said of the table.
    homes: BTreeMap<u8, Session>,
    /// By slot.
    waiting: BTreeMap<u8, Submission>,
    /// What the last accepted ask returned.
    asked: Option<Asked>,
}

/// A call whose turn it is, with the session that it runs in.
pub struct Served {
    pub slot: u8,
    pub home: u8,
    pub session: Session,
    pub step: Step,
}

impl Desk {
    pub fn new(dispatcher: Box<dyn Dispatch>) -> Desk {
        let (homes, waiting) = (BTreeMap::new(), BTreeMap::new());
        Desk { dispatcher, table: Vec::new(), homes, waiting, asked: None }
    }

    /// The record that the last run call of a home returned; before the first that of a refused bring-up.
    pub fn record(&self, home: u8) -> Record {
        self.homes.get(&home).map_or(Record::default(), |session| session.record().clone())
    }

    pub fn table(&self) -> &[u64] {
        &self.table
    }

    /// The call's slot, and what it is told: 0 where it waits. Its record, and what a commit is given, are those of now.
    pub fn submit(&mut self, submission: &Submission) -> (u8, u8) {
        let Submission { home, step } = submission;
        let record = step.record.clone().unwrap_or_else(|| self.record(*home));
        let (slot, record) = match &step.call {
            Call::BringUp(args) => (args.slot, None),
            _ => (record.slot, Some(record)),
        };
        let call = match &step.call {
            Call::Commit(None) => Call::Commit(Some(self.asked.clone().unwrap_or_default())),
            call => call.clone(),
        };
        let number = self.dispatcher.submit(slot);
        if number == 0 {
            let step = Step { call, record, ..step.clone() };
            self.waiting.insert(slot, Submission { home: *home, step });
        }
        (slot, number)
    }

    /// The call whose turn it is. What it leaves is handed back to `ran`.
    pub fn turn(&mut self) -> Option<Served> {
        let slot = self.dispatcher.turn()?;
        let Submission { home, step } = self.waiting.remove(&slot)?;
        let mut session = self.homes.remove(&home).unwrap_or_default();
        session.lend(std::mem::take(&mut self.table));
        Some(Served { slot, home, session, step })
    }

    pub fn ran(&mut self, home: u8, mut session: Session) {
        self.table = session.take_back();
        if let Some(asked) = session.last_asked() {
            self.asked = Some(asked);
        }
        self.homes.insert(home, session);
    }
}
