//! Whoever answers calls: the proved library, the model, the original.

use crate::call::*;
use crate::reason::Reason;

/// Why a layer gives no answer to a call. The library and the model always answer.
#[derive(Clone, Copy, Debug, PartialEq, Eq, PartialOrd, Ord)]
pub enum Cannot {
    /// The call panics there.
    Panics,
    /// The call does not end there.
    WalksForever,
    /// An argument has no counterpart there.
    NoSuchInput,
}

pub type Outcome = Result<(Record, Answer), Cannot>;

/// What an ask answers and, where it is accepted, returns. The record stays as it came.
pub type Shown = Result<(Answer, Option<Asked>), Cannot>;

/// What a call returns; of an accepted ask also what it shows, and the reason where it is asked for.
#[derive(Clone, Debug, PartialEq, Eq)]
pub struct Called {
    pub record: Record,
    pub answer: Answer,
    pub asked: Option<Asked>,
    pub reason: Option<Reason>,
}

/// A claim, an ask or a commit that was made.
pub struct Made<'a> {
    pub call: &'a Call,
    /// The record and the memory that it was given.
    pub record: &'a Record,
    pub buffers: &'a Buffers,
    /// What it left: its record, its answer, and its log.
    pub left: &'a Record,
    pub answer: Answer,
    pub log: &'a [u32],
}

/// One method for each call. What a call leaves in the buffers it leaves in place.
pub trait Layer {
    fn bring_up(&mut self, args: &BringUp, buffers: &mut Buffers) -> Outcome;
    fn claim(&mut self, record: &Record, args: &Claim, buffers: &mut Buffers) -> Outcome;
    fn ask(&mut self, record: &Record, args: &Claim, buffers: &Buffers) -> Shown;
    fn commit(&mut self, record: &Record, asked: &Asked, buffers: &mut Buffers) -> Outcome;
    fn release(&mut self, record: &Record, interface: u8, buffers: &mut Buffers) -> Outcome;
    fn set_configuration(&mut self, record: &Record, value: u8, buffers: &mut Buffers) -> Outcome;
    fn hub_update(&mut self, record: &Record, args: &HubUpdate, buffers: &mut Buffers) -> Outcome;
    fn disconnect(&mut self, record: &Record, buffers: &mut Buffers) -> Outcome;

    /// Why a claim, an ask or a commit got its answer. Nothing is changed.
    fn why(&mut self, _made: &Made) -> Result<Reason, Cannot> {
        Err(Cannot::NoSuchInput)
    }

    fn called(&mut self, record: &Record, call: &Call, buffers: &mut Buffers) -> Result<Called, Cannot> {
        match call {
            Call::Ask(args) => {
                let (answer, asked) = self.ask(record, args, buffers)?;
                Ok(Called { record: record.clone(), answer, asked, reason: None })
            }
            Call::Why(args) => {
                let (answer, reason) = self.reason(record, args, buffers)?;
                Ok(Called { record: record.clone(), answer, asked: None, reason: Some(reason) })
            }
            _ => {
                let (record, answer) = self.call(record, call, buffers)?;
                Ok(Called { record, answer, asked: None, reason: None })
            }
        }
    }

    /// What a claim would answer, and why. Nothing is changed: it is made on copies.
    fn reason(&mut self, record: &Record, args: &Claim, buffers: &Buffers) -> Result<(Answer, Reason), Cannot> {
        let mut lent = buffers.clone();
        let (left, answer) = self.claim(record, args, &mut lent)?;
        let call = &Call::Claim(args.clone());
        let reason = self.why(&Made { call, record, buffers, left: &left, answer, log: &lent.log })?;
        Ok((answer, reason))
    }

    fn call(&mut self, record: &Record, call: &Call, buffers: &mut Buffers) -> Outcome {
        match call {
            Call::BringUp(args) => self.bring_up(args, buffers),
            Call::Claim(args) => self.claim(record, args, buffers),
            Call::Ask(args) => Ok((record.clone(), self.ask(record, args, buffers)?.0)),
            Call::Why(args) => Ok((record.clone(), self.reason(record, args, buffers)?.0)),
            Call::Commit(asked) => self.commit(record, asked.as_ref().unwrap_or(&Asked::default()), buffers),
            Call::Release { interface } => self.release(record, *interface, buffers),
            Call::SetConfiguration { value } => self.set_configuration(record, *value, buffers),
            Call::HubUpdate(args) => self.hub_update(record, args, buffers),
            Call::Disconnect => self.disconnect(record, buffers),
        }
    }
}
