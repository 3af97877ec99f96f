//! A bring-up's list from raw configuration descriptors.

use std::fmt::Write;

use crate::call::{Call, Step};
use crate::case::{Functions, Reply};
use crate::descriptors::explain_bytes;
use crate::explain;
use crate::raw::{MALFORMED_BYTES, RawRead};
use crate::raw_fault::raw_fault;

impl Step {
    /// Reads its raw descriptors, where it has them, into its list, at the bring-up's speed. Err: what they are refused
    /// with; then the call cannot be made.
    pub fn read_raw(&mut self, functions: &dyn Functions) -> Result<(), u8> {
        let (Call::BringUp(args), Some(bytes)) = (&mut self.call, &self.raw) else {
            return Ok(());
        };
        let read = RawRead { speed: args.speed, bytes: bytes.clone(), ..RawRead::default() };
        let (Reply { number, count }, mut words) = read.ask(functions);
        if number != 0 {
            return Err(number);
        }
        words.truncate(count);
        args.list = words;
        self.raw = None;
        Ok(())
    }
}

/// What is printed in place of a call whose raw descriptors are refused.
pub fn no_call_text(out: &mut String, number: u8) {
    let _ = writeln!(out, "no call: raw descriptors refused with {number}\n.");
}

/// The same for people.
pub fn explain_no_call(out: &mut String, step: &Step, number: u8) {
    let _ = writeln!(out, "{}", explain::title(&step.call));
    let (Call::BringUp(args), Some(bytes)) = (&step.call, &step.raw) else {
        return;
    };
    explain_bytes(out, bytes, args.speed);
    let why = match number {
        20 => MALFORMED_BYTES,
        _ => explain::answer(number).trim_start_matches("refused: "),
    };
    let _ = writeln!(out, "  no call: raw descriptors refused with {number}: {why}");
    if let Some(fault) = raw_fault(number, bytes, args.speed) {
        let _ = writeln!(out, "    {fault}");
    }
    out.push('\n');
}
