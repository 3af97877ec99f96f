//! What a call did, for people.

use std::fmt::Write;

use crate::asked_text::{explain_asked, explain_outdated};
use crate::call::*;
use crate::context_text::{explain_changes, explain_flags};
use crate::descriptors::explain_words;
use crate::fault::fault;
use crate::layer::{Layer, Made};
use crate::reason::Named;
use crate::record_text::explain_record;
use crate::session::Left;

/// 01's numbers in words.
pub fn answer(number: u8) -> &'static str {
    match number {
        0 => "accepted",
        1 => "refused: the context has a wrong length",
        2 => "refused: the routes have a wrong length",
        3 => "refused: the log is too short",
        4 => "refused: the descriptor list is not valid",
        5 => "refused: the chain of hubs is not in order",
        6 => "refused: the speed is unknown",
        7 => "refused: the think time has no value",
        8 => "refused, NotFound: there is no such alternate",
        9 => "refused, InvalidParameter: an address is owned by another interface",
        10 => "refused: the rings given do not fit",
        11 => "refused, SlotLimitReached: the slot or the number of slots is out of range",
        12 => "refused: the record is unusable or not sound",
        13 => "failed",
        14 => "InterfaceBroken: what was begun could not be undone",
        15 => "cut: no outcome was left for the last command",
        16 => "failed: the header read has not 8 bytes",
        17 => "refused, QueueFull: the control endpoint's route is taken",
        18 => "failed, InvalidEndpoint: an endpoint's route is not its ring",
        19 => "failed: the packet byte is no exponent of a SuperSpeed size",
        21 => "refused: there are fewer free rings than endpoint words",
        22 => "refused: the ask is outdated",
        23 => "refused: the settings are malformed or not found",
        24 => "refused: the settings are of another configuration than the first",
        25 => "refused: the interface is not claimed",
        26 => "refused: a companion is missing, misplaced or out of range",
        29 => "refused: there are more than eight names",
        30 => "refused: there is no such choice",
        _ => "an answer without a name",
    }
}

/// A command by its log word.
pub fn command(word: u32) -> String {
    let (first, second) = (word >> 20 & 0xFF, word >> 12 & 0xFF);
    match word >> 28 {
        1 => "Address".to_string(),
        2 => "Evaluate".to_string(),
        3 => "Configure".to_string(),
        4 => format!("Stop Dci {first}"),
        5 => format!("Resume Dci {first}"),
        6 => format!("SetInterface {first}, alternate {second}"),
        7 => format!("SetConfiguration {first}"),
        8 => "ReadHeader".to_string(),
        9 => "ReadConfiguration".to_string(),
        10 => "ReadDevice".to_string(),
        11 => format!("ReadConfig {first}"),
        12 => "Disable".to_string(),
        _ => format!("{word:08x}"),
    }
}

pub fn title(call: &Call) -> String {
    match call {
        Call::BringUp(args) => format!("bring-up of slot {} of {}, speed {}", args.slot, args.n, args.speed),
        Call::Claim(args) => format!("claim of interface {}, alternate {}", args.interface, args.alternate),
        Call::Ask(args) => format!("ask for interface {}, alternate {}", args.interface, args.alternate),
        Call::Commit(_) => {
            let Claim { interface, alternate } = call.claimed().unwrap_or_default();
            format!("commit of interface {interface}, alternate {alternate}")
        }
        Call::Release { interface } => format!("release of interface {interface}"),
        Call::SetConfiguration { value } => format!("set configuration {value}"),
        Call::HubUpdate(HubUpdate { ports, multi, think }) => {
            let translators = if *multi { ", several translators" } else { "" };
            format!("hub update: {ports} ports{translators}, think time {think} ns")
        }
        Call::Disconnect => "unplugging".to_string(),
        Call::Why(args) => format!("why: a claim of interface {}, alternate {}", args.interface, args.alternate),
    }
}

/// The context that a command reads: what the same call leaves when it is given only the outcomes before it.
fn context_at(layer: &mut dyn Layer, given: &Given, at: usize) -> Option<Vec<u8>> {
    let mut buffers = given.buffers.clone();
    buffers.outcomes.truncate(at);
    layer.call(given.record, given.call, &mut buffers).ok()?;
    Some(buffers.ctx)
}

/// Each command with its outcome, and with what it reads of the context that no command before it has read.
fn commands(out: &mut String, layer: &mut dyn Layer, given: &Given, left: &Left) {
    const READ_CONTEXT: [u32; 3] = [1, 2, 3];
    // ReadConfiguration, ReadDevice and ReadConfig, of which a driver makes use.
    const READ_DEVICE: [u32; 3] = [9, 10, 11];
    let mut read = given.buffers.ctx.clone();
    for (at, word) in left.log.iter().take(left.answer.count).enumerate() {
        let outcome = match given.buffers.outcomes.get(at) {
            None => "no outcome".to_string(),
            Some(0) => "done".to_string(),
            Some(255) if READ_DEVICE.contains(&(word >> 28)) => {
                "failed, code 255: a driver cannot use what was read".to_string()
            }
            Some(code) => format!("failed, code {code}"),
        };
        let _ = writeln!(out, "  {:>2}. {:<32} {outcome}", at + 1, command(*word));
        if READ_CONTEXT.contains(&(word >> 28))
            && let Some(ctx) = context_at(layer, given, at)
        {
            explain_flags(out, &ctx);
            explain_changes(out, &read, &ctx);
            read = ctx;
        }
    }
}

fn routes(out: &mut String, before: &[u64], after: &[u64]) {
    let changed = before.iter().zip(after).enumerate().filter(|(_, (b, a))| a != b);
    for (index, (was, is)) in changed {
        let _ = writeln!(out, "  route of slot {}, Dci {}: {was:#x} -> {is:#x}", index / 32, index % 32);
    }
}

/// What an accepted ask shows, and why a commit came too late.
fn asked(out: &mut String, layer: &mut dyn Layer, given: &Given, left: &Left) {
    if let Some(Some(asked)) = &left.asked {
        explain_asked(out, given.record, asked);
    }
    if let (22, Call::Commit(asked)) = (left.answer.number, given.call)
        && let Ok((_, Some(now))) = layer.ask(given.record, &given.call.claimed().unwrap_or_default(), given.buffers)
    {
        explain_outdated(out, &asked.clone().unwrap_or_default(), &now);
    }
}

/// The answer in words, and why: of a claim, an ask or a commit the reason that the layer gives.
fn answered(out: &mut String, layer: &mut dyn Layer, given: &Given, left: &Left) {
    let Answer { number, code, .. } = left.answer;
    let _ = write!(out, "  answer {number}: {}", answer(number));
    let _ = if number == 13 { writeln!(out, ", with code {code}") } else { writeln!(out) };
    if let Some(fault) = fault(number, given) {
        let _ = writeln!(out, "    {fault}");
    }
    let Given { call, record, buffers } = *given;
    let is_shown = matches!(call, Call::Ask(_)) && number == 0;
    let made = Made { call, record, buffers, left: &left.record, answer: left.answer, log: &left.log };
    if let Some(claim) = call.claimed().filter(|_| !is_shown)
        && let Ok(reason) = layer.why(&made)
    {
        let named = Named { record, claim: &claim, outcomes: &buffers.outcomes };
        let _ = writeln!(out, "    reason: {}", named.words(reason));
    }
}

/// Why a claim gets its answer: the claim, made on copies, up to its reason.
fn explain_why(out: &mut String, layer: &mut dyn Layer, given: &Given, args: &Claim) {
    let (call, mut buffers) = (Call::Claim(args.clone()), given.buffers.clone());
    let Ok((record, answer)) = layer.call(given.record, &call, &mut buffers) else {
        return;
    };
    let Buffers { ctx, routes: table, log, .. } = buffers;
    let left = Left { answer, record, log, ctx, table, asked: None, reason: None };
    let given = Given { call: &call, ..*given };
    commands(out, layer, &given, &left);
    answered(out, layer, &given, &left);
    out.push('\n');
}

/// What a call was given.
#[derive(Clone, Copy)]
pub struct Given<'a> {
    pub call: &'a Call,
    pub record: &'a Record,
    pub buffers: &'a Buffers,
}

/// What a call did: its commands with their outcomes and what they read of the context, its answer, the routes that
/// changed, and the record it returned. Of a bring-up also the list.
pub fn explain_text(out: &mut String, layer: &mut dyn Layer, given: &Given, left: &Left) {
    let _ = writeln!(out, "{}", title(given.call));
    match given.call {
        Call::Why(args) => return explain_why(out, layer, given, args),
        Call::BringUp(args) => {
            explain_words(out, &args.list);
            if args.list.contains(&0) {
                out.push_str("    (in a printed call the word 0 is a configuration that was not read yet)\n");
            }
        }
        _ => {}
    }
    commands(out, layer, given, left);
    answered(out, layer, given, left);
    asked(out, layer, given, left);
    routes(out, &given.buffers.routes, &left.table);
    explain_record(out, given.call, given.record, &left.record);
    out.push('\n');
}
