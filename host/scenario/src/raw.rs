//! The kinds `rawread` and `rawwrite`: raw configuration descriptors to descriptor words, and back.

use std::fmt::Write;

use crate::case::{Functions, Kind, Reply, explain_reply, room};
use crate::companion::words_fault;
use crate::descriptors::{explain_bytes, explain_words};
use crate::fault::list_fault;
use crate::memory::{filled_bytes, filled_words};
use crate::raw_fault::raw_fault;
use crate::value::{Parsed, Words};
use crate::{print, value};

/// What memory must have room for.
pub const WORDS_ROOM: usize = 256;
pub const BYTES_ROOM: usize = 2304;

#[derive(Clone, Debug, PartialEq, Eq)]
pub struct RawRead {
    pub speed: u8,
    pub bytes: Vec<u8>,
    pub room: usize,
}

#[derive(Clone, Debug, PartialEq, Eq)]
pub struct RawWrite {
    pub speed: u8,
    pub list: Vec<u32>,
    pub room: usize,
}

impl Default for RawRead {
    fn default() -> RawRead {
        RawRead { speed: 0, bytes: Vec::new(), room: WORDS_ROOM }
    }
}

impl Default for RawWrite {
    fn default() -> RawWrite {
        RawWrite { speed: 0, list: Vec::new(), room: BYTES_ROOM }
    }
}

impl RawRead {
    pub const NAME: &'static str = "rawread";

    /// The reply and the memory.
    pub fn ask(&self, functions: &dyn Functions) -> (Reply, Vec<u32>) {
        let mut words = filled_words(self.room);
        let reply = functions.read_descriptors(&self.bytes, self.speed, &mut words);
        (reply, words)
    }
}

impl RawWrite {
    pub const NAME: &'static str = "rawwrite";

    /// The reply and the memory.
    pub fn ask(&self, functions: &dyn Functions) -> (Reply, Vec<u8>) {
        let mut bytes = filled_bytes(self.room);
        let reply = functions.write_descriptors(&self.list, self.speed, &mut bytes);
        (reply, bytes)
    }
}

/// What a 20 of the reader says.
pub const MALFORMED_BYTES: &str = "the bytes are malformed";

/// The answer in words: what was written, what 20 says, or the ground of a 4 or a 26.
fn reply(out: &mut String, reply: Reply, what: &str, malformed: &str, fault: Option<String>) {
    match reply.number {
        20 => _ = writeln!(out, "  answer 20: refused: {malformed}"),
        _ => explain_reply(out, reply, what),
    }
    if let Some(fault) = fault {
        let _ = writeln!(out, "    {fault}");
    }
}

impl Kind for RawRead {
    fn name(&self) -> &'static str {
        RawRead::NAME
    }

    fn key(&mut self, key: &str, words: &mut Words) -> Parsed<bool> {
        match key {
            "speed" => self.speed = value::number(words)?,
            "bytes" => self.bytes = value::bytes(words)?,
            "room" => self.room = value::length(words)?,
            _ => return Ok(false),
        }
        Ok(true)
    }

    fn keys(&self, out: &mut String) {
        let _ = writeln!(out, "speed {}", self.speed);
        print::bytes(out, "bytes", &self.bytes);
        room(out, self.room, WORDS_ROOM);
    }

    fn number(&self, functions: &dyn Functions) -> u8 {
        self.ask(functions).0.number
    }

    fn run(&self, functions: &dyn Functions, out: &mut String) {
        let (Reply { number, count }, words) = self.ask(functions);
        let _ = writeln!(out, "answer {number} {count}");
        print::words(out, "words", &words);
    }

    fn explain(&self, functions: &dyn Functions, out: &mut String) {
        let (replied, words) = self.ask(functions);
        let RawRead { speed, bytes, room } = self;
        let _ = writeln!(out, "{} bytes to words at speed {speed}, room for {room}", bytes.len());
        explain_bytes(out, bytes, *speed);
        reply(out, replied, "words", MALFORMED_BYTES, raw_fault(replied.number, bytes, *speed));
        explain_words(out, &words[..replied.count]);
    }
}

impl Kind for RawWrite {
    fn name(&self) -> &'static str {
        RawWrite::NAME
    }

    fn key(&mut self, key: &str, words: &mut Words) -> Parsed<bool> {
        match key {
            "speed" => self.speed = value::number(words)?,
            "list" => self.list = value::list(words, value::hex32)?,
            "room" => self.room = value::length(words)?,
            _ => return Ok(false),
        }
        Ok(true)
    }

    fn keys(&self, out: &mut String) {
        let _ = writeln!(out, "speed {}", self.speed);
        print::words(out, "list", &self.list);
        room(out, self.room, BYTES_ROOM);
    }

    fn number(&self, functions: &dyn Functions) -> u8 {
        self.ask(functions).0.number
    }

    fn run(&self, functions: &dyn Functions, out: &mut String) {
        let (Reply { number, count }, bytes) = self.ask(functions);
        let _ = writeln!(out, "answer {number} {count}");
        print::bytes(out, "bytes", &bytes);
    }

    fn explain(&self, functions: &dyn Functions, out: &mut String) {
        let (replied, bytes) = self.ask(functions);
        let RawWrite { speed, list, room } = self;
        let _ = writeln!(out, "{} words to bytes at speed {speed}, room for {room}", list.len());
        explain_words(out, list);
        let fault = match replied.number {
            4 => list_fault(list, *speed),
            26 => words_fault(list),
            _ => None,
        };
        reply(out, replied, "bytes", "an endpoint has packets 0", fault);
        explain_bytes(out, &bytes[..replied.count], *speed);
    }
}
