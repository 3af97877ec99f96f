//! The kind `block`: an endpoint's block, as a part of the input or the output context.

use std::fmt::Write;

use crate::case::{Functions, Kind};
use crate::context_text::{endpoint, explain_block};
use crate::value::{Parsed, Words};
use crate::{print, value};

/// Which of the two contexts is shown.
#[derive(Clone, Copy, Debug, Default, PartialEq, Eq, PartialOrd, Ord)]
pub enum Side {
    #[default]
    Input,
    Output,
}

impl Side {
    fn name(self) -> &'static str {
        match self {
            Side::Input => "input",
            Side::Output => "output",
        }
    }
}

/// An endpoint's block that is asked for, with the contexts that are lent.
#[derive(Clone, Debug, Default, PartialEq, Eq)]
pub struct Block {
    pub input: Vec<u8>,
    pub output: Vec<u8>,
    pub from: Side,
    pub dci: u8,
}

/// The number answered, and the part: where it stands in the context that is shown, and its bytes.
#[derive(Clone, Debug, PartialEq, Eq)]
pub struct Part<'a> {
    pub number: u8,
    pub offset: usize,
    pub bytes: &'a [u8],
}

impl Block {
    pub const NAME: &'static str = "block";

    pub fn shown(&self) -> &[u8] {
        match self.from {
            Side::Input => &self.input,
            Side::Output => &self.output,
        }
    }

    /// The part is the context's own memory, so its address says where it stands.
    pub fn ask(&self, functions: &dyn Functions) -> Part<'_> {
        let (number, bytes) = functions.endpoint_block(&self.input, &self.output, self.from, self.dci);
        let offset = bytes.as_ptr().addr().wrapping_sub(self.shown().as_ptr().addr());
        Part { number, offset: if bytes.is_empty() { 0 } else { offset }, bytes }
    }
}

fn side(text: &str) -> Parsed<Side> {
    match text {
        "input" => Ok(Side::Input),
        "output" => Ok(Side::Output),
        _ => Err(format!("'{text}' is neither input nor output")),
    }
}

impl Kind for Block {
    fn name(&self) -> &'static str {
        Block::NAME
    }

    fn key(&mut self, key: &str, words: &mut Words) -> Parsed<bool> {
        match key {
            "input" => self.input = value::bytes(words)?,
            "output" => self.output = value::bytes(words)?,
            "from" => self.from = side(value::word(words, "the context")?)?,
            "dci" => self.dci = value::number(words)?,
            _ => return Ok(false),
        }
        Ok(true)
    }

    fn keys(&self, out: &mut String) {
        print::bytes(out, "input", &self.input);
        print::bytes(out, "output", &self.output);
        let _ = writeln!(out, "from {}\ndci {}", self.from.name(), self.dci);
    }

    fn number(&self, functions: &dyn Functions) -> u8 {
        self.ask(functions).number
    }

    fn run(&self, functions: &dyn Functions, out: &mut String) {
        let Part { number, offset, bytes } = self.ask(functions);
        let _ = writeln!(out, "answer {number}\npart {offset} {}", bytes.len());
        print::bytes(out, "bytes", bytes);
    }

    fn explain(&self, functions: &dyn Functions, out: &mut String) {
        let Part { number, offset, bytes } = self.ask(functions);
        let (input, output, from) = (self.input.len(), self.output.len(), self.from.name());
        let of = if (1..=31).contains(&self.dci) { endpoint(self.dci.into()) } else { format!("Dci {}", self.dci) };
        let _ = writeln!(out, "the block of {of} in the {from} context; lent: input {input} bytes, output {output}");
        let meaning = match number {
            0 => format!("accepted, {} bytes from byte {offset} on", bytes.len()),
            1 => "refused: lent must be 1056 bytes of input and 1024 of output, or 2112 and 2048".to_string(),
            4 => "refused: a Dci is 1 to 31".to_string(),
            _ => "an answer without a name".to_string(),
        };
        let _ = writeln!(out, "  answer {number}: {meaning}");
        if number == 0 {
            explain_block(out, bytes);
        }
    }
}
