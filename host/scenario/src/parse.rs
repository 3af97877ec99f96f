//! Scenarios and cases from text, a line at a time.

use std::mem;

use crate::call::*;
use crate::call_key::{Building, named};
use crate::case::{Case, kind};
use crate::desk::{Dispatched, Line, Submission};
use crate::value::*;

/// The first line that is not of the form, counted from 1.
#[derive(Clone, Debug, PartialEq, Eq)]
pub struct Malformed {
    pub line: usize,
    pub message: String,
}

impl Malformed {
    /// As a message about a file.
    pub fn in_file(&self, file: &str) -> String {
        format!("{file}:{}: {}", self.line, self.message)
    }
}

/// What a line completes.
#[derive(Debug)]
pub enum Event {
    Begin(String),
    Call(Box<Step>),
    /// The scenario's calls go through a new dispatcher.
    Dispatcher,
    Submit(Box<Submission>),
    Turn,
    End,
    Case(Case),
}

/// A case after its kind.
struct Asking {
    case: Case,
    seen: Vec<String>,
}

impl Asking {
    fn line(&mut self, key: &str, words: &mut Words) -> Parsed<()> {
        if !self.case.kind.repeats() {
            once(&mut self.seen, key)?;
        }
        if ["scenario", "case", "end"].contains(&key) {
            return Err("the case before this line has no 'go'".to_string());
        }
        if !self.case.kind.key(key, words)? {
            return Err(format!("'{}' has no '{key}'", self.case.kind.name()));
        }
        Ok(())
    }
}

/// How a scenario's calls are run.
#[derive(Clone, Copy, PartialEq, Eq)]
enum Mode {
    /// Its first line decides.
    Begun,
    Plain,
    Dispatched,
}

impl Mode {
    fn decided(self) -> Mode {
        if self == Mode::Begun { Mode::Plain } else { self }
    }
}

/// Where a line stands.
#[derive(Default)]
enum Place {
    #[default]
    Outside,
    /// In a scenario, between calls.
    Between(Mode),
    Call(Box<Building>, Mode),
    /// In a case of this name, before its kind.
    Case(String),
    Kind(Asking),
}

/// Reads lines one after another.
#[derive(Default)]
pub struct Reader {
    line: usize,
    place: Place,
}

impl Reader {
    pub fn new() -> Reader {
        Reader::default()
    }

    pub fn line(&mut self, text: &str) -> Result<Option<Event>, Malformed> {
        self.line += 1;
        self.take(text).map_err(|message| self.malformed(message))
    }

    /// Call after the last line: what was begun must have ended.
    pub fn finish(&self) -> Result<(), Malformed> {
        let message = match self.place {
            Place::Outside => return Ok(()),
            Place::Between(_) | Place::Call(..) => "the scenario has no 'end'",
            Place::Case(_) | Place::Kind(_) => "the case has no 'go'",
        };
        Err(self.malformed(message.to_string()))
    }

    /// What is wrong with the line read last, or with a file of no lines.
    pub fn malformed(&self, message: String) -> Malformed {
        Malformed { line: self.line.max(1), message }
    }

    fn take(&mut self, text: &str) -> Parsed<Option<Event>> {
        let content = text.split('#').next().unwrap_or("");
        let mut words = content.split_whitespace();
        let Some(key) = words.next() else {
            return Ok(None);
        };
        let (place, event) = next(mem::take(&mut self.place), key, &mut words)?;
        self.place = place;
        match words.next() {
            Some(rest) => Err(format!("'{rest}' is too much")),
            None => Ok(event),
        }
    }
}

/// Where the line after this one stands, and what this one completes.
fn next(place: Place, key: &str, words: &mut Words) -> Parsed<(Place, Option<Event>)> {
    Ok(match (place, key) {
        (Place::Outside, "scenario") => (Place::Between(Mode::Begun), Some(Event::Begin(name(words)?))),
        (Place::Outside, "case") => (Place::Case(name(words)?), None),
        (Place::Outside, _) => return Err(format!("'{key}' stands outside a scenario or a case")),
        (Place::Between(_), "end") => (Place::Outside, Some(Event::End)),
        (Place::Between(Mode::Begun), "dispatcher") => (Place::Between(Mode::Dispatched), Some(Event::Dispatcher)),
        (Place::Between(Mode::Dispatched), "turn") => (Place::Between(Mode::Dispatched), Some(Event::Turn)),
        (Place::Between(mode), _) => {
            let (call, mode) = (named(key).ok_or_else(|| no_call(key))?, mode.decided());
            (Place::Call(Box::new(Building::new(call, mode == Mode::Dispatched)), mode), None)
        }
        (Place::Call(building, Mode::Dispatched), "submit") => {
            (Place::Between(Mode::Dispatched), Some(Event::Submit(Box::new(building.submitted()?))))
        }
        (Place::Call(building, mode @ Mode::Plain), "go") => {
            (Place::Between(mode), Some(Event::Call(Box::new(building.finish()?))))
        }
        (Place::Call(mut building, mode), _) => {
            building.line(key, words).map_err(|message| no_end(key, mode).unwrap_or(message))?;
            (Place::Call(building, mode), None)
        }
        (Place::Case(name), _) => {
            let kind = kind(key).ok_or_else(|| format!("there is no kind of case '{key}'"))?;
            (Place::Kind(Asking { case: Case { name, kind }, seen: Vec::new() }), None)
        }
        (Place::Kind(asking), "go") => (Place::Outside, Some(Event::Case(asking.case))),
        (Place::Kind(mut asking), _) => {
            asking.line(key, words)?;
            (Place::Kind(asking), None)
        }
    })
}

/// What is wrong with a line that should begin a call.
fn no_call(key: &str) -> String {
    match key {
        "scenario" | "case" => "the scenario before this line has no 'end'".to_string(),
        "turn" | "dispatcher" => "a scenario with turns has 'dispatcher' as its first line".to_string(),
        _ => format!("there is no call '{key}'"),
    }
}

/// What is wrong where a key of a call should stand, and something begins or ends.
fn no_end(key: &str, mode: Mode) -> Option<String> {
    let end = if mode == Mode::Dispatched { "submit" } else { "go" };
    let other = ["scenario", "case", "end", "go", "submit", "turn"].contains(&key) || named(key).is_some();
    other.then(|| format!("the call before this line has no '{end}'"))
}

/// A name of one word or more.
fn name(words: &mut Words) -> Parsed<String> {
    let first = word(words, "the name")?.to_string();
    Ok(words.fold(first, |name, next| name + " " + next))
}

/// What a text holds.
#[derive(Debug, Default)]
pub struct Contents {
    pub scenarios: Vec<Scenario>,
    /// Those with a dispatcher.
    pub dispatched: Vec<Dispatched>,
    pub cases: Vec<Case>,
}

impl Contents {
    /// The scenario begun last goes through a dispatcher.
    fn dispatch(&mut self) {
        if let Some(Scenario { name, .. }) = self.scenarios.pop() {
            self.dispatched.push(Dispatched { name, lines: Vec::new() });
        }
    }

    fn line(&mut self, line: Line) {
        if let Some(scenario) = self.dispatched.last_mut() {
            scenario.lines.push(line);
        }
    }
}

pub fn parse(text: &str) -> Result<Contents, Malformed> {
    let mut reader = Reader::new();
    let mut contents = Contents::default();
    for line in text.lines() {
        match reader.line(line)? {
            Some(Event::Begin(name)) => contents.scenarios.push(Scenario { name, steps: Vec::new() }),
            Some(Event::Call(step)) => {
                if let Some(scenario) = contents.scenarios.last_mut() {
                    scenario.steps.push(*step);
                }
            }
            Some(Event::Dispatcher) => contents.dispatch(),
            Some(Event::Submit(submission)) => contents.line(Line::Submit(*submission)),
            Some(Event::Turn) => contents.line(Line::Turn),
            Some(Event::Case(case)) => contents.cases.push(case),
            Some(Event::End) | None => {}
        }
    }
    reader.finish()?;
    Ok(contents)
}
