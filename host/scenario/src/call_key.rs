//! A call of a scenario between its name and `go`, or `submit`, from text.

use crate::call::*;
use crate::desk::Submission;
use crate::record_key::record_key;
use crate::value::*;

fn route(text: &str) -> Parsed<(usize, u64)> {
    let (index, value) = split(text, '=')?;
    let index: usize = decimal(index)?;
    if index >= MOST {
        return Err(format!("route {index} is out of range"));
    }
    Ok((index, hex64(value)?))
}

fn routes(words: &mut Words) -> Parsed<Vec<(usize, u64)>> {
    let found = list(words, route)?;
    let mut indices: Vec<usize> = found.iter().map(|r| r.0).collect();
    indices.sort_unstable();
    match indices.windows(2).find(|w| w[0] == w[1]) {
        Some(twice) => Err(format!("route {} is given twice", twice[0])),
        None => Ok(found),
    }
}

/// A call as far as its lines were read.
pub struct Building {
    step: Step,
    seen: Vec<String>,
    record: Record,
    /// Where it goes through a dispatcher: the home of a call on a record.
    home: Option<u8>,
}

impl Building {
    pub fn new(call: Call, dispatched: bool) -> Building {
        let home = dispatched.then_some(0);
        Building { step: Step::new(call), seen: Vec::new(), record: Record::default(), home }
    }

    pub fn line(&mut self, key: &str, words: &mut Words) -> Parsed<()> {
        once(&mut self.seen, key)?;
        if !self.common(key, words)? && !self.argument(key, words)? && !self.of_record(key, words)? {
            return Err(format!("this call has no '{key}'"));
        }
        apart(&self.seen)
    }

    /// A bring-up's home is the slot that it names.
    pub fn submitted(self) -> Parsed<Submission> {
        let on = self.home.unwrap_or(0);
        let step = self.finish()?;
        let home = if let Call::BringUp(args) = &step.call { args.slot } else { on };
        Ok(Submission { home, step })
    }

    fn common(&mut self, key: &str, words: &mut Words) -> Parsed<bool> {
        match key {
            "ctx" => self.step.ctx = bytes(words)?,
            "ctxlen" => self.step.ctx = vec![0; length(words)?],
            "routes" => self.step.routes = Some(routes(words)?),
            "routeslen" => self.step.routes_len = Some(length(words)?),
            "loglen" => self.step.log_len = length(words)?,
            "outcomes" => self.step.outcomes = bytes(words)?,
            _ => return Ok(false),
        }
        Ok(true)
    }

    fn argument(&mut self, key: &str, words: &mut Words) -> Parsed<bool> {
        match &mut self.step.call {
            Call::BringUp(_) if key == "raw" => {
                self.step.raw = Some(bytes(words)?);
                Ok(true)
            }
            Call::BringUp(args) => bring_up(args, key, words),
            Call::Claim(args) | Call::Ask(args) | Call::Why(args) => claim(args, key, words),
            Call::Commit(asked) if key == "asked" => {
                *asked = Some(what_was_asked(words)?);
                Ok(true)
            }
            Call::Release { interface } if key == "interface" => {
                *interface = number(words)?;
                Ok(true)
            }
            Call::SetConfiguration { value } if key == "value" => {
                *value = number(words)?;
                Ok(true)
            }
            Call::HubUpdate(args) => hub_update(args, key, words),
            _ => Ok(false),
        }
    }

    fn of_record(&mut self, key: &str, words: &mut Words) -> Parsed<bool> {
        if matches!(self.step.call, Call::BringUp(_)) {
            return Ok(false);
        }
        if let ("on", Some(home)) = (key, &mut self.home) {
            *home = number(words)?;
            return Ok(true);
        }
        record_key(&mut self.record, key, words)
    }

    pub fn finish(mut self) -> Parsed<Step> {
        let given = |key: &str| self.seen.iter().any(|k| k == key);
        if given("record") {
            self.step.record = Some(self.record);
        } else if let Some(key) = ["reclist", "eps", "held", "quarantined", "given"].iter().find(|k| given(k)) {
            return Err(format!("'{key}' is given without 'record'"));
        }
        Ok(self.step)
    }
}

/// Of two keys that say the same thing a call has one.
fn apart(seen: &[String]) -> Parsed<()> {
    let given = |key: &&str| seen.iter().any(|k| k == key);
    match [["ctx", "ctxlen"], ["list", "raw"]].iter().find(|pair| pair.iter().all(given)) {
        Some([one, other]) => Err(format!("'{one}' and '{other}' are both given")),
        None => Ok(()),
    }
}

fn bring_up(args: &mut BringUp, key: &str, words: &mut Words) -> Parsed<bool> {
    match key {
        "slot" => args.slot = number(words)?,
        "n" => args.n = u32::from(number::<u16>(words)?),
        "speed" => args.speed = number(words)?,
        "parent" => {
            args.has_parent = flag(word(words, "the has-parent flag")?)?;
            args.parent = number(words)?;
        }
        "port" => args.port = number(words)?,
        "rootport" => args.root_port = number(words)?,
        "rings" => args.rings = list(words, decimal)?,
        "header" => {
            args.header = number(words)?;
            args.packet = number(words)?;
        }
        "config" => args.config = number(words)?,
        "list" => args.list = list(words, hex32)?,
        "hubs" => args.hubs = list(words, hex64)?,
        _ => return Ok(false),
    }
    Ok(true)
}

fn claim(args: &mut Claim, key: &str, words: &mut Words) -> Parsed<bool> {
    match key {
        "interface" => args.interface = number(words)?,
        "alternate" => args.alternate = number(words)?,
        _ => return Ok(false),
    }
    Ok(true)
}

fn what_was_asked(words: &mut Words) -> Parsed<Asked> {
    Ok(Asked {
        interface: number(words)?,
        alternate: number(words)?,
        drops: hex32(word(words, "the word of drop flags")?)?,
        adds: hex32(word(words, "the word of add flags")?)?,
        rings: list(words, hex64)?,
    })
}

fn hub_update(args: &mut HubUpdate, key: &str, words: &mut Words) -> Parsed<bool> {
    match key {
        "ports" => args.ports = number(words)?,
        "multi" => args.multi = flag(word(words, "the multi flag")?)?,
        "think" => args.think = number(words)?,
        _ => return Ok(false),
    }
    Ok(true)
}

/// A call by its name, given nothing yet.
pub fn named(key: &str) -> Option<Call> {
    Some(match key {
        "bringup" => Call::BringUp(BringUp::default()),
        "claim" => Call::Claim(Claim::default()),
        "ask" => Call::Ask(Claim::default()),
        "commit" => Call::Commit(None),
        "why" => Call::Why(Claim::default()),
        "release" => Call::Release { interface: 0 },
        "setconfig" => Call::SetConfiguration { value: 0 },
        "hubupdate" => Call::HubUpdate(HubUpdate::default()),
        "disconnect" => Call::Disconnect,
        _ => return None,
    })
}
