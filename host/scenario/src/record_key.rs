//! A record that a call or a case is given, from text.

use crate::call::*;
use crate::value::*;

fn list_within<T>(words: &mut Words, room: usize, each: impl Fn(&str) -> Parsed<T>) -> Parsed<Vec<T>> {
    let found = list(words, each)?;
    if found.len() > room {
        return Err(format!("a record has room for {room} of these"));
    }
    Ok(found)
}

fn lifecycle(text: &str) -> Parsed<bool> {
    match text {
        "active" => Ok(true),
        "revoked" => Ok(false),
        _ => Err(format!("'{text}' is neither active nor revoked")),
    }
}

fn endpoint(text: &str) -> Parsed<Endpoint> {
    let (address, rest) = split(text, ':')?;
    let (ring, rest) = split(rest, ':')?;
    let (owner, state) = split(rest, ':')?;
    Ok(Endpoint {
        address: hex(address, 2)? as u8,
        ring: hex64(ring)?,
        owner: decimal(owner)?,
        active: lifecycle(state)?,
    })
}

fn setting(text: &str) -> Parsed<(u8, u8)> {
    let (interface, alternate) = split(text, ':')?;
    Ok((decimal(interface)?, decimal(alternate)?))
}

/// Takes one field of a record, and gives its name.
fn record_field<'a>(record: &mut Record, text: &'a str) -> Parsed<&'a str> {
    let (name, value) = split(text, '=')?;
    match name {
        "usable" => record.usable = flag(value)?,
        "up" => record.up = flag(value)?,
        "slot" => record.slot = decimal(value)?,
        "n" => record.n = decimal(value)?,
        "spacing" => record.spacing = decimal(value)?,
        "speed" => record.speed = decimal(value)?,
        "config" if value == "NONE" => record.config = None,
        "config" => record.config = Some(decimal(value)?),
        "control" => {
            let (ring, state) = split(value, '/')?;
            record.control = hex64(ring)?;
            record.control_revoked = !lifecycle(state)?;
        }
        _ => return Err(format!("a record has no '{name}'")),
    }
    Ok(name)
}

/// The line `record`.
fn record_line(record: &mut Record, words: &mut Words) -> Parsed<()> {
    let mut given = Vec::new();
    for text in words.by_ref() {
        let name = record_field(record, text)?;
        if given.contains(&name) {
            return Err(format!("'{name}' is given twice"));
        }
        given.push(name);
    }
    if !given.contains(&"up") {
        record.up = record.usable;
    }
    if record.usable && !record.up {
        return Err("a usable record is up".to_string());
    }
    Ok(())
}

/// Takes the values of a key of a record. False: there is no such key.
pub fn record_key(record: &mut Record, key: &str, words: &mut Words) -> Parsed<bool> {
    match key {
        "record" => record_line(record, words)?,
        "reclist" => record.list = list_within(words, LIST_ROOM, hex32)?,
        "eps" => record.endpoints = list_within(words, ENDPOINT_ROOM, endpoint)?,
        "held" => record.held = list_within(words, HELD_ROOM, setting)?,
        "quarantined" => record.quarantined = list_within(words, QUARANTINE_ROOM, hex64)?,
        "given" => record.given = list_within(words, GIVEN_ROOM, hex64)?,
        _ => return Ok(false),
    }
    Ok(true)
}
