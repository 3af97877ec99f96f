//! Descriptor words, and descriptor bytes (USB 2.0, section 9.6; companions: USB 3.2, section 9.6), for people.

use std::fmt::Write;

const TYPES: [&str; 4] = ["control", "isochronous", "bulk", "interrupt"];

pub const CONFIGURATION: u8 = 2;
pub const INTERFACE: u8 = 4;
pub const ENDPOINT: u8 = 5;
pub const COMPANION: u8 = 48;

/// Whether a descriptor is read as an endpoint's companion.
pub fn is_companion(kind: u8, speed: u8) -> bool {
    kind == COMPANION && matches!(speed, 4 | 5)
}

/// `packets` per microframe, of which bytes may say 4.
fn endpoint(address: u8, kind: u32, size: u32, packets: u32, interval: u8) -> String {
    let way = if address & 0x80 != 0 { "IN" } else { "OUT" };
    let kind = TYPES[kind as usize & 3];
    let too_many = if packets > 3 { " (at most 3)" } else { "" };
    format!("endpoint {address:02x}, {way}, {kind}, size {size}, packets {packets}{too_many}, interval {interval}")
}

fn companion(burst: u32, mult: u32, bytes: u32) -> String {
    format!("companion, burst {burst}, mult {mult}, bytes per interval {bytes}")
}

fn word_line(word: u32) -> String {
    let bits = |low: u32, width: u32| word >> low & ((1 << width) - 1);
    let (line, unused) = match word >> 30 {
        0 => (format!("configuration {}", bits(22, 8)), 22),
        1 => (format!("  interface {}, alternate {}", bits(22, 8), bits(14, 8)), 14),
        2 => {
            let address = (bits(29, 1) << 7 | bits(25, 4)) as u8;
            (format!("    {}", endpoint(address, bits(23, 2), bits(12, 11), bits(10, 2), bits(2, 8) as u8)), 2)
        }
        _ => (format!("      {}", companion(bits(26, 4), bits(24, 2), bits(8, 16))), 8),
    };
    match bits(0, unused) {
        0 => line,
        rest => format!("{line}, unused bits {rest:x}"),
    }
}

/// An endpoint word, as a line of the list has it.
pub fn endpoint_text(word: u32) -> String {
    word_line(word).trim_start().to_string()
}

/// A list of descriptor words, a line each.
pub fn explain_words(out: &mut String, list: &[u32]) {
    for word in list {
        let _ = writeln!(out, "    {}", word_line(*word));
    }
}

/// A descriptor, and the byte at which it begins.
pub struct Descriptor<'a> {
    pub at: usize,
    pub bytes: &'a [u8],
}

impl Descriptor<'_> {
    pub fn kind(&self) -> u8 {
        self.bytes[1]
    }

    pub fn field(&self, at: usize) -> u32 {
        u16::from_le_bytes([self.bytes[at], self.bytes[at + 1]]).into()
    }
}

fn least_length(kind: u8, speed: u8) -> usize {
    match kind {
        CONFIGURATION | INTERFACE => 9,
        ENDPOINT => 7,
        _ if is_companion(kind, speed) => 6,
        _ => 2,
    }
}

/// Bytes as descriptors, one behind another.
pub struct Walk<'a> {
    pub found: Vec<Descriptor<'a>>,
    /// What ends them before the end of the bytes.
    broken: Option<String>,
    len: usize,
    speed: u8,
}

impl Walk<'_> {
    pub fn of(bytes: &[u8], speed: u8) -> Walk<'_> {
        let mut walk = Walk { found: Vec::new(), broken: None, len: bytes.len(), speed };
        while walk.broken.is_none() && walk.at() < bytes.len() {
            match first(&bytes[walk.at()..], speed) {
                Ok(inside) => walk.found.push(Descriptor { at: walk.at(), bytes: inside }),
                Err(broken) => walk.broken = Some(broken),
            }
        }
        walk
    }

    /// Where the descriptors found end.
    fn at(&self) -> usize {
        self.found.last().map_or(0, |last| last.at + last.bytes.len())
    }

    /// A number that a descriptor says, and beside it the one that the bytes bear out, if it is another.
    fn said(&self, said: u32, borne_out: usize) -> String {
        if self.broken.is_some() || said as usize == borne_out {
            return said.to_string();
        }
        format!("{said} (should be {borne_out})")
    }

    /// The descriptors behind one, up to the next of these types or the end.
    fn inside(&self, place: usize, until: &[u8]) -> &[Descriptor<'_>] {
        let behind = &self.found[place + 1..];
        let end = behind.iter().position(|d| until.contains(&d.kind())).unwrap_or(behind.len());
        &behind[..end]
    }

    fn configuration(&self, place: usize) -> String {
        let this = &self.found[place];
        let inside = self.inside(place, &[CONFIGURATION]);
        let mut interfaces: Vec<u8> = inside.iter().filter(|d| d.kind() == INTERFACE).map(|d| d.bytes[2]).collect();
        interfaces.sort();
        interfaces.dedup();
        let end = self.found.get(place + 1 + inside.len()).map_or(self.len, |next| next.at);
        let total = self.said(this.field(2), end - this.at);
        let count = self.said(this.bytes[4].into(), interfaces.len());
        format!("configuration {}, total length {total}, interfaces {count}", this.bytes[5])
    }

    fn interface(&self, place: usize) -> String {
        let bytes = self.found[place].bytes;
        let inside = self.inside(place, &[CONFIGURATION, INTERFACE]);
        let count = self.said(bytes[4].into(), inside.iter().filter(|d| d.kind() == ENDPOINT).count());
        format!("  interface {}, alternate {}, endpoints {count}", bytes[2], bytes[3])
    }

    fn line(&self, place: usize) -> String {
        let this = &self.found[place];
        let bytes = this.bytes;
        match this.kind() {
            CONFIGURATION => self.configuration(place),
            INTERFACE => self.interface(place),
            ENDPOINT => {
                let (kind, field) = (u32::from(bytes[3] & 3), this.field(4));
                format!("    {}", endpoint(bytes[2] & 0x8F, kind, field & 0x7FF, (field >> 11 & 3) + 1, bytes[6]))
            }
            kind if is_companion(kind, self.speed) => {
                format!("      {}", companion(bytes[2].into(), u32::from(bytes[3] & 3), this.field(4)))
            }
            kind => format!("type {kind}, {} bytes", bytes.len()),
        }
    }
}

/// The first descriptor of bytes, or why there is none.
fn first(bytes: &[u8], speed: u8) -> Result<&[u8], String> {
    let &[length, kind, ..] = bytes else {
        return Err("one byte, without a type".to_string());
    };
    let least = least_length(kind, speed);
    match bytes.get(..usize::from(length)) {
        None => Err(format!("type {kind}, length {length}: past the end")),
        Some(inside) if inside.len() < least => Err(format!("type {kind}, length {length}: less than {least}")),
        Some(inside) => Ok(inside),
    }
}

/// Descriptor bytes, a line for each descriptor with the byte at which it begins.
pub fn explain_bytes(out: &mut String, bytes: &[u8], speed: u8) {
    let walk = Walk::of(bytes, speed);
    for (place, descriptor) in walk.found.iter().enumerate() {
        let _ = writeln!(out, "    {:>5}  {}", descriptor.at, walk.line(place));
    }
    if let Some(broken) = &walk.broken {
        let _ = writeln!(out, "    {:>5}  {broken}", walk.at());
    }
}
