//! Values in a line of text.

use std::str::SplitWhitespace;

/// Words of a line after its key.
pub type Words<'a> = SplitWhitespace<'a>;
pub type Parsed<T> = Result<T, String>;

/// The most words or bytes of memory that a call or a case may be given, so that a slip of the pen asks for no gigabytes.
pub const MOST: usize = 1 << 24;

/// What a hexadecimal number may begin with, and begins with where a decimal one might stand.
const MARK: &str = "0x";

pub fn word<'a>(words: &mut Words<'a>, what: &str) -> Parsed<&'a str> {
    words.next().ok_or_else(|| format!("{what} is missing"))
}

/// A number of at most so many digits.
fn digits(text: &str, radix: u32, most: usize) -> Option<u64> {
    let fits = (1..=most).contains(&text.len()) && text.chars().all(|c| c.is_digit(radix));
    u64::from_str_radix(text, radix).ok().filter(|_| fits)
}

/// A decimal number, or a hexadecimal one with its mark.
pub fn decimal<T: TryFrom<u64>>(text: &str) -> Parsed<T> {
    let (value, kind) = match text.strip_prefix(MARK) {
        Some(rest) => (digits(rest, 16, 16), "hexadecimal"),
        None => (digits(text, 10, text.len()), "decimal"),
    };
    value.and_then(|v| T::try_from(v).ok()).ok_or_else(|| format!("'{text}' is not a {kind} number, or out of range"))
}

/// A hexadecimal number, with its mark or without.
pub fn hex(text: &str, most: usize) -> Parsed<u64> {
    digits(text.strip_prefix(MARK).unwrap_or(text), 16, most)
        .ok_or_else(|| format!("'{text}' is not a hexadecimal number of at most {most} digits"))
}

pub fn number<T: TryFrom<u64>>(words: &mut Words) -> Parsed<T> {
    decimal(word(words, "a number")?)
}

pub fn flag(text: &str) -> Parsed<bool> {
    match text.strip_prefix(MARK).unwrap_or(text) {
        "0" => Ok(false),
        "1" => Ok(true),
        _ => Err(format!("'{text}' is neither 0 nor 1")),
    }
}

pub fn length(words: &mut Words) -> Parsed<usize> {
    let len: usize = number(words)?;
    if len > MOST {
        return Err(format!("{len} is more than {MOST}"));
    }
    Ok(len)
}

/// Bytes that stand together, of two digits each.
fn group(text: &str) -> Option<Vec<u8>> {
    let (pairs, rest) = text.as_bytes().as_chunks::<2>();
    let digit = |b: u8| (b as char).to_digit(16).map(|digit| digit as u8);
    let byte = |pair: &[u8; 2]| Some(digit(pair[0])? << 4 | digit(pair[1])?);
    if rest.is_empty() { pairs.iter().map(byte).collect() } else { None }
}

/// Bytes, with blanks and colons between them where wanted.
pub fn bytes(words: &mut Words) -> Parsed<Vec<u8>> {
    let mut found = Vec::new();
    for text in words.by_ref().flat_map(|word| word.split(':')) {
        let bytes = match text.strip_prefix(MARK) {
            Some("") => None,
            Some(rest) => group(rest),
            None => group(text),
        };
        found.extend(bytes.ok_or("bytes are two hexadecimal digits each")?);
    }
    Ok(found)
}

pub fn list<T>(words: &mut Words, each: impl Fn(&str) -> Parsed<T>) -> Parsed<Vec<T>> {
    words.by_ref().map(each).collect()
}

pub fn hex32(text: &str) -> Parsed<u32> {
    hex(text, 8).map(|v| v as u32)
}

pub fn hex64(text: &str) -> Parsed<u64> {
    hex(text, 16)
}

pub fn split(text: &str, at: char) -> Parsed<(&str, &str)> {
    text.split_once(at).ok_or_else(|| format!("'{text}' has no '{at}'"))
}

/// Notes the key of a line; a call or a case has each key once.
pub fn once(seen: &mut Vec<String>, key: &str) -> Parsed<()> {
    if seen.iter().any(|k| k == key) {
        return Err(format!("'{key}' is given twice"));
    }
    seen.push(key.to_string());
    Ok(())
}
