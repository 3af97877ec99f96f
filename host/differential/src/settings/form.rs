//! Both forms of settings, built from pairs. An old form is the pairs' bytes.

/// The bytes of pairs.
pub fn old(pairs: &[(u8, u8)]) -> Vec<u8> {
    pairs.iter().flat_map(|(interface, alternate)| [*interface, *alternate]).collect()
}

/// The new form of an old one.
pub fn new(value: u8, old: &[u8]) -> Vec<u8> {
    counted(value, old.len() / 2, old)
}

/// With another count than there are pairs, of six bits.
pub fn counted(value: u8, count: usize, old: &[u8]) -> Vec<u8> {
    let mut bytes = vec![value, (count << 2) as u8];
    for byte in old {
        *bytes.last_mut().expect("a byte") |= byte >> 6;
        bytes.push(byte << 2);
    }
    bytes
}

/// The alternates of each configuration of a list, with its value.
pub fn configurations(list: &[u32]) -> Vec<(u8, Vec<(u8, u8)>)> {
    let mut found: Vec<(u8, Vec<(u8, u8)>)> = Vec::new();
    for word in list {
        match (word >> 30, found.last_mut()) {
            (0, _) => found.push(((word >> 22) as u8, Vec::new())),
            (1, Some(last)) => last.1.push(((word >> 22) as u8, (word >> 14) as u8)),
            _ => {}
        }
    }
    found
}
