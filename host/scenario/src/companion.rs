//! Where companions do not fit (26), in descriptor words and in descriptor bytes alike.

/// The most that a companion may say.
const MOST_BURST: u32 = 15;
const MOST_MULT: u32 = 2;

/// A word or a descriptor, as far as companions are about it.
#[derive(Clone, Copy)]
pub enum Piece {
    Endpoint { isochronous: bool },
    Companion { burst: u32, mult: u32 },
    Other,
}

impl Piece {
    /// Of a descriptor word.
    pub fn of_word(word: u32) -> Piece {
        match word >> 30 {
            2 => Piece::Endpoint { isochronous: word >> 23 & 3 == 1 },
            3 => Piece::Companion { burst: word >> 26 & 15, mult: word >> 24 & 3 },
            _ => Piece::Other,
        }
    }
}

/// Why a companion does not fit behind what stands before it.
fn behind(before: Option<Piece>, burst: u32, mult: u32) -> Option<String> {
    match before {
        Some(Piece::Endpoint { .. }) if burst > MOST_BURST => {
            Some(format!("its burst is {burst}, and {MOST_BURST} is the most"))
        }
        Some(Piece::Endpoint { isochronous: true }) => (mult > MOST_MULT)
            .then(|| format!("its mult is {mult}, and {MOST_MULT} is the most behind an isochronous endpoint")),
        Some(Piece::Endpoint { isochronous: false }) => {
            (mult > 0).then(|| format!("its mult is {mult}, and only an isochronous endpoint has one"))
        }
        _ => Some("a companion that does not stand directly behind an endpoint".to_string()),
    }
}

fn fault(pieces: &[Piece], at: usize) -> Option<String> {
    match pieces[at] {
        Piece::Endpoint { .. } => match pieces.get(at + 1) {
            Some(Piece::Companion { .. }) => None,
            _ => Some("no companion stands directly behind this endpoint".to_string()),
        },
        Piece::Companion { burst, mult } => behind(at.checked_sub(1).map(|before| pieces[before]), burst, mult),
        Piece::Other => None,
    }
}

/// The first piece with which companions do not fit, and why.
pub fn companion_fault(pieces: &[Piece]) -> Option<(usize, String)> {
    (0..pieces.len()).find_map(|at| Some((at, fault(pieces, at)?)))
}

/// The same of a list of descriptor words, as a line.
pub fn words_fault(list: &[u32]) -> Option<String> {
    let pieces: Vec<Piece> = list.iter().map(|word| Piece::of_word(*word)).collect();
    let (at, what) = companion_fault(&pieces)?;
    Some(format!("word {} of {}, {:08x}: {what}", at + 1, list.len(), list[at]))
}
