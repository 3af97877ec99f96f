//! Item 14 of 02: one alternate for each interface named, for a wanted polling period. Every combination is tried, one
//! behind the other.

use std::collections::BTreeSet;

use scenario::Record;

use crate::check::{ask, sound};
use crate::context::interval;
use crate::list::{EndpointWord, INTERRUPT, Word, endpoints_from, word};

/// "The panel names up to 8 interfaces."
const MOST_NAMES: usize = 8;

/// Why no choice exists.
#[derive(Clone, Copy, Debug, PartialEq, Eq, PartialOrd, Ord)]
pub enum ChoiceGround {
    /// "An unknown interface has no alternate to choose."
    Unknown,
    /// One of a later configuration: the alternates are "from the first configuration".
    Later,
    /// Each of its alternates has an interrupt endpoint of a longer context interval.
    TooLong,
    /// As before, but for words of the first configuration that lookup would not find.
    NotFound,
    /// Each name has candidates, and any of them have an address "in two interfaces".
    Together,
}

impl ChoiceGround {
    pub const ALL: [ChoiceGround; 5] = [
        ChoiceGround::Unknown,
        ChoiceGround::Later,
        ChoiceGround::TooLong,
        ChoiceGround::NotFound,
        ChoiceGround::Together,
    ];
}

/// An alternate word that is in a list.
struct Alternate {
    interface: u8,
    number: u8,
    words: Vec<EndpointWord>,
    /// Whether it is in the first configuration, and whether lookup finds it.
    first: bool,
    found: bool,
}

impl Alternate {
    /// "Whose interrupt endpoint words all give a context interval no longer."
    fn is_short(&self, speed: u8, longest: u32) -> bool {
        self.words.iter().all(|word| word.kind != INTERRUPT || interval(word, speed) <= longest)
    }

    fn addresses(&self) -> BTreeSet<u8> {
        self.words.iter().map(EndpointWord::address).collect()
    }
}

/// Those of a valid list, in its order.
fn alternates(list: &[u32]) -> Vec<Alternate> {
    let (mut configurations, mut seen, mut alternates) = (0, BTreeSet::new(), Vec::new());
    for (at, w) in list.iter().enumerate() {
        match word(*w) {
            Some(Word::Configuration(_)) => configurations += 1,
            Some(Word::Alternate(interface, number)) => alternates.push(Alternate {
                interface,
                number,
                words: endpoints_from(&list[at + 1..]),
                first: configurations == 1,
                found: seen.insert((interface, number)),
            }),
            _ => {}
        }
    }
    alternates
}

/// What there is to choose from, for each name but repeated ones.
struct Candidates {
    names: Vec<u8>,
    /// Alternates with the addresses that they take, in the order of the list.
    of: Vec<Vec<(u8, BTreeSet<u8>)>>,
}

impl Candidates {
    fn of(alternates: &[Alternate], names: &[u8], speed: u8, longest: u32) -> Candidates {
        let first = |(at, name): &(usize, &u8)| names[..*at].iter().all(|before| before != *name);
        let names: Vec<u8> = names.iter().enumerate().filter(first).map(|(_, name)| *name).collect();
        let counts = |a: &&Alternate| a.first && a.found && a.is_short(speed, longest);
        let of = |name: &u8| {
            let mine = alternates.iter().filter(|a| a.interface == *name).filter(counts);
            mine.map(|a| (a.number, a.addresses())).collect()
        };
        Candidates { of: names.iter().map(of).collect(), names }
    }

    /// "With no address in two interfaces."
    fn is_choice(&self, places: &[usize]) -> bool {
        let mut taken = BTreeSet::new();
        let picked = self.of.iter().zip(places).flat_map(|(of, place)| of[*place].1.iter());
        picked.into_iter().all(|address| taken.insert(*address))
    }

    /// The next combination: the last place that can goes one on, and those behind it begin again.
    fn next(&self, places: &mut [usize]) -> bool {
        for at in (0..places.len()).rev() {
            places[at] += 1;
            if places[at] < self.of[at].len() {
                return true;
            }
            places[at] = 0;
        }
        false
    }

    /// "The earliest in list order, compared by interface as named."
    fn earliest(&self) -> Option<Vec<usize>> {
        let mut places = vec![0; self.of.len()];
        if self.of.iter().any(Vec::is_empty) {
            return None;
        }
        loop {
            if self.is_choice(&places) {
                return Some(places);
            }
            if !self.next(&mut places) {
                return None;
            }
        }
    }

    /// "A repeated name takes one alternate, returned at each of its places."
    fn alternates(&self, names: &[u8], places: &[usize]) -> Vec<u8> {
        let of = |name: &u8| self.names.iter().position(|n| n == name).map(|at| self.of[at][places[at]].0);
        names.iter().filter_map(of).collect()
    }
}

/// Why a name has no candidate.
fn lacks(alternates: &[Alternate], name: u8, speed: u8, longest: u32) -> Option<ChoiceGround> {
    let any = |wanted: &dyn Fn(&Alternate) -> bool| alternates.iter().any(|a| a.interface == name && wanted(a));
    if any(&|a| a.first && a.found && a.is_short(speed, longest)) {
        None
    } else if any(&|a| a.first && a.is_short(speed, longest)) {
        Some(ChoiceGround::NotFound)
    } else if any(&|a| a.first) {
        Some(ChoiceGround::TooLong)
    } else if any(&|_| true) {
        Some(ChoiceGround::Later)
    } else {
        Some(ChoiceGround::Unknown)
    }
}

/// Everything for which no choice exists, of a sound record.
pub fn choice_grounds(record: &Record, names: &[u8], longest: u32) -> BTreeSet<ChoiceGround> {
    let alternates = alternates(&record.list);
    let lacking = names.iter().filter_map(|name| lacks(&alternates, *name, record.speed, longest));
    let mut grounds: BTreeSet<ChoiceGround> = lacking.collect();
    let candidates = Candidates::of(&alternates, names, record.speed, longest);
    if grounds.is_empty() && candidates.earliest().is_none() {
        grounds.insert(ChoiceGround::Together);
    }
    grounds
}

/// "12 comes first. Errors: 29, more than eight names; 30, no such choice exists, and only then, after 29."
pub fn choose(record: &Record, names: &[u8], longest: u32) -> Result<Vec<u8>, u8> {
    ask(record.usable && sound(record), 12)?;
    ask(names.len() <= MOST_NAMES, 29)?;
    let candidates = Candidates::of(&alternates(&record.list), names, record.speed, longest);
    let places = candidates.earliest().ok_or(30u8)?;
    Ok(candidates.alternates(names, &places))
}
