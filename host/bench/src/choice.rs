//! Choices of settings: lists that make a search long, the steps that it takes, and how these grow.

mod lists;
mod search;

use scenario::{Choice, Chosen, Record, start_clock, stop_clock};

use crate::instructions;
use lists::{Sets, climbed, named};
use search::search;

/// How often a choice is repeated for its time.
const TIMED: u32 = 300;

/// Of the table of growth.
const ADDRESSES: [u32; 9] = [1, 2, 4, 8, 12, 16, 20, 25, 30];

/// The address of a place from 0 to 29: that of the Dci behind it by two, so that both rise alike.
fn address(place: u32) -> u32 {
    let dci = place + 2;
    (dci & 1) << 7 | dci >> 1
}

/// A list of one configuration: interface i has the i-th sets of addresses as its alternates, from 0 on, with bulk endpoints.
fn list(sets: &Sets) -> Vec<u32> {
    let endpoint = |place: u32| 2 << 30 | (address(place) >> 7) << 29 | (address(place) & 15) << 25 | 2 << 23 | 8 << 12;
    let mut list = vec![1 << 22];
    for (interface, alternates) in sets.iter().enumerate() {
        for (alternate, set) in alternates.iter().enumerate() {
            list.push(1 << 30 | (interface as u32) << 22 | (alternate as u32) << 14);
            list.extend((0..30).filter(|place| set >> place & 1 == 1).map(endpoint));
        }
    }
    list
}

/// The choice for all interfaces of a list, in order.
fn choice(sets: &Sets) -> Choice {
    let record = Record {
        usable: true,
        up: true,
        slot: 1,
        n: 1,
        spacing: 32,
        speed: 3,
        control: 16,
        given: vec![16],
        list: list(sets),
        ..Record::default()
    };
    Choice { record, names: (0..sets.len() as u8).collect(), longest: 0 }
}

/// Asks so many times. What was chosen, and nanoseconds for each.
fn repeat(layer: &str, choice: &Choice, times: u32) -> Option<(Chosen, f64)> {
    let functions = runner::functions(layer)?;
    let mut chosen = Chosen::default();
    start_clock();
    for _ in 0..times {
        chosen = choice.ask(&*functions);
    }
    Some((chosen, stop_clock().as_nanos() as f64 / f64::from(times.max(1))))
}

/// Repeats the choice of that name. None: there is none.
pub fn only(layer: &str, name: &str, times: u32) -> Option<Option<()>> {
    let (_, sets) = named().into_iter().find(|(of, _)| of == name)?;
    Some(repeat(layer, &choice(&sets), times).map(drop))
}

/// What the search picks, as the library returns it; the library must have chosen the same.
fn compared(sets: &Sets, chosen: &Chosen) -> u64 {
    let (picked, steps) = search(sets);
    let alternates = picked.as_ref().map(|picks| picks.iter().map(|pick| *pick as u8).collect()).unwrap_or_default();
    let expected = Chosen { number: if picked.is_some() { 0 } else { 30 }, alternates };
    assert_eq!(*chosen, expected, "the library against the search whose steps are counted");
    steps
}

pub fn title() -> String {
    "| list | names | words | answer | steps | instructions | ns |\n|---|---|---|---|---|---|---|\n".to_string()
}

/// The rows of the lists that have names.
pub fn rows() -> impl Iterator<Item = Option<String>> {
    named().into_iter().map(|(name, sets)| {
        let choice = choice(&sets);
        let (chosen, time) = repeat("library", &choice, TIMED)?;
        let steps = compared(&sets, &chosen);
        let counts = instructions("library", &name).map_or("no valgrind".to_string(), |count| count.to_string());
        let (names, words, number) = (sets.len(), choice.record.list.len(), chosen.number);
        Some(format!("| {name} | {names} | {words} | {number} | {steps} | {counts} | {time:.0} |\n"))
    })
}

pub fn growth_title() -> String {
    let cells: Vec<String> = ADDRESSES.iter().map(u32::to_string).collect();
    format!("| names \\ addresses | {} |\n|---{}|\n", cells.join(" | "), "|---".repeat(cells.len()))
}

/// The rows of the table of growth: for so many names and addresses the most steps that were found.
pub fn growth() -> impl Iterator<Item = Option<String>> {
    (1..=8).map(|names| {
        let cell = |addresses: &u32| {
            let sets = climbed(names, *addresses);
            let (chosen, _) = repeat("library", &choice(&sets), 1)?;
            Some(format!(" {} |", compared(&sets, &chosen)))
        };
        let cells: Option<Vec<String>> = ADDRESSES.iter().map(cell).collect();
        Some(format!("| {names} |{}\n", cells?.concat()))
    })
}

#[cfg(test)]
mod tests {
    use super::*;

    /// Every list that has a name is one, and the library chooses as the search does.
    #[test]
    fn lists_are_answered() {
        for (name, sets) in named() {
            let (chosen, _) = repeat("library", &choice(&sets), 1).expect("the library");
            assert!(compared(&sets, &chosen) > 0, "{name}");
            assert!(list(&sets).len() <= 256, "{name}");
            assert_eq!(chosen.number, if name.starts_with("fit") { 0 } else { 30 }, "{name}");
        }
    }

    /// As plain as can be: the first picks, name by name, that have no address in two.
    fn plain(sets: &[Vec<u32>], taken: u32) -> Option<Vec<usize>> {
        let Some((first, rest)) = sets.split_first() else {
            return Some(Vec::new());
        };
        let with = |(place, set): (usize, &u32)| {
            let later = (set & taken == 0).then(|| plain(rest, taken | set))??;
            Some([place].into_iter().chain(later).collect())
        };
        first.iter().enumerate().find_map(with)
    }

    #[test]
    fn the_search_is_the_plain_one() {
        let mut picked = 0;
        for seed in 0..400 {
            let sets = lists::random(&mut lists::Rng(seed), 1 + seed as usize % 4, 1 + seed as u32 % 7, 40);
            let expected = plain(&sets, 0);
            picked += u32::from(expected.is_some());
            assert_eq!(search(&sets).0, expected, "{sets:?}");
        }
        assert!((50..350).contains(&picked), "{picked}");
    }
}
