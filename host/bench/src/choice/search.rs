//! The library's search (crates/choice_search) once more, with a count of its steps.

use crate::choice::lists::Sets;

/// Beyond so many steps it gives up.
const MOST: u64 = 1_000_000_000;

/// How many blames of a name's candidates are remembered.
const REMEMBERED: usize = 16;

/// An alternate by its number, with the place of its word in the list and the set of its addresses.
#[derive(Clone, Copy)]
struct Candidate {
    number: usize,
    place: usize,
    set: u32,
}

/// For each name the number of its alternate; if none can be picked, addresses that are to blame: wherever these are taken,
/// none can.
type Picked = Result<Vec<usize>, u32>;

/// One step: a candidate is looked at.
fn pick(names: &[Vec<Candidate>], taken: u32, steps: &mut u64) -> Picked {
    let Some((first, rest)) = names.split_first() else {
        return Ok(Vec::new());
    };
    let mut blame = 0;
    // What was to blame where the rest failed after an earlier candidate.
    let mut blames = [0; REMEMBERED];
    for Candidate { number, place, set } in first.iter().copied() {
        *steps += 1;
        assert!(*steps < MOST, "a search without an end");
        let clash = set & taken;
        if clash != 0 {
            blame |= clash & clash.wrapping_neg();
            continue;
        }
        let with = taken | set;
        if let Some(before) = blames.iter().find(|before| **before != 0 && **before | with == with) {
            blame |= before & taken;
            continue;
        }
        match pick(rest, with, steps) {
            Ok(mut numbers) => {
                numbers.insert(0, number);
                return Ok(numbers);
            }
            Err(later) if later & set == 0 => return Err(later),
            Err(later) => {
                blame |= later & taken;
                blames[place % REMEMBERED] = later;
            }
        }
    }
    Err(blame)
}

/// The candidates of a list that has the sets one behind another, as `list` makes it.
fn candidates(sets: &Sets) -> Vec<Vec<Candidate>> {
    let mut next = 1;
    let mut candidate = |(number, set): (usize, &u32)| {
        let place = next;
        next += 1 + set.count_ones() as usize;
        Candidate { number, place, set: *set }
    };
    sets.iter().map(|alternates| alternates.iter().enumerate().map(&mut candidate).collect()).collect()
}

/// The picks, by name, and the steps that it took to find them or to find that there are none.
pub fn search(sets: &Sets) -> (Option<Vec<usize>>, u64) {
    let mut steps = 0;
    let picked = pick(&candidates(sets), 0, &mut steps);
    (picked.ok(), steps)
}
