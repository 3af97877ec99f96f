//! Lists that make a search long, by the sets of addresses that the alternates of each interface take.

use crate::choice::search::search;

/// For each interface its alternates, each the set of its addresses: bit p for the p-th address.
pub type Sets = Vec<Vec<u32>>;

const MOST_WORDS: usize = 256;

fn words(sets: &Sets) -> usize {
    1 + sets.iter().flatten().map(|set| 1 + set.count_ones() as usize).sum::<usize>()
}

/// So many interfaces with 39 alternates without endpoints.
fn empty(interfaces: usize) -> Sets {
    vec![vec![0; 39]; interfaces]
}

/// Each of seven interfaces has addresses of its own, in so many alternates as `own` says; an eighth has an alternate for each
/// of the seven, which takes all of that one's addresses.
fn blocked(each: u32, own: impl Fn(u32) -> Vec<u32>) -> Sets {
    let all = |interface: u32| ((1 << each) - 1) << (each * interface);
    let mut sets: Sets = (0..7).map(|interface| own(each * interface)).collect();
    sets.push((0..7).map(all).collect());
    sets
}

/// Of all that were tried the one with the most steps: 256 words, ten addresses. Reached from random lists as in `climbed`, over
/// more rounds.
const LONGEST: [&[u32]; 8] = [
    &[0x284, 0x90, 0x40, 0x20, 0x252, 0x8, 0x1, 0x80, 0x110, 0x100, 0x200, 0x0],
    &[0x10, 0x79, 0x60, 0x183, 0xA4, 0x206, 0x44, 0x200, 0x41, 0x28, 0x40, 0xA, 0x20, 0x1, 0x8],
    &[0x40, 0x1, 0x88, 0x90, 0x102, 0x100, 0x206, 0x284, 0x210, 0x10, 0x21, 0x4, 0x44],
    &[0x2, 0x5, 0x20, 0x210, 0x10, 0x4, 0x224, 0x40, 0x100, 0x9, 0x1],
    &[0x82, 0x10, 0x5, 0x240, 0x29, 0x4, 0x8, 0x80, 0x140, 0x10E, 0x1A, 0x100, 0x2],
    &[0x20, 0x21, 0x2, 0x84, 0x1, 0x10, 0x4, 0x314, 0x100, 0x40, 0x2],
    &[0x361, 0x212, 0x4A, 0x1E, 0x241, 0x184, 0x3, 0x182, 0x302, 0x250, 0x20],
    &[0x222, 0x64],
];

/// By name; those whose name begins with `fit` have a choice.
pub fn named() -> Vec<(String, Sets)> {
    let singles = |from: u32, count: u32| (0..count).map(move |place| 1 << (from + place));
    let pairs = |from: u32| (0..4).flat_map(move |high| (0..high).map(move |low| (1 << high | 1 << low) << from));
    let one = vec![vec![1]];
    [
        ("fit-8-of-15-alternates", (0..8).map(|at| vec![1 << at; 15]).collect()),
        ("fit-8-last-ones", (0..8).map(|at| singles(0, at + 1).collect()).collect()),
        ("6-of-39-empty-between-two", [one.clone(), empty(6), one.clone()].concat()),
        ("6-of-39-empty-before-two", [empty(6), one.clone(), one.clone()].concat()),
        ("8-interfaces-7-addresses", vec![singles(0, 7).collect(); 8]),
        ("17-times-the-same", blocked(1, |from| vec![1 << from; 17])),
        ("two-in-turn", blocked(2, |from| singles(from, 2).collect::<Vec<u32>>().repeat(8))),
        ("four-of-its-own", blocked(4, |from| singles(from, 4).collect())),
        ("pairs-and-singles", blocked(4, |from| pairs(from).chain(singles(from, 4)).collect())),
        ("longest", LONGEST.map(<[u32]>::to_vec).into()),
    ]
    .map(|(name, sets)| (name.to_string(), sets))
    .into()
}

/// Repeatable numbers.
pub struct Rng(pub u64);

impl Rng {
    fn below(&mut self, bound: u64) -> u64 {
        self.0 = self.0.wrapping_mul(6_364_136_223_846_793_005).wrapping_add(1_442_695_040_888_963_407);
        (self.0 >> 33) % bound
    }

    fn index(&mut self, len: usize) -> usize {
        self.below(len as u64) as usize
    }
}

/// One to four addresses.
fn set(rng: &mut Rng, addresses: u32) -> u32 {
    let wanted = 1 + rng.below(4);
    (0..wanted).fold(0, |set, _| set | 1 << rng.below(addresses.into()))
}

/// As many alternates as a list of so many words has room for, each interface at least one.
pub fn random(rng: &mut Rng, names: usize, addresses: u32, room: usize) -> Sets {
    let mut sets: Sets = (0..names).map(|_| vec![set(rng, addresses)]).collect();
    let most = 1 + rng.index(room / names);
    for _ in 0..names * most {
        let at = rng.index(names);
        let next = set(rng, addresses);
        if words(&sets) + 1 + next.count_ones() as usize > room {
            break;
        }
        sets[at].push(next);
    }
    sets
}

/// One alternate more, one less, one address more or less, two in each other's place, or an interface's copied to another.
fn changed(rng: &mut Rng, sets: &Sets, addresses: u32) -> Sets {
    let mut sets = sets.clone();
    let at = rng.index(sets.len());
    let (place, other) = (rng.index(sets[at].len()), rng.index(sets[at].len()));
    match rng.below(6) {
        0 => sets[at].insert(place, set(rng, addresses)),
        1 if sets[at].len() > 1 => _ = sets[at].remove(place),
        2 | 3 => sets[at][place] ^= 1 << rng.below(addresses.into()),
        4 => sets[at].swap(place, other),
        _ => {
            let from = rng.index(sets.len());
            sets[at] = sets[from].clone();
        }
    }
    sets
}

/// Of random lists the one with the most steps, changed as long as that makes more: some rounds of this, and the best of
/// them.
pub fn climbed(names: usize, addresses: u32) -> Sets {
    const ROUNDS: u64 = 3;
    const TRIES: u32 = 20;
    const CHANGES: u32 = 300;
    let mut best = (0, Vec::new());
    for round in 0..ROUNDS {
        let mut rng = Rng(1 + round + 10 * names as u64 + 1_000 * u64::from(addresses));
        let counted = |sets: Sets| (search(&sets).1, sets);
        let start = (0..TRIES).map(|_| counted(random(&mut rng, names, addresses, MOST_WORDS))).max();
        let mut now = start.expect("a list");
        for _ in 0..CHANGES {
            let next = changed(&mut rng, &now.1, addresses);
            if words(&next) <= MOST_WORDS {
                now = now.max(counted(next));
            }
        }
        best = best.max(now);
    }
    best.1
}
