//! An endpoint's block: shown by the functions of two layers, over every Dci, both contexts, and lengths about those that
//! are taken.

mod judge;

use scenario::{Block, Side};

use crate::outside::{Pair, Tally};
use crate::rng::Rng;

const SIDES: [Side; 2] = [Side::Input, Side::Output];

/// Those of input and output at both spacings, one off these, twice and half of these, and some more.
const INPUTS: [usize; 13] = [0, 32, 528, 1024, 1055, 1056, 1057, 1088, 2048, 2111, 2112, 2113, 4224];
const OUTPUTS: [usize; 13] = [0, 31, 512, 992, 1023, 1024, 1025, 1056, 2047, 2048, 2049, 2112, 4096];

/// One random case stands for so many of other functions: a context has many bytes.
const SHARE: u64 = 20;

pub fn run(pair: &Pair, tally: &mut Tally<Block>, seed: u64, cases: u64) {
    exhaustive(pair, tally);
    random(pair, tally, seed, cases / SHARE);
}

/// So many bytes, each with its place.
fn filled(len: usize) -> Vec<u8> {
    (0..len).map(|at| (at ^ at >> 8) as u8).collect()
}

fn exhaustive(pair: &Pair, tally: &mut Tally<Block>) {
    for input in INPUTS {
        for output in OUTPUTS {
            for (from, dci) in SIDES.into_iter().flat_map(|side| (0..=255).map(move |dci| (side, dci))) {
                pair.compare(tally, Block { input: filled(input), output: filled(output), from, dci });
            }
        }
    }
}

fn random(pair: &Pair, tally: &mut Tally<Block>, seed: u64, cases: u64) {
    let mut rng = Rng::new(seed);
    for _ in 0..cases {
        let (input, output) = rng.of(&[(1056, 1024), (2112, 2048), (1056, 2048), (2112, 1024)]);
        let input = if rng.percent(10) { rng.index(2500) } else { input };
        let output = if rng.percent(10) { rng.index(2500) } else { output };
        let dci = if rng.percent(80) { rng.index(34) as u8 } else { rng.byte() };
        let fill = rng.byte();
        let bytes = |len: usize| filled(len).into_iter().map(|byte| byte ^ fill).collect();
        pair.compare(tally, Block { input: bytes(input), output: bytes(output), from: rng.of(&SIDES), dci });
    }
}

#[cfg(test)]
mod tests {
    use scenario::{Chosen, Dispatch, Functions, Record, Reply};

    use super::*;

    fn functions(name: &str) -> Box<dyn Functions> {
        runner::functions(name).expect("functions")
    }

    #[test]
    fn the_library_is_the_model() {
        let pair = Pair { reference: functions("model"), subject: functions("library") };
        let mut tally = Tally::default();
        run(&pair, &mut tally, 1, 20_000);
        assert_eq!(tally.first_difference(&pair), None);
        assert_eq!(tally.missing(), Vec::<String>::new());
    }

    /// The model, but for one thing.
    #[derive(Clone, Copy, Debug)]
    enum Wrong {
        /// The input has no control block.
        NoControl,
        /// The output has one.
        Control,
        /// 32 bytes at either spacing.
        Half,
        /// The spacing is that of the context which is shown.
        TwoSpacings,
        /// The Dci comes first.
        DciFirst,
        /// Dci 0 is the slot's block.
        Slot,
        /// The part is a copy.
        Copy,
    }

    impl Wrong {
        const ALL: [Wrong; 7] = [
            Wrong::NoControl,
            Wrong::Control,
            Wrong::Half,
            Wrong::TwoSpacings,
            Wrong::DciFirst,
            Wrong::Slot,
            Wrong::Copy,
        ];
    }

    impl Functions for Wrong {
        fn dispatcher(&self) -> Box<dyn Dispatch> {
            functions("model").dispatcher()
        }

        fn read_descriptors(&self, bytes: &[u8], speed: u8, words: &mut [u32]) -> Reply {
            functions("model").read_descriptors(bytes, speed, words)
        }

        fn write_descriptors(&self, list: &[u32], speed: u8, bytes: &mut [u8]) -> Reply {
            functions("model").write_descriptors(list, speed, bytes)
        }

        fn settings_to_new(&self, settings: &[u8], list: &[u32], speed: u8, bytes: &mut [u8]) -> Reply {
            functions("model").settings_to_new(settings, list, speed, bytes)
        }

        fn settings_to_old(&self, settings: &[u8], list: &[u32], speed: u8, bytes: &mut [u8]) -> Reply {
            functions("model").settings_to_old(settings, list, speed, bytes)
        }

        fn choose(&self, record: &Record, names: &[u8], longest: u32) -> Chosen {
            functions("model").choose(record, names, longest)
        }

        fn endpoint_block<'a>(&self, input: &'a [u8], output: &'a [u8], from: Side, dci: u8) -> (u8, &'a [u8]) {
            let (number, part) = model::Model.endpoint_block(input, output, from, dci);
            let shown = if from == Side::Input { input } else { output };
            let (spacing, place) = (part.len(), usize::from(dci));
            match (self, number, from) {
                (Wrong::NoControl, 0, Side::Input) => (0, &input[place * spacing..][..spacing]),
                (Wrong::Control, 0, Side::Output) if dci < 31 => (0, &output[(place + 1) * spacing..][..spacing]),
                (Wrong::Half, 0, _) => (0, &part[..32]),
                (Wrong::TwoSpacings, 1, Side::Output) if output.len() == 1024 && (1..32).contains(&dci) => {
                    (0, &output[place * 32..][..32])
                }
                (Wrong::DciFirst, 1, _) if !(1..32).contains(&dci) => (4, &[]),
                (Wrong::Slot, 4, _) if dci == 0 => (0, &shown[..32]),
                (Wrong::Copy, 0, _) => (0, part.to_vec().leak()),
                _ => (number, part),
            }
        }
    }

    #[test]
    fn what_is_wrong_is_found() {
        for wrong in Wrong::ALL {
            let pair = Pair { reference: functions("model"), subject: Box::new(wrong) };
            let mut tally = Tally::default();
            random(&pair, &mut tally, 1, 1_000);
            let text = tally.first_difference(&pair).unwrap_or_default();
            let found = "DIFFERENT: the layers\nthe smallest case found:\ncase smallest\nblock\n";
            assert!(text.starts_with(found), "{wrong:?}: {text}");
        }
    }
}
