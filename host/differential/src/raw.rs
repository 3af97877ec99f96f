//! Raw configuration descriptors: read and written by the functions of two layers, over bytes and lists that are
//! random, built, damaged or gone through whole.

mod bytes;
mod exhaustive;
mod judge;
mod random;
mod shrink;

use crate::outside::{Pair, Tally};
use judge::Raw;

pub fn run(pair: &Pair, tally: &mut Tally<Raw>, seed: u64, cases: u64) {
    exhaustive::run(pair, tally);
    random::run(pair, tally, seed, cases);
}

#[cfg(test)]
mod tests {
    use scenario::{Chosen, Dispatch, Functions, Record, Reply, Side};

    use super::*;

    fn functions(name: &str) -> Box<dyn Functions> {
        runner::functions(name).expect("functions")
    }

    /// A short run.
    #[test]
    fn the_library_is_the_model() {
        let pair = Pair { reference: functions("model"), subject: functions("library") };
        let mut tally = Tally::default();
        exhaustive::limits(&mut |question| pair.compare(&mut tally, question));
        random::run(&pair, &mut tally, 1, 20_000);
        assert_eq!(tally.first_difference(&pair), None);
        assert_eq!(tally.missing(), Vec::<String>::new());
    }

    /// The model, but for one thing.
    #[derive(Clone, Copy, Debug)]
    enum Wrong {
        /// Room for the words themselves is enough.
        Room,
        /// The word behind the output is cleared.
        Past,
        /// A refusal counts one word.
        Count,
        /// The attributes say that a configuration powers itself.
        Attributes,
        /// Companions are read and written at SuperSpeed, and not at SuperSpeedPlus.
        Four,
        /// A list with a companion that says mult 1 fits.
        Mult,
        /// A burst above 15 is malformed.
        Burst,
    }

    /// Whether a byte of a companion is like this.
    fn any(bytes: &[u8], at: usize, is: fn(u8) -> bool) -> bool {
        bytes::places(bytes)
            .into_iter()
            .any(|place| bytes[place + 1] == 48 && bytes.get(place + at).is_some_and(|b| is(*b)))
    }

    impl Wrong {
        fn at(self, speed: u8) -> u8 {
            if matches!(self, Wrong::Four) && speed == 5 { 3 } else { speed }
        }
    }

    impl Functions for Wrong {
        fn dispatcher(&self) -> Box<dyn Dispatch> {
            functions("model").dispatcher()
        }

        fn read_descriptors(&self, bytes: &[u8], speed: u8, words: &mut [u32]) -> Reply {
            let mut memory = vec![0; words.len().max(256)];
            memory[..words.len()].copy_from_slice(words);
            let mut reply = match self {
                Wrong::Room => functions("model").read_descriptors(bytes, speed, &mut memory),
                _ => functions("model").read_descriptors(bytes, self.at(speed), words),
            };
            match self {
                Wrong::Room if reply.count <= words.len() => words.copy_from_slice(&memory[..words.len()]),
                Wrong::Past if reply.number == 0 && reply.count < words.len() => words[reply.count] = 0,
                Wrong::Count if reply.number != 0 => reply.count = 1,
                Wrong::Mult if reply.number == 26 && any(bytes, 3, |mult| mult & 3 == 1) => reply.number = 0,
                Wrong::Burst if reply.number == 26 && any(bytes, 2, |burst| burst > 15) => reply.number = 20,
                _ => {}
            }
            reply
        }

        fn write_descriptors(&self, list: &[u32], speed: u8, bytes: &mut [u8]) -> Reply {
            let reply = functions("model").write_descriptors(list, self.at(speed), bytes);
            if matches!(self, Wrong::Attributes) && reply.count > 0 {
                bytes[7] = 0xC0;
            }
            reply
        }

        fn settings_to_new(&self, settings: &[u8], list: &[u32], speed: u8, bytes: &mut [u8]) -> Reply {
            functions("model").settings_to_new(settings, list, speed, bytes)
        }

        fn settings_to_old(&self, settings: &[u8], list: &[u32], speed: u8, bytes: &mut [u8]) -> Reply {
            functions("model").settings_to_old(settings, list, speed, bytes)
        }

        fn endpoint_block<'a>(&self, input: &'a [u8], output: &'a [u8], from: Side, dci: u8) -> (u8, &'a [u8]) {
            model::Model.endpoint_block(input, output, from, dci)
        }

        fn choose(&self, record: &Record, names: &[u8], longest: u32) -> Chosen {
            functions("model").choose(record, names, longest)
        }
    }

    #[test]
    fn what_is_wrong_is_found() {
        let all = [Wrong::Room, Wrong::Past, Wrong::Count, Wrong::Attributes, Wrong::Four, Wrong::Mult, Wrong::Burst];
        for wrong in all {
            let pair = Pair { reference: functions("model"), subject: Box::new(wrong) };
            let mut tally = Tally::default();
            random::run(&pair, &mut tally, 1, 5_000);
            let text = tally.first_difference(&pair).unwrap_or_default();
            assert!(
                text.starts_with("DIFFERENT: the layers\nthe smallest case found:\ncase smallest\nraw"),
                "{wrong:?}"
            );
        }
    }
}
