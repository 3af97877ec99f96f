//! Settings of old boards: converted by the functions of two layers, over settings and lists that are random, built,
//! damaged or gone through whole.

mod exhaustive;
mod form;
mod judge;
mod random;
mod shrink;

use scenario::Conversion;

use crate::outside::{Pair, Tally};

pub fn run(pair: &Pair, tally: &mut Tally<Conversion>, seed: u64, cases: u64) {
    exhaustive::run(pair, tally);
    random::run(pair, tally, seed, cases);
}

#[cfg(test)]
mod tests {
    use scenario::{Chosen, Dispatch, Functions, Record, Reply, Side};

    use super::*;

    fn functions(name: &str) -> Box<dyn Functions> {
        runner::functions(name).expect("functions")
    }

    /// A short run.
    #[test]
    fn the_library_is_the_model() {
        let pair = Pair { reference: functions("model"), subject: functions("library") };
        let mut tally = Tally::default();
        exhaustive::limits(&mut |question| pair.compare(&mut tally, question));
        random::run(&pair, &mut tally, 1, 20_000);
        assert_eq!(tally.first_difference(&pair), None);
        assert_eq!(tally.missing(), Vec::<String>::new());
    }

    /// The model, but for one thing.
    #[derive(Clone, Copy, Debug)]
    enum Wrong {
        /// The bits past the last pair are not looked at.
        Padding,
        /// A pair is looked up in all configurations.
        Lookup,
        /// Another configuration is told before its pairs are sought.
        OtherFirst,
        /// An interface may stand there twice.
        Twice,
        /// No pairs are settings of an empty list.
        EmptyList,
        /// The byte behind the output is cleared.
        Past,
        /// The list is judged at High speed.
        High,
        /// A speed that there is not is taken for High.
        AnySpeed,
    }

    impl Wrong {
        const ALL: [Wrong; 8] = [
            Wrong::Padding,
            Wrong::Lookup,
            Wrong::OtherFirst,
            Wrong::Twice,
            Wrong::EmptyList,
            Wrong::Past,
            Wrong::High,
            Wrong::AnySpeed,
        ];

        /// At which the list is judged.
        fn at(self, speed: u8) -> u8 {
            match self {
                Wrong::High if (1..=5).contains(&speed) => 3,
                Wrong::AnySpeed if !(1..=5).contains(&speed) => 3,
                _ => speed,
            }
        }

        /// What is left in the bytes of an accepted conversion.
        fn left(self, reply: Reply, bytes: &mut [u8]) -> Reply {
            if matches!(self, Wrong::Past) && reply.number == 0 && reply.count < bytes.len() {
                bytes[reply.count] = 0;
            }
            reply
        }
    }

    /// The list as one configuration, its first.
    fn joined(list: &[u32]) -> Vec<u32> {
        let is_first = |(at, word): &(usize, u32)| *at == 0 || word >> 30 != 0;
        list.iter().copied().enumerate().filter(is_first).map(|(_, word)| word).collect()
    }

    impl Functions for Wrong {
        fn dispatcher(&self) -> Box<dyn Dispatch> {
            functions("model").dispatcher()
        }

        fn read_descriptors(&self, bytes: &[u8], speed: u8, words: &mut [u32]) -> Reply {
            functions("model").read_descriptors(bytes, speed, words)
        }

        fn write_descriptors(&self, list: &[u32], speed: u8, bytes: &mut [u8]) -> Reply {
            functions("model").write_descriptors(list, speed, bytes)
        }

        fn settings_to_new(&self, settings: &[u8], list: &[u32], speed: u8, bytes: &mut [u8]) -> Reply {
            let (model, speed) = (functions("model"), self.at(speed));
            let reply = match self {
                Wrong::Lookup => model.settings_to_new(settings, &joined(list), speed, bytes),
                Wrong::EmptyList if list.is_empty() && settings.is_empty() => {
                    model.settings_to_new(settings, &[0], speed, bytes)
                }
                Wrong::Twice => {
                    let mut once: Vec<&[u8]> = settings.chunks(2).collect();
                    once.dedup();
                    model.settings_to_new(&once.concat(), list, speed, bytes)
                }
                _ => model.settings_to_new(settings, list, speed, bytes),
            };
            self.left(reply, bytes)
        }

        fn settings_to_old(&self, settings: &[u8], list: &[u32], speed: u8, bytes: &mut [u8]) -> Reply {
            let (model, speed) = (functions("model"), self.at(speed));
            let reply = match self {
                Wrong::Padding => {
                    let mut padded = settings.to_vec();
                    if let Some(last) = padded.last_mut() {
                        *last &= !3;
                    }
                    model.settings_to_old(&padded, list, speed, bytes)
                }
                Wrong::OtherFirst => {
                    let reply = model.settings_to_old(settings, list, speed, bytes);
                    let other =
                        settings.first().zip(list.first()).is_some_and(|(byte, word)| word >> 22 != (*byte).into());
                    if reply.number == 23 && other { Reply { number: 24, count: 0 } } else { reply }
                }
                _ => model.settings_to_old(settings, list, speed, bytes),
            };
            self.left(reply, bytes)
        }

        fn endpoint_block<'a>(&self, input: &'a [u8], output: &'a [u8], from: Side, dci: u8) -> (u8, &'a [u8]) {
            model::Model.endpoint_block(input, output, from, dci)
        }

        fn choose(&self, record: &Record, names: &[u8], longest: u32) -> Chosen {
            functions("model").choose(record, names, longest)
        }
    }

    #[test]
    fn what_is_wrong_is_found() {
        for wrong in Wrong::ALL {
            let pair = Pair { reference: functions("model"), subject: Box::new(wrong) };
            let mut tally = Tally::default();
            random::run(&pair, &mut tally, 1, 5_000);
            let text = tally.first_difference(&pair).unwrap_or_default();
            assert!(
                text.starts_with("DIFFERENT: the layers\nthe smallest case found:\ncase smallest\nto"),
                "{wrong:?}"
            );
        }
    }
}
