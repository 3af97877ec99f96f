//! Settings for a wanted polling period: chosen by two layers, over records, names and longest intervals that are random,
//! built, damaged or gone through whole.

mod exhaustive;
mod judge;
mod random;
mod shrink;

use scenario::{Choice, Record};

use crate::outside::{Pair, Tally};

pub fn run(pair: &Pair, tally: &mut Tally<Choice>, seed: u64, cases: u64) {
    exhaustive::run(&mut |question| pair.compare(tally, question));
    random::run(pair, tally, seed, cases / 4);
}

/// A sound record of a list, which gets its companions, and which holds nothing.
fn record(speed: u8, list: Vec<u32>) -> Record {
    Record {
        usable: true,
        up: true,
        slot: 1,
        n: 1,
        spacing: 32,
        speed,
        control: 0x1000,
        given: crate::build::all_rings(),
        list: crate::build::at_speed(speed, &list),
        ..Record::default()
    }
}

#[cfg(test)]
mod tests {
    use scenario::{Chosen, Dispatch, Functions, Reply, Side};

    use super::*;

    fn functions(name: &str) -> Box<dyn Functions> {
        runner::functions(name).expect("functions")
    }

    /// A short run.
    #[test]
    fn the_library_is_the_model() {
        let pair = Pair { reference: functions("model"), subject: functions("library") };
        let mut tally = Tally::default();
        exhaustive::damaged(&mut |question| pair.compare(&mut tally, question));
        random::run(&pair, &mut tally, 1, 10_000);
        assert_eq!(tally.first_difference(&pair), None);
        assert_eq!(tally.missing(), Vec::<String>::new());
    }

    /// The model, but for one thing.
    #[derive(Clone, Copy, Debug)]
    enum Wrong {
        /// A repeated name is given alternates of its own.
        Twice,
        /// Alternates are compared by their numbers.
        ByNumber,
        /// Later configurations are looked into.
        Later,
        /// Isochronous endpoints are judged too.
        Isochronous,
        /// The addresses of held settings cannot be taken.
        Held,
        /// Names are counted once.
        Names,
        /// No choice is told of before the number of names.
        NoChoiceFirst,
    }

    impl Wrong {
        const ALL: [Wrong; 7] = [
            Wrong::Twice,
            Wrong::ByNumber,
            Wrong::Later,
            Wrong::Isochronous,
            Wrong::Held,
            Wrong::Names,
            Wrong::NoChoiceFirst,
        ];
    }

    fn distinct(names: &[u8]) -> Vec<u8> {
        let first = |at: &usize| !names[..*at].contains(&names[*at]);
        (0..names.len()).filter(first).map(|at| names[at]).collect()
    }

    /// The alternates of each configuration, by number.
    fn by_number(list: &[u32]) -> Vec<u32> {
        let mut alternates: Vec<Vec<u32>> = Vec::new();
        for word in list {
            match word >> 30 {
                2 | 3 => alternates.last_mut().expect("an alternate").push(*word),
                _ => alternates.push(vec![*word]),
            }
        }
        let mut sorted = Vec::new();
        for configuration in alternates.chunk_by_mut(|_, next| next[0] >> 30 != 0) {
            configuration[1..].sort_by_key(|alternate| alternate[0]);
            sorted.extend(configuration.concat());
        }
        sorted
    }

    impl Functions for Wrong {
        fn dispatcher(&self) -> Box<dyn Dispatch> {
            functions("model").dispatcher()
        }

        fn read_descriptors(&self, bytes: &[u8], speed: u8, words: &mut [u32]) -> Reply {
            functions("model").read_descriptors(bytes, speed, words)
        }

        fn write_descriptors(&self, list: &[u32], speed: u8, bytes: &mut [u8]) -> Reply {
            functions("model").write_descriptors(list, speed, bytes)
        }

        fn settings_to_new(&self, settings: &[u8], list: &[u32], speed: u8, bytes: &mut [u8]) -> Reply {
            functions("model").settings_to_new(settings, list, speed, bytes)
        }

        fn settings_to_old(&self, settings: &[u8], list: &[u32], speed: u8, bytes: &mut [u8]) -> Reply {
            functions("model").settings_to_old(settings, list, speed, bytes)
        }

        fn endpoint_block<'a>(&self, input: &'a [u8], output: &'a [u8], from: Side, dci: u8) -> (u8, &'a [u8]) {
            model::Model.endpoint_block(input, output, from, dci)
        }

        fn choose(&self, record: &Record, names: &[u8], longest: u32) -> Chosen {
            let model = functions("model");
            let of = |list: Vec<u32>| model.choose(&Record { list, ..record.clone() }, names, longest);
            let right = model.choose(record, names, longest);
            if right.number == 12 || right.number == 29 && !matches!(self, Wrong::Names | Wrong::NoChoiceFirst) {
                return right;
            }
            match self {
                Wrong::Twice if right.number == 0 => Chosen {
                    alternates: names
                        .iter()
                        .flat_map(|name| model.choose(record, &[*name], longest).alternates)
                        .collect(),
                    ..right
                },
                Wrong::ByNumber => of(by_number(&record.list)),
                Wrong::Later => {
                    let first = |(at, word): &(usize, &u32)| *at == 0 || **word >> 30 != 0;
                    of(record.list.iter().enumerate().filter(first).map(|(_, word)| *word).collect())
                }
                Wrong::Isochronous => {
                    let judged =
                        |word: &u32| if word >> 30 == 2 && word >> 23 & 3 == 1 { word | 3 << 23 } else { *word };
                    of(record.list.iter().map(judged).collect())
                }
                Wrong::Held if right.number == 0 && !record.held.is_empty() => {
                    let held: Vec<u8> = record.held.iter().map(|held| held.0).collect();
                    let all = [&held[..], names].concat();
                    let chosen = model.choose(record, &distinct(&all), longest);
                    if chosen.number == 30 { chosen } else { right }
                }
                Wrong::Names => model.choose(record, &distinct(names), longest),
                Wrong::NoChoiceFirst if right.number == 29 => {
                    let chosen = model.choose(record, &distinct(names)[..1], longest);
                    if chosen.number == 30 { chosen } else { right }
                }
                _ => right,
            }
        }
    }

    #[test]
    fn what_is_wrong_is_found() {
        for wrong in Wrong::ALL {
            let pair = Pair { reference: functions("model"), subject: Box::new(wrong) };
            let mut tally = Tally::default();
            random::run(&pair, &mut tally, 1, 2_000);
            let text = tally.first_difference(&pair).unwrap_or_default();
            let begin = "DIFFERENT: the layers\nthe smallest case found:\ncase smallest\nchoose\n";
            assert!(text.starts_with(begin), "{wrong:?}: {text}");
        }
    }
}
