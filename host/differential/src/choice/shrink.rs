//! Smaller choices.

use scenario::{Choice, Record};

fn bits(words: &[u32]) -> usize {
    words.iter().map(|word| word.count_ones() as usize).sum()
}

pub fn size(Choice { record, names, longest }: &Choice) -> usize {
    let Record { list, endpoints, held, quarantined, given, .. } = record;
    let arrays = endpoints.len() + held.len() + quarantined.len() + given.len();
    let numbers = names.iter().map(|name| name.count_ones() as usize).sum::<usize>();
    33 * (list.len() + arrays + names.len()) + bits(list) + numbers + bits(&[*longest])
}

pub fn smaller(choice: &Choice) -> Vec<Choice> {
    let mut found = Vec::new();
    let mut with = |change: &dyn Fn(&mut Choice)| {
        let mut next = choice.clone();
        change(&mut next);
        found.push(next);
    };
    let record = &choice.record;
    with(&|next| next.record.list.truncate(record.list.len() / 2));
    with(&|next| next.record.given.truncate(record.given.len() / 2));
    with(&|next| {
        next.record.held.clear();
        next.record.endpoints.clear();
    });
    with(&|next| _ = next.record.quarantined.pop());
    with(&|next| _ = next.record.given.pop());
    for at in 0..choice.names.len() {
        with(&|next| _ = next.names.remove(at));
        (0..8).for_each(|bit| with(&|next| next.names[at] &= !(1 << bit)));
    }
    for at in 0..record.list.len() {
        with(&|next| _ = next.record.list.remove(at));
        (0..32).for_each(|bit| with(&|next| next.record.list[at] &= !(1 << bit)));
        // An alternate with its endpoints.
        let behind = record.list[at + 1..].iter().take_while(|word| **word >> 30 >= 2).count();
        with(&|next| _ = next.record.list.drain(at..=at + behind));
        // An endpoint with its companion.
        let two = (at + 2).min(record.list.len());
        with(&|next| _ = next.record.list.drain(at..two));
    }
    (0..32).for_each(|bit| with(&|next| next.longest &= !(1 << bit)));
    found
}
