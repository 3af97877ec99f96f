//! Functions that send no command: raw descriptors at three lengths, what a byte costs, with companions too; settings of old boards; an endpoint's
//! block; the reasons of claims; and turns of a dispatcher.

use scenario::{
    Answer, BYTES_ROOM, Block, Buffers, Call, Conversion, Form, Made, RawRead, RawWrite, Record, Reply, Session, Side,
    WORDS_ROOM, parse, start_clock, stop_clock,
};

use crate::{TIMED, completed, instructions};

/// A claim with the record that it is given, for each kind of reason that has to be looked for.
const CLAIMS: &str = include_str!("../claims.txt");

pub enum Question {
    Read(RawRead),
    Write(RawWrite),
    Convert(Conversion),
    Show(Block),
    Why(Box<Claimed>),
    /// A turn, and the slot that was served submitted again; of so many slots that wait, side by side.
    Turn(u8),
}

/// A claim, what it was given, and what it left.
pub struct Claimed {
    call: Call,
    record: Record,
    buffers: Buffers,
    left: Record,
    answer: Answer,
    log: Vec<u32>,
}

/// The word of an alternate; 32 interfaces in turn.
fn word(place: usize) -> u32 {
    1 << 30 | (place as u32 % 32) << 22 | (place as u32 / 32 % 256) << 14
}

fn interface(place: usize) -> [u8; 9] {
    [9, 4, (place % 32) as u8, (place / 32) as u8, 0, 0, 0, 0, 0]
}

const OTHER: [u8; 9] = [9, 33, 0, 0, 0, 0, 0, 0, 0];

/// One configuration of so many descriptors of 9 bytes, itself included: one in `apart` is an interface, the rest are
/// of another type. At High speed.
fn read(descriptors: usize, apart: usize) -> Question {
    let speed = 3;
    let [low, high] = (9 * descriptors as u16).to_le_bytes();
    let interfaces = ((descriptors - 1) / apart).min(32) as u8;
    let mut bytes = vec![9, 2, low, high, interfaces, 1, 0, 0x80, 0];
    for place in 1..descriptors {
        bytes.extend(if place % apart == 0 { interface(place / apart - 1) } else { OTHER });
    }
    Question::Read(RawRead { speed, bytes, room: WORDS_ROOM })
}

fn write(words: usize) -> Question {
    let speed = 3;
    let list = [1 << 22].into_iter().chain((1..words).map(word)).collect();
    Question::Write(RawWrite { speed, list, room: BYTES_ROOM })
}

/// A list of one configuration and alternates of up to 30 endpoints with a companion each, so many endpoints in all.
fn companions(endpoints: usize) -> Vec<u32> {
    let mut list = vec![1 << 22];
    for at in 0..endpoints {
        if at % 30 == 0 {
            list.push(1 << 30 | (at as u32 / 30) << 14);
        }
        let (number, burst) = (1 + at as u32 % 15, at as u32 % 16);
        list.extend([2 << 30 | number << 25 | 2 << 23 | 1024 << 12 | 1 << 10, 3 << 30 | burst << 26]);
    }
    list
}

/// At SuperSpeed.
fn write_companions(endpoints: usize) -> RawWrite {
    RawWrite { speed: 4, list: companions(endpoints), room: BYTES_ROOM }
}

/// What that writes is read.
fn read_companions(endpoints: usize) -> Option<RawRead> {
    let (reply, mut bytes) = write_companions(endpoints).ask(&*runner::functions("model")?);
    bytes.truncate(reply.count);
    Some(RawRead { speed: 4, bytes, room: WORDS_ROOM })
}

/// So many pairs, interfaces from 0 on, of a configuration with their alternates alone or, `last`, with these behind all
/// others that a list has room for.
fn convert(to: Form, pairs: usize, last: bool) -> Option<Question> {
    let before = if last { 255 - pairs } else { 0 };
    let held = (0..pairs as u32).map(|interface| 1 << 30 | interface << 22 | 255 << 14);
    let list: Vec<u32> = [1 << 22].into_iter().chain((0..before).map(word)).chain(held).collect();
    let settings = (0..pairs as u8).flat_map(|interface| [interface, 255]).collect();
    let old = Conversion { speed: 3, list, settings, ..Conversion::to(Form::New) };
    if to == Form::New {
        return Some(Question::Convert(old));
    }
    let (reply, mut settings) = old.ask(&*runner::functions("model")?);
    settings.truncate(reply.count);
    Some(Question::Convert(Conversion { to, settings, ..old }))
}

/// The block of Dci 31 at a spacing.
fn show(from: Side, spacing: usize) -> Question {
    Question::Show(Block { input: vec![0; 33 * spacing], output: vec![0; 32 * spacing], from, dci: 31 })
}

/// The claims of claims.txt, by name, with what the model says that they leave.
fn claimed() -> Option<Vec<(String, Question)>> {
    let mut layer = runner::layer("model")?;
    let mut claims = Vec::new();
    for scenario in parse(CLAIMS).ok()?.scenarios {
        let (call, record, buffers) = Session::new().prepare(&completed(scenario.steps.first()?));
        let mut lent = buffers.clone();
        let (left, answer) = layer.call(&record, &call, &mut lent).ok()?;
        let claimed = Claimed { call, record, buffers, left, answer, log: lent.log };
        claims.push((scenario.name, Question::Why(Box::new(claimed))));
    }
    Some(claims)
}

/// By name. A list has at most 256 words, so that of two of the interfaces alone the last two are refused (4).
pub fn inputs() -> Vec<(String, Question)> {
    let lengths = [256, 512, 1024];
    let of = |name: &str, count: usize, question| (format!("{name}-{}", 9 * count), question);
    let interfaces = lengths.map(|count| of("read-interfaces", count, read(count, 1)));
    let quarter = lengths.map(|count| of("read-a-quarter-interfaces", count, read(count, 4)));
    let written = [64, 128, 256].map(|count| of("write", count, write(count)));
    let paired = [30, 60, 125].map(|endpoints| {
        let (read, write) = (read_companions(endpoints).expect("the model"), write_companions(endpoints));
        [("read", Question::Read(read)), ("write", Question::Write(write))]
            .map(|(name, question)| (format!("{name}-companions-{endpoints}"), question))
    });
    let converted = [("settings-to-new", Form::New), ("settings-to-old", Form::Old)].map(|(name, to)| {
        let of = |pairs, last| {
            let behind = if last { "-behind-the-list" } else { "" };
            (format!("{name}-{pairs}{behind}"), convert(to, pairs, last).expect("the model"))
        };
        [of(0, false), of(32, false), of(32, true)]
    });
    let sides = [(Side::Input, "input"), (Side::Output, "output")];
    let shown =
        sides.map(|(from, side)| [32, 64].map(|spacing| (format!("block-{side}-{spacing}"), show(from, spacing))));
    let turns = [1, 32].map(|slots| (format!("turn-and-submission-of-{slots}"), Question::Turn(slots)));
    let outside = interfaces.into_iter().chain(quarter).chain(written).chain(paired.into_iter().flatten());
    let outside = outside.chain(converted.into_iter().flatten());
    outside.chain(shown.into_iter().flatten()).chain(claimed().expect("claims.txt")).chain(turns).collect()
}

/// Asks so many times. The reply, and nanoseconds for each.
pub fn repeat(layer: &str, question: &Question, times: u32) -> Option<(Reply, f64)> {
    let (functions, mut layer) = (runner::functions(layer)?, runner::layer(layer)?);
    let mut reply = Reply::default();
    let mut dispatcher = functions.dispatcher();
    if let Question::Turn(slots) = question {
        (0..*slots).for_each(|slot| _ = dispatcher.submit(slot));
    }
    start_clock();
    for _ in 0..times {
        reply = match question {
            Question::Read(read) => read.ask(&*functions).0,
            Question::Write(write) => write.ask(&*functions).0,
            Question::Convert(conversion) => conversion.ask(&*functions).0,
            Question::Show(block) => {
                let part = block.ask(&*functions);
                Reply { number: part.number, count: part.bytes.len() }
            }
            Question::Why(claimed) => {
                let Claimed { call, record, buffers, left, answer, log } = &**claimed;
                let made = Made { call, record, buffers, left, answer: *answer, log };
                layer.why(&made).ok()?;
                Reply { number: answer.number, count: 4 * answer.count }
            }
            Question::Turn(_) => {
                let served = dispatcher.turn()?;
                Reply { number: dispatcher.submit(served), count: 0 }
            }
        };
    }
    Some((reply, stop_clock().as_nanos() as f64 / f64::from(times.max(1))))
}

pub fn row(name: &str, question: &Question) -> Option<String> {
    let (reply, time) = repeat("library", question, TIMED)?;
    let (bytes, goes_by_bytes) = match question {
        Question::Read(read) => (read.bytes.len(), true),
        Question::Write(_) => (reply.count, true),
        // Most of its cost is the list's.
        Question::Convert(conversion) => (conversion.settings.len(), false),
        Question::Show(_) => (reply.count, false),
        // Of the log; most of its cost is the record's.
        Question::Why(_) => (reply.count, false),
        Question::Turn(_) => (0, false),
    };
    let each = |cost: f64| if goes_by_bytes { format!("{:.2}", cost / bytes as f64) } else { String::new() };
    let counts = instructions("library", name)
        .map_or("no valgrind | |".to_string(), |count| format!("{count} | {} |", each(count as f64)));
    Some(format!("| {name} | {bytes} | {} | {counts} {time:.0} | {} |", reply.number, each(time)))
}

#[cfg(test)]
mod tests {
    use super::*;

    /// Two inputs have more words than a list, and two claims are not accepted; everything else is.
    #[test]
    fn inputs_are_answered() {
        for (name, question) in inputs() {
            let expected = match name.as_str() {
                "read-interfaces-4608" | "read-interfaces-9216" => 4,
                "why-endpoint-30" => 9,
                "why-command-59" => 13,
                _ => 0,
            };
            for layer in ["library", "model"] {
                let (reply, _) = repeat(layer, &question, 1).expect("a layer");
                assert_eq!(reply.number, expected, "{name}, {layer}");
            }
        }
    }
}
