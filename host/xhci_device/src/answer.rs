//! What a call answers.

use core::fmt;

/// What a call answers, in the order of their numbers. Those from `ContextLength` to `Unusable`,
/// `QueueFull`, `TooFewRings`, `OutdatedAsk`, `NotClaimed` and `Companion` are refusals: the call has sent nothing and changed nothing,
/// but that [`Record::bring_up`](crate::Record::bring_up) returns the empty record. (Driven, a bring-up that is refused leaves the
/// record as it was.) After `InterfaceBroken`, `Cut` and any other bring-up that was not accepted the record is unusable.
///
/// ```
/// use xhci_device::Answer;
///
/// assert_eq!(Answer::of(13, 7), Some(Answer::Failed(7)));
/// assert_eq!(Answer::Failed(7).to_string(), "a command failed, with code 7");
/// ```
#[derive(Clone, Copy, Debug, PartialEq, Eq, Hash)]
#[must_use]
#[non_exhaustive]
pub enum Answer {
    /// Everything was done.
    Accepted,
    /// The context is not 33 blocks of the record's spacing.
    ContextLength,
    /// The routes are not 32 × (N + 1) words.
    RoutesLength,
    /// The log has less than 64 words.
    LogTooShort,
    /// The descriptor list is not valid.
    DescriptorList,
    /// A hub above the device is missing or out of order.
    HubChain,
    /// The speed is not 1 to 5.
    Speed,
    /// No think time of a high-speed hub has that many nanoseconds.
    ThinkTime,
    /// A claim: the list has no such alternate.
    NotFound,
    /// An address that another interface owns.
    InvalidParameter,
    /// Bring-up: the rings given are not 1 to 64, or one is no nonzero multiple of 16 or given twice.
    Rings,
    /// Slot 0, a slot above N, or N outside 1 to 255.
    SlotLimitReached,
    /// The record is marked unusable (for an unplugging: is not up) or is not sound.
    Unusable,
    /// A command failed, with this code.
    Failed(u8),
    /// What was begun could not be undone.
    InterfaceBroken,
    /// No outcome was left for a command.
    Cut,
    /// ReadHeader read another number of bytes than 8.
    ShortHeader,
    /// Bring-up: the slot has a route for control.
    QueueFull,
    /// An old endpoint's route is not its ring.
    InvalidEndpoint,
    /// At SuperSpeed and SuperSpeedPlus: the packet byte of the header is not 9.
    PacketExponent,
    /// A claim: there are fewer free rings than endpoint words.
    TooFewRings,
    /// A commit: an ask would now show something else.
    OutdatedAsk,
    /// A release: the interface holds no setting.
    NotClaimed,
    /// Bring-up at speeds 4 and 5: an endpoint word of the list without its companion, one that does not stand directly behind
    /// an endpoint word, or one with a mult out of range.
    Companion,
}

impl Answer {
    /// The answer of a number; `code` counts for 13 only. None for 20, 23 and 24, which no call answers, and above 26.
    pub fn of(number: u8, code: u8) -> Option<Answer> {
        Some(match number {
            0 => Answer::Accepted,
            1 => Answer::ContextLength,
            2 => Answer::RoutesLength,
            3 => Answer::LogTooShort,
            4 => Answer::DescriptorList,
            5 => Answer::HubChain,
            6 => Answer::Speed,
            7 => Answer::ThinkTime,
            8 => Answer::NotFound,
            9 => Answer::InvalidParameter,
            10 => Answer::Rings,
            11 => Answer::SlotLimitReached,
            12 => Answer::Unusable,
            13 => Answer::Failed(code),
            14 => Answer::InterfaceBroken,
            15 => Answer::Cut,
            16 => Answer::ShortHeader,
            17 => Answer::QueueFull,
            18 => Answer::InvalidEndpoint,
            19 => Answer::PacketExponent,
            21 => Answer::TooFewRings,
            22 => Answer::OutdatedAsk,
            25 => Answer::NotClaimed,
            26 => Answer::Companion,
            _ => return None,
        })
    }

    /// Its number.
    pub fn number(self) -> u8 {
        match self {
            Answer::Accepted => 0,
            Answer::ContextLength => 1,
            Answer::RoutesLength => 2,
            Answer::LogTooShort => 3,
            Answer::DescriptorList => 4,
            Answer::HubChain => 5,
            Answer::Speed => 6,
            Answer::ThinkTime => 7,
            Answer::NotFound => 8,
            Answer::InvalidParameter => 9,
            Answer::Rings => 10,
            Answer::SlotLimitReached => 11,
            Answer::Unusable => 12,
            Answer::Failed(_) => 13,
            Answer::InterfaceBroken => 14,
            Answer::Cut => 15,
            Answer::ShortHeader => 16,
            Answer::QueueFull => 17,
            Answer::InvalidEndpoint => 18,
            Answer::PacketExponent => 19,
            Answer::TooFewRings => 21,
            Answer::OutdatedAsk => 22,
            Answer::NotClaimed => 25,
            Answer::Companion => 26,
        }
    }

    /// The code of a failed command, else 0.
    pub fn code(self) -> u8 {
        match self {
            Answer::Failed(code) => code,
            _ => 0,
        }
    }

    /// An error, unless it is `Accepted`.
    ///
    /// ```
    /// use std::error::Error;
    /// use xhci_device::{Answer, Bus, Call, Pending, Record, READ_WORDS, read_descriptors};
    ///
    /// fn claim(record: &mut Record, ctx: &mut [u8], routes: &mut [u64], bus: &mut impl Bus) -> Result<(), Box<dyn Error>> {
    ///     Pending::new(record, ctx, Call::Claim { interface: 0, alternate: 0 }).run(routes, bus).ok()?;
    ///     read_descriptors(&[9, 2, 9, 0, 0, 1, 0, 0x80, 50], record.port_speed(), &mut [0; READ_WORDS])?;
    ///     Ok(())
    /// }
    /// # assert_eq!((Answer::Accepted.ok(), Answer::Cut.ok()), (Ok(()), Err(Answer::Cut)));
    /// ```
    pub fn ok(self) -> Result<(), Answer> {
        match self {
            Answer::Accepted => Ok(()),
            answer => Err(answer),
        }
    }
}

/// What a call on a [`Record`](crate::Record) answers, and how many words it has logged.
///
/// ```
/// use xhci_device::{Answer, Answered, BringUp, Memory, Record};
///
/// # let (mut ctx, mut routes, mut log) = ([0; 1056], [0; 64], [0; 64]);
/// # let args = BringUp { slot: xhci_device::SlotId(1), n: 1, speed: 3, parent: None, port: 1, root_port: 1,
/// #     rings: &[0x1000, 0x2000], header: 8, packet: 64, value: 0, hubs: &[], list: &[0x0040_0000, 0x4000_0000] };
/// let memory = Memory { ctx: &mut ctx, routes: &mut routes, log: &mut log, outcomes: &[0; 64] };
/// let (record, Answered { answer, count }) = Record::bring_up(memory, &args);
/// answer.ok()?;
/// assert_eq!((record.slot().0, log[..count].len()), (1, 9));
/// # Ok::<(), Answer>(())
/// ```
#[derive(Clone, Copy, Debug, PartialEq, Eq, Hash)]
#[must_use]
pub struct Answered {
    /// The answer.
    pub answer: Answer,
    /// How many words of the log are the call's.
    pub count: usize,
}

/// In words, as host/include/xhci_device.h names the answers; a failure with its code.
impl fmt::Display for Answer {
    fn fmt(&self, f: &mut fmt::Formatter<'_>) -> fmt::Result {
        f.write_str(match self {
            Answer::Accepted => "accepted",
            Answer::ContextLength => "the context has a wrong length",
            Answer::RoutesLength => "the routes have a wrong length",
            Answer::LogTooShort => "the log is too short",
            Answer::DescriptorList => "the descriptor list is not valid",
            Answer::HubChain => "the chain of hubs is not in order",
            Answer::Speed => "the speed is unknown",
            Answer::ThinkTime => "the think time has no value",
            Answer::NotFound => "there is no such alternate",
            Answer::InvalidParameter => "an address is owned by another interface",
            Answer::Rings => "the rings given do not fit",
            Answer::SlotLimitReached => "the slot or the number of slots is out of range",
            Answer::Unusable => "the record is unusable or not sound",
            Answer::Failed(code) => return write!(f, "a command failed, with code {code}"),
            Answer::InterfaceBroken => "what was begun could not be undone",
            Answer::Cut => "cut: no outcome was left for the last command",
            Answer::ShortHeader => "the header read has not 8 bytes",
            Answer::QueueFull => "the control endpoint's route is taken",
            Answer::InvalidEndpoint => "an endpoint's route is not its ring",
            Answer::PacketExponent => "the packet byte is no exponent of a SuperSpeed size",
            Answer::TooFewRings => "there are fewer free rings than endpoint words",
            Answer::OutdatedAsk => "the ask is outdated",
            Answer::NotClaimed => "the interface is not claimed",
            Answer::Companion => "a companion is missing, misplaced or out of range",
        })
    }
}

#[cfg(test)]
mod tests {
    use super::Answer;

    #[test]
    fn numbers_name_the_answers() {
        for number in (0..=19).chain([21, 22, 25, 26]) {
            let answer = Answer::of(number, 7).expect("an answer");
            assert_eq!(answer.number(), number);
            assert_eq!(answer.code(), if number == 13 { 7 } else { 0 });
        }
        assert_eq!([20, 23, 24, 27].map(|number| Answer::of(number, 0)), [None; 4]);
    }
}
