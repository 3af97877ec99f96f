//! Many slots over one command ring: whose call runs next, and the calls that wait for it.

use core::fmt;

use crate::library::{self, Marks};
use crate::{Answer, AsyncBus, Bus, Call, Pending, Reason, Record, Routes, SlotId};

/// How many slots one dispatcher takes.
pub const MOST_SLOTS: usize = 32;

/// Why a call may not wait.
///
/// ```
/// use xhci_device::{Order, SlotId, SubmitRefusal};
///
/// let mut order = Order::new();
/// order.submit(SlotId(7)).unwrap();
/// let refusal = order.submit(SlotId(7)).unwrap_err();
/// assert_eq!((refusal.number(), refusal.to_string().as_str()), (27, "the slot has a call waiting"));
/// ```
#[derive(Clone, Copy, Debug, PartialEq, Eq, Hash)]
#[non_exhaustive]
pub enum SubmitRefusal {
    /// A call of this slot is waiting.
    AlreadyWaiting,
    /// [`MOST_SLOTS`] other slots were taken since the dispatcher began.
    TooManySlots,
}

impl SubmitRefusal {
    pub(crate) fn of(number: u32) -> Option<SubmitRefusal> {
        use SubmitRefusal::*;
        [AlreadyWaiting, TooManySlots].into_iter().find(|refusal| u32::from(refusal.number()) == number)
    }

    /// The number in 02.
    pub fn number(self) -> u8 {
        match self {
            SubmitRefusal::AlreadyWaiting => 27,
            SubmitRefusal::TooManySlots => 28,
        }
    }
}

impl fmt::Display for SubmitRefusal {
    fn fmt(&self, f: &mut fmt::Formatter<'_>) -> fmt::Result {
        f.write_str(match self {
            SubmitRefusal::AlreadyWaiting => "the slot has a call waiting",
            SubmitRefusal::TooManySlots => "thirty-two other slots were taken",
        })
    }
}

/// Whose turn it is, for whoever keeps the waiting calls himself; [`Dispatcher`] keeps them.
///
/// ```
/// use xhci_device::{Order, SlotId};
///
/// let mut order = Order::new();
/// for slot in [7, 3, 5].map(SlotId) {
///     order.submit(slot).unwrap();
/// }
/// assert_eq!(order.turn(), Some(SlotId(3)));
/// order.submit(SlotId(3)).unwrap(); // it may wait again
/// assert_eq!([order.turn(), order.turn()], [Some(SlotId(5)), Some(SlotId(7))]);
/// assert_eq!([order.turn(), order.turn()], [Some(SlotId(3)), None]);
/// ```
#[derive(Clone, Debug)]
pub struct Order(Marks);

impl Default for Order {
    fn default() -> Order {
        Order::new()
    }
}

impl Order {
    /// No slot was taken, and none waits.
    pub fn new() -> Order {
        Order(library::new_dispatcher())
    }

    /// A call of this slot is to wait. Any byte is a slot; one that has waited once counts among the [`MOST_SLOTS`] for
    /// good. A refusal changes nothing.
    pub fn submit(&mut self, slot: SlotId) -> Result<(), SubmitRefusal> {
        library::submit(&mut self.0, slot)
    }

    /// The slot whose call runs now, and waits no longer: the lowest that waits above the one served last, or, where there
    /// is none, the lowest. None where none waits.
    #[must_use]
    pub fn turn(&mut self) -> Option<SlotId> {
        library::turn(&mut self.0)
    }
}

/// A call that is to wait for its turn, with the record that it is made on and the context that it is lent. Nobody else
/// has these while it waits.
#[derive(Debug)]
#[must_use]
pub struct Waiting<'a> {
    /// The record.
    pub record: &'a mut Record,
    /// The input context.
    pub ctx: &'a mut [u8],
    /// The call.
    pub call: Call<'a>,
}

impl<'a> Waiting<'a> {
    /// The call's slot: its record's, a bring-up's the one that it names.
    pub fn slot(&self) -> SlotId {
        match &self.call {
            Call::BringUp(attached) => attached.slot,
            _ => self.record.slot(),
        }
    }

    /// The call, to be driven.
    pub fn pending(self) -> Pending<'a> {
        Pending::new(self.record, self.ctx, self.call)
    }
}

/// A call that has run, with what it was lent.
#[derive(Debug)]
#[must_use]
pub struct Ran<'a> {
    /// Its slot.
    pub slot: SlotId,
    /// The record that it returned.
    pub record: &'a mut Record,
    /// The context as it left it.
    pub ctx: &'a mut [u8],
    /// Its answer.
    pub answer: Answer,
    /// Why a claim or a commit got it.
    pub reason: Option<Reason>,
}

/// Calls of up to [`MOST_SLOTS`] slots over one command ring. Each slot has at most one call waiting; calls run whole, one
/// at a turn, by rising slot after the one served last. A waiting call is started after at most 31 others, however many
/// arrive.
///
/// ```
/// use xhci_device::{Answer, Attached, Bus, Call, Dispatcher, Due, Outcome, Read, Record, SlotId, Waiting};
///
/// /// Every device on it is a keyboard.
/// struct Keyboards;
///
/// impl Bus for Keyboards {
///     fn send(&mut self, due: &Due<'_>) -> Outcome<'_> {
///         // due.slot says which.
/// #       Ok(match due.command {
/// #           xhci_device::Command::ReadHeader => Read::Bytes(&[18, 1, 0, 2, 0, 0, 0, 64]),
/// #           xhci_device::Command::ReadConfiguration => Read::Bytes(&[0]),
/// #           xhci_device::Command::ReadDevice => Read::Bytes(&[18, 1, 0, 2, 0, 0, 0, 64, 0, 0, 0, 0, 0, 0, 0, 0, 0, 1]),
/// #           xhci_device::Command::ReadConfig(_) => Read::Words(&[0x0040_0000, 0x4000_0000, 0xA384_0410]),
/// #           _ => Read::Nothing,
/// #       })
///     }
/// }
///
/// const RINGS: [[u64; 2]; 3] = [[0, 0], [0x1000, 0x2000], [0x3000, 0x4000]];
/// let bring_up = |slot: u8| {
///     let (rings, slot) = (&RINGS[usize::from(slot)], SlotId(slot));
///     Call::BringUp(Attached { slot, n: 2, speed: 3, parent: None, port: 1, root_port: slot.0, rings, hubs: &[] })
/// };
/// let (mut records, mut contexts, mut routes) = ([const { Record::new() }; 2], [[0; 1056]; 2], [0; 96]);
/// let mut dispatcher = Dispatcher::new();
/// for (slot, (record, ctx)) in [2, 1].into_iter().zip(records.iter_mut().zip(&mut contexts)) {
///     dispatcher.submit(Waiting { record, ctx, call: bring_up(slot) }).unwrap();
/// }
/// // Slot 1 comes first, though slot 2 was submitted first.
/// let ran = dispatcher.turn(&mut routes, &mut Keyboards).unwrap();
/// assert_eq!((ran.slot, ran.answer), (SlotId(1), Answer::Accepted));
/// let claim = Call::Claim { interface: 0, alternate: 0 };
/// dispatcher.submit(Waiting { record: ran.record, ctx: ran.ctx, call: claim }).unwrap();
/// let turns: Vec<_> = std::iter::from_fn(|| dispatcher.turn(&mut routes, &mut Keyboards)).collect();
/// assert!(turns.iter().map(|ran| (ran.slot.0, ran.answer)).eq([(2, Answer::Accepted), (1, Answer::Accepted)]));
/// assert_eq!([routes[33], routes[35], routes[65]], [0x1000, 0x2000, 0x3000]);
/// ```
#[derive(Debug)]
pub struct Dispatcher<'a> {
    order: Order,
    waiting: [Option<Waiting<'a>>; MOST_SLOTS],
    running: Option<Running<'a>>,
}

/// What the call of a turn that is awaited was lent. It is still here if the turn was dropped.
#[derive(Debug)]
struct Running<'a> {
    slot: SlotId,
    record: &'a mut Record,
    ctx: &'a mut [u8],
}

impl<'a> Running<'a> {
    fn ended(self, answer: Answer, reason: Option<Reason>) -> Ran<'a> {
        let Running { slot, record, ctx } = self;
        Ran { slot, record, ctx, answer, reason }
    }
}

impl Default for Dispatcher<'_> {
    fn default() -> Self {
        Dispatcher::new()
    }
}

impl<'a> Dispatcher<'a> {
    /// Nothing waits, and no slot was taken.
    pub fn new() -> Dispatcher<'a> {
        Dispatcher { order: Order::new(), waiting: [const { None }; MOST_SLOTS], running: None }
    }

    /// Lets a call wait for its turn. Refused, it is given back, and nothing is changed.
    pub fn submit(&mut self, call: Waiting<'a>) -> Result<(), (SubmitRefusal, Waiting<'a>)> {
        if let Err(refusal) = self.order.submit(call.slot()) {
            return Err((refusal, call));
        }
        // Each taken slot has at most one waiting, so there is room.
        if let Some(place) = self.waiting.iter_mut().find(|place| place.is_none()) {
            *place = Some(call);
        }
        Ok(())
    }

    /// The call whose turn it is. It is to be run whole ([`Waiting::pending`]) before the next one is taken.
    #[must_use]
    pub fn next(&mut self) -> Option<Waiting<'a>> {
        let slot = self.order.turn()?;
        self.waiting.iter_mut().find(|place| place.as_ref().is_some_and(|call| call.slot() == slot))?.take()
    }

    /// Runs the call whose turn it is, over the routes of all slots. None where none waits.
    #[must_use]
    pub fn turn<B: Bus + ?Sized>(&mut self, routes: &mut [u64], bus: &mut B) -> Option<Ran<'a>> {
        if let Some(cut) = self.take_cut() {
            return Some(cut);
        }
        let waiting = self.next()?;
        let slot = waiting.slot();
        let mut pending = waiting.pending();
        let answer = pending.run(routes, bus);
        let reason = pending.why();
        let (record, ctx) = pending.into_parts();
        Some(Ran { slot, record, ctx, answer, reason })
    }

    /// Runs the call whose turn it is over an [`AsyncBus`] ([`Pending::run_async`]).
    ///
    /// To drop the future before its end is to cut the call. The next turn gives it back, with answer 15, and starts none;
    /// the one after that goes on with the slot that is next.
    ///
    /// ```
    /// use std::cell::RefCell;
    /// use std::pin::pin;
    /// use std::task::{Context, Poll, Waker};
    /// use xhci_device::{Answer, AsyncBus, Call, Dispatcher, Job, Outcome, Read, SlotId, Waiting};
    ///
    /// /// A controller that has no end for slot 1.
    /// struct Hangs;
    ///
    /// impl AsyncBus for Hangs {
    ///     async fn send(&mut self, job: Job, _: &[u8]) -> Outcome<'_> {
    ///         if job.slot == SlotId(1) {
    ///             std::future::pending::<()>().await;
    ///         }
    ///         Ok(Read::Nothing)
    ///     }
    /// }
    ///
    /// # let (mut contexts, mut routes, mut log) = ([[0; 1056]; 2], [0; 96], [0; 64]);
    /// # let mut up = |slot: u8, rings: &[u64], ctx: &mut [u8]| {
    /// #     let memory = xhci_device::Memory { ctx, routes: &mut routes, log: &mut log, outcomes: &[0; 64] };
    /// #     let args = xhci_device::BringUp { slot: SlotId(slot), n: 2, speed: 3, parent: None, port: 1, root_port: slot, rings,
    /// #         header: 8, packet: 64, value: 0, hubs: &[], list: &[0x0040_0000, 0x4000_0000, 0xA384_0410] };
    /// #     xhci_device::Record::bring_up(memory, &args).0
    /// # };
    /// # let [one, two] = &mut contexts;
    /// # let mut records = [up(1, &[0x1000, 0x2000], one), up(2, &[0x3000, 0x4000], two)];
    /// let routes = RefCell::new(routes);
    /// let mut dispatcher = Dispatcher::new();
    /// for (record, ctx) in records.iter_mut().zip(&mut contexts) {
    ///     dispatcher.submit(Waiting { record, ctx, call: Call::Claim { interface: 0, alternate: 0 } }).unwrap();
    /// }
    /// let mut context = Context::from_waker(Waker::noop());
    /// let mut turn = || match pin!(dispatcher.turn_async(&routes, &mut Hangs)).poll(&mut context) {
    ///     Poll::Ready(ran) => ran.map(|ran| (ran.slot.0, ran.answer)),
    ///     Poll::Pending => Some((0, Answer::Cut)), // dropped here
    /// };
    /// assert_eq!(turn(), Some((0, Answer::Cut)));
    /// assert_eq!(turn(), Some((1, Answer::Cut)));
    /// assert_eq!(turn(), Some((2, Answer::Accepted)));
    /// assert_eq!(turn(), None);
    /// ```
    #[must_use]
    pub async fn turn_async<R: Routes + ?Sized, B: AsyncBus>(&mut self, routes: &R, bus: &mut B) -> Option<Ran<'a>> {
        if let Some(cut) = self.take_cut() {
            return Some(cut);
        }
        let waiting = self.next()?;
        let slot = waiting.slot();
        let Waiting { record, ctx, call } = waiting;
        let lent = self.running.insert(Running { slot, record, ctx });
        let mut pending = Pending::new(lent.record, lent.ctx, call);
        let answer = pending.run_async(routes, bus).await;
        let reason = pending.why();
        self.running.take().map(|lent| lent.ended(answer, reason))
    }

    /// The call of a [`turn_async`](Dispatcher::turn_async) that was dropped before its end, which cut it; where it is not taken, the
    /// next turn gives it back.
    ///
    /// ```
    /// # use std::pin::pin;
    /// # use std::task::{Context, Waker};
    /// use xhci_device::{Answer, Call, Dispatcher, SlotId, Waiting};
    ///
    /// # use xhci_device::{AsyncBus, Job, Outcome};
    /// # struct Hangs;
    /// # impl AsyncBus for Hangs {
    /// #     async fn send(&mut self, _: Job, _: &[u8]) -> Outcome<'_> { std::future::pending().await }
    /// # }
    /// # let (mut ctx, mut routes, mut log) = ([0; 1056], [0; 64], [0; 64]);
    /// # let memory = xhci_device::Memory { ctx: &mut ctx, routes: &mut routes, log: &mut log, outcomes: &[0; 64] };
    /// # let args = xhci_device::BringUp { slot: SlotId(1), n: 1, speed: 3, parent: None, port: 1,
    /// #     root_port: 1, rings: &[0x1000], header: 8, packet: 64, value: 0, hubs: &[], list: &[0x0040_0000, 0x4000_0000] };
    /// # let (mut record, ..) = xhci_device::Record::bring_up(memory, &args);
    /// # let routes = std::cell::RefCell::new(routes);
    /// # let (mut bus, mut context) = (Hangs, Context::from_waker(Waker::noop()));
    /// let mut dispatcher = Dispatcher::new();
    /// let call = Call::SetConfiguration { value: 1 };
    /// dispatcher.submit(Waiting { record: &mut record, ctx: &mut ctx, call }).unwrap();
    /// {
    ///     let turn = pin!(dispatcher.turn_async(&routes, &mut bus)); // which has no end for its command
    ///     assert!(turn.poll(&mut context).is_pending());
    /// }
    /// let cut = dispatcher.take_cut().unwrap();
    /// assert_eq!((cut.slot, cut.answer), (SlotId(1), Answer::Cut));
    /// let unplug = Waiting { record: cut.record, ctx: cut.ctx, call: Call::Disconnect };
    /// assert!(dispatcher.submit(unplug).is_ok());
    /// ```
    #[must_use]
    pub fn take_cut(&mut self) -> Option<Ran<'a>> {
        self.running.take().map(|lent| lent.ended(Answer::Cut, None))
    }
}
