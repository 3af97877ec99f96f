//! The archives' functions (host/include/xhci_device.h). Each writes to the slices that it is given and to
//! nothing else, and keeps no pointer; a `&mut` slice overlaps no other.
#![allow(unsafe_code)]

use core::ops::Range;

use crate::layout::EP_ROOM;
use crate::{
    Answer, Answered, Asked, BlockRefusal, BringUp, ChoiceRefusal, Chosen, Dci, MOST_NAMES, Memory, RawRefusal,
    SettingsRefusal, SlotId, SubmitRefusal,
};

#[repr(C)]
struct Told {
    answer: u32,
    code: u32,
    count: usize,
}

/// What a word of the log says, by numbers.
#[repr(C)]
pub struct Logged {
    pub operation: u8,
    pub first: u8,
    pub second: u8,
}

#[repr(C)]
struct Shown {
    answer: u32,
    interface: u8,
    alternate: u8,
    drops: u32,
    adds: u32,
    count: usize,
}

/// A reason, by numbers.
#[repr(C)]
pub struct Why {
    pub kind: u32,
    pub interface: u8,
    pub alternate: u8,
    pub word: u32,
    pub number: u32,
    pub place: usize,
}

#[repr(C)]
struct Placed {
    answer: u32,
    offset: usize,
    length: usize,
}

#[repr(C)]
struct Picked {
    answer: u32,
    alternates: [u8; MOST_NAMES],
}

/// How many slots there are: every byte is one.
const SLOTS: usize = 256;

/// A dispatcher: what is known of each slot, how many were taken, and where the next turn begins to look.
#[repr(C)]
#[derive(Clone, Copy, Debug)]
pub struct Marks {
    marks: [u8; SLOTS],
    taken: u16,
    from: u16,
}

#[repr(C)]
struct Submitted {
    dispatcher: Marks,
    answer: u32,
}

#[repr(C)]
struct Turned {
    dispatcher: Marks,
    served: bool,
    slot: u8,
}

unsafe extern "C" {
    fn xhci_device_new_dispatcher() -> Marks;
    fn xhci_device_submit(dispatcher: Marks, slot: u8) -> Submitted;
    fn xhci_device_turn(dispatcher: Marks) -> Turned;
    fn xhci_device_command_of(word: u32) -> Logged;
    fn xhci_device_record_words() -> usize;
    fn xhci_device_is_usable(image: *const u64, image_len: usize) -> bool;
    fn xhci_device_is_up(image: *const u64, image_len: usize) -> bool;
    fn xhci_device_is_sound(image: *const u64, image_len: usize) -> bool;
    fn xhci_device_bring_up(
        image: *mut u64,
        image_len: usize,
        ctx: *mut u8,
        ctx_len: usize,
        routes: *mut u64,
        routes_len: usize,
        log: *mut u32,
        log_len: usize,
        outcomes: *const u8,
        outcomes_len: usize,
        rings: *const u64,
        rings_len: usize,
        hubs: *const u64,
        hubs_len: usize,
        list: *const u32,
        list_len: usize,
        slot: u8,
        n: usize,
        speed: u8,
        has_parent: u8,
        parent: usize,
        port: u8,
        root_port: u8,
        header: usize,
        packet: u8,
        value: u8,
    ) -> Told;
    fn xhci_device_claim(
        image: *mut u64,
        image_len: usize,
        ctx: *mut u8,
        ctx_len: usize,
        routes: *mut u64,
        routes_len: usize,
        log: *mut u32,
        log_len: usize,
        outcomes: *const u8,
        outcomes_len: usize,
        interface: u8,
        alternate: u8,
    ) -> Told;
    fn xhci_device_ask(
        image: *const u64,
        image_len: usize,
        ctx_len: usize,
        routes_len: usize,
        log_len: usize,
        interface: u8,
        alternate: u8,
        rings: *mut u64,
        rings_len: usize,
    ) -> Shown;
    fn xhci_device_commit(
        image: *mut u64,
        image_len: usize,
        ctx: *mut u8,
        ctx_len: usize,
        routes: *mut u64,
        routes_len: usize,
        log: *mut u32,
        log_len: usize,
        outcomes: *const u8,
        outcomes_len: usize,
        interface: u8,
        alternate: u8,
        drops: u32,
        adds: u32,
        rings: *const u64,
        rings_len: usize,
    ) -> Told;
    fn xhci_device_release(
        image: *mut u64,
        image_len: usize,
        ctx: *mut u8,
        ctx_len: usize,
        routes: *mut u64,
        routes_len: usize,
        log: *mut u32,
        log_len: usize,
        outcomes: *const u8,
        outcomes_len: usize,
        interface: u8,
    ) -> Told;
    fn xhci_device_set_configuration(
        image: *mut u64,
        image_len: usize,
        ctx: *mut u8,
        ctx_len: usize,
        routes: *mut u64,
        routes_len: usize,
        log: *mut u32,
        log_len: usize,
        outcomes: *const u8,
        outcomes_len: usize,
        value: u8,
    ) -> Told;
    fn xhci_device_hub_update(
        image: *mut u64,
        image_len: usize,
        ctx: *mut u8,
        ctx_len: usize,
        routes: *mut u64,
        routes_len: usize,
        log: *mut u32,
        log_len: usize,
        outcomes: *const u8,
        outcomes_len: usize,
        ports: u8,
        multi: u8,
        ns: u32,
    ) -> Told;
    fn xhci_device_disconnect(
        image: *mut u64,
        image_len: usize,
        ctx: *mut u8,
        ctx_len: usize,
        routes: *mut u64,
        routes_len: usize,
        log: *mut u32,
        log_len: usize,
        outcomes: *const u8,
        outcomes_len: usize,
    ) -> Told;
    fn xhci_device_why(
        image: *const u64,
        image_len: usize,
        interface: u8,
        alternate: u8,
        answer: u32,
        log: *const u32,
        log_len: usize,
        outcomes: *const u8,
        outcomes_len: usize,
    ) -> Why;
    fn xhci_device_choose(
        image: *const u64,
        image_len: usize,
        names: *const u8,
        names_len: usize,
        longest: u32,
    ) -> Picked;
    fn xhci_device_read_descriptors(
        bytes: *const u8,
        bytes_len: usize,
        speed: u8,
        words: *mut u32,
        words_len: usize,
    ) -> Told;
    fn xhci_device_write_descriptors(
        list: *const u32,
        list_len: usize,
        speed: u8,
        bytes: *mut u8,
        bytes_len: usize,
    ) -> Told;
    fn xhci_device_settings_to_new(
        settings: *const u8,
        settings_len: usize,
        list: *const u32,
        list_len: usize,
        speed: u8,
        bytes: *mut u8,
        bytes_len: usize,
    ) -> Told;
    fn xhci_device_settings_to_old(
        settings: *const u8,
        settings_len: usize,
        list: *const u32,
        list_len: usize,
        speed: u8,
        bytes: *mut u8,
        bytes_len: usize,
    ) -> Told;
    fn xhci_device_block(input_len: usize, output_len: usize, from_output: u8, dci: u8) -> Placed;
}

fn told(told: Told) -> Answered {
    Answered { answer: answer(told.answer, told.code), count: told.count }
}

fn answer(number: u32, code: u32) -> Answer {
    Answer::of(number as u8, code as u8).expect("an answer of a call")
}

/// What a function outside a slot answers.
fn counted<Refusal>(told: Told, refusal: fn(u32) -> Option<Refusal>) -> Result<usize, Refusal> {
    match told.answer {
        0 => Ok(told.count),
        number => Err(refusal(number).expect("an answer of the function")),
    }
}

/// How many words a record of the archive has.
pub fn record_words() -> usize {
    // SAFETY: takes nothing.
    unsafe { xhci_device_record_words() }
}

pub fn command_of(word: u32) -> Logged {
    // SAFETY: takes a number and returns numbers.
    unsafe { xhci_device_command_of(word) }
}

pub fn is_usable(image: &[u64]) -> bool {
    // SAFETY: reads a slice, of which pointer and length are given.
    unsafe { xhci_device_is_usable(image.as_ptr(), image.len()) }
}

pub fn is_up(image: &[u64]) -> bool {
    // SAFETY: reads a slice, of which pointer and length are given.
    unsafe { xhci_device_is_up(image.as_ptr(), image.len()) }
}

pub fn is_sound(image: &[u64]) -> bool {
    // SAFETY: reads a slice, of which pointer and length are given.
    unsafe { xhci_device_is_sound(image.as_ptr(), image.len()) }
}

pub fn bring_up(image: &mut [u64], memory: Memory<'_>, args: &BringUp<'_>) -> Answered {
    let Memory { ctx, routes, log, outcomes } = memory;
    // SAFETY: each pointer comes with its slice's length, and the slices written are borrowed for this call alone.
    told(unsafe {
        xhci_device_bring_up(
            image.as_mut_ptr(),
            image.len(),
            ctx.as_mut_ptr(),
            ctx.len(),
            routes.as_mut_ptr(),
            routes.len(),
            log.as_mut_ptr(),
            log.len(),
            outcomes.as_ptr(),
            outcomes.len(),
            args.rings.as_ptr(),
            args.rings.len(),
            args.hubs.as_ptr(),
            args.hubs.len(),
            args.list.as_ptr(),
            args.list.len(),
            args.slot.0,
            args.n,
            args.speed,
            u8::from(args.parent.is_some()),
            args.parent.unwrap_or(0),
            args.port,
            args.root_port,
            args.header,
            args.packet,
            args.value,
        )
    })
}

pub fn claim(image: &mut [u64], memory: Memory<'_>, interface: u8, alternate: u8) -> Answered {
    let Memory { ctx, routes, log, outcomes } = memory;
    // SAFETY: each pointer comes with its slice's length, and the slices written are borrowed for this call alone.
    told(unsafe {
        xhci_device_claim(
            image.as_mut_ptr(),
            image.len(),
            ctx.as_mut_ptr(),
            ctx.len(),
            routes.as_mut_ptr(),
            routes.len(),
            log.as_mut_ptr(),
            log.len(),
            outcomes.as_ptr(),
            outcomes.len(),
            interface,
            alternate,
        )
    })
}

/// Lengths of context, routes and log.
pub fn ask(image: &[u64], lengths: [usize; 3], interface: u8, alternate: u8) -> Result<Asked, Answer> {
    let [ctx, routes, log] = lengths;
    let mut rings = [0; EP_ROOM];
    // SAFETY: each pointer comes with its slice's length, and the rings are borrowed for this call alone.
    let shown = unsafe {
        xhci_device_ask(
            image.as_ptr(),
            image.len(),
            ctx,
            routes,
            log,
            interface,
            alternate,
            rings.as_mut_ptr(),
            rings.len(),
        )
    };
    match answer(shown.answer, 0) {
        Answer::Accepted => {
            let Shown { interface, alternate, drops, adds, count, .. } = shown;
            Ok(Asked { interface, alternate, drops, adds, rings, count })
        }
        refused => Err(refused),
    }
}

/// The parts of an ask.
pub struct Parts<'a> {
    pub interface: u8,
    pub alternate: u8,
    pub drops: u32,
    pub adds: u32,
    pub rings: &'a [u64],
}

pub fn commit(image: &mut [u64], memory: Memory<'_>, asked: &Parts<'_>) -> Answered {
    let Memory { ctx, routes, log, outcomes } = memory;
    // SAFETY: each pointer comes with its slice's length, and the slices written are borrowed for this call alone.
    told(unsafe {
        xhci_device_commit(
            image.as_mut_ptr(),
            image.len(),
            ctx.as_mut_ptr(),
            ctx.len(),
            routes.as_mut_ptr(),
            routes.len(),
            log.as_mut_ptr(),
            log.len(),
            outcomes.as_ptr(),
            outcomes.len(),
            asked.interface,
            asked.alternate,
            asked.drops,
            asked.adds,
            asked.rings.as_ptr(),
            asked.rings.len(),
        )
    })
}

pub fn release(image: &mut [u64], memory: Memory<'_>, interface: u8) -> Answered {
    let Memory { ctx, routes, log, outcomes } = memory;
    // SAFETY: each pointer comes with its slice's length, and the slices written are borrowed for this call alone.
    told(unsafe {
        xhci_device_release(
            image.as_mut_ptr(),
            image.len(),
            ctx.as_mut_ptr(),
            ctx.len(),
            routes.as_mut_ptr(),
            routes.len(),
            log.as_mut_ptr(),
            log.len(),
            outcomes.as_ptr(),
            outcomes.len(),
            interface,
        )
    })
}

pub fn set_configuration(image: &mut [u64], memory: Memory<'_>, value: u8) -> Answered {
    let Memory { ctx, routes, log, outcomes } = memory;
    // SAFETY: each pointer comes with its slice's length, and the slices written are borrowed for this call alone.
    told(unsafe {
        xhci_device_set_configuration(
            image.as_mut_ptr(),
            image.len(),
            ctx.as_mut_ptr(),
            ctx.len(),
            routes.as_mut_ptr(),
            routes.len(),
            log.as_mut_ptr(),
            log.len(),
            outcomes.as_ptr(),
            outcomes.len(),
            value,
        )
    })
}

pub fn hub_update(image: &mut [u64], memory: Memory<'_>, ports: u8, multi: bool, ns: u32) -> Answered {
    let Memory { ctx, routes, log, outcomes } = memory;
    // SAFETY: each pointer comes with its slice's length, and the slices written are borrowed for this call alone.
    told(unsafe {
        xhci_device_hub_update(
            image.as_mut_ptr(),
            image.len(),
            ctx.as_mut_ptr(),
            ctx.len(),
            routes.as_mut_ptr(),
            routes.len(),
            log.as_mut_ptr(),
            log.len(),
            outcomes.as_ptr(),
            outcomes.len(),
            ports,
            u8::from(multi),
            ns,
        )
    })
}

pub fn disconnect(image: &mut [u64], memory: Memory<'_>) -> Answered {
    let Memory { ctx, routes, log, outcomes } = memory;
    // SAFETY: each pointer comes with its slice's length, and the slices written are borrowed for this call alone.
    told(unsafe {
        xhci_device_disconnect(
            image.as_mut_ptr(),
            image.len(),
            ctx.as_mut_ptr(),
            ctx.len(),
            routes.as_mut_ptr(),
            routes.len(),
            log.as_mut_ptr(),
            log.len(),
            outcomes.as_ptr(),
            outcomes.len(),
        )
    })
}

/// Of the answer's number, the words logged and the outcomes.
pub fn why(image: &[u64], setting: (u8, u8), number: u8, log: &[u32], outcomes: &[u8]) -> Why {
    let (interface, alternate) = setting;
    // SAFETY: reads slices, of which pointer and length are given.
    unsafe {
        xhci_device_why(
            image.as_ptr(),
            image.len(),
            interface,
            alternate,
            number.into(),
            log.as_ptr(),
            log.len(),
            outcomes.as_ptr(),
            outcomes.len(),
        )
    }
}

pub fn choose(image: &[u64], names: &[u8], longest: u32) -> Result<Chosen, ChoiceRefusal> {
    // SAFETY: reads two slices, of which pointers and lengths are given.
    let picked = unsafe { xhci_device_choose(image.as_ptr(), image.len(), names.as_ptr(), names.len(), longest) };
    match picked.answer {
        0 => {
            let mut named = [0; MOST_NAMES];
            named[..names.len()].copy_from_slice(names);
            Ok(Chosen { names: named, alternates: picked.alternates, count: names.len() })
        }
        number => Err(ChoiceRefusal::of(number).expect("an answer of the function")),
    }
}

pub fn new_dispatcher() -> Marks {
    // SAFETY: takes nothing.
    unsafe { xhci_device_new_dispatcher() }
}

pub fn submit(dispatcher: &mut Marks, slot: SlotId) -> Result<(), SubmitRefusal> {
    // SAFETY: takes numbers and returns numbers.
    let submitted = unsafe { xhci_device_submit(*dispatcher, slot.0) };
    *dispatcher = submitted.dispatcher;
    match submitted.answer {
        0 => Ok(()),
        number => Err(SubmitRefusal::of(number).expect("an answer of the function")),
    }
}

pub fn turn(dispatcher: &mut Marks) -> Option<SlotId> {
    // SAFETY: takes numbers and returns numbers.
    let turned = unsafe { xhci_device_turn(*dispatcher) };
    *dispatcher = turned.dispatcher;
    turned.served.then_some(SlotId(turned.slot))
}

pub fn read_descriptors(bytes: &[u8], speed: u8, words: &mut [u32]) -> Result<usize, RawRefusal> {
    // SAFETY: each pointer comes with its slice's length, and the words are borrowed for this call alone.
    let told =
        unsafe { xhci_device_read_descriptors(bytes.as_ptr(), bytes.len(), speed, words.as_mut_ptr(), words.len()) };
    counted(told, RawRefusal::of)
}

pub fn write_descriptors(list: &[u32], speed: u8, bytes: &mut [u8]) -> Result<usize, RawRefusal> {
    // SAFETY: each pointer comes with its slice's length, and the bytes are borrowed for this call alone.
    let told =
        unsafe { xhci_device_write_descriptors(list.as_ptr(), list.len(), speed, bytes.as_mut_ptr(), bytes.len()) };
    counted(told, RawRefusal::of)
}

pub fn settings_to_new(settings: &[u8], list: &[u32], speed: u8, bytes: &mut [u8]) -> Result<usize, SettingsRefusal> {
    // SAFETY: each pointer comes with its slice's length, and the bytes are borrowed for this call alone.
    let told = unsafe {
        xhci_device_settings_to_new(
            settings.as_ptr(),
            settings.len(),
            list.as_ptr(),
            list.len(),
            speed,
            bytes.as_mut_ptr(),
            bytes.len(),
        )
    };
    counted(told, SettingsRefusal::of)
}

pub fn settings_to_old(settings: &[u8], list: &[u32], speed: u8, bytes: &mut [u8]) -> Result<usize, SettingsRefusal> {
    // SAFETY: each pointer comes with its slice's length, and the bytes are borrowed for this call alone.
    let told = unsafe {
        xhci_device_settings_to_old(
            settings.as_ptr(),
            settings.len(),
            list.as_ptr(),
            list.len(),
            speed,
            bytes.as_mut_ptr(),
            bytes.len(),
        )
    };
    counted(told, SettingsRefusal::of)
}

/// Lengths of input and output. Where the block stands in the one that is shown.
pub fn block(lengths: [usize; 2], from_output: bool, dci: Dci) -> Result<Range<usize>, BlockRefusal> {
    let [input, output] = lengths;
    // SAFETY: takes numbers and returns numbers.
    let placed = unsafe { xhci_device_block(input, output, from_output.into(), dci.0) };
    match placed.answer {
        0 => Ok(placed.offset..placed.offset + placed.length),
        number => Err(BlockRefusal::of(number).expect("an answer of the function")),
    }
}

#[cfg(test)]
mod tests {
    #[test]
    fn the_archive_has_this_image() {
        assert_eq!(super::record_words(), crate::layout::WORDS);
    }
}
