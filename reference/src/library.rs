//! Safe wrappers over the exports of `include/yelansub.h`.
//!
//! A slice goes over as pointer and length; an empty one as null and 0, which every export takes.
//! Answers keep the shape of the C structs, number first.

use core::mem::{align_of, offset_of, size_of};

use crate::chassis::{Buffers, Step};
use crate::limits::{MOST_CARDS, OK};
use crate::message::Entry;

#[repr(C)]
#[derive(Clone, Copy, Debug, Default, PartialEq, Eq)]
pub struct Reading {
    pub number: u64,
    /// At most `MAX` of each card: sixteen decimal digits.
    pub value: u64,
    pub holders: u64,
    pub holder_count: u64,
}

impl Reading {
    /// Whether the counter is quiet on its card. A value of 0 is not enough: a count that is cleared
    /// there may still be under way. Nor are the zeros of a refused read.
    pub fn is_quiet(&self) -> bool {
        self.number == OK && self.holders == 0
    }
}

#[repr(C)]
#[derive(Clone, Copy, Debug, Default, PartialEq, Eq)]
pub struct Active {
    pub number: u64,
    pub counters: u64,
}

#[repr(C)]
#[derive(Clone, Copy, Debug, Default, PartialEq, Eq)]
pub struct Sent {
    pub number: u64,
    pub sequence: u64,
    pub length: u64,
}

#[repr(C)]
#[derive(Clone, Copy, Debug, Default, PartialEq, Eq)]
pub struct Cleared {
    pub number: u64,
    pub value: u64,
    pub sequence: u64,
    pub length: u64,
}

#[repr(C)]
#[derive(Clone, Copy, Debug, Default, PartialEq, Eq)]
pub struct Taken {
    pub number: u64,
    pub sequence: u64,
}

#[repr(C)]
#[derive(Clone, Copy, Debug, Default, PartialEq, Eq)]
pub struct Span {
    pub start: u64,
    pub length: u64,
}

/// What its version and its kind do not use is 0, the entries from `len` on included.
#[repr(C)]
#[derive(Clone, Copy, Debug, Default, PartialEq, Eq)]
pub struct Message {
    pub version: u32,
    pub kind: u32,
    pub sender: u32,
    pub sequence: u64,
    pub counter: u32,
    pub p: u64,
    pub start: u32,
    pub amount: u32,
    pub len: usize,
    pub entries: [Entry; MOST_CARDS],
}

#[repr(C)]
#[derive(Clone, Copy, Debug, Default, PartialEq, Eq)]
pub struct MessageReading {
    pub number: u64,
    pub message: Message,
}

#[repr(C)]
#[derive(Clone, Copy, Debug, Default, PartialEq, Eq)]
pub struct Written {
    pub number: u64,
    pub length: usize,
}

#[repr(C)]
#[derive(Clone, Copy, Debug, Default, PartialEq, Eq)]
pub struct Delivered {
    pub number: u64,
    pub deliveries: u64,
}

/// Holds a struct to a size, an alignment and the place of every field; one that is left out does
/// not compile.
macro_rules! laid_out {
    ($name:ident, $size:expr, $align:expr, { $($field:ident: $at:expr),* }) => {
        const _: () = {
            assert!(size_of::<$name>() == $size && align_of::<$name>() == $align);
            $(assert!(offset_of!($name, $field) == $at);)*
            let _all = |whole: $name| {
                let $name { $($field: _),* } = whole;
            };
        };
    };
}

// The structs of include/yelansub.h on x86-64, System V; tests/layout.c holds C to these numbers.
laid_out!(Reading, 32, 8, { number: 0, value: 8, holders: 16, holder_count: 24 });
laid_out!(Active, 16, 8, { number: 0, counters: 8 });
laid_out!(Sent, 24, 8, { number: 0, sequence: 8, length: 16 });
laid_out!(Cleared, 32, 8, { number: 0, value: 8, sequence: 16, length: 24 });
laid_out!(Taken, 16, 8, { number: 0, sequence: 8 });
laid_out!(Entry, 24, 8, { card: 0, p: 8, c: 16 });
laid_out!(Message, 56 + 24 * MOST_CARDS, 8, {
    version: 0, kind: 4, sender: 8, sequence: 16, counter: 24, p: 32, start: 40, amount: 44,
    len: 48, entries: 56
});
laid_out!(MessageReading, 64 + 24 * MOST_CARDS, 8, { number: 0, message: 8 });
laid_out!(Written, 16, 8, { number: 0, length: 8 });
laid_out!(Span, 16, 8, { start: 0, length: 8 });
laid_out!(Step, 16, 4, { kind: 0, first: 4, second: 8, amount: 12 });
laid_out!(Delivered, 16, 8, { number: 0, deliveries: 8 });

mod raw {
    use super::{Active, Cleared, Delivered, Reading, Sent, Span, Step, Taken};
    use super::{Message, MessageReading, Written};

    extern "C" {
        pub fn yelansub_open(
            words: *mut u64,
            words_len: usize,
            cards: u64,
            counters: u64,
            own: u64,
        ) -> u64;
        pub fn yelansub_read(words: *const u64, words_len: usize, counter: u64) -> Reading;
        pub fn yelansub_active_counters(words: *const u64, words_len: usize) -> Active;
        pub fn yelansub_count(
            words: *mut u64,
            words_len: usize,
            counter: u64,
            amount: u64,
            out: *mut u8,
            out_len: usize,
        ) -> Sent;
        pub fn yelansub_clear(
            words: *mut u64,
            words_len: usize,
            counter: u64,
            out: *mut u8,
            out_len: usize,
        ) -> Sent;
        pub fn yelansub_read_and_clear(
            words: *mut u64,
            words_len: usize,
            counter: u64,
            out: *mut u8,
            out_len: usize,
        ) -> Cleared;
        pub fn yelansub_take(
            words: *mut u64,
            words_len: usize,
            message: *const u8,
            message_len: usize,
        ) -> Taken;
        pub fn yelansub_read_message(bytes: *const u8, bytes_len: usize) -> MessageReading;
        pub fn yelansub_write_message(message: Message, out: *mut u8, out_len: usize) -> Written;
        pub fn yelansub_to_version_2(
            log: *const u8,
            log_len: usize,
            out: *mut u8,
            out_len: usize,
        ) -> Written;
        pub fn yelansub_to_version_1(
            log: *const u8,
            log_len: usize,
            out: *mut u8,
            out_len: usize,
        ) -> Written;
        pub fn yelansub_waiting(log: *const u8, log_len: usize, q: u64) -> Span;
        pub fn yelansub_run(
            cards: u64,
            counters: u64,
            log_bytes: u64,
            steps: *const u8,
            steps_len: usize,
            words: *mut u64,
            words_len: usize,
            logs: *mut u8,
            logs_len: usize,
            answers: *mut u64,
            answers_len: usize,
        ) -> u64;
        pub fn yelansub_run_records(
            cards: u64,
            counters: u64,
            log_bytes: u64,
            steps: *const Step,
            steps_len: usize,
            words: *mut u64,
            words_len: usize,
            logs: *mut u8,
            logs_len: usize,
            answers: *mut u64,
            answers_len: usize,
        ) -> u64;
        pub fn yelansub_deliver_pending(
            cards: u64,
            counters: u64,
            log_bytes: u64,
            most: u64,
            words: *mut u64,
            words_len: usize,
            logs: *const u8,
            logs_len: usize,
        ) -> Delivered;
    }
}

fn lend<T>(slice: &[T]) -> *const T {
    if slice.is_empty() {
        core::ptr::null()
    } else {
        slice.as_ptr()
    }
}

fn lend_mut<T>(slice: &mut [T]) -> *mut T {
    if slice.is_empty() {
        core::ptr::null_mut()
    } else {
        slice.as_mut_ptr()
    }
}

// SAFETY of every block below: each pointer and length is that of one slice, which is valid for
// the call; two slices of one call never overlap, at least one being borrowed mutably. The
// exports keep no pointer.

pub fn open(words: &mut [u64], cards: u64, counters: u64, own: u64) -> u64 {
    unsafe { raw::yelansub_open(lend_mut(words), words.len(), cards, counters, own) }
}

pub fn read(words: &[u64], counter: u64) -> Reading {
    unsafe { raw::yelansub_read(lend(words), words.len(), counter) }
}

pub fn active_counters(words: &[u64]) -> Active {
    unsafe { raw::yelansub_active_counters(lend(words), words.len()) }
}

pub fn count(words: &mut [u64], counter: u64, amount: u64, out: &mut [u8]) -> Sent {
    let (at, len) = (lend_mut(words), words.len());
    unsafe { raw::yelansub_count(at, len, counter, amount, lend_mut(out), out.len()) }
}

pub fn clear(words: &mut [u64], counter: u64, out: &mut [u8]) -> Sent {
    unsafe { raw::yelansub_clear(lend_mut(words), words.len(), counter, lend_mut(out), out.len()) }
}

pub fn read_and_clear(words: &mut [u64], counter: u64, out: &mut [u8]) -> Cleared {
    let (at, len) = (lend_mut(words), words.len());
    unsafe { raw::yelansub_read_and_clear(at, len, counter, lend_mut(out), out.len()) }
}

pub fn take(words: &mut [u64], message: &[u8]) -> Taken {
    unsafe { raw::yelansub_take(lend_mut(words), words.len(), lend(message), message.len()) }
}

pub fn read_message(bytes: &[u8]) -> MessageReading {
    unsafe { raw::yelansub_read_message(lend(bytes), bytes.len()) }
}

pub fn write_message(message: Message, out: &mut [u8]) -> Written {
    unsafe { raw::yelansub_write_message(message, lend_mut(out), out.len()) }
}

pub fn to_version_2(log: &[u8], out: &mut [u8]) -> Written {
    unsafe { raw::yelansub_to_version_2(lend(log), log.len(), lend_mut(out), out.len()) }
}

pub fn to_version_1(log: &[u8], out: &mut [u8]) -> Written {
    unsafe { raw::yelansub_to_version_1(lend(log), log.len(), lend_mut(out), out.len()) }
}

pub fn waiting(log: &[u8], q: u64) -> Span {
    unsafe { raw::yelansub_waiting(lend(log), log.len(), q) }
}

pub fn run(cards: u64, counters: u64, log_bytes: u64, steps: &[u8], lent: Buffers) -> u64 {
    run_by(raw::yelansub_run, [cards, counters, log_bytes], steps, lent)
}

pub fn run_records(
    cards: u64,
    counters: u64,
    log_bytes: u64,
    steps: &[Step],
    lent: Buffers,
) -> u64 {
    run_by(raw::yelansub_run_records, [cards, counters, log_bytes], steps, lent)
}

/// An export that runs steps of type `S`: three sizes, then four slices.
type Run<S> = unsafe extern "C" fn(
    u64,
    u64,
    u64,
    *const S,
    usize,
    *mut u64,
    usize,
    *mut u8,
    usize,
    *mut u64,
    usize,
) -> u64;

/// Both runs over their exports, which differ in the type of a step alone.
fn run_by<S>(export: Run<S>, sizes: [u64; 3], steps: &[S], lent: Buffers) -> u64 {
    let Buffers { words, logs, answers } = lent;
    unsafe {
        export(
            sizes[0],
            sizes[1],
            sizes[2],
            lend(steps),
            steps.len(),
            lend_mut(words),
            words.len(),
            lend_mut(logs),
            logs.len(),
            lend_mut(answers),
            answers.len(),
        )
    }
}

pub fn deliver_pending(
    cards: u64,
    counters: u64,
    log_bytes: u64,
    most: u64,
    words: &mut [u64],
    logs: &[u8],
) -> Delivered {
    let (at, len) = (lend_mut(words), words.len());
    unsafe {
        raw::yelansub_deliver_pending(
            cards,
            counters,
            log_bytes,
            most,
            at,
            len,
            lend(logs),
            logs.len(),
        )
    }
}
