//! The calls by hand in C, peer/peer.c, behind safe functions; their answers are the library's.

use yelansub_reference::library::{Active, Cleared, Reading, Sent, Taken};

mod raw {
    use super::{Active, Cleared, Reading, Sent, Taken};

    extern "C" {
        pub fn peer_open(
            words: *mut u64,
            words_len: usize,
            cards: u64,
            counters: u64,
            own: u64,
        ) -> u64;
        pub fn peer_read(words: *const u64, words_len: usize, counter: u64) -> Reading;
        pub fn peer_active_counters(words: *const u64, words_len: usize) -> Active;
        pub fn peer_count(
            words: *mut u64,
            words_len: usize,
            counter: u64,
            amount: u64,
            out: *mut u8,
            out_len: usize,
        ) -> Sent;
        pub fn peer_clear(
            words: *mut u64,
            words_len: usize,
            counter: u64,
            out: *mut u8,
            out_len: usize,
        ) -> Sent;
        pub fn peer_read_and_clear(
            words: *mut u64,
            words_len: usize,
            counter: u64,
            out: *mut u8,
            out_len: usize,
        ) -> Cleared;
        pub fn peer_take(
            words: *mut u64,
            words_len: usize,
            message: *const u8,
            message_len: usize,
        ) -> Taken;
    }
}

// SAFETY of every block: each pointer and length is that of one slice, and two slices of one call
// never overlap; nothing is kept.

pub fn open(words: &mut [u64], cards: u64, counters: u64, own: u64) -> u64 {
    unsafe { raw::peer_open(words.as_mut_ptr(), words.len(), cards, counters, own) }
}

pub fn read(words: &[u64], counter: u64) -> Reading {
    unsafe { raw::peer_read(words.as_ptr(), words.len(), counter) }
}

pub fn active_counters(words: &[u64]) -> Active {
    unsafe { raw::peer_active_counters(words.as_ptr(), words.len()) }
}

pub fn count(words: &mut [u64], counter: u64, amount: u64, out: &mut [u8]) -> Sent {
    let (at, len) = (words.as_mut_ptr(), words.len());
    unsafe { raw::peer_count(at, len, counter, amount, out.as_mut_ptr(), out.len()) }
}

pub fn clear(words: &mut [u64], counter: u64, out: &mut [u8]) -> Sent {
    let (at, len) = (words.as_mut_ptr(), words.len());
    unsafe { raw::peer_clear(at, len, counter, out.as_mut_ptr(), out.len()) }
}

pub fn read_and_clear(words: &mut [u64], counter: u64, out: &mut [u8]) -> Cleared {
    let (at, len) = (words.as_mut_ptr(), words.len());
    unsafe { raw::peer_read_and_clear(at, len, counter, out.as_mut_ptr(), out.len()) }
}

pub fn take(words: &mut [u64], message: &[u8]) -> Taken {
    unsafe { raw::peer_take(words.as_mut_ptr(), words.len(), message.as_ptr(), message.len()) }
}
