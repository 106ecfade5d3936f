//! SPECIFICATION 9, the listing program.

use std::fmt::Write;

use crate::chassis::{self, Buffers};
use crate::limits::{replica_words, ANSWER_WORDS, BAD_SIZES, STEP_BYTES};
use crate::replica;

// The program's own limits, below those of the library.
pub const MOST_CARDS: u32 = 4;
pub const MOST_COUNTERS: u32 = 8;
pub const MOST_STEPS: usize = 256;
pub const LOG_BYTES: usize = 4096;
/// Bytes of r and k, which the steps follow.
pub const SIZES_BYTES: usize = 8;
/// No right input is longer.
pub const LONGEST_INPUT: usize = SIZES_BYTES + MOST_STEPS * STEP_BYTES;

/// The text for an input of r, k and steps.
pub fn listing(input: &[u8]) -> String {
    lines(input).unwrap_or_else(|| format!("refused,{BAD_SIZES}\r\n"))
}

fn lines(input: &[u8]) -> Option<String> {
    let (sizes, steps) = input.split_first_chunk::<SIZES_BYTES>()?;
    let size = |at: usize| u32::from_be_bytes(sizes.as_chunks().0[at]);
    let (r, k) = (size(0), size(1));
    if r > MOST_CARDS || k > MOST_COUNTERS || steps.len() > MOST_STEPS * STEP_BYTES {
        return None;
    }
    let (cards, counters) = (r as usize, k as usize);
    let each = replica_words(cards, counters);
    let mut words = vec![0; cards * each];
    let mut logs = vec![0; cards * LOG_BYTES];
    let mut answers = vec![0; ANSWER_WORDS * (steps.len() / STEP_BYTES)];
    let lent = Buffers { words: &mut words, logs: &mut logs, answers: &mut answers };
    chassis::run(r.into(), k.into(), LOG_BYTES as u64, steps, lent).ok()?;

    let mut text = String::from("card,counter,value,holders,quiet\r\n");
    for (card, words) in words.chunks_exact(each).enumerate() {
        for counter in 0..counters {
            let reading = replica::read(words, counter as u64).ok()?;
            let quiet = u8::from(reading.holders == 0);
            write!(text, "{card},{counter},{},{},{quiet}\r\n", reading.value, reading.holders)
                .ok()?;
        }
    }
    Some(text)
}
