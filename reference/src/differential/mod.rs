//! The library held against the reference and the ledger: every number, word and byte, those
//! around the buffers included. A difference panics with the seed and the case.

pub mod alone;
pub mod calls;
pub mod convert;
pub mod generate;
pub mod logs;
pub mod messages;
pub mod network;
pub mod pending;
pub mod quiet;
pub mod runs;
pub mod total;
pub mod units;

use std::collections::BTreeMap;
use std::fmt;

use crate::chassis::{Answer, Step};
use crate::ledger::Ledger;
use crate::limits::{OK, STEP_CLEAR, STEP_COUNT, STEP_READ_AND_CLEAR};
use crate::replica::COUNTERS_AT;
use crate::{library, replica};

/// The seed of a series: YELANSUB_SEED, or the usual one.
pub fn seed(usual: u64) -> u64 {
    let given = std::env::var("YELANSUB_SEED").ok();
    given.map_or(usual, |seed| seed.parse().expect("YELANSUB_SEED is a number"))
}

/// Says where a difference was met.
type Place<'a> = &'a dyn Fn() -> String;

/// How often each call gave each number.
#[derive(Clone, Debug, Default)]
pub struct Tally {
    met: BTreeMap<(&'static str, u64), u64>,
}

impl Tally {
    pub fn note(&mut self, call: &'static str, number: u64) {
        *self.met.entry((call, number)).or_default() += 1;
    }

    pub fn times(&self, call: &'static str, number: u64) -> u64 {
        self.met.get(&(call, number)).copied().unwrap_or(0)
    }

    /// Panics unless `call` gave each of `numbers` at least once, and nothing else.
    pub fn require(&self, call: &'static str, numbers: &[u64]) {
        for number in numbers {
            assert!(self.met.contains_key(&(call, *number)), "{call} never gave {number}");
        }
        let stray = self.met.keys().find(|(of, number)| *of == call && !numbers.contains(number));
        assert!(stray.is_none(), "unexpected: {stray:?}");
    }
}

impl fmt::Display for Tally {
    fn fmt(&self, f: &mut fmt::Formatter) -> fmt::Result {
        let mut last = "";
        for ((call, number), times) in &self.met {
            if *call != last {
                write!(f, "{}{call:10}", if last.is_empty() { "" } else { "\n" })?;
                last = call;
            }
            write!(f, "  {number}: {times}")?;
        }
        Ok(())
    }
}

const GUARD: usize = 9;

/// A buffer with marked elements before and after it.
#[derive(Clone, Debug, PartialEq, Eq)]
pub struct Guarded<T> {
    all: Vec<T>,
}

impl<T: Copy + From<u8>> Guarded<T> {
    pub fn new(content: &[T]) -> Guarded<T> {
        let mut all = Vec::with_capacity(content.len() + 2 * GUARD);
        all.extend((0..GUARD as u8).map(|mark| T::from(0xa0 + mark)));
        all.extend_from_slice(content);
        all.extend((0..GUARD as u8).map(|mark| T::from(0xb0 + mark)));
        Guarded { all }
    }

    pub fn get(&self) -> &[T] {
        &self.all[GUARD..self.all.len() - GUARD]
    }

    pub fn get_mut(&mut self) -> &mut [T] {
        let end = self.all.len() - GUARD;
        &mut self.all[GUARD..end]
    }
}

/// A read of every counter of the card is accepted and gives the ledger's value and holders. The
/// counter is quiet exactly when the ledger's two sets of the card are equal: nothing received
/// counts there, and nothing that is still to come is cancelled there. It is active exactly when the
/// read has holders, and the ledger holding cards.
fn against_ledgers(ledgers: &[Ledger], card: usize, words: &[u64], place: Place) {
    let mut held = 0;
    for (counter, ledger) in ledgers.iter().enumerate() {
        let holders = ledger.holders(card);
        held |= u64::from(holders != 0) << counter;
        let due = library::Reading {
            number: OK,
            value: ledger.value(card),
            holders,
            holder_count: u64::from(holders.count_ones()),
        };
        let read = library::read(words, counter as u64);
        assert_eq!(read, due, "card {card} counter {counter}: {}", place());
        let (equal, ahead) = (ledger.has_equal_sets(card), ledger.has_cancelled_ahead(card));
        let quiet = [equal, read.value == 0 && !ahead];
        assert_eq!(quiet, [read.is_quiet(); 2], "card {card} counter {counter}: {}", place());
    }
    let due = library::Active { number: OK, counters: held };
    assert_eq!(library::active_counters(words), due, "active, card {card}: {}", place());
    assert_eq!(found_by_reading(words), Some(held), "read, card {card}: {}", place());
}

/// The counters whose read has holders; none where a read is refused.
fn found_by_reading(words: &[u64]) -> Option<u64> {
    let mut found = 0;
    for counter in 0..words[COUNTERS_AT] {
        let read = library::read(words, counter);
        if read.number != OK {
            return None;
        }
        found |= u64::from(read.holders != 0) << counter;
    }
    Some(found)
}

/// The reference's answer to read in the library's shape.
pub fn reading(answer: Result<replica::Reading, u64>) -> library::Reading {
    match answer {
        Ok(read) => library::Reading {
            number: OK,
            value: read.value,
            holders: read.holders,
            holder_count: read.holder_count,
        },
        Err(number) => library::Reading { number, ..Default::default() },
    }
}

/// The reference's answer to which counters are active in the library's shape.
pub fn active(answer: Result<u64, u64>) -> library::Active {
    match answer {
        Ok(counters) => library::Active { number: OK, counters },
        Err(number) => library::Active { number, counters: 0 },
    }
}

/// A call on words, a counter, an amount and an output.
type Send<Answer> = fn(&mut [u64], u64, u64, &mut [u8]) -> Answer;

/// A call that makes a message, on both sides and as a step. One that reads no value gives 0, and
/// one that does not count looks at no amount.
pub struct Sending {
    pub name: &'static str,
    pub kind: u32,
    pub ours: Send<Result<replica::Cleared, u64>>,
    pub theirs: Send<library::Cleared>,
}

pub const COUNT: Sending = Sending {
    name: "count",
    kind: STEP_COUNT,
    ours: |words, counter, amount, out| {
        replica::count(words, counter, amount, out).map(replica::Cleared::unread)
    },
    theirs: |words, counter, amount, out| unread(library::count(words, counter, amount, out)),
};
pub const CLEAR: Sending = Sending {
    name: "clear",
    kind: STEP_CLEAR,
    ours: |words, counter, _, out| {
        replica::clear(words, counter, out).map(replica::Cleared::unread)
    },
    theirs: |words, counter, _, out| unread(library::clear(words, counter, out)),
};
pub const READ_AND_CLEAR: Sending = Sending {
    name: "read and clear",
    kind: STEP_READ_AND_CLEAR,
    ours: |words, counter, _, out| replica::read_and_clear(words, counter, out),
    theirs: |words, counter, _, out| library::read_and_clear(words, counter, out),
};
pub const SENDING: [Sending; 3] = [COUNT, CLEAR, READ_AND_CLEAR];

impl Sending {
    pub fn counts(&self) -> bool {
        self.kind == STEP_COUNT
    }

    pub fn step(&self, card: u32, counter: u32, amount: u32) -> Step {
        let amount = if self.counts() { amount } else { 0 };
        Step { kind: self.kind, first: card, second: counter, amount }
    }
}

fn unread(sent: library::Sent) -> library::Cleared {
    let library::Sent { number, sequence, length } = sent;
    library::Cleared { number, value: 0, sequence, length }
}

/// The reference's answer to a call that makes a message, in the library's shape.
pub fn cleared(answer: Result<replica::Cleared, u64>) -> library::Cleared {
    match answer {
        Ok(replica::Cleared { value, sent: replica::Sent { sequence, length } }) => {
            library::Cleared { number: OK, value, sequence, length }
        }
        Err(number) => library::Cleared { number, ..Default::default() },
    }
}

/// The reference's answer to take in the library's shape.
pub fn taken(answer: Result<u64, u64>) -> library::Taken {
    match answer {
        Ok(sequence) => library::Taken { number: OK, sequence },
        Err(number) => library::Taken { number, sequence: 0 },
    }
}

/// The reference's answer to a call that writes and gives a length, in the library's shape.
pub fn written(answer: Result<usize, u64>) -> library::Written {
    match answer {
        Ok(length) => library::Written { number: OK, length },
        Err(number) => library::Written { number, length: 0 },
    }
}

/// The reference's answer to delivering what waits in the library's shape.
pub fn delivered(answer: Result<u64, u64>) -> library::Delivered {
    match answer {
        Ok(deliveries) => library::Delivered { number: OK, deliveries },
        Err(number) => library::Delivered { number, deliveries: 0 },
    }
}

/// A run's words of answer, step by step.
fn answers(words: &[u64]) -> &[Answer] {
    words.as_chunks().0
}

pub fn number(answer: Result<(), u64>) -> u64 {
    answer.err().unwrap_or(OK)
}
