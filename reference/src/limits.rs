//! The specification's limits, sizes and numbers, each in this one place of the Rust side and under its
//! name in `include/yelansub.h`; `tests/header.rs` holds the two together. Where the words of a
//! replica stand is in `replica`, the fields of a message in `message`.

/// Cards of a chassis, and entries of a clear.
pub const MOST_CARDS: usize = 12;
pub const MOST_COUNTERS: usize = 64;
/// The largest amount of a count; the least is 1.
pub const MOST_AMOUNT: u64 = 65_535;

pub const fn is_amount(amount: u64) -> bool {
    1 <= amount && amount <= MOST_AMOUNT
}

/// The largest sequence, and the most units that one card counts.
pub const MAX: u64 = (1 << 48) - 1;

/// Words of a replica before those of its cards: r, k, the own card and the active counters.
pub const HEAD_WORDS: usize = 4;
/// Words of an entry: p, n and c.
pub const ENTRY_WORDS: usize = 3;

/// Words of a replica: the head, C and N of every card, an entry of every card on every counter.
pub const fn replica_words(cards: usize, counters: usize) -> usize {
    HEAD_WORDS + 2 * cards + ENTRY_WORDS * cards * counters
}

/// Bytes of an increment without its amount, as in version 1, and with it.
pub const PLAIN_INCREMENT_BYTES: usize = 36;
pub const INCREMENT_BYTES: usize = 40;

pub const fn clear_bytes(entries: usize) -> usize {
    28 + 20 * entries
}

pub const LONGEST_MESSAGE: usize = clear_bytes(MOST_CARDS);

/// The version before amounts, and the one that cards write and take.
pub const MESSAGE_VERSION_1: u32 = 1;
pub const MESSAGE_VERSION: u32 = 2;
pub const MESSAGE_INCREMENT: u32 = 1;
pub const MESSAGE_CLEAR: u32 = 2;

/// Bytes of one step of a run.
pub const STEP_BYTES: usize = 16;
/// Words of answer for each step: its number, and the value read.
pub const ANSWER_WORDS: usize = 2;
pub const STEP_COUNT: u32 = 1;
pub const STEP_CLEAR: u32 = 2;
pub const STEP_DELIVER: u32 = 3;
pub const STEP_READ_AND_CLEAR: u32 = 4;
pub const STEP_KINDS: [u32; 4] = [STEP_COUNT, STEP_CLEAR, STEP_DELIVER, STEP_READ_AND_CLEAR];

pub const OK: u64 = 0;
/// Replica length, r, k or own card wrong, or a one at bit k or above.
pub const BAD_REPLICA: u64 = 1;
/// The counter's row is not well-formed.
pub const BAD_ROW: u64 = 2;
/// Counter not below k.
pub const BAD_COUNTER: u64 = 3;
/// Own N = MAX, or own C + w above MAX.
pub const EXHAUSTED: u64 = 4;
/// Output shorter than the message, or than the converted log.
pub const SHORT_OUTPUT: u64 = 5;
/// Bytes do not read, a message to write is out of range, or a log is not messages of its version
/// end to end.
pub const UNREADABLE: u64 = 6;
/// Sender or entry card not below r, or the sender is the own card.
pub const BAD_CARD: u64 = 7;
/// Sequence <= N[sender].
pub const REPEATED: u64 = 8;
/// Sequence > N[sender] + 1.
pub const EARLY: u64 = 9;
pub const IMPLAUSIBLE: u64 = 10;
/// Chassis sizes wrong.
pub const BAD_SIZES: u64 = 11;
/// Step kind not one of `STEP_KINDS`.
pub const BAD_KIND: u64 = 12;
pub const NOTHING_WAITING: u64 = 13;
/// Log too short for the message.
pub const LOG_FULL: u64 = 14;
/// A log does not begin with its card's messages, or a receiver's N is above its sender's.
pub const BAD_LOG: u64 = 15;
/// Amount out of range, or not 0 in a step that does not count.
pub const BAD_AMOUNT: u64 = 16;
/// A w above 1 on the way to version 1.
pub const ABOVE_ONE: u64 = 17;
