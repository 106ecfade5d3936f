//! Random replicas and messages: reached, well-formed without being reached, and damaged.

use crate::chassis::{self, Buffers, Step};
use crate::limits::*;
use crate::message::{Body, Entries, Entry, Message, VERSIONS};
use crate::random::Random;
use crate::replica::{self, entry_at, increments_at, messages_at};
use crate::replica::{ACTIVE_AT, CARDS_AT, COUNTERS_AT, OWN_AT};

const CARDS: u64 = MOST_CARDS as u64;
const COUNTERS: u64 = MOST_COUNTERS as u64;

/// Words at the edges of every test that the document makes.
pub const EDGES: [u64; 22] = [
    0,
    1,
    2,
    CARDS - 1,
    CARDS,
    CARDS + 1,
    COUNTERS - 1,
    COUNTERS,
    COUNTERS + 1,
    MOST_AMOUNT,
    MOST_AMOUNT + 1,
    MAX - 1,
    MAX,
    MAX + 1,
    MAX + 2,
    (1 << 32) - 1,
    1 << 32,
    (1 << 32) + 1,
    1 << 63,
    u64::MAX - 2,
    u64::MAX - 1,
    u64::MAX,
];

/// Amounts at the edges of what a count takes, and those that cut to 32 bits would be others.
pub const AMOUNTS: [u64; 8] =
    [0, 1, 2, MOST_AMOUNT, MOST_AMOUNT + 1, 1 << 32, (1 << 32) + 1, u64::MAX];

/// Those of a step.
pub const STEP_AMOUNTS: [u32; 5] = [0, 1, MOST_AMOUNT as u32, MOST_AMOUNT as u32 + 1, u32::MAX];

/// r and k in range, mostly small.
pub fn shape(random: &mut Random) -> (usize, usize) {
    match random.below(20) {
        0 => (MOST_CARDS, MOST_COUNTERS),
        1 => (1, MOST_COUNTERS),
        2 => (MOST_CARDS, 1),
        // The last bit is no counter's.
        7 => (random.between(1, 2) as usize, MOST_COUNTERS - 1),
        3..=6 => (random.between(1, CARDS) as usize, random.between(1, 8) as usize),
        _ => (random.between(1, 4) as usize, random.between(1, 3) as usize),
    }
}

/// A count from 0 to `limit`: small, at the upper edge, or any.
fn count(random: &mut Random, limit: u64) -> u64 {
    match random.below(4) {
        0 => random.between(0, limit.min(5)),
        1 => limit - random.between(0, limit.min(3)),
        _ => random.between(0, limit.min(40)),
    }
}

/// Steps whose cards and counters are in range.
pub fn good_step(random: &mut Random, cards: usize, counters: usize) -> Step {
    let card = random.below(cards as u64) as u32;
    let counter = random.below(counters as u64) as u32;
    match random.below(16) {
        0..=5 => Step::count_by(card, counter, random.amount()),
        6 => Step::clear(card, counter),
        7 => Step::read_and_clear(card, counter),
        _ if cards == 1 => Step::count_by(card, counter, random.amount()),
        _ => {
            let sender = (card as usize + random.between(1, cards as u64 - 1) as usize) % cards;
            Step::deliver(card, sender as u32)
        }
    }
}

fn reached(random: &mut Random, cards: usize, counters: usize) -> Vec<u64> {
    let steps: Vec<u8> =
        (0..random.below(40)).flat_map(|_| good_step(random, cards, counters).to_bytes()).collect();
    let each = replica_words(cards, counters);
    let log_bytes = 4096;
    let mut words = vec![0; cards * each];
    let mut logs = vec![0; cards * log_bytes];
    let mut answers = vec![0; ANSWER_WORDS * (steps.len() / STEP_BYTES)];
    let lent = Buffers { words: &mut words, logs: &mut logs, answers: &mut answers };
    chassis::run(cards as u64, counters as u64, log_bytes as u64, &steps, lent)
        .expect("right sizes");
    let card = random.below(cards as u64) as usize;
    words[card * each..][..each].to_vec()
}

/// Every row well-formed, reached by no run as a rule.
fn well_formed(random: &mut Random, cards: usize, counters: usize) -> Vec<u64> {
    let mut words = vec![0; replica_words(cards, counters)];
    let own = random.below(cards as u64) as usize;
    replica::open(&mut words, cards as u64, counters as u64, own as u64).expect("right sizes");
    for card in 0..cards {
        words[messages_at(cards, card)] = if random.percent(10) { MAX } else { count(random, MAX) };
        words[increments_at(card)] = match random.below(10) {
            0..=2 => MAX - random.below(MOST_AMOUNT + 1),
            _ => count(random, MAX),
        };
    }
    for place in 0..cards * counters {
        let (counter, card) = (place / cards, place % cards);
        let increments = words[increments_at(card)];
        // The own entry does not pass the own C; others may.
        let limit = if card == own { increments } else { MAX };
        if limit == 0 || random.percent(35) {
            continue;
        }
        // Near the card's C, where the rules' comparisons turn, or anywhere.
        let c = if random.percent(60) { near(random, increments) } else { count(random, limit) };
        let c = c.clamp(1, limit);
        let p = c - count(random, c - 1);
        let n = match random.below(3) {
            0 => p,
            1 => p - 1,
            _ => count(random, p),
        };
        words[entry_at(cards, counter, card)].copy_from_slice(&[p, n, c]);
    }
    for counter in 0..counters {
        replica::mark(&mut words, counter);
    }
    words
}

fn near(random: &mut Random, centre: u64) -> u64 {
    centre.saturating_add(2).saturating_sub(random.below(5))
}

pub fn replica(random: &mut Random) -> Vec<u64> {
    let (cards, counters) = shape(random);
    if random.percent(40) && cards * replica_words(cards, counters) < 2000 {
        reached(random, cards, counters)
    } else if random.percent(5) {
        let mut words = vec![0; replica_words(cards, counters)];
        let own = random.below(cards as u64);
        replica::open(&mut words, cards as u64, counters as u64, own).expect("right sizes");
        words
    } else {
        well_formed(random, cards, counters)
    }
}

/// One wound: a bit, a word, a header word, the bit of a counter, there or not, or the length.
pub fn damage_replica(random: &mut Random, words: &mut Vec<u64>) {
    let len = words.len() as u64;
    match random.below(12) {
        0 | 1 if len > 0 => words[random.below(len) as usize] ^= 1 << random.below(64),
        2 | 3 if len > HEAD_WORDS as u64 => {
            // A C or an N.
            let end = len.min(replica_words(MOST_CARDS, 0) as u64);
            words[random.between(HEAD_WORDS as u64, end - 1) as usize] = random.pick(&EDGES);
        }
        4 if len > 0 => words[random.below(len) as usize] = random.pick(&EDGES),
        5 if len > HEAD_WORDS as u64 => {
            words[random.below(HEAD_WORDS as u64) as usize] = random.pick(&EDGES)
        }
        8 if len > HEAD_WORDS as u64 => words[ACTIVE_AT] ^= 1 << random.below(64),
        10 | 11 if len > HEAD_WORDS as u64 => {
            words[ACTIVE_AT] ^= 1 << random.below(words[COUNTERS_AT].clamp(1, COUNTERS))
        }
        6 => words.truncate(random.below(len.max(1)) as usize),
        7 => {
            let more = random.between(1, 4) as usize;
            words.extend(random.words(more));
        }
        _ => words.truncate(random.below(HEAD_WORDS as u64 + 1) as usize),
    }
}

/// A word of a replica that may be too short for it.
fn word(words: &[u64], at: usize) -> u64 {
    words.get(at).copied().unwrap_or(0)
}

/// p, n and c of a card's entry, the same way.
fn entry(words: &[u64], cards: usize, counter: usize, card: usize) -> [u64; ENTRY_WORDS] {
    let at = entry_at(cards, counter, card).start;
    core::array::from_fn(|part| word(words, at + part))
}

/// A counter number, mostly below k.
pub fn counter(random: &mut Random, words: &[u64]) -> u64 {
    let counters = word(words, COUNTERS_AT).clamp(1, COUNTERS);
    match random.below(12) {
        0 => counters,
        1 => random.pick(&EDGES),
        _ => random.below(counters),
    }
}

/// An amount for a count on this replica, mostly in range.
pub fn count_amount(random: &mut Random, words: &[u64]) -> u64 {
    let own = word(words, OWN_AT) as usize % MOST_CARDS;
    match random.below(8) {
        0 => random.pick(&AMOUNTS),
        _ => amount_from(random, word(words, increments_at(own))).into(),
    }
}

/// A message in range, of either version, from no replica.
pub fn message(random: &mut Random) -> Message {
    let from_one = |random: &mut Random, limit: u64| 1 + count(random, limit - 1);
    let version = random.pick(&VERSIONS);
    let body = if random.percent(50) {
        let amount = if version.has_amount { random.amount() } else { 0 };
        Body::Increment { p: from_one(random, MAX), start: random.percent(50), amount }
    } else {
        let mut entries = Entries::new();
        let density = random.pick(&[0, 20, 55, 100]);
        for card in 0..MOST_CARDS as u32 {
            if random.percent(density) {
                let c = from_one(random, MAX);
                entries.push(Entry { card, p: from_one(random, c), c });
            }
        }
        Body::Clear(entries)
    };
    Message {
        version,
        sender: random.below(CARDS) as u32,
        sequence: from_one(random, MAX),
        counter: random.below(COUNTERS) as u32,
        body,
    }
}

/// The bytes of a message with these fields, in range or not. In version 1 there is no amount.
#[derive(Clone, Debug)]
pub struct Draft {
    pub version: u32,
    pub kind: u32,
    pub sender: u32,
    pub sequence: u64,
    pub counter: u32,
    pub p: u64,
    pub start: u32,
    pub amount: u32,
    pub entries: Vec<(u32, u64, u64)>,
}

impl Draft {
    pub fn bytes(&self) -> Vec<u8> {
        let mut bytes = Vec::new();
        for field in [self.version, self.kind, self.sender] {
            bytes.extend(field.to_be_bytes());
        }
        bytes.extend(self.sequence.to_be_bytes());
        bytes.extend(self.counter.to_be_bytes());
        if self.kind == MESSAGE_INCREMENT {
            bytes.extend(self.p.to_be_bytes());
            bytes.extend(self.start.to_be_bytes());
            if self.version != MESSAGE_VERSION_1 {
                bytes.extend(self.amount.to_be_bytes());
            }
        } else {
            bytes.extend((self.entries.len() as u32).to_be_bytes());
            for (card, p, c) in &self.entries {
                bytes.extend(card.to_be_bytes());
                bytes.extend(p.to_be_bytes());
                bytes.extend(c.to_be_bytes());
            }
        }
        bytes
    }
}

/// A message that a card of this replica's chassis might send it, mostly acceptable.
pub fn draft(random: &mut Random, words: &[u64]) -> Draft {
    let cards = word(words, CARDS_AT).clamp(1, CARDS) as usize;
    let own = word(words, OWN_AT) as usize % cards;
    let sender = match random.below(20) {
        0 => random.below(CARDS + 2) as usize,
        1 => own,
        _ if cards == 1 => own,
        _ => (own + random.between(1, cards as u64 - 1) as usize) % cards,
    };
    let increments = word(words, increments_at(sender));
    let messages = word(words, messages_at(cards, sender));
    let sequence = match random.below(24) {
        0 => messages,
        1 => messages.wrapping_add(2),
        2 => random.pick(&EDGES),
        _ => messages.wrapping_add(1),
    };
    let counter = counter(random, words) as u32;
    let [senders_p, ..] = entry(words, cards, counter as usize % MOST_COUNTERS, sender);
    let mut draft = Draft {
        version: match random.below(50) {
            0 => MESSAGE_VERSION_1,
            1 => MESSAGE_VERSION + 1,
            _ => MESSAGE_VERSION,
        },
        kind: random.pick(&[MESSAGE_INCREMENT, MESSAGE_CLEAR]),
        sender: sender as u32,
        sequence,
        counter,
        p: 1,
        start: 0,
        amount: amount_from(random, increments),
        entries: Vec::new(),
    };
    if draft.kind == MESSAGE_INCREMENT {
        draft.start = random.below(2) as u32;
        let amount = u64::from(draft.amount);
        let next = increments.wrapping_add(amount);
        draft.p = match random.below(12) {
            0 => next.wrapping_add(1),
            1 => random.pick(&EDGES),
            2 => amount.saturating_sub(random.below(2)),
            _ if draft.start == 1 => next,
            3..=7 => senders_p.wrapping_add(amount),
            _ => {
                let last = next.min(MAX);
                random.between((amount + 1).min(last), last)
            }
        };
        if random.percent(4) {
            draft.amount = random.pick(&STEP_AMOUNTS);
        }
    } else {
        let density = random.pick(&[0, 20, 55, 55, 100]);
        for card in 0..cards {
            if random.percent(density) {
                let known = card == own || card == sender;
                draft.entries.push(clear_entry(random, words, counter as usize, card, known));
            }
        }
        damage_entries(random, &mut draft.entries);
    }
    draft
}

/// An amount in range that a card with this C might count by: at times what there is room for below
/// MAX, or one more.
fn amount_from(random: &mut Random, increments: u64) -> u32 {
    let edge = MAX.saturating_sub(increments) + random.below(2);
    if is_amount(edge) && random.percent(40) {
        return edge as u32;
    }
    random.amount()
}

fn clear_entry(
    random: &mut Random,
    words: &[u64],
    counter: usize,
    card: usize,
    known: bool,
) -> (u32, u64, u64) {
    let cards = word(words, CARDS_AT).clamp(1, CARDS) as usize;
    let increments = word(words, increments_at(card)).min(MAX);
    let [p, _, c] = entry(words, cards, counter % MOST_COUNTERS, card);
    if p != 0 && (!known || c <= increments) && random.percent(40) {
        return (card as u32, p, c);
    }
    let limit = if known && random.percent(96) { increments.max(1) } else { MAX };
    let c = match random.below(4) {
        0 => count(random, limit),
        _ => near(random, increments),
    }
    .clamp(1, limit);
    let p = match random.below(3) {
        0 => c,
        1 => (p + random.below(2)).clamp(1, c),
        _ => c - count(random, c - 1),
    };
    (card as u32, p, c)
}

fn damage_entries(random: &mut Random, entries: &mut Vec<(u32, u64, u64)>) {
    if entries.is_empty() || !random.percent(12) {
        return;
    }
    let at = random.below(entries.len() as u64) as usize;
    match random.below(6) {
        0 => entries[at].0 = random.between(0, CARDS + 1) as u32,
        1 => entries[at].1 = random.pick(&EDGES),
        2 => entries[at].2 = random.pick(&EDGES),
        3 => entries[at].1 = entries[at].2 + 1,
        4 => {
            let copy = entries[at];
            entries.insert(at, copy);
        }
        _ => entries.reverse(),
    }
}

/// One wound: a bit, a field, or the length.
pub fn damage_bytes(random: &mut Random, bytes: &mut Vec<u8>) {
    let len = bytes.len() as u64;
    match random.below(8) {
        0..=2 if len > 0 => bytes[random.below(len) as usize] ^= 1 << random.below(8),
        3 if len >= 12 => {
            let at = 4 * random.below(len / 4 - 1) as usize;
            bytes[at..at + 4].copy_from_slice(&(random.pick(&EDGES) as u32).to_be_bytes());
        }
        4 if len >= 12 => {
            let at = 4 * random.below(len / 4 - 1) as usize;
            bytes[at..at + 8].copy_from_slice(&random.pick(&EDGES).to_be_bytes());
        }
        5 => bytes.truncate(random.below(len.max(1)) as usize),
        6 => {
            let more = random.between(1, 24) as usize;
            let tail = if random.percent(50) { vec![0; more] } else { random.bytes(more) };
            bytes.extend(tail);
        }
        _ => bytes.clear(),
    }
}
