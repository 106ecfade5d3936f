//! SPECIFICATION 6: the waiting message of a log, a run of steps, and delivering what waits.

use core::ops::Range;

use crate::limits::*;
use crate::replica::Cleared;
use crate::{message, replica};

/// Bytes of each number of a step.
const INT: usize = 4;

#[repr(C)]
#[derive(Clone, Copy, Debug, PartialEq, Eq)]
pub struct Step {
    pub kind: u32,
    pub first: u32,
    pub second: u32,
    /// 0 where the kind does not count.
    pub amount: u32,
}

impl Step {
    /// By one.
    pub const fn count(card: u32, counter: u32) -> Step {
        Step::count_by(card, counter, 1)
    }

    pub const fn count_by(card: u32, counter: u32, amount: u32) -> Step {
        Step { kind: STEP_COUNT, first: card, second: counter, amount }
    }

    pub const fn clear(card: u32, counter: u32) -> Step {
        Step { kind: STEP_CLEAR, first: card, second: counter, amount: 0 }
    }

    pub const fn read_and_clear(card: u32, counter: u32) -> Step {
        Step { kind: STEP_READ_AND_CLEAR, first: card, second: counter, amount: 0 }
    }

    pub const fn deliver(receiver: u32, sender: u32) -> Step {
        Step { kind: STEP_DELIVER, first: receiver, second: sender, amount: 0 }
    }

    /// Whether it is of a kind that clears.
    pub fn clears(self) -> bool {
        [STEP_CLEAR, STEP_READ_AND_CLEAR].contains(&self.kind)
    }

    /// Whether its kind can have its amount.
    pub fn amount_fits(self) -> bool {
        if self.kind == STEP_COUNT {
            is_amount(self.amount.into())
        } else {
            self.amount == 0
        }
    }

    pub fn from_bytes(bytes: &[u8; STEP_BYTES]) -> Step {
        let fields = bytes.as_chunks::<INT>().0;
        let field = |at: usize| u32::from_be_bytes(fields[at]);
        Step { kind: field(0), first: field(1), second: field(2), amount: field(3) }
    }

    pub fn to_bytes(self) -> [u8; STEP_BYTES] {
        let mut bytes = [0; STEP_BYTES];
        let fields = bytes.as_chunks_mut::<INT>().0;
        let Step { kind, first, second, amount } = self;
        for (place, field) in fields.iter_mut().zip([kind, first, second, amount]) {
            *place = field.to_be_bytes();
        }
        bytes
    }
}

/// Where message number `q` of the log stands; empty if the log does not start with q messages
/// that read, or q is 0.
pub fn waiting(log: &[u8], q: u64) -> Range<usize> {
    let mut span = 0..0;
    for _ in 0..q {
        match message::read_front(&log[span.end..]) {
            Some(message) => span = span.end..span.end + message.length(),
            None => return 0..0,
        }
    }
    span
}

/// A step's number, and the value that it has read.
pub type Answer = [u64; ANSWER_WORDS];

/// What is borrowed for a run.
pub struct Buffers<'a> {
    pub words: &'a mut [u64],
    pub logs: &'a mut [u8],
    pub answers: &'a mut [u64],
}

/// A run of steps given as bytes; refused only with 11.
pub fn run(r: u64, k: u64, log_bytes: u64, steps: &[u8], lent: Buffers) -> Result<(), u64> {
    let (list, rest) = steps.as_chunks::<STEP_BYTES>();
    if !rest.is_empty() {
        return Err(BAD_SIZES);
    }
    let each = list.iter().map(Step::from_bytes);
    run_each(r, k, log_bytes, list.len(), each, lent)
}

/// The same run, of steps given as records.
pub fn run_records(
    r: u64,
    k: u64,
    log_bytes: u64,
    steps: &[Step],
    lent: Buffers,
) -> Result<(), u64> {
    run_each(r, k, log_bytes, steps.len(), steps.iter().copied(), lent)
}

fn run_each(
    r: u64,
    k: u64,
    log_bytes: u64,
    len: usize,
    steps: impl Iterator<Item = Step>,
    lent: Buffers,
) -> Result<(), u64> {
    let each = words_each(r, k, log_bytes, lent.words.len(), lent.logs.len())?;
    if lent.answers.len() != ANSWER_WORDS * len {
        return Err(BAD_SIZES);
    }
    for (card, words) in lent.words.chunks_exact_mut(each).enumerate() {
        replica::open(words, r, k, card as u64)?;
    }
    let mut chassis = Chassis {
        cards: r as usize,
        counters: k as usize,
        each,
        log_bytes: log_bytes as usize,
        words: lent.words,
        logs: lent.logs,
        used: [0; MOST_CARDS],
        next: [[0; MOST_CARDS]; MOST_CARDS],
    };
    for (step, answer) in steps.zip(lent.answers.as_chunks_mut().0) {
        *answer = chassis.step(step).map_or_else(|number| [number, 0], |value| [OK, value]);
    }
    Ok(())
}

/// Words of each card's replica, where r replicas and r logs have these lengths; refused with 11.
fn words_each(r: u64, k: u64, log_bytes: u64, words: usize, logs: usize) -> Result<usize, u64> {
    let limits = (1..=MOST_CARDS as u64).contains(&r) && (1..=MOST_COUNTERS as u64).contains(&k);
    if !limits {
        return Err(BAD_SIZES);
    }
    let each = replica_words(r as usize, k as usize);
    if words != r as usize * each || logs as u128 != u128::from(r) * u128::from(log_bytes) {
        return Err(BAD_SIZES);
    }
    Ok(each)
}

struct Chassis<'a> {
    cards: usize,
    counters: usize,
    /// Words of each card's replica.
    each: usize,
    log_bytes: usize,
    words: &'a mut [u64],
    logs: &'a mut [u8],
    /// Bytes of each card's log that hold its messages.
    used: [usize; MOST_CARDS],
    /// For each receiver and sender, where in the sender's log its next message stands.
    next: [[usize; MOST_CARDS]; MOST_CARDS],
}

impl Chassis<'_> {
    /// Gives the value read, which is 0 for all kinds but one.
    fn step(&mut self, step: Step) -> Result<u64, u64> {
        let (unread, amount) = (Cleared::unread, step.amount.into());
        match step.kind {
            STEP_COUNT => {
                self.send(step, |w, q, out| replica::count(w, q, amount, out).map(unread))
            }
            STEP_CLEAR => self.send(step, |w, q, out| replica::clear(w, q, out).map(unread)),
            STEP_READ_AND_CLEAR => self.send(step, replica::read_and_clear),
            STEP_DELIVER => self.deliver(step).map(|()| 0),
            _ => Err(BAD_KIND),
        }
    }

    fn send(
        &mut self,
        step: Step,
        call: impl FnOnce(&mut [u64], u64, &mut [u8]) -> Result<Cleared, u64>,
    ) -> Result<u64, u64> {
        let card = step.first as usize;
        if card >= self.cards {
            return Err(BAD_CARD);
        }
        if step.second as usize >= self.counters {
            return Err(BAD_COUNTER);
        }
        if !step.amount_fits() {
            return Err(BAD_AMOUNT);
        }
        let words = &mut self.words[card * self.each..][..self.each];
        let log = &mut self.logs[card * self.log_bytes..][..self.log_bytes];
        let out = &mut log[self.used[card]..];
        match call(words, u64::from(step.second), out) {
            Ok(Cleared { value, sent }) => {
                self.used[card] += sent.length as usize;
                Ok(value)
            }
            Err(SHORT_OUTPUT) => Err(LOG_FULL),
            Err(number) => Err(number),
        }
    }

    fn deliver(&mut self, step: Step) -> Result<(), u64> {
        let (receiver, sender) = (step.first as usize, step.second as usize);
        if receiver >= self.cards || sender >= self.cards || receiver == sender {
            return Err(BAD_CARD);
        }
        if !step.amount_fits() {
            return Err(BAD_AMOUNT);
        }
        let own_messages = &self.logs[sender * self.log_bytes..][..self.used[sender]];
        let from = self.next[receiver][sender];
        let message = message::read_front(&own_messages[from..]).ok_or(NOTHING_WAITING)?;
        let words = &mut self.words[receiver * self.each..][..self.each];
        replica::take_message(words, &message)?;
        self.next[receiver][sender] = from + message.length();
        Ok(())
    }
}

/// A link with messages waiting.
struct Link {
    receiver: usize,
    sender: usize,
    /// Where in the sender's log the next of them stands, and how many they are.
    next: usize,
    waiting: u64,
}

/// Delivers what waits, in rounds, and at most `most` messages: receivers rising, within each the
/// senders rising, one message from each link that has one. A link whose message take declines is
/// passed over from then on. Gives how many deliveries were made; refused with 11, 1, 2, 15.
pub fn deliver_pending(
    r: u64,
    k: u64,
    log_bytes: u64,
    most: u64,
    words: &mut [u64],
    logs: &[u8],
) -> Result<u64, u64> {
    let each = words_each(r, k, log_bytes, words.len(), logs.len())?;
    let log_of = |card: usize| &logs[card * log_bytes as usize..][..log_bytes as usize];
    let in_place = |(words, card): (&[u64], u64)| {
        words.starts_with(&[r, k, card]) && replica::active(words).is_ok()
    };
    if !words.chunks_exact(each).zip(0..).all(in_place) {
        return Err(BAD_REPLICA);
    }
    words.chunks_exact(each).try_for_each(replica::check_rows)?;
    let mut links = Vec::new();
    for sender in 0..r as usize {
        let received = words.chunks_exact(each).map(|words| replica::received_from(words, sender));
        find_links(log_of(sender), sender, &received.collect::<Vec<_>>(), &mut links)?;
    }
    links.sort_unstable_by_key(|link| (link.receiver, link.sender));

    let mut deliveries = 0;
    while deliveries < most && !links.is_empty() {
        links.retain_mut(|link| {
            if deliveries == most {
                return true;
            }
            let log = &log_of(link.sender)[link.next..];
            let message = message::read_front(log).expect("it was read before");
            let words = &mut words[link.receiver * each..][..each];
            if replica::take_message(words, &message).is_err() {
                return false;
            }
            deliveries += 1;
            link.next += message.length();
            link.waiting -= 1;
            link.waiting > 0
        });
    }
    Ok(deliveries)
}

/// Walks a card's log to the end of its messages and finds the links on the way, told how many
/// messages of it each card has received; refused with 15.
fn find_links(
    log: &[u8],
    sender: usize,
    received: &[u64],
    links: &mut Vec<Link>,
) -> Result<(), u64> {
    let made = received[sender];
    let mut receivers: Vec<usize> = (0..received.len()).collect();
    receivers.sort_unstable_by_key(|receiver| received[*receiver]);
    let (mut next, mut sequence) = (0, 0);
    for receiver in receivers {
        if received[receiver] > made {
            return Err(BAD_LOG);
        }
        while sequence < received[receiver] {
            sequence += 1;
            let message = message::read_front(&log[next..]).ok_or(BAD_LOG)?;
            if message.sender as usize != sender || message.sequence != sequence {
                return Err(BAD_LOG);
            }
            next += message.length();
        }
        if sequence < made {
            links.push(Link { receiver, sender, next, waiting: made - sequence });
        }
    }
    Ok(())
}
