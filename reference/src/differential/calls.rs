//! Chains of random calls on one replica, good and damaged.

use super::{active, cleared, found_by_reading, generate, number, reading, taken, unread};
use super::{Guarded, Tally};
use super::{Sending, CLEAR, COUNT, READ_AND_CLEAR, SENDING};
use crate::library;
use crate::limits::*;
use crate::message::{self, Body, PLAIN};
use crate::random::Random;
use crate::replica::{self, increments_at, received_from};
use crate::replica::{ACTIVE_AT, CARDS_AT, COUNTERS_AT, OWN_AT};

const CALLS: u64 = 6;
const COUNTERS: u64 = MOST_COUNTERS as u64;

/// Numbers that each call can give.
pub const OPEN: &[u64] = &[OK, BAD_REPLICA];
pub const READ: &[u64] = &[OK, BAD_REPLICA, BAD_COUNTER, BAD_ROW];
pub const ACTIVE: &[u64] = &[OK, BAD_REPLICA];
pub const COUNTED: &[u64] =
    &[OK, BAD_REPLICA, BAD_COUNTER, BAD_AMOUNT, BAD_ROW, EXHAUSTED, SHORT_OUTPUT];
pub const CLEARED: &[u64] = &[OK, BAD_REPLICA, BAD_COUNTER, BAD_ROW, EXHAUSTED, SHORT_OUTPUT];
pub const TAKE: &[u64] =
    &[OK, BAD_REPLICA, UNREADABLE, BAD_COUNTER, BAD_ROW, BAD_CARD, REPEATED, EARLY, IMPLAUSIBLE];

/// The calls that look at a counter's row, as they are tallied.
const LOOKS_READ: u64 = 0;
const LOOKS_COUNT: u64 = 1;
const LOOKS_CLEAR: u64 = 2;
const LOOKS_READ_AND_CLEAR: u64 = 3;
const LOOKS_INCREMENT: u64 = 4;
const LOOKS_TAKEN_CLEAR: u64 = 5;
const LOOKS: [u64; 6] = [
    LOOKS_READ,
    LOOKS_COUNT,
    LOOKS_CLEAR,
    LOOKS_READ_AND_CLEAR,
    LOOKS_INCREMENT,
    LOOKS_TAKEN_CLEAR,
];

/// Which of these calls was made, and the counter.
type Looked = Option<(u64, u64)>;

/// `cases` replicas, a few calls on each. Which counters are active is asked before and after each.
pub fn random_calls(seed: u64, cases: u64) -> Tally {
    let mut tally = Tally::default();
    for case in 0..cases {
        let mut random = Random::case(seed, case);
        let mut words = generate::replica(&mut random);
        if random.percent(25) {
            generate::damage_replica(&mut random, &mut words);
        }
        let mut pair =
            Pair { seed, case, ours: Guarded::new(&words), theirs: Guarded::new(&words) };
        pair.active(&mut tally);
        for _ in 0..CALLS {
            pair.call(&mut random, &mut tally);
            pair.active(&mut tally);
            if random.percent(4) {
                let mut words = pair.ours.get().to_vec();
                generate::damage_replica(&mut random, &mut words);
                pair.ours = Guarded::new(&words);
                pair.theirs = Guarded::new(&words);
                pair.active(&mut tally);
            }
        }
    }
    tally
}

/// Panics unless every call gave all of its numbers, and nothing else, and each case at an edge was
/// met.
pub fn require_all(tally: &Tally) {
    tally.require("open", OPEN);
    tally.require("read", READ);
    for call in SENDING {
        tally.require(call.name, if call.counts() { COUNTED } else { CLEARED });
    }
    tally.require("take", TAKE);
    tally.require("active", ACTIVE);
    // Whether a read of every row has found the same counters, or was refused or has found others.
    tally.require("active, by reading", &[0, 1]);
    // The highest bit, of 64 counters, or of 63 or too many: then it is refused.
    tally.require("active, bit 63", ACTIVE);
    for name in ["high bit", "bit without entry", "entry without bit", "wrong bit of another"] {
        tally.require(name, &LOOKS);
    }
    tally.require("bit set", &[LOOKS_COUNT, LOOKS_INCREMENT, LOOKS_TAKEN_CLEAR]);
    let clearing = [LOOKS_CLEAR, LOOKS_READ_AND_CLEAR, LOOKS_INCREMENT, LOOKS_TAKEN_CLEAR];
    tally.require("bit cleared", &clearing);
    tally.require("read, C above N", &[OK]);
    let (counted, refused): (Vec<u64>, Vec<u64>) =
        generate::AMOUNTS.into_iter().partition(|amount| is_amount(*amount));
    tally.require("amount counted", &counted);
    tally.require("amount refused", &refused);
    tally.require("count, C + w at MAX", &[OK]);
    tally.require("count, C + w past MAX", &[EXHAUSTED]);
    tally.require("count, C at MAX", &[EXHAUSTED]);
    let (taken, unread): (Vec<u64>, Vec<u64>) =
        generate::STEP_AMOUNTS.map(u64::from).into_iter().partition(|amount| is_amount(*amount));
    tally.require("amount read", &taken);
    tally.require("amount unread", &unread);
    tally.require("take, version 1", &[UNREADABLE]);
    tally.require("take, p at w", &[IMPLAUSIBLE]);
    tally.require("take, p below w", &[IMPLAUSIBLE]);
    tally.require("take, p at w + 1", &[OK]);
    tally.require("take, C + w at MAX", &[OK]);
    tally.require("take, C + w past MAX", &[IMPLAUSIBLE]);
}

/// One replica twice: the reference's and the library's.
struct Pair {
    seed: u64,
    case: u64,
    ours: Guarded<u64>,
    theirs: Guarded<u64>,
}

impl Pair {
    fn call(&mut self, random: &mut Random, tally: &mut Tally) {
        let before = self.ours.clone();
        let (call, number, looked) = match random.below(22) {
            0 => self.open(random),
            1..=3 => self.read(random, tally),
            4..=7 => self.send(random, &COUNT, tally),
            8..=10 => self.send(random, &CLEAR, tally),
            11..=13 => self.send(random, &READ_AND_CLEAR, tally),
            _ => self.take(random, tally),
        };
        let (seed, case) = (self.seed, self.case);
        assert_eq!(self.ours, self.theirs, "words after {call}, {number}: seed {seed} case {case}");
        if number != OK || call == "read" {
            assert_eq!(
                before, self.theirs,
                "{call} changed words, {number}: seed {seed} case {case}"
            );
        }
        tally.note(call, number);
        if let Some((looks, counter)) = looked {
            let words = [before.get(), self.theirs.get()];
            if let Err(trouble) = note_bits(tally, words, looks, counter, number) {
                panic!("{trouble}, {call}, {number}: seed {seed} case {case}");
            }
        }
    }

    /// Which counters are active, of words that may be anything: their fourth, and no row.
    fn active(&self, tally: &mut Tally) {
        let words = self.theirs.get();
        let theirs = library::active_counters(words);
        self.agree("active", active(replica::active(self.ours.get())), theirs);
        self.agree("words that active looked at", &self.ours, &self.theirs);
        tally.note("active", theirs.number);
        let word = words.get(ACTIVE_AT).copied().unwrap_or(0);
        if word >> 63 == 1 && words[COUNTERS_AT] >= COUNTERS - 1 {
            tally.note("active, bit 63", theirs.number);
        }
        if theirs.number == OK {
            self.agree("active", word, theirs.counters);
            tally.note("active, by reading", u64::from(found_by_reading(words) != Some(word)));
        }
    }

    fn agree<T: PartialEq + std::fmt::Debug>(&self, call: &str, ours: T, theirs: T) {
        assert_eq!(ours, theirs, "{call}: seed {} case {}", self.seed, self.case);
    }

    fn open(&mut self, random: &mut Random) -> (&'static str, u64, Looked) {
        let word = |at: usize| self.ours.get().get(at).copied().unwrap_or(0);
        let mut shape = [word(CARDS_AT), word(COUNTERS_AT), word(OWN_AT)];
        if random.percent(40) {
            shape[random.below(3) as usize] = random.pick(&generate::EDGES);
        }
        let [cards, counters, own] = shape;
        let ours = number(replica::open(self.ours.get_mut(), cards, counters, own));
        let theirs = library::open(self.theirs.get_mut(), cards, counters, own);
        self.agree("open", ours, theirs);
        ("open", theirs, None)
    }

    fn read(&mut self, random: &mut Random, tally: &mut Tally) -> (&'static str, u64, Looked) {
        let counter = generate::counter(random, self.ours.get());
        let ours = reading(replica::read(self.ours.get(), counter));
        let theirs = library::read(self.theirs.get(), counter);
        self.agree("read", ours, theirs);
        let words = self.ours.get();
        let above = |card: usize| words[increments_at(card)] > received_from(words, card);
        if ours.number == OK && (0..words[CARDS_AT] as usize).any(above) {
            tally.note("read, C above N", theirs.number);
        }
        ("read", theirs.number, Some((LOOKS_READ, counter)))
    }

    fn send(
        &mut self,
        random: &mut Random,
        call: &Sending,
        tally: &mut Tally,
    ) -> (&'static str, u64, Looked) {
        let before = self.ours.get().to_vec();
        let counter = generate::counter(random, &before);
        let amount = generate::count_amount(random, &before);
        let room = self.room(random, counter, amount, call);
        let content = random.bytes(room);
        let (mut our_out, mut their_out) = (Guarded::new(&content), Guarded::new(&content));
        let in_turn = (call.kind == STEP_READ_AND_CLEAR)
            .then(|| read_then_clear(self.theirs.clone(), counter, their_out.clone()));
        let ours = cleared((call.ours)(self.ours.get_mut(), counter, amount, our_out.get_mut()));
        let theirs = (call.theirs)(self.theirs.get_mut(), counter, amount, their_out.get_mut());
        self.agree(call.name, ours, theirs);
        self.agree(call.name, &our_out, &their_out);
        if let Some((answer, words, out)) = in_turn {
            self.agree("read, then clear", answer, theirs);
            self.agree("read, then clear", (&words, &out), (&self.theirs, &their_out));
        }
        let length = theirs.length as usize;
        self.agree("bytes past the message", &content[length..], &their_out.get()[length..]);
        if call.counts() && room >= INCREMENT_BYTES && replica::read(&before, counter).is_ok() {
            note_count(tally, &before, amount, theirs.number);
        }
        let looks = match call.kind {
            STEP_COUNT => LOOKS_COUNT,
            STEP_CLEAR => LOOKS_CLEAR,
            _ => LOOKS_READ_AND_CLEAR,
        };
        (call.name, theirs.number, Some((looks, counter)))
    }

    /// Output bytes: too few by one, exactly enough, or any number.
    fn room(&self, random: &mut Random, counter: u64, amount: u64, call: &Sending) -> usize {
        if random.percent(40) {
            let mut words = self.ours.get().to_vec();
            let needed = (call.ours)(&mut words, counter, amount, &mut [0; LONGEST_MESSAGE]);
            let needed = needed.map_or(0, |cleared| cleared.sent.length as usize);
            return random.pick(&[needed, needed, needed.saturating_sub(1), needed + 1, 0]);
        }
        random.below(LONGEST_MESSAGE as u64 + 60) as usize
    }

    fn take(&mut self, random: &mut Random, tally: &mut Tally) -> (&'static str, u64, Looked) {
        let before = self.ours.get().to_vec();
        let draft = generate::draft(random, &before);
        let mut bytes = draft.bytes();
        if random.percent(12) {
            generate::damage_bytes(random, &mut bytes);
        }
        let kept = Guarded::new(&bytes);
        let ours = taken(replica::take(self.ours.get_mut(), &bytes));
        let theirs = library::take(self.theirs.get_mut(), kept.get());
        self.agree("take", ours, theirs);
        // Of words that are a replica.
        if replica::take(&mut before.clone(), &[]) == Err(UNREADABLE) && bytes == draft.bytes() {
            note_take(tally, &before, &draft, theirs.number);
        }
        let looks =
            if draft.kind == MESSAGE_INCREMENT { LOOKS_INCREMENT } else { LOOKS_TAKEN_CLEAR };
        let looked = (bytes == draft.bytes()).then_some((looks, draft.counter.into()));
        ("take", theirs.number, looked)
    }
}

/// Of words that are a replica but for their bits, where the counter's row is well-formed but for
/// its own: what its bits are, and what the call has moved of them.
fn note_bits(
    tally: &mut Tally,
    [before, after]: [&[u64]; 2],
    looks: u64,
    counter: u64,
    number: u64,
) -> Result<(), &'static str> {
    let mut right = before.to_vec();
    if right.len() <= ACTIVE_AT {
        return Ok(());
    }
    right[ACTIVE_AT] = 0;
    if replica::active(&right).is_err() || counter >= right[COUNTERS_AT] {
        return Ok(());
    }
    (0..right[COUNTERS_AT] as usize).for_each(|q| replica::mark(&mut right, q));
    if replica::read(&right, counter).is_err() {
        return Ok(());
    }
    let (bits, due) = (before[ACTIVE_AT], right[ACTIVE_AT]);
    let own = 1 << counter;
    if right[COUNTERS_AT] < u64::from(u64::BITS) && bits >> right[COUNTERS_AT] != 0 {
        tally.note("high bit", looks);
        return if number == BAD_REPLICA { Ok(()) } else { Err("a high bit") };
    }
    if (bits ^ due) & own != 0 {
        if number == BAD_ROW {
            let name = if bits & own != 0 { "bit without entry" } else { "entry without bit" };
            tally.note(name, looks);
        }
        return if number == OK { Err("a bit that disagrees") } else { Ok(()) };
    }
    if number != OK {
        return if number == BAD_ROW { Err("right bits") } else { Ok(()) };
    }
    if bits != due {
        tally.note("wrong bit of another", looks);
    }
    match bits ^ after[ACTIVE_AT] {
        0 => Ok(()),
        moved if moved == own => {
            tally.note(if bits & own == 0 { "bit set" } else { "bit cleared" }, looks);
            Ok(())
        }
        _ => Err("another's bit has moved"),
    }
}

/// A count that nothing but its amount and the card's numbers can have refused.
fn note_count(tally: &mut Tally, words: &[u64], amount: u64, number: u64) {
    let own = words[OWN_AT] as usize;
    let (increments, messages) = (words[increments_at(own)], received_from(words, own));
    if generate::AMOUNTS.contains(&amount) {
        match number {
            OK => tally.note("amount counted", amount),
            BAD_AMOUNT => tally.note("amount refused", amount),
            _ => {}
        }
    }
    if messages == MAX || !is_amount(amount) {
        return;
    }
    match increments + amount {
        MAX => tally.note("count, C + w at MAX", number),
        next if next == MAX + 1 => tally.note("count, C + w past MAX", number),
        _ => {}
    }
    if increments == MAX {
        tally.note("count, C at MAX", number);
    }
}

/// A message to a replica; if it is an increment that only its fields' range, or only whether it is
/// plausible, can have refused.
fn note_take(tally: &mut Tally, words: &[u64], draft: &generate::Draft, number: u64) {
    let alone = message::read_alone(&draft.bytes());
    if alone.is_some_and(|message| message.version == PLAIN) {
        tally.note("take, version 1", number);
    }
    let with_amount = generate::Draft { amount: 1, ..draft.clone() };
    let Some(message) = message::read(&with_amount.bytes()) else { return };
    let Body::Increment { p, start, .. } = message.body else { return };
    if generate::STEP_AMOUNTS.contains(&draft.amount) {
        let name = if number == UNREADABLE { "amount unread" } else { "amount read" };
        tally.note(name, draft.amount.into());
    }
    let (cards, own, sender) = (words[CARDS_AT], words[OWN_AT], u64::from(draft.sender));
    let reads = replica::read(words, draft.counter.into()).is_ok();
    let amount = u64::from(draft.amount);
    if !reads || sender >= cards || sender == own || !is_amount(amount) {
        return;
    }
    let sender = sender as usize;
    if draft.sequence != received_from(words, sender) + 1 {
        return;
    }
    let next = words[increments_at(sender)] + amount;
    match p {
        _ if start => {}
        _ if p == amount => tally.note("take, p at w", number),
        _ if p < amount => tally.note("take, p below w", number),
        _ if next > MAX => tally.note("take, C + w past MAX", number),
        _ if p == amount + 1 && p <= next => tally.note("take, p at w + 1", number),
        _ => {}
    }
    if next == MAX && (if start { p == MAX } else { amount < p }) {
        tally.note("take, C + w at MAX", number);
    }
}

/// The library's two calls in place of the one: what it has to answer and leave.
fn read_then_clear(
    mut words: Guarded<u64>,
    counter: u64,
    mut out: Guarded<u8>,
) -> (library::Cleared, Guarded<u64>, Guarded<u8>) {
    let read = library::read(words.get(), counter);
    let mut answer = unread(library::clear(words.get_mut(), counter, out.get_mut()));
    if answer.number == OK {
        answer.value = read.value;
    }
    (answer, words, out)
}
