//! Histories of a driver's calls on the cards of one chassis, over a network that loses, repeats,
//! reorders and damages: every answer is the one that the driver's theorem says, and every read is
//! that of the ledgers, which are fed the accepted calls and nothing else.
//!
//! The network keeps all that was ever written and hands over what it likes. The theorem asks one
//! thing of it: no card accepts bytes that their sender has not written. Bytes that the reference
//! would so accept are not handed over, and counted as `forged`; all others are.

use std::fmt::Debug;
use std::ops::Range;

use super::total::Collector;
use super::{against_ledgers, cleared, generate, taken, Guarded, Tally};
use super::{Sending, CLEAR, COUNT, READ_AND_CLEAR, SENDING};
use crate::chassis::{Answer, Step};
use crate::ledger::Ledger;
use crate::library;
use crate::limits::*;
use crate::message::{self, Body, Message};
use crate::random::Random;
use crate::replica;

/// Histories until `calls` calls have been made. What the end of each adds, messages sent again
/// and steps replayed, is not among them.
pub fn histories(seed: u64, calls: u64) -> Tally {
    histories_with(seed, calls, |_, _, _| None)
}

/// The same, each with the collector that its numbers of cards and counters give.
pub(super) fn histories_with(
    seed: u64,
    calls: u64,
    collector: fn(&mut Random, usize, usize) -> Option<Collector>,
) -> Tally {
    let mut tally = Tally::default();
    let mut made = 0;
    for case in 0.. {
        let mut random = Random::case(seed, case);
        let mut history = History::new(&mut random, format!("seed {seed} case {case}"), &mut tally);
        history.collector = collector(&mut random, history.cards, history.counters);
        history.go_on(&mut random);
        made += history.calls;
        history.end(&mut random);
        if made >= calls {
            break;
        }
    }
    tally
}

/// Panics unless the series met everything that can happen, and nothing else.
pub fn require_all(tally: &Tally) {
    // EXHAUSTED needs MAX messages, or units, of one card first.
    tally.require(COUNT.name, &[OK, BAD_COUNTER, SHORT_OUTPUT, BAD_AMOUNT]);
    for call in [CLEAR, READ_AND_CLEAR] {
        tally.require(call.name, &[OK, BAD_COUNTER, SHORT_OUTPUT]);
    }
    // 3 is any from there on.
    tally.require("amount", &[1, 2, 3]);
    tally.require("value", &[0, 1]);
    tally.require("next", &[OK]);
    tally.require("old", &[REPEATED]);
    tally.require("later", &[EARLY]);
    tally.require("own", &[BAD_CARD]);
    tally.require("unharmed", &[OK, BAD_CARD, REPEATED, EARLY]);
    let damaged = [BAD_COUNTER, UNREADABLE, BAD_CARD, REPEATED, EARLY, IMPLAUSIBLE];
    tally.require("damaged", &damaged);
    tally.require("noise", &[UNREADABLE]);
    tally.require("foreign", &[BAD_COUNTER, UNREADABLE, BAD_CARD]);
    tally.require("version 1", &[UNREADABLE]);
    tally.require("forged", &[OK]);
    tally.require("again", &[REPEATED]);
    tally.require("resent", &[OK, REPEATED]);
    tally.require("cards", &(1..=MOST_CARDS as u64).collect::<Vec<_>>());
    let doublings = 0..=MOST_COUNTERS.next_power_of_two().ilog2();
    tally.require("counters", &doublings.map(|power| 1 << power).collect::<Vec<_>>());
    tally.require("entries", &(0..=MOST_CARDS as u64).collect::<Vec<_>>());
    tally.require("start", &[NO_START, FIRST_START, NEW_START]);
    // How many counters of a card are active; 3 is any from there on. And whether the last of 64 is.
    tally.require("active", &[0, 1, 2, 3]);
    tally.require("last active", &[0, 1]);
    for holders in 0..3 {
        // Held with a value of 0, so not quiet: a clear has come before all that it clears.
        assert!(tally.times("zero", holders) > 0, "never 0 with {holders} holders");
        assert!(tally.times("counting", holders + 1) > 0, "never {} holders", holders + 1);
    }
}

const NO_START: u64 = 0;
const FIRST_START: u64 = 1;
/// The card has counted on this counter before, and all of it has been cleared.
const NEW_START: u64 = 2;

/// The library's cards, and what a driver knows of them.
struct Cards {
    words: Vec<Guarded<u64>>,
    /// Of each card, the messages that it has written, in the order made.
    written: Vec<Vec<Vec<u8>>>,
    /// `received[card][sender]`: how many of the sender's messages the card has accepted.
    received: Vec<Vec<usize>>,
}

impl Cards {
    /// Opened on words that held something else.
    fn open(random: &mut Random, cards: usize, counters: usize) -> Cards {
        let words = (0..cards as u64).map(|card| {
            let mut words = Guarded::new(&random.words(replica_words(cards, counters)));
            let number = library::open(words.get_mut(), cards as u64, counters as u64, card);
            assert_eq!(number, OK);
            words
        });
        Cards {
            words: words.collect(),
            written: vec![Vec::new(); cards],
            received: vec![vec![0; cards]; cards],
        }
    }

    /// A step as a call, with room for any message; a delivery takes the message whose turn it is.
    fn call(&mut self, step: Step) -> Answer {
        let (card, second) = (step.first as usize, step.second as usize);
        let words = self.words[card].get_mut();
        let Some(call) = SENDING.iter().find(|call| call.kind == step.kind) else {
            let bytes = &self.written[second][self.received[card][second]];
            self.received[card][second] += 1;
            return [library::take(words, bytes).number, 0];
        };
        let mut out = [0; LONGEST_MESSAGE];
        let answer = (call.theirs)(words, step.second.into(), step.amount.into(), &mut out);
        self.written[card].push(out[..answer.length as usize].to_vec());
        [answer.number, answer.value]
    }
}

/// An accepted call as a step, with the counter that it belongs to and the value that it answered.
struct Accepted {
    step: Step,
    counter: u32,
    value: u64,
}

/// Which of the messages of a link, told how many the card has received and the sender written.
type Which = fn(u64, u64) -> Range<u64>;

const NEXT: Which = |received, written| received..written.min(received + 1);
const OLD: Which = |received, _| 0..received;
const LATER: Which = |received, written| received + 1..written;

struct History<'a> {
    place: String,
    tally: &'a mut Tally,
    cards: usize,
    counters: usize,
    theirs: Cards,
    /// The reference's replicas.
    ours: Vec<Vec<u64>>,
    ledgers: Vec<Ledger>,
    accepted: Vec<Accepted>,
    /// What a card has answered with 0 or 8.
    known: Vec<(usize, Vec<u8>)>,
    /// Where there is one, no clear that it forbids has room enough.
    collector: Option<Collector>,
    calls: u64,
}

impl History<'_> {
    fn new<'a>(random: &mut Random, place: String, tally: &'a mut Tally) -> History<'a> {
        let any_of = |random: &mut Random, most: usize| random.between(1, most as u64) as usize;
        let (cards, counters) = match random.below(12) {
            0 => (any_of(random, MOST_CARDS), any_of(random, MOST_COUNTERS)),
            1 => (any_of(random, MOST_CARDS), 1),
            _ => generate::shape(random),
        };
        tally.note("cards", cards as u64);
        tally.note("counters", counters.next_power_of_two() as u64);
        let mut ours = vec![vec![0; replica_words(cards, counters)]; cards];
        for (card, words) in ours.iter_mut().enumerate() {
            replica::open(words, cards as u64, counters as u64, card as u64).expect("right sizes");
        }
        History {
            place,
            tally,
            cards,
            counters,
            theirs: Cards::open(random, cards, counters),
            ours,
            ledgers: (0..counters).map(|counter| Ledger::new(cards, counter)).collect(),
            accepted: Vec::new(),
            known: Vec::new(),
            collector: None,
            calls: 0,
        }
    }

    /// Some hundred calls; how many of each kind differs from one history to the next.
    fn go_on(&mut self, random: &mut Random) {
        let sends = random.pick(&[10, 25, 45]);
        let clears = random.pick(&[2, 15, 40]);
        let takes = random.pick(&[5, 25, 45]);
        let turns = if random.percent(5) { 1_500 } else { random.below(400) };
        let checks = if self.cards * self.counters > 64 { 1 } else { 8 };
        for _ in 0..turns {
            match random.below(100) {
                x if x < sends && random.percent(clears) => self.clear(random),
                x if x < sends => self.send(random, &COUNT),
                x if x < sends + takes => self.hand_over(random, NEXT, "next"),
                _ => self.hand_over_other(random),
            }
            if random.percent(checks) {
                self.check_reads();
            }
        }
        self.check_reads();
    }

    /// What holds of a history however it went.
    fn end(&mut self, random: &mut Random) {
        self.accepted_steps_alone(random);
        self.one_counter_alone(random);
        self.resend_all(random);
        self.check_reads();
        self.clear_all_heard(random);
        self.check_total();
        for (card, bytes) in std::mem::take(&mut self.known) {
            self.take(card, &bytes, "again");
        }
    }

    fn place(&self) -> String {
        format!("{} call {}, r {} k {}", self.place, self.calls, self.cards, self.counters)
    }

    fn agree<T: PartialEq + Debug>(&self, what: &str, theirs: T, due: T) {
        assert_eq!(theirs, due, "{what}: {}", self.place());
    }

    fn any_card(&self, random: &mut Random) -> usize {
        random.below(self.cards as u64) as usize
    }

    // ---- count, clear, and read and clear

    fn send(&mut self, random: &mut Random, call: &Sending) {
        let card = self.any_card(random);
        let counter = generate::counter(random, &self.ours[card]);
        self.send_with_any_room(random, call, card, counter);
    }

    fn clear(&mut self, random: &mut Random) {
        match self.collector {
            Some(Collector { card, counter }) if random.percent(50) => {
                self.send_with_any_room(random, &READ_AND_CLEAR, card, counter as u64)
            }
            _ => {
                let call = random.pick(&[&CLEAR, &READ_AND_CLEAR]);
                self.send(random, call)
            }
        }
    }

    fn send_with_any_room(
        &mut self,
        random: &mut Random,
        call: &Sending,
        card: usize,
        counter: u64,
    ) {
        let size = self.size(call, card, counter);
        let amount = generate::count_amount(random, &self.ours[card]);
        let step = call.step(card as u32, counter as u32, amount as u32);
        let forbidden = self.collector.is_some_and(|collector| collector.forbids(step));
        let room = if forbidden { random.below(size as u64) as usize } else { room(random, size) };
        self.send_from(call, card, counter, amount, &random.bytes(room));
    }

    /// With an output that holds `content`.
    fn send_from(
        &mut self,
        call: &Sending,
        card: usize,
        counter: u64,
        amount: u64,
        content: &[u8],
    ) {
        let size = self.size(call, card, counter);
        let before = self.theirs.words[card].clone();
        let (mut out, mut our_out) = (Guarded::new(content), content.to_vec());
        let words = self.theirs.words[card].get_mut();
        let theirs = (call.theirs)(words, counter, amount, out.get_mut());
        let ours = (call.ours)(&mut self.ours[card], counter, amount, &mut our_out);
        let due = match self.ledgers.get(counter as usize) {
            None => [BAD_COUNTER, 0],
            Some(_) if call.counts() && !is_amount(amount) => [BAD_AMOUNT, 0],
            Some(_) if content.len() < size => [SHORT_OUTPUT, 0],
            Some(ledger) if call.kind == STEP_READ_AND_CLEAR => [OK, ledger.value(card)],
            Some(_) => [OK, 0],
        };
        self.agree(call.name, [theirs.number, theirs.value], due);
        self.agree(call.name, theirs, cleared(ours));
        self.agree(call.name, &out, &Guarded::new(&our_out));
        self.called(call.name, theirs.number, card, before);
        let length = theirs.length as usize;
        self.agree("bytes past the message", &out.get()[length..], &content[length..]);
        if theirs.number == OK {
            self.agree(call.name, length, size);
            let step = call.step(card as u32, counter as u32, amount as u32);
            self.wrote(step, &out.get()[..length]);
            self.accept(Accepted { step, counter: step.second, value: theirs.value });
        }
    }

    /// A clear has an entry for each holding card of the ledger.
    fn size(&self, call: &Sending, card: usize, counter: u64) -> usize {
        match self.ledgers.get(counter as usize) {
            Some(ledger) if !call.counts() => {
                clear_bytes(ledger.holders(card).count_ones() as usize)
            }
            _ => INCREMENT_BYTES,
        }
    }

    /// The card has written a message: it reads, names the card, has the next number and, if it
    /// counts, the amount.
    fn wrote(&mut self, step: Step, bytes: &[u8]) {
        let message = message::read(bytes).expect("a written message reads");
        let written = &self.theirs.written[step.first as usize];
        let header = (message.sender, message.sequence, message.counter);
        let due = (step.first, written.len() as u64 + 1, step.second);
        self.agree("header", header, due);
        match message.body {
            Body::Increment { start, amount, .. } => {
                self.agree("amount", amount, step.amount);
                let same = |call: &Accepted| Step { amount, ..call.step } == step;
                let before = self.accepted.iter().any(same);
                self.tally.note("amount", amount.min(3).into());
                let start = match (start, before) {
                    (false, _) => NO_START,
                    (true, false) => FIRST_START,
                    (true, true) => NEW_START,
                };
                self.tally.note("start", start);
            }
            Body::Clear(entries) => self.tally.note("entries", entries.as_slice().len() as u64),
        }
        self.theirs.written[step.first as usize].push(bytes.to_vec());
    }

    fn accept(&mut self, call: Accepted) {
        for at in 0..self.counters {
            if let Err(trouble) = self.ledgers[at].feed(call.step, true) {
                panic!("{trouble}: {}", self.place());
            }
        }
        if call.step.kind == STEP_READ_AND_CLEAR {
            self.tally.note("value", call.value.min(1));
        }
        self.accepted.push(call);
    }

    /// After any call: a refused one has left the words, any other those of the reference.
    fn called(&mut self, what: &'static str, number: u64, card: usize, before: Guarded<u64>) {
        self.calls += 1;
        self.tally.note(what, number);
        let words = &self.theirs.words[card];
        self.agree(what, words, &Guarded::new(&self.ours[card]));
        if number != OK {
            self.agree("words after a refusal", words, &before);
        }
    }

    // ---- take

    /// Hands the bytes over, unless they would be accepted and are not their sender's.
    fn take(&mut self, card: usize, bytes: &[u8], what: &'static str) -> Option<u64> {
        let read = message::read(bytes);
        let written = read.filter(|message| self.is_written(message, bytes));
        let before = self.ours[card].clone();
        let ours = taken(replica::take(&mut self.ours[card], bytes));
        if ours.number == OK && written.is_none() {
            self.ours[card] = before;
            self.tally.note("forged", ours.number);
            return None;
        }
        let what = if what == "damaged" && written.is_some() { "unharmed" } else { what };
        let lent = Guarded::new(bytes);
        let theirs = library::take(self.theirs.words[card].get_mut(), lent.get());
        self.agree(what, theirs, ours);
        self.agree(what, &lent, &Guarded::new(bytes));
        if let Some(message) = written {
            self.agree(what, theirs.number, self.due(card, &message));
        }
        if what == "again" {
            self.agree(what, theirs.number, REPEATED);
        }
        self.called(what, theirs.number, card, Guarded::new(&before));
        if let (OK, Some(message)) = (theirs.number, written) {
            self.theirs.received[card][message.sender as usize] += 1;
            let step = Step::deliver(card as u32, message.sender);
            self.accept(Accepted { step, counter: message.counter, value: 0 });
        }
        if theirs.number == OK || theirs.number == REPEATED {
            self.known.push((card, bytes.to_vec()));
        }
        Some(theirs.number)
    }

    fn is_written(&self, message: &Message, bytes: &[u8]) -> bool {
        let written = self.theirs.written.get(message.sender as usize);
        let same = written.and_then(|list| list.get(message.sequence as usize - 1));
        same.is_some_and(|same| same == bytes)
    }

    /// The answer to a message that its sender has written.
    fn due(&self, card: usize, message: &Message) -> u64 {
        let sender = message.sender as usize;
        let received = self.theirs.received[card][sender] as u64;
        if sender == card {
            BAD_CARD
        } else if message.sequence <= received {
            REPEATED
        } else if message.sequence > received + 1 {
            EARLY
        } else {
            OK
        }
    }

    // ---- what the network hands over

    /// A card, another, and which of the other's messages, of all links that have such a one.
    fn some(&self, random: &mut Random, which: Which) -> Option<(usize, usize, u64)> {
        let mut links = Vec::new();
        for card in 0..self.cards {
            for sender in (0..self.cards).filter(|sender| *sender != card) {
                let received = self.theirs.received[card][sender] as u64;
                let range = which(received, self.theirs.written[sender].len() as u64);
                if !range.is_empty() {
                    links.push((card, sender, range.start, range.end - 1));
                }
            }
        }
        if links.is_empty() {
            return None;
        }
        let (card, sender, first, last) = random.pick(&links);
        Some((card, sender, random.between(first, last)))
    }

    fn take_written(&mut self, card: usize, sender: usize, at: u64, what: &'static str) -> u64 {
        let bytes = self.theirs.written[sender][at as usize].clone();
        self.take(card, &bytes, what).expect("never forged")
    }

    fn hand_over(&mut self, random: &mut Random, which: Which, what: &'static str) {
        if let Some((card, sender, at)) = self.some(random, which) {
            self.take_written(card, sender, at, what);
        }
    }

    fn hand_over_other(&mut self, random: &mut Random) {
        match random.below(10) {
            0 | 1 => self.hand_over(random, OLD, "old"),
            2 | 3 => self.hand_over(random, LATER, "later"),
            4 => {
                let card = self.any_card(random);
                if let Some(last) = self.theirs.written[card].len().checked_sub(1) {
                    self.take_written(card, card, random.between(0, last as u64), "own");
                }
            }
            5 | 6 => self.hand_over_damaged(random),
            7 => self.hand_over_stray(random),
            8 => self.hand_over_plain(random),
            _ if self.known.is_empty() => {}
            _ => {
                let at = random.below(self.known.len() as u64) as usize;
                let (card, bytes) = self.known[at].clone();
                self.take(card, &bytes, "again");
            }
        }
    }

    fn hand_over_damaged(&mut self, random: &mut Random) {
        let which = random.pick(&[NEXT, NEXT, NEXT, OLD, LATER]);
        let Some((card, sender, at)) = self.some(random, which) else { return };
        let mut bytes = self.theirs.written[sender][at as usize].clone();
        if random.percent(50) {
            flip_low_bit(random, &mut bytes);
        } else {
            for _ in 0..random.between(1, 3) {
                generate::damage_bytes(random, &mut bytes);
            }
        }
        self.take(card, &bytes, "damaged");
    }

    /// Bytes of something else, or a message of a larger chassis.
    fn hand_over_stray(&mut self, random: &mut Random) {
        let card = self.any_card(random);
        if random.percent(40) {
            let len = random.below(LONGEST_MESSAGE as u64 + 9) as usize;
            self.take(card, &random.bytes(len), "noise");
        } else {
            let bytes = self.foreign(random, card).bytes();
            self.take(card, &bytes, "foreign");
        }
    }

    /// The next message, but in version 1.
    fn hand_over_plain(&mut self, random: &mut Random) {
        let Some((card, sender, at)) = self.some(random, NEXT) else { return };
        let message = message::read(&self.theirs.written[sender][at as usize]).expect("written");
        let mut out = [0; LONGEST_MESSAGE];
        let length = message::write(&message.plain(), &mut out).expect("in range");
        self.take(card, &out[..length], "version 1");
    }

    /// Next in sequence, but for a sender, a counter or an entry's card that is not there.
    fn foreign(&self, random: &mut Random, card: usize) -> generate::Draft {
        let (cards, counters) = (self.cards as u64, self.counters as u64);
        let other_card = random.between(cards, cards.max(MOST_CARDS as u64 - 1)) as u32;
        let sender = self.any_card(random);
        let mut draft = generate::Draft {
            version: MESSAGE_VERSION,
            kind: random.pick(&[MESSAGE_INCREMENT, MESSAGE_CLEAR]),
            sender: sender as u32,
            sequence: self.theirs.received[card][sender] as u64 + 1,
            counter: random.below(counters) as u32,
            p: 1,
            start: 1,
            amount: 1,
            entries: Vec::new(),
        };
        match random.below(3) {
            0 => draft.sender = other_card,
            1 => {
                draft.counter =
                    random.between(counters, counters.max(MOST_COUNTERS as u64 - 1)) as u32
            }
            _ => {
                draft.kind = MESSAGE_CLEAR;
                draft.entries.push((other_card, 1, 1));
            }
        }
        draft
    }

    // ---- what holds after every history

    fn check_reads(&mut self) {
        for card in 0..self.cards {
            let words = &self.theirs.words[card];
            self.agree("words", words, &Guarded::new(&self.ours[card]));
            against_ledgers(&self.ledgers, card, words.get(), &|| self.place());
            let active = library::active_counters(words.get()).counters;
            self.tally.note("active", active.count_ones().min(3).into());
            if self.counters == MOST_COUNTERS {
                self.tally.note("last active", active >> (MOST_COUNTERS - 1));
            }
            for counter in 0..self.counters {
                let read = library::read(self.theirs.words[card].get(), counter as u64);
                let name = if read.value == 0 { "zero" } else { "counting" };
                self.tally.note(name, read.holder_count);
            }
        }
        self.check_total();
    }

    /// The values that the collector answered and its read now are what it has received.
    fn check_total(&mut self) {
        if let Some(collector) = self.collector {
            let accepted = self.accepted.iter().map(|call| (call.step, call.value));
            let words = self.theirs.words[collector.card].get();
            let total = collector.check(accepted, words, &|| self.place());
            total.expect("only what is allowed").note(self.tally);
        }
    }

    /// "Only accepted steps count": by themselves they leave the same words and messages.
    fn accepted_steps_alone(&self, random: &mut Random) {
        let mut fresh = Cards::open(random, self.cards, self.counters);
        for call in &self.accepted {
            self.agree("an accepted step alone", fresh.call(call.step), [OK, call.value]);
        }
        self.agree("words of the accepted steps", &fresh.words, &self.theirs.words);
        self.agree("messages of the accepted steps", &fresh.written, &self.theirs.written);
    }

    /// "Whole isolation": one counter's own calls alone are accepted and leave its reads.
    fn one_counter_alone(&self, random: &mut Random) {
        let counter = random.below(self.counters as u64);
        let mut fresh = Cards::open(random, self.cards, self.counters);
        for call in self.accepted.iter().filter(|call| u64::from(call.counter) == counter) {
            self.agree("a step of one counter alone", fresh.call(call.step), [OK, call.value]);
        }
        for (alone, words) in fresh.words.iter().zip(&self.theirs.words) {
            let (alone, read) =
                (library::read(alone.get(), counter), library::read(words.get(), counter));
            self.agree("a read of one counter alone", alone, read);
        }
    }

    /// "Sending again is enough": all that was written, each link in order and the links in any.
    /// Then every card has every message, and all read the same.
    fn resend_all(&mut self, random: &mut Random) {
        let mut links: Vec<(usize, usize, u64)> = Vec::new();
        for card in 0..self.cards {
            links.extend((0..self.cards).filter(|s| *s != card).map(|s| (card, s, 0)));
        }
        while !links.is_empty() {
            let at = random.below(links.len() as u64) as usize;
            let (card, sender, next) = links[at];
            if next < self.theirs.written[sender].len() as u64 {
                links[at].2 += 1;
                let number = self.take_written(card, sender, next, "resent");
                assert!([OK, REPEATED].contains(&number), "resent, {number}: {}", self.place());
            } else {
                links.swap_remove(at);
            }
        }
        for words in &self.theirs.words {
            for (sender, written) in self.theirs.written.iter().enumerate() {
                let received = replica::received_from(words.get(), sender);
                self.agree("messages received", received, written.len() as u64);
            }
            for counter in 0..self.counters as u64 {
                let first = library::read(self.theirs.words[0].get(), counter);
                self.agree("reads of all cards", library::read(words.get(), counter), first);
            }
        }
    }

    /// Some cards count once more; a card that has heard all clears, and all hear that: the counter
    /// is quiet everywhere.
    fn clear_all_heard(&mut self, random: &mut Random) {
        let counter = random.below(self.counters as u64);
        let any = (random.pick(&[&CLEAR, &READ_AND_CLEAR]), self.any_card(random), counter);
        let collecting = |by: Collector| (&READ_AND_CLEAR, by.card, by.counter as u64);
        let (clear, clearing, counter) = self.collector.map_or(any, collecting);
        let counting = random.pick(&[0, 50, 100, 100]);
        for card in 0..self.cards {
            if random.percent(counting) {
                self.send_heard(&COUNT, card, counter, random.amount());
            }
        }
        self.send_heard(clear, clearing, counter, 0);
        for words in &self.theirs.words {
            let read = library::read(words.get(), counter);
            self.agree("a read after all was cleared", read, library::Reading::default());
        }
    }

    fn send_heard(&mut self, call: &Sending, card: usize, counter: u64, amount: u32) {
        self.send_from(call, card, counter, amount.into(), &[0; LONGEST_MESSAGE]);
        let last = self.theirs.written[card].len() as u64 - 1;
        for other in (0..self.cards).filter(|other| *other != card) {
            self.take_written(other, card, last, "next");
        }
    }
}

/// Numbers are big-endian in whole words of four bytes: most bytes still read as a message.
fn flip_low_bit(random: &mut Random, bytes: &mut [u8]) {
    let word = random.below(bytes.len() as u64 / 4) as usize;
    bytes[4 * word + 3] ^= 1 << random.below(4);
}

/// Output bytes for a message of `size`: none, too few, just enough, or enough for any.
fn room(random: &mut Random, size: usize) -> usize {
    match random.below(12) {
        0 => 0,
        1 => random.below(size as u64) as usize,
        2 => size - 1,
        3 | 4 => size,
        _ => LONGEST_MESSAGE + random.below(9) as usize,
    }
}
