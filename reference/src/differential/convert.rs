//! A log in the other version: every number, length and byte as the reference has them, on right
//! logs and on damaged, mixed, cut and longer ones. What has to hold of the library's answers alone
//! is told from its reader, message by message, and from the way back. And cards of version 1: their
//! messages, and the converted ones, leave the same replicas, also in one chassis with new cards.

use super::alone::List;
use super::pending::bytes_of;
use super::{generate, runs, written, Guarded, Place, Tally};
use crate::chassis::{Buffers, Step};
use crate::convert;
use crate::library::{self, Delivered, Written};
use crate::limits::*;
use crate::message::{self, Body, Entries, Entry, Message, Version, CURRENT, PLAIN};
use crate::random::Random;
use crate::replica::{entry_at, increments_at, received_from, CARDS_AT, COUNTERS_AT};
use crate::version_1::{self, Chassis};

/// A call on a log and an output.
type Convert<Answer> = fn(&[u8], &mut [u8]) -> Answer;

/// A call that converts, on both sides, and the library's way back.
pub struct Converting {
    pub name: &'static str,
    pub from: Version,
    pub to: Version,
    pub ours: Convert<Result<usize, u64>>,
    pub theirs: Convert<Written>,
    pub back: Convert<Written>,
    /// Numbers that it can give.
    pub numbers: &'static [u64],
}

pub const TO_VERSION_2: Converting = Converting {
    name: "to version 2",
    from: PLAIN,
    to: CURRENT,
    ours: convert::to_version_2,
    theirs: library::to_version_2,
    back: library::to_version_1,
    numbers: &[OK, SHORT_OUTPUT, UNREADABLE],
};
pub const TO_VERSION_1: Converting = Converting {
    name: "to version 1",
    from: CURRENT,
    to: PLAIN,
    ours: convert::to_version_1,
    theirs: library::to_version_1,
    back: library::to_version_2,
    numbers: &[OK, SHORT_OUTPUT, UNREADABLE, ABOVE_ONE],
};
pub const CONVERTING: [Converting; 2] = [TO_VERSION_2, TO_VERSION_1];

/// Messages of a log at most.
const LONGEST: u64 = 40;

/// Bytes that are fewer than those of any message.
const LESS_THAN_A_MESSAGE: u64 = clear_bytes(0) as u64 - 1;

/// What is tried with a log.
const RIGHT: &str = "right";
const SHORT: &str = "room short by one";
const DAMAGED: &str = "one byte damaged";
const MIXED: &str = "one of the other version";
const CUT: &str = "cut";
const LEFT_OVER: &str = "bytes left over";
const OF_TWO: &str = "one w of 2";
const OF_MORE: &str = "one w above 1";

impl Converting {
    /// The call on both sides, with an output that holds `content`.
    fn compare(&self, log: &[u8], content: &[u8], place: Place) -> u64 {
        let place = || format!("{}, {log:?}: {}", self.name, place());
        let lent = Guarded::new(log);
        let (mut our_out, mut their_out) = (Guarded::new(content), Guarded::new(content));
        let ours = written((self.ours)(log, our_out.get_mut()));
        let theirs = (self.theirs)(lent.get(), their_out.get_mut());
        assert_eq!(theirs, ours, "{}", place());
        assert_eq!(their_out, our_out, "{}", place());
        assert_eq!(lent, Guarded::new(log), "the log: {}", place());
        if theirs.number == OK {
            let (bytes, past) = their_out.get().split_at(theirs.length);
            assert_eq!(past, &content[theirs.length..], "bytes past the log: {}", place());
            self.check(log, bytes, &place);
        } else {
            assert_eq!(theirs.length, 0, "{}", place());
            assert_eq!(their_out, Guarded::new(content), "refused: {}", place());
        }
        theirs.number
    }

    /// What has to hold of a converted log, whatever the reference says.
    fn check(&self, log: &[u8], bytes: &[u8], place: Place) {
        let [before, after] = [log, bytes].map(|log| messages_of(log, place));
        let due: Vec<_> = before.iter().map(|message| self.converted(message)).collect();
        assert_eq!(after, due, "{}", place());
        let all_of = |version: Version, list: &[library::Message]| {
            list.iter().all(|message| message.version == version.number)
        };
        assert!(all_of(self.from, &before) && all_of(self.to, &after), "{}", place());
        let increments = before.iter().filter(|m| m.kind == MESSAGE_INCREMENT).count();
        let [shorter, longer] =
            if self.to.has_amount { [log, bytes] } else { [bytes, log] }.map(<[u8]>::len);
        assert_eq!(longer, shorter + 4 * increments, "{}", place());
        let mut again = Guarded::new(&vec![9; log.len()]);
        let answer = (self.back)(bytes, again.get_mut());
        assert_eq!(answer, Written { number: OK, length: log.len() }, "back: {}", place());
        assert_eq!(again, Guarded::new(log), "back: {}", place());
    }

    /// The message that there is for one of the log: all but version and amount are the same.
    fn converted(&self, message: &library::Message) -> library::Message {
        let has_amount = self.to.has_amount && message.kind == MESSAGE_INCREMENT;
        library::Message { version: self.to.number, amount: u32::from(has_amount), ..*message }
    }

    /// Messages of the version converted from; every amount is 1.
    fn log(&self, random: &mut Random) -> Vec<Message> {
        match random.below(3) {
            0 if self.from == PLAIN => made_in_version_1(random),
            0 => made_in_version_2(random),
            _ => {
                let len = random.pick(&[0, 1, 2, 3, LONGEST]);
                let len = if random.percent(50) { len } else { random.between(0, LONGEST) };
                (0..len).map(|_| in_version(generate::message(random), self.from, 1)).collect()
            }
        }
    }

    /// A right log, with and without room for it, and the same with one thing wrong.
    fn try_log(&self, random: &mut Random, place: Place, tally: &mut Tally) {
        let list = self.log(random);
        let log = bytes_of(&list);
        let needed: usize = list.iter().map(|m| in_version(*m, self.to, 1).length()).sum();
        let mut compare = |what: &'static str, log: &[u8], content: &[u8]| {
            let number = self.compare(log, content, &|| format!("{what}, {}", place()));
            tally.note(what, number);
            tally.note("call", number);
        };
        let room = needed + random.pick(&[0, 0, 1, 40, 400]);
        compare(RIGHT, &log, &random.bytes(room));
        if needed > 0 {
            compare(SHORT, &log, &random.bytes(needed - 1));
        }
        for (what, log) in self.wrong_logs(random, &list) {
            // A damaged log may be right; the others are refused before room is asked for.
            let room = match what {
                DAMAGED => 2 * log.len(),
                _ => random.pick(&[0, needed.saturating_sub(1), needed, needed + 400]),
            };
            compare(what, &log, &random.bytes(room));
        }
        tally.note("messages", (list.len() as u64).min(LONGEST));
    }

    fn wrong_logs(&self, random: &mut Random, list: &[Message]) -> Vec<(&'static str, Vec<u8>)> {
        let log = bytes_of(list);
        let mut wrong = vec![(LEFT_OVER, [&log[..], &left_over(random, self.from)].concat())];
        if list.is_empty() {
            return wrong;
        }
        let cut = log.len() - random.between(1, LESS_THAN_A_MESSAGE) as usize;
        wrong.push((CUT, log[..cut].to_vec()));
        let mut damaged = log.clone();
        damaged[random.below(log.len() as u64) as usize] ^= random.between(1, 255) as u8;
        wrong.push((DAMAGED, damaged));
        let mut with = |what, at: usize, message: Message| {
            let mut list = list.to_vec();
            list[at] = message;
            wrong.push((what, bytes_of(&list)));
        };
        let at = random.below(list.len() as u64) as usize;
        with(MIXED, at, in_version(list[at], self.to, 1));
        let places: Vec<usize> = (0..list.len()).filter(|at| is_increment(&list[*at])).collect();
        if self.from.has_amount && !places.is_empty() {
            let at = random.pick(&places);
            with(OF_TWO, at, in_version(list[at], self.from, 2));
            let amount = random.between(2, MOST_AMOUNT) as u32;
            with(OF_MORE, at, in_version(list[at], self.from, amount));
        }
        wrong
    }
}

/// The message in this version; an increment by `w` where there are amounts.
fn in_version(message: Message, version: Version, w: u32) -> Message {
    let mut message = Message { version, ..message };
    if let Body::Increment { amount, .. } = &mut message.body {
        *amount = if version.has_amount { w } else { 0 };
    }
    message
}

fn is_increment(message: &Message) -> bool {
    matches!(message.body, Body::Increment { .. })
}

/// Bytes that are no message: zeros, any, or the front of one.
fn left_over(random: &mut Random, version: Version) -> Vec<u8> {
    let len = random.between(1, LESS_THAN_A_MESSAGE) as usize;
    match random.below(3) {
        0 => vec![0; len],
        1 => random.bytes(len),
        _ => bytes_of(&[in_version(generate::message(random), version, 1)])[..len].to_vec(),
    }
}

/// The messages of a log, each read alone by the library: of the lengths that there are, the one
/// that reads.
fn messages_of(mut log: &[u8], place: Place) -> Vec<library::Message> {
    let clears = (0..=MOST_CARDS).map(clear_bytes);
    let lengths: Vec<usize> =
        [PLAIN_INCREMENT_BYTES, INCREMENT_BYTES].into_iter().chain(clears).collect();
    let mut messages = Vec::new();
    while !log.is_empty() {
        let mut fronts = lengths.iter().filter_map(|length| log.split_at_checked(*length));
        let read = fronts.find_map(|(front, rest)| {
            let read = library::read_message(front);
            (read.number == OK).then_some((read.message, rest))
        });
        let (message, rest) = read.unwrap_or_else(|| panic!("no message: {}", place()));
        messages.push(message);
        log = rest;
    }
    messages
}

/// The log of a card in a run of version 1.
fn made_in_version_1(random: &mut Random) -> Vec<Message> {
    let (chassis, _) = run_of_version_1(random, 3 * LONGEST, &mut Tally::default());
    let made = random.pick(&chassis.made.iter().collect::<Vec<_>>());
    made.iter().map(|bytes| message::read_alone(bytes).expect("a message that was made")).collect()
}

/// And in a run of version 2 in which all count by one.
fn made_in_version_2(random: &mut Random) -> Vec<Message> {
    let (cards, counters) = sizes(random);
    let (mut steps, log_bytes) = runs::list(random, cards, counters, 3 * LONGEST);
    for step in steps.iter_mut().filter(|step| step.kind == STEP_COUNT) {
        step.amount = step.amount.min(1);
    }
    let list = List { cards, counters, log_bytes, steps };
    let after = list.run(random);
    list.messages(&after).swap_remove(random.below(cards as u64) as usize)
}

/// `cases` logs for each call; gives what each answered.
pub fn random_logs(seed: u64, cases: u64) -> [Tally; 2] {
    CONVERTING.map(|call| {
        let mut tally = Tally::default();
        for case in 0..cases {
            let place = || format!("seed {seed} case {case}");
            call.try_log(&mut Random::case(seed, case), &place, &mut tally);
        }
        tally
    })
}

/// Panics unless each call gave all of its numbers, each wrong log was met and answered as it has to
/// be, and there were logs of every length.
pub fn require_all(tallies: &[Tally; 2]) {
    for (call, tally) in CONVERTING.iter().zip(tallies) {
        tally.require("call", call.numbers);
        tally.require(RIGHT, &[OK]);
        tally.require(SHORT, &[SHORT_OUTPUT]);
        for what in [MIXED, CUT, LEFT_OVER] {
            tally.require(what, &[UNREADABLE]);
        }
        let (above, damaged): (&[u64], &[u64]) = if call.from.has_amount {
            (&[ABOVE_ONE], &[OK, UNREADABLE, ABOVE_ONE])
        } else {
            (&[], &[OK, UNREADABLE])
        };
        tally.require(DAMAGED, damaged);
        tally.require(OF_TWO, above);
        tally.require(OF_MORE, above);
        tally.require("messages", &(0..=LONGEST).collect::<Vec<_>>());
    }
}

/// A short log with every kind of message, each of its bytes in turn set to every other value; gives
/// what each call answered.
pub fn every_byte_damaged() -> [Tally; 2] {
    CONVERTING.map(|call| {
        let mut tally = Tally::default();
        let log = bytes_of(&short_log().map(|message| in_version(message, call.from, 1)));
        for (at, value) in (0..log.len()).flat_map(|at| (1..=255).map(move |value| (at, value))) {
            let mut damaged = log.clone();
            damaged[at] ^= value;
            let place = || format!("byte {at} by {value}");
            tally.note("call", call.compare(&damaged, &[9; 300], &place));
        }
        tally
    })
}

/// Panics unless some damage was answered with each of these.
pub fn require_damaged(tallies: &[Tally; 2]) {
    let [up, down] = tallies;
    up.require("call", &[OK, UNREADABLE]);
    down.require("call", &[OK, UNREADABLE, ABOVE_ONE]);
}

/// Increments with and without start, and clears of no, one and two entries.
fn short_log() -> [Message; 5] {
    let message =
        |sequence, counter, body| Message { version: CURRENT, sender: 3, sequence, counter, body };
    let increment = |p, start| Body::Increment { p, start, amount: 1 };
    let clear = |list: &[(u32, u64, u64)]| {
        let mut entries = Entries::new();
        list.iter().for_each(|(card, p, c)| entries.push(Entry { card: *card, p: *p, c: *c }));
        Body::Clear(entries)
    };
    [
        message(1, 0, increment(1, true)),
        message(2, 63, clear(&[(2, 3, 9), (MOST_CARDS as u32 - 1, MAX, MAX)])),
        message(3, 0, increment(2, false)),
        message(4, 5, clear(&[])),
        message(MAX, 1, clear(&[(0, 1, 2)])),
    ]
}

// ---- cards of version 1

/// What a step, and a delivery, of version 1 can answer; `EXHAUSTED` needs `MAX` messages first.
pub const STEP: &[u64] = &[OK, BAD_COUNTER, BAD_CARD, BAD_KIND, NOTHING_WAITING, LOG_FULL];
pub const DELIVERY: &[u64] = &[OK, BAD_CARD, NOTHING_WAITING];

/// r and k, as a rule such that clears can overtake what they clear.
fn sizes(random: &mut Random) -> (usize, usize) {
    match random.below(30) {
        0 => generate::shape(random),
        _ => (random.between(2, 4) as usize, random.between(1, 3) as usize),
    }
}

/// A step that is good as a rule.
fn step_of_version_1(random: &mut Random, cards: usize, counters: usize) -> version_1::Step {
    let Step { kind, first, second, .. } = generate::good_step(random, cards, counters);
    let mut step = [kind, first, second];
    if random.percent(3) {
        step[random.below(3) as usize] = random.pick(&generate::EDGES) as u32;
    }
    step
}

/// A run of up to `longest` steps, and those that were accepted.
fn run_of_version_1(
    random: &mut Random,
    longest: u64,
    tally: &mut Tally,
) -> (Chassis, Vec<version_1::Step>) {
    let (cards, counters) = sizes(random);
    let log_bytes = match random.below(4) {
        0 => random.below(400),
        _ => longest * LONGEST_MESSAGE as u64,
    };
    let mut chassis = Chassis::fresh(cards, counters, log_bytes as usize);
    let mut accepted = Vec::new();
    for _ in 0..random.between(0, longest) {
        let step = step_of_version_1(random, cards, counters);
        let before = chassis.clone();
        let number = chassis.step(step);
        tally.note("step", number);
        match number {
            OK => accepted.push(step),
            _ => assert_eq!(chassis, before, "{step:?}"),
        }
    }
    (chassis, accepted)
}

/// `lists` lists of up to `longest` steps of version 1, then deliveries in any order: of the messages
/// by these rules, and of the converted ones by the library.
pub fn same_replicas(seed: u64, lists: u64, longest: u64) -> Tally {
    let mut tally = Tally::default();
    for case in 0..lists {
        let mut random = Random::case(seed, case);
        let (mut there, accepted) = run_of_version_1(&mut random, longest, &mut tally);
        let place = || format!("seed {seed} case {case}, {accepted:?}");
        let cards = there.cards();
        let logs: Vec<Vec<u8>> = (0..cards).map(|card| converted(&there.log(card))).collect();
        as_the_library_makes_them(&there, &accepted, &logs, &place);
        let mut here = there.words.clone();
        let made: usize = there.made.iter().map(Vec::len).sum();
        for _ in 0..random.between(0, (made * cards) as u64) {
            let any = |random: &mut Random| match random.below(60) {
                0 => cards,
                _ => random.below(cards as u64) as usize,
            };
            let (receiver, sender) = (any(&mut random), any(&mut random));
            let due = deliver(&mut there, receiver, sender, &mut tally);
            let number = deliver_converted(&mut here, &logs, receiver, sender);
            assert_eq!(number, due, "to {receiver} from {sender}: {}", place());
            assert_eq!(here, there.words, "to {receiver} from {sender}: {}", place());
        }
        in_rounds(&mut there, &here, &logs, &place, &mut tally);
    }
    tally
}

/// Panics unless every answer was met, and messages came where entries were, and where none was.
pub fn require_replicas(tally: &Tally) {
    tally.require("step", STEP);
    tally.require("delivery", DELIVERY);
    for name in [OVERTAKING, START, GOING_ON, CANCELLED] {
        tally.require(name, &[0, 1]);
    }
    tally.require("waiting at last", &[0, 1]);
}

/// What a delivered message met: 1 where a clear names increments that are still to come,
const OVERTAKING: &str = "overtaking clear";
/// a start comes to a card that still has an entry of the last,
const START: &str = "start again";
/// an increment without start to one that has none,
const GOING_ON: &str = "without an entry";
/// and an increment removes the entry, being cancelled already.
const CANCELLED: &str = "cancelled increment";

/// The whole log at once, by the library.
fn converted(log: &[u8]) -> Vec<u8> {
    let mut out = vec![0; log.len() + log.len() / 9];
    let Written { number, length } = library::to_version_2(log, &mut out);
    assert_eq!(number, OK, "{log:?}");
    out.truncate(length);
    out
}

/// Sizes and logs as the library's calls on a chassis take them: each log as long as the longest.
struct Lent {
    cards: u64,
    counters: u64,
    log_bytes: usize,
    logs: Vec<u8>,
}

impl Lent {
    fn of(there: &Chassis, logs: &[Vec<u8>]) -> Lent {
        let longest = logs.iter().map(Vec::len).max().unwrap_or(0);
        let padded = |log: &Vec<u8>| [&log[..], &vec![9; longest - log.len()]].concat();
        Lent {
            cards: there.words[0][CARDS_AT],
            counters: there.words[0][COUNTERS_AT],
            log_bytes: longest,
            logs: logs.iter().flat_map(padded).collect(),
        }
    }
}

/// The library's run of the accepted steps, counts being by one, writes the converted logs and leaves
/// the same words.
fn as_the_library_makes_them(
    there: &Chassis,
    accepted: &[version_1::Step],
    logs: &[Vec<u8>],
    place: Place,
) {
    let steps = accepted.iter().map(|[kind, first, second]| match *kind {
        STEP_COUNT => Step::count(*first, *second),
        kind => Step { kind, first: *first, second: *second, amount: 0 },
    });
    let steps: Vec<Step> = steps.collect();
    let Lent { cards, counters, log_bytes, logs } = Lent::of(there, logs);
    let due = there.words.concat();
    let (mut words, mut written) = (vec![9; due.len()], vec![9; logs.len()]);
    let mut answers = vec![9; ANSWER_WORDS * steps.len()];
    let lent = Buffers { words: &mut words, logs: &mut written, answers: &mut answers };
    let number = library::run_records(cards, counters, log_bytes as u64, &steps, lent);
    assert_eq!(number, OK, "{}", place());
    assert!(answers.iter().all(|word| *word == 0), "{}", place());
    assert_eq!(words, due, "{}", place());
    assert_eq!(written, logs, "{}", place());
}

/// The converted log's message number N + 1, N being the receiver's; gives the delivery's answer.
fn deliver_converted(
    words: &mut [Vec<u64>],
    logs: &[Vec<u8>],
    receiver: usize,
    sender: usize,
) -> u64 {
    if receiver.max(sender) >= words.len() || receiver == sender {
        return BAD_CARD;
    }
    let next = received_from(&words[receiver], sender) + 1;
    let span = library::waiting(&logs[sender], next);
    if span.length == 0 {
        return NOTHING_WAITING;
    }
    let message = &logs[sender][span.start as usize..][..span.length as usize];
    library::take(&mut words[receiver], message).number
}

/// The same by the rules of version 1.
fn deliver(there: &mut Chassis, receiver: usize, sender: usize, tally: &mut Tally) -> u64 {
    let before = there.words.get(receiver).cloned();
    let number = there.step([STEP_DELIVER, receiver as u32, sender as u32]);
    tally.note("delivery", number);
    if let (OK, Some(before)) = (number, before) {
        let taken = &there.made[sender][received_from(&before, sender) as usize];
        let message = message::read_alone(taken).expect("it was taken");
        note(tally, &message, &before, &there.words[receiver]);
    }
    number
}

/// What a message met, and left.
fn note(tally: &mut Tally, message: &Message, before: &[u64], after: &[u64]) {
    let (counter, sender) = (message.counter as usize, message.sender as usize);
    let has_entry = |words: &[u64]| {
        let at = entry_at(words[CARDS_AT] as usize, counter, sender);
        words[at] != [0; ENTRY_WORDS]
    };
    match &message.body {
        Body::Increment { start, .. } => {
            if *start {
                tally.note(START, has_entry(before).into());
            } else {
                tally.note(GOING_ON, (!has_entry(before)).into());
            }
            tally.note(CANCELLED, (!has_entry(after)).into());
        }
        Body::Clear(entries) => {
            let is_ahead = |entry: &Entry| entry.c > before[increments_at(entry.card as usize)];
            tally.note(OVERTAKING, entries.as_slice().iter().any(is_ahead).into());
        }
    }
}

/// All that still waits, in rounds: one by one by the rules of version 1, and by the library's call
/// for it on the converted logs.
fn in_rounds(
    there: &mut Chassis,
    here: &[Vec<u64>],
    logs: &[Vec<u8>],
    place: Place,
    tally: &mut Tally,
) {
    let Lent { cards, counters, log_bytes, logs } = Lent::of(there, logs);
    let links = (0..cards * cards).map(|at| ((at / cards) as usize, (at % cards) as usize));
    let links: Vec<_> = links.filter(|(receiver, sender)| receiver != sender).collect();
    let (mut deliveries, mut before) = (0, None);
    while before != Some(deliveries) {
        before = Some(deliveries);
        for (receiver, sender) in &links {
            deliveries += u64::from(deliver(there, *receiver, *sender, tally) == OK);
        }
    }
    let mut words = here.concat();
    let log_bytes = log_bytes as u64;
    let answer = library::deliver_pending(cards, counters, log_bytes, u64::MAX, &mut words, &logs);
    assert_eq!(answer, Delivered { number: OK, deliveries }, "{}", place());
    assert_eq!(words, there.words.concat(), "{}", place());
    tally.note("waiting at last", deliveries.min(1));
}

// ---- old cards and new ones in one chassis

/// Some cards are of version 1, the others the library's; each has made its messages in its version.
struct Together {
    is_old: Vec<bool>,
    words: Vec<Vec<u64>>,
    made: Vec<Vec<Vec<u8>>>,
}

/// What is handed over, by the versions of its sender and its receiver: 1 an increment, 2 a clear.
const HANDED: [[&str; 2]; 2] = [["new to new", "new to old"], ["old to new", "old to old"]];

impl Together {
    /// The step's answer, where every log has room.
    fn step(&mut self, [kind, first, second]: version_1::Step, tally: &mut Tally) -> u64 {
        let (first, second) = (first as usize, second as usize);
        match kind {
            STEP_COUNT | STEP_CLEAR => self.make(kind, first, second as u64),
            STEP_DELIVER => self.deliver(first, second, tally),
            _ => BAD_KIND,
        }
    }

    fn make(&mut self, kind: u32, card: usize, counter: u64) -> u64 {
        let Some(words) = self.words.get_mut(card) else { return BAD_CARD };
        let mut out = vec![0; LONGEST_MESSAGE];
        let sent = |sent: library::Sent| match sent.number {
            OK => Ok(sent.length),
            number => Err(number),
        };
        let length = match (self.is_old[card], kind) {
            (true, STEP_COUNT) => version_1::count(words, counter, &mut out).map(|s| s.length),
            (true, _) => version_1::clear(words, counter, &mut out).map(|s| s.length),
            (false, STEP_COUNT) => sent(library::count(words, counter, 1, &mut out)),
            (false, _) => sent(library::clear(words, counter, &mut out)),
        };
        match length {
            Ok(length) => out.truncate(length as usize),
            Err(number) => return number,
        }
        self.made[card].push(out);
        OK
    }

    /// The message is converted where its receiver is of the other version.
    fn deliver(&mut self, receiver: usize, sender: usize, tally: &mut Tally) -> u64 {
        if receiver.max(sender) >= self.words.len() || receiver == sender {
            return BAD_CARD;
        }
        let received = received_from(&self.words[receiver], sender) as usize;
        let Some(message) = self.made[sender].get(received) else { return NOTHING_WAITING };
        let [from, to] = [sender, receiver].map(|card| self.is_old[card]);
        let handed = match (from, to) {
            (true, false) => converted(message),
            (false, true) => converted_back(message),
            _ => message.clone(),
        };
        let kind = library::read_message(message).message.kind;
        tally.note(HANDED[usize::from(from)][usize::from(to)], kind.into());
        if to {
            version_1::take(&mut self.words[receiver], &handed).err().unwrap_or(OK)
        } else {
            library::take(&mut self.words[receiver], &handed).number
        }
    }
}

/// The whole log at once to version 1, by the library.
fn converted_back(log: &[u8]) -> Vec<u8> {
    let mut out = vec![0; log.len()];
    let Written { number, length } = library::to_version_1(log, &mut out);
    assert_eq!(number, OK, "{log:?}");
    out.truncate(length);
    out
}

/// `lists` lists of up to `longest` steps on old and new cards together, against cards of version 1
/// alone: every answer and every word, and at last each card's log, in version 1.
pub fn together(seed: u64, lists: u64, longest: u64) -> Tally {
    let mut tally = Tally::default();
    for case in 0..lists {
        let mut random = Random::case(seed, case);
        let (cards, counters) = sizes(&mut random);
        let mut there = Chassis::fresh(cards, counters, longest as usize * LONGEST_MESSAGE);
        let is_old: Vec<bool> = (0..cards).map(|_| random.percent(50)).collect();
        let place = || format!("seed {seed} case {case}, {is_old:?}");
        let (words, made) = (there.words.clone(), there.made.clone());
        let mut here = Together { is_old: is_old.clone(), words, made };
        for _ in 0..random.between(0, longest) {
            let step = step_of_version_1(&mut random, cards, counters);
            let (due, number) = (there.step(step), here.step(step, &mut tally));
            assert_eq!(number, due, "{step:?}: {}", place());
            assert_eq!(here.words, there.words, "{step:?}: {}", place());
            tally.note("step", number);
        }
        for card in 0..cards {
            let log = here.made[card].concat();
            let log = if is_old[card] { log } else { converted_back(&log) };
            assert_eq!(log, there.log(card), "card {card}: {}", place());
        }
    }
    tally
}

/// Panics unless every answer was met but that of a full log, and both kinds of message were handed
/// each way.
pub fn require_together(tally: &Tally) {
    tally.require("step", &[OK, BAD_COUNTER, BAD_CARD, BAD_KIND, NOTHING_WAITING]);
    for name in HANDED.as_flattened() {
        tally.require(name, &[1, 2]);
    }
}
