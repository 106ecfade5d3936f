//! Delivering what waits: every number, count and word as the reference has them, over words and
//! logs that runs left, that no run left, and damaged ones. What has to hold of the library's answers
//! alone is told from N in the words and from its take, in deliveries made one by one.

use super::alone::{series, After, List};
use super::{active, against_ledgers, delivered, found_by_reading, generate, logs, runs};
use super::{Guarded, Place, Tally};
use crate::chassis::{self, Step};
use crate::ledger::Ledger;
use crate::library::{self, Delivered, Reading};
use crate::limits::*;
use crate::message::{self, Body, Entries, Entry, Message, CURRENT};
use crate::random::Random;
use crate::replica::{self, entry_at, increments_at, messages_at, received_from, ACTIVE_AT};

pub const CALL: &[u64] = &[OK, BAD_REPLICA, BAD_ROW, BAD_SIZES, BAD_LOG];
/// What take can answer to a message that waits, where the call is not refused.
pub const DECLINED: &[u64] = &[BAD_COUNTER, BAD_CARD, IMPLAUSIBLE];

/// What `most` was, with messages waiting.
const NONE: u64 = 0;
const ONE: u64 = 1;
const IN_A_ROUND: u64 = 2;
const BETWEEN_ROUNDS: u64 = 3;
const THE_TOTAL: u64 = 4;
const ABOVE: u64 = 5;
const GREATEST: u64 = 6;
const MOST: &[u64] = &[NONE, ONE, IN_A_ROUND, BETWEEN_ROUNDS, THE_TOTAL, ABOVE, GREATEST];

/// Everything that a call is given, but for `most`.
#[derive(Clone, Debug)]
struct Lent {
    cards: u64,
    counters: u64,
    log_bytes: u64,
    words: Guarded<u64>,
    logs: Guarded<u8>,
}

/// What is delivered when each delivery is made by itself, and nothing sets an end to them.
struct Plain {
    /// In order, each with its round.
    deliveries: Vec<(u64, Step)>,
    /// The messages that take declined, each with the number of deliveries before and its answer.
    declined: Vec<(u64, Step, u64)>,
}

impl Plain {
    fn all(&self) -> u64 {
        self.deliveries.len() as u64
    }

    fn steps(&self, deliveries: u64) -> impl Iterator<Item = Step> + '_ {
        self.deliveries[..deliveries as usize].iter().map(|(_, step)| *step)
    }

    fn passes_over(&self, receiver: usize, sender: usize) -> bool {
        let link = Step::deliver(receiver as u32, sender as u32);
        self.declined.iter().any(|(_, of, _)| *of == link)
    }
}

// What is asked of words and logs below holds for those that a call accepts.
impl Lent {
    fn of(list: &List, after: &After) -> Lent {
        Lent {
            cards: list.cards as u64,
            counters: list.counters as u64,
            log_bytes: list.log_bytes as u64,
            words: Guarded::new(&after.words),
            logs: Guarded::new(&after.logs),
        }
    }

    fn by_reference(&mut self, most: u64) -> Delivered {
        let (words, logs) = (self.words.get_mut(), self.logs.get());
        let (r, k, log_bytes) = (self.cards, self.counters, self.log_bytes);
        delivered(chassis::deliver_pending(r, k, log_bytes, most, words, logs))
    }

    fn by_library(&mut self, most: u64) -> Delivered {
        let (words, logs) = (self.words.get_mut(), self.logs.get());
        library::deliver_pending(self.cards, self.counters, self.log_bytes, most, words, logs)
    }

    /// Words of each replica.
    fn each(&self) -> usize {
        replica_words(self.cards as usize, self.counters as usize)
    }

    fn replica(&self, card: usize) -> &[u64] {
        &self.words.get()[card * self.each()..][..self.each()]
    }

    fn replica_mut(&mut self, card: usize) -> &mut [u64] {
        let each = self.each();
        &mut self.words.get_mut()[card * each..][..each]
    }

    fn log(&self, card: usize) -> &[u8] {
        &self.logs.get()[card * self.log_bytes as usize..][..self.log_bytes as usize]
    }

    fn log_mut(&mut self, card: usize) -> &mut [u8] {
        let log_bytes = self.log_bytes as usize;
        &mut self.logs.get_mut()[card * log_bytes..][..log_bytes]
    }

    fn links(&self) -> impl Iterator<Item = (usize, usize)> {
        let cards = self.cards as usize;
        let pairs = (0..cards * cards).map(move |at| (at / cards, at % cards));
        pairs.filter(|(receiver, sender)| receiver != sender)
    }

    fn waiting(&self, receiver: usize, sender: usize) -> u64 {
        let made = received_from(self.replica(sender), sender);
        made - received_from(self.replica(receiver), sender)
    }

    /// Whether some card's messages begin well and go on with one of version 1.
    fn has_plain_message(&self) -> bool {
        (0..self.cards as usize).any(|card| {
            let made = received_from(self.replica(card), card);
            logs::plain_place(self.log(card)).is_some_and(|place| place <= made)
        })
    }

    fn total(&self) -> u64 {
        self.links().map(|(receiver, sender)| self.waiting(receiver, sender)).sum()
    }

    /// Hands over the link's next message, found from the front of the log; gives take's answer.
    fn deliver(&mut self, receiver: usize, sender: usize) -> u64 {
        let log = self.log(sender);
        let next = received_from(self.replica(receiver), sender) + 1;
        let span = library::waiting(log, next);
        let bytes = log[span.start as usize..][..span.length as usize].to_vec();
        library::take(self.replica_mut(receiver), &bytes).number
    }

    /// Round after round, until one delivers nothing.
    fn plain(&self) -> Plain {
        let mut now = self.clone();
        let mut plain = Plain { deliveries: Vec::new(), declined: Vec::new() };
        for round in 0.. {
            let before = plain.all();
            for receiver in 0..self.cards as usize {
                for sender in 0..self.cards as usize {
                    let link = receiver != sender && !plain.passes_over(receiver, sender);
                    if !link || now.waiting(receiver, sender) == 0 {
                        continue;
                    }
                    let step = Step::deliver(receiver as u32, sender as u32);
                    match now.deliver(receiver, sender) {
                        OK => plain.deliveries.push((round, step)),
                        number => plain.declined.push((plain.all(), step, number)),
                    }
                }
            }
            if plain.all() == before {
                break;
            }
        }
        plain
    }

    /// The words after these deliveries, each of which is taken.
    fn after(&self, steps: impl Iterator<Item = Step>) -> Lent {
        let mut now = self.clone();
        for step in steps {
            assert_eq!(now.deliver(step.first as usize, step.second as usize), OK);
        }
        now
    }

    /// Every card's read of every counter, card by card.
    fn reads(&self) -> Vec<Vec<Reading>> {
        let counters = 0..self.counters;
        let reads = |words: &[u64]| counters.clone().map(|q| library::read(words, q)).collect();
        self.words.get().chunks_exact(self.each()).map(reads).collect()
    }

    fn cards_agree(&self) -> bool {
        self.reads().windows(2).all(|pair| pair[0] == pair[1])
    }
}

/// The call on both sides: what it answers and leaves.
fn compare(lent: &Lent, most: u64, place: Place, tally: &mut Tally) -> (Delivered, Lent) {
    let (mut ours, mut theirs) = (lent.clone(), lent.clone());
    let (due, answer) = (ours.by_reference(most), theirs.by_library(most));
    assert_eq!(answer, due, "most {most}: {}", place());
    assert_eq!(theirs.words, ours.words, "words, most {most}: {}", place());
    assert_eq!(theirs.logs, lent.logs, "logs, most {most}: {}", place());
    if answer.number != OK {
        assert_eq!(answer.deliveries, 0, "refused, most {most}: {}", place());
        assert_eq!(theirs.words, lent.words, "refused, most {most}: {}", place());
    }
    tally.note("call", answer.number);
    if answer.number != BAD_SIZES {
        actives(lent, place);
        actives(&theirs, place);
        note_bits(tally, lent, answer.number);
    }
    if answer.number == OK {
        for card in 0..lent.cards as usize {
            let counters = library::active_counters(theirs.replica(card)).counters;
            let found = found_by_reading(theirs.replica(card));
            assert_eq!(found, Some(counters), "active, most {most}: {}", place());
        }
    }
    if [OK, BAD_LOG].contains(&answer.number) && lent.has_plain_message() {
        tally.note("version 1", answer.number);
    }
    (answer, theirs)
}

/// Which counters of every card are active, on both sides, whatever the words hold.
fn actives(lent: &Lent, place: Place) {
    for card in 0..lent.cards as usize {
        let words = lent.replica(card);
        let theirs = library::active_counters(words);
        assert_eq!(theirs, active(replica::active(words)), "active, card {card}: {}", place());
    }
}

/// Where bits of active counters are all that is wrong: what they are, and the answer.
fn note_bits(tally: &mut Tally, lent: &Lent, number: u64) {
    let mut right = lent.clone();
    for card in 0..lent.cards as usize {
        let words = right.replica_mut(card);
        if words[..ACTIVE_AT] != [lent.cards, lent.counters, card as u64] {
            return;
        }
        words[ACTIVE_AT] = 0;
        (0..lent.counters as usize).for_each(|counter| replica::mark(words, counter));
    }
    let turned = |card: usize| {
        let (bits, due) = (lent.replica(card)[ACTIVE_AT], right.replica(card)[ACTIVE_AT]);
        [bits & !due, due & !bits]
    };
    let [without_entry, without_bit] = (0..lent.cards as usize)
        .map(turned)
        .fold([0, 0], |[a, b], [more, less]| [a | more, b | less]);
    if without_entry | without_bit == 0 || right.clone().by_reference(0).number != OK {
        return;
    }
    let high = lent.counters < u64::from(u64::BITS) && without_entry >> lent.counters != 0;
    let name = match (high, without_entry) {
        (true, _) => "high bit",
        (_, 0) => "entry without bit",
        _ if without_bit == 0 => "bit without entry",
        _ => "both",
    };
    tally.note(name, number);
}

/// What has to hold of an accepted call, whatever the reference says.
fn check(before: &Lent, plain: &Plain, most: u64, call: &(Delivered, Lent), place: Place) {
    let (Delivered { deliveries, .. }, after) = call;
    let place = || format!("most {most}, {deliveries} deliveries: {}", place());
    assert!(*deliveries <= most, "{}", place());
    assert_eq!(before.total() - after.total(), *deliveries, "the fall, {}", place());
    // It stops only at most, or when every message that waits is one that take declines.
    if *deliveries < most {
        for (receiver, sender) in after.links().filter(|(i, s)| after.waiting(*i, *s) > 0) {
            let number = after.clone().deliver(receiver, sender);
            assert!(DECLINED.contains(&number), "{receiver} from {sender}, {}", place());
        }
    }
    // It is these deliveries, one by one.
    assert_eq!(*deliveries, plain.all().min(most), "{}", place());
    assert_eq!(after.words, before.after(plain.steps(*deliveries)).words, "{}", place());
}

/// What is in place `q` of its link is taken within the first q r (r - 1) deliveries, unless its
/// link is passed over.
fn check_places(before: &Lent, plain: &Plain, q: u64, place: Place) {
    let most = q * before.cards * (before.cards - 1);
    let mut after = before.clone();
    assert_eq!(after.by_library(most).number, OK, "most {most}: {}", place());
    for (receiver, sender) in before.links().filter(|(i, s)| !plain.passes_over(*i, *s)) {
        let waited = before.waiting(receiver, sender);
        let fall = waited - after.waiting(receiver, sender);
        assert!(fall >= q.min(waited), "place {q}, {receiver} from {sender}: {}", place());
    }
}

/// A number of deliveries at an edge: none, one, as many as there are, as many as wait, more.
fn any_most(random: &mut Random, waiting: u64, all: u64) -> u64 {
    match random.below(12) {
        0 => 0,
        1 => 1,
        2 => all,
        3 => waiting,
        4 => waiting + 1,
        5 => all.saturating_sub(1),
        6 => u64::MAX,
        7 => random.pick(&generate::EDGES),
        _ => random.between(0, all),
    }
}

/// What an accepted call was worth as a test.
fn note(tally: &mut Tally, before: &Lent, plain: &Plain, most: u64) {
    tally.note("cards", before.cards.min(3));
    let (waiting, all) = (before.total(), plain.all());
    for (deliveries, _, number) in plain.declined.iter().filter(|(before, ..)| *before < most) {
        tally.note("declined", *number);
        // Whether others were served after that.
        tally.note("passed over", u64::from(*deliveries < all.min(most)));
    }
    if waiting == 0 {
        return;
    }
    let round = |at: u64| plain.deliveries[at as usize].0;
    let kinds = [
        (NONE, most == 0),
        (ONE, most == 1),
        (IN_A_ROUND, 0 < most && most < all && round(most - 1) == round(most)),
        (BETWEEN_ROUNDS, 0 < most && most < all && round(most - 1) < round(most)),
        (THE_TOTAL, most == waiting),
        (ABOVE, most > waiting && most < u64::MAX),
        (GREATEST, most == u64::MAX),
    ];
    for (kind, _) in kinds.into_iter().filter(|(_, is)| *is) {
        tally.note("most", kind);
    }
}

// ---- what runs left

/// `lists` lists of up to `longest` steps, and some calls one after the other on what each left.
pub fn after_runs(seed: u64, lists: u64, longest: u64) -> Tally {
    let mut tally = Tally::default();
    let usual =
        |random: &mut Random| (random.between(1, 4) as usize, random.between(1, 3) as usize);
    for (case, mut random, list) in series(seed, lists, longest, usual) {
        let place = || format!("seed {seed} case {case}, {list:?}");
        let after = list.run(&mut random);
        let mut lent = Lent::of(&list, &after);
        let mut longer = list.clone();
        let calls = random.between(1, 4);
        tally.note("calls", calls);
        for _ in 0..calls {
            let plain = lent.plain();
            let most = any_most(&mut random, lent.total(), plain.all());
            longer.steps.extend(run_pumped(&mut lent, &plain, most, &place, &mut tally));
            check_places(&lent, &lent.plain(), random.between(1, 4), &place);
        }
        as_steps(&list, &after, &longer, &lent, &place);
    }
    tally
}

/// One call on what a run and calls after it have left; gives its deliveries.
fn run_pumped(
    lent: &mut Lent,
    plain: &Plain,
    most: u64,
    place: Place,
    tally: &mut Tally,
) -> Vec<Step> {
    assert!(plain.declined.is_empty(), "passed over: {}", place());
    assert_eq!(plain.all(), lent.total(), "{}", place());
    let call = compare(lent, most, place, tally);
    assert_eq!(call.0.number, OK, "{}", place());
    check(lent, plain, most, &call, place);
    note(tally, lent, plain, most);
    let (Delivered { deliveries, .. }, after) = call;
    if most >= lent.total() {
        assert_eq!(after.total(), 0, "most {most}: {}", place());
        assert!(after.cards_agree(), "most {most}: {}", place());
        tally.note("agree", u64::from(!lent.cards_agree()));
    }
    *lent = after;
    plain.steps(deliveries).collect()
}

/// The run of the list and of the deliveries behind it leaves the same words and logs, all
/// deliveries accepted, and every ledger of it says what the cards read.
fn as_steps(list: &List, after: &After, longer: &List, lent: &Lent, place: Place) {
    let run = longer.run_on(after.words.clone(), after.logs.clone());
    let (before, deliveries) = run.answers.split_at(list.steps.len());
    assert_eq!(before, after.answers, "{}", place());
    assert!(deliveries.iter().all(|answer| *answer == [OK, 0]), "{}", place());
    assert_eq!(lent.words.get(), run.words, "{}", place());
    assert_eq!(lent.logs.get(), run.logs, "{}", place());
    let ledgers: Vec<Ledger> = (0..list.counters).map(|q| longer.ledger(&run, q)).collect();
    for card in 0..list.cards {
        against_ledgers(&ledgers, card, lent.replica(card), place);
    }
}

/// Panics unless the calls were worth something.
pub fn require_runs(tally: &Tally) {
    tally.require("call", &[OK]);
    tally.require("cards", &[1, 2, 3]);
    tally.require("calls", &[1, 2, 3, 4]);
    tally.require("most", MOST);
    // Cards that read differently before.
    tally.require("agree", &[0, 1]);
}

/// Every list of in-range steps up to `depth`, counts by `amount`, and every `most` from 0 to one
/// above what waits; gives how many calls were made.
pub fn every_most(
    cards: usize,
    counters: usize,
    amount: u32,
    log_bytes: usize,
    depth: usize,
) -> u64 {
    let mut list = List { cards, counters, log_bytes, steps: Vec::new() };
    let mut tally = Tally::default();
    visit(&mut list, &runs::alphabet(cards, counters, &[amount]), depth, &mut tally);
    tally.times("call", OK)
}

fn visit(list: &mut List, alphabet: &[Step], depth: usize, tally: &mut Tally) {
    with_every_most(list, tally);
    if depth == 0 {
        return;
    }
    for step in alphabet {
        list.steps.push(*step);
        visit(list, alphabet, depth - 1, tally);
        list.steps.pop();
    }
}

fn with_every_most(list: &List, tally: &mut Tally) {
    let after = list.run(&mut Random::new(1));
    let lent = Lent::of(list, &after);
    let (plain, place) = (lent.plain(), || format!("{list:?}"));
    for most in (0..=lent.total() + 1).chain([u64::MAX]) {
        let (mut now, mut longer) = (lent.clone(), list.clone());
        longer.steps.extend(run_pumped(&mut now, &plain, most, &place, tally));
        as_steps(list, &after, &longer, &now, &place);
    }
    for q in 1..=list.steps.len() as u64 {
        check_places(&lent, &plain, q, &place);
    }
}

// ---- what no run left

/// `cases` words and logs, good and damaged, and some calls one after the other on each.
pub fn random_states(seed: u64, cases: u64) -> Tally {
    let mut tally = Tally::default();
    for case in 0..cases {
        let mut random = Random::case(seed, case);
        let mut lent = match random.below(16) {
            0 => of_noise(&mut random),
            1..=7 => of_no_run(&mut random),
            _ => of_a_run(&mut random),
        };
        for _ in 0..random.below(4) {
            damage(&mut random, &mut lent);
        }
        if random.percent(8) {
            wrong_sizes(&mut random, &mut lent);
        }
        for _ in 0..random.between(1, 3) {
            let place = || format!("seed {seed} case {case}, {lent:?}");
            if lent.clone().by_reference(0).number != OK {
                let most = random.pick(&[0, 1, u64::MAX]);
                compare(&lent, most, &place, &mut tally);
                break;
            }
            let plain = lent.plain();
            let most = any_most(&mut random, lent.total(), plain.all());
            let call = compare(&lent, most, &place, &mut tally);
            check(&lent, &plain, most, &call, &place);
            check_places(&lent, &plain, random.between(1, 4), &place);
            note(&mut tally, &lent, &plain, most);
            lent = call.1;
        }
    }
    tally
}

/// Panics unless every refusal was met, and links were passed over for every reason that there is.
pub fn require_states(tally: &Tally) {
    tally.require("call", CALL);
    tally.require("cards", &[1, 2, 3]);
    tally.require("most", MOST);
    tally.require("declined", DECLINED);
    tally.require("passed over", &[0, 1]);
    tally.require("version 1", &[BAD_LOG]);
    tally.require("high bit", &[BAD_REPLICA]);
    for name in ["bit without entry", "entry without bit", "both"] {
        tally.require(name, &[BAD_ROW]);
    }
}

/// r and k, seldom large.
fn shape(random: &mut Random) -> (usize, usize) {
    match random.below(30) {
        0 => generate::shape(random),
        _ => (random.between(1, 4) as usize, random.between(1, 3) as usize),
    }
}

fn of_noise(random: &mut Random) -> Lent {
    let (cards, counters) = shape(random);
    let log_bytes = random.below(200);
    Lent {
        cards: cards as u64,
        counters: counters as u64,
        log_bytes,
        words: Guarded::new(&random.words(cards * replica_words(cards, counters))),
        logs: Guarded::new(&random.bytes(cards * log_bytes as usize)),
    }
}

fn of_a_run(random: &mut Random) -> Lent {
    let (cards, counters) = shape(random);
    let (steps, log_bytes) = runs::list(random, cards, counters, 40);
    let list = List { cards, counters, log_bytes, steps };
    let after = list.run(random);
    Lent::of(&list, &after)
}

/// Sizes, rows and logs are right; the messages come from no count and no clear.
fn of_no_run(random: &mut Random) -> Lent {
    let (cards, counters) = shape(random);
    let made: Vec<u64> = (0..cards).map(|_| random.below(7)).collect();
    let mut logs: Vec<Vec<u8>> = Vec::new();
    for (sender, made) in made.iter().enumerate() {
        let messages = (1..=*made).map(|q| any_message(random, cards, counters, sender, q));
        logs.push(bytes_of(&messages.collect::<Vec<_>>()));
    }
    let longest = logs.iter().map(Vec::len).max().unwrap_or(0);
    let log_bytes = longest + random.pick(&[0, 1, 50]);
    for log in &mut logs {
        let rest = log_bytes - log.len();
        log.extend(random.bytes(rest));
    }
    let words: Vec<Vec<u64>> =
        (0..cards).map(|own| any_replica(random, own, counters, &made)).collect();
    Lent {
        cards: cards as u64,
        counters: counters as u64,
        log_bytes: log_bytes as u64,
        words: Guarded::new(&words.concat()),
        logs: Guarded::new(&logs.concat()),
    }
}

/// Every row well-formed, where each card has made so many messages.
fn any_replica(random: &mut Random, own: usize, counters: usize, made: &[u64]) -> Vec<u64> {
    let cards = made.len();
    let mut words = vec![0; replica_words(cards, counters)];
    replica::open(&mut words, cards as u64, counters as u64, own as u64).expect("right sizes");
    for (card, made) in made.iter().enumerate() {
        let messages = if card == own { *made } else { random.between(0, *made) };
        words[messages_at(cards, card)] = messages;
        words[increments_at(card)] = match random.below(12) {
            0 => MAX - random.below(4),
            _ => random.between(0, messages + 4),
        };
    }
    for place in 0..cards * counters {
        let (counter, card) = (place / cards, place % cards);
        // The own entry does not pass the own C; others may.
        let limit = words[increments_at(card)] + if card == own { 0 } else { 3 };
        let limit = limit.min(MAX);
        if limit > 0 && random.percent(50) {
            let c = random.between(1, limit);
            let p = random.between(1, c);
            let n = random.between(0, p);
            words[entry_at(cards, counter, card)].copy_from_slice(&[p, n, c]);
        }
    }
    for counter in 0..counters {
        replica::mark(&mut words, counter);
    }
    words
}

/// Of the right sender and sequence; what else it says may be more than its receiver takes.
fn any_message(
    random: &mut Random,
    cards: usize,
    counters: usize,
    sender: usize,
    sequence: u64,
) -> Message {
    let counter = match random.below(20) {
        0 => random.below(MOST_COUNTERS as u64),
        _ => random.below(counters as u64),
    };
    let p = random.between(1, sequence + 4);
    let amount = random.pick(&[1, 1, 2, 3]);
    let body = match random.below(4) {
        0 => Body::Increment { p, start: true, amount },
        1 => Body::Increment { p, start: false, amount },
        _ => {
            let mut entries = Entries::new();
            let stranger = random.percent(10);
            for card in 0..MOST_CARDS {
                let chance = if card < cards { 30 } else { 10 * u64::from(stranger) };
                if random.percent(chance) {
                    let c = random.between(1, 3);
                    entries.push(Entry { card: card as u32, p: random.between(1, c), c });
                }
            }
            Body::Clear(entries)
        }
    };
    Message { version: CURRENT, sender: sender as u32, sequence, counter: counter as u32, body }
}

pub(super) fn bytes_of(messages: &[Message]) -> Vec<u8> {
    let bytes = |message: &Message| {
        let mut out = [0; LONGEST_MESSAGE];
        let length = message::write(message, &mut out).expect("in range");
        out[..length].to_vec()
    };
    messages.iter().flat_map(bytes).collect()
}

/// All messages that the log begins with.
fn messages_of(mut log: &[u8]) -> Vec<Message> {
    let mut messages = Vec::new();
    while let Some(message) = message::read_front(log) {
        log = &log[message.length()..];
        messages.push(message);
    }
    messages
}

/// One wound to a head, a row, the bits, an N or a log; the sizes stay.
fn damage(random: &mut Random, lent: &mut Lent) {
    let (cards, counters) = (lent.cards as usize, lent.counters as usize);
    let card = random.below(lent.cards) as usize;
    let other = random.below(lent.cards) as usize;
    match random.below(19) {
        0 => {
            let at = random.below(HEAD_WORDS as u64) as usize;
            lent.replica_mut(card)[at] = random.pick(&generate::EDGES);
        }
        1 => {
            let words = lent.replica(card).to_vec();
            let others = lent.replica(other).to_vec();
            lent.replica_mut(card).copy_from_slice(&others);
            lent.replica_mut(other).copy_from_slice(&words);
        }
        2 => {
            let at = random.below(lent.each() as u64) as usize;
            lent.replica_mut(card)[at] ^= 1 << random.below(64);
        }
        3 => {
            let entry = entry_at(cards, random.below(lent.counters) as usize, other);
            let at = entry.start + random.below(ENTRY_WORDS as u64) as usize;
            lent.replica_mut(card)[at] = random.pick(&generate::EDGES);
        }
        // An N, the own one among them, raised or lowered; seldom by much.
        4..=6 => {
            let n = &mut lent.replica_mut(card)[messages_at(cards, other)];
            *n = match random.below(5) {
                0 => random.pick(&generate::EDGES),
                1 | 2 => n.saturating_add(random.between(1, 2)),
                _ => n.saturating_sub(random.between(1, 2)),
            };
        }
        7 => {
            let c = &mut lent.replica_mut(card)[increments_at(other)];
            *c = c.saturating_sub(random.between(0, 2));
        }
        8 if lent.log_bytes > 0 => {
            let limit = lent.log_bytes.min(INCREMENT_BYTES as u64 * random.between(1, 8));
            let at = random.below(limit) as usize;
            lent.log_mut(card)[at] ^= 1 << random.below(8);
        }
        9 => {
            let log = lent.log(card).to_vec();
            let others = lent.log(other).to_vec();
            lent.log_mut(card).copy_from_slice(&others);
            lent.log_mut(other).copy_from_slice(&log);
        }
        // The logs of all cards lose what is behind some byte.
        10 => {
            let left = random.below(lent.log_bytes + 1);
            let logs: Vec<u8> =
                (0..cards).flat_map(|card| lent.log(card)[..left as usize].to_vec()).collect();
            lent.log_bytes = left;
            lent.logs = Guarded::new(&logs);
        }
        // A bit of the active counters, of one that is there as a rule.
        11..=13 => {
            let of = random.pick(&[lent.counters, lent.counters, MOST_COUNTERS as u64]);
            lent.replica_mut(card)[ACTIVE_AT] ^= 1 << random.below(of);
        }
        _ => {
            let mut messages = messages_of(lent.log(card));
            if messages.is_empty() {
                return;
            }
            let any = |random: &mut Random| random.below(messages.len() as u64) as usize;
            let (at, to) = (any(random), any(random));
            match random.below(9) {
                0 => messages.swap(at, to),
                1 => messages[at].sender = random.below(MOST_CARDS as u64) as u32,
                2 => messages[at].sequence = 1 + random.below(MAX),
                3 => messages[at].sequence = 1 + random.below(8),
                4 => messages[at] = messages[at].plain(),
                _ => {
                    let sequence = messages[at].sequence;
                    messages[at] = any_message(random, cards, counters, card, sequence);
                }
            }
            let bytes = bytes_of(&messages);
            let log = lent.log_mut(card);
            let len = bytes.len().min(log.len());
            log[..len].copy_from_slice(&bytes[..len]);
        }
    }
}

/// One size made wrong, products that wrap included.
fn wrong_sizes(random: &mut Random, lent: &mut Lent) {
    match random.below(7) {
        0 => lent.cards = random.pick(&generate::EDGES),
        1 => lent.counters = random.pick(&generate::EDGES),
        2 => lent.log_bytes = random.pick(&generate::EDGES),
        3 => {
            let words = lent.words.get();
            let shorter = &words[..words.len() - 1];
            lent.words = Guarded::new(random.pick(&[shorter, &[words, &[0]].concat()]));
        }
        4 => {
            let logs = lent.logs.get();
            let shorter = &logs[..logs.len().saturating_sub(1)];
            lent.logs = Guarded::new(random.pick(&[shorter, &[logs, &[0]].concat()]));
        }
        5 => {
            // r times L is 2^64, its low 64 bits the length lent; the words are those of r cards.
            let shift = random.between(1, u64::from(MOST_CARDS.ilog2()));
            lent.cards = 1 << shift;
            lent.log_bytes = 1 << (64 - shift);
            let (r, k) = (lent.cards, lent.counters);
            let words = (0..r).flat_map(|own| {
                let mut words = vec![0; replica_words(r as usize, k as usize)];
                replica::open(&mut words, r, k, own).expect("right sizes");
                words
            });
            lent.words = Guarded::new(&words.collect::<Vec<_>>());
            lent.logs = Guarded::new(&[]);
        }
        _ => {
            lent.words = Guarded::new(&[]);
            lent.logs = Guarded::new(&[]);
        }
    }
}
