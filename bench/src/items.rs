//! What is timed: for each item the same work done by each side, on a state made once and put
//! back before every batch. The largest chassis throughout, but for some deliveries.

use std::hint::black_box;
use std::ops::Range;

use yelansub_reference::chassis::{self, Buffers, Step};
use yelansub_reference::convert;
use yelansub_reference::differential::messages::form_of;
use yelansub_reference::library;
use yelansub_reference::limits::*;
use yelansub_reference::message::{self, Body, Entries, Entry, Message, Version, CURRENT, PLAIN};
use yelansub_reference::random::Random;
use yelansub_reference::replica::{self, entry_at, increments_at, messages_at};

use crate::{peer, rpcgen};

pub const CARDS: usize = MOST_CARDS;
pub const COUNTERS: usize = MOST_COUNTERS;
/// Calls in a batch: one for each counter.
pub const CALLS: u64 = COUNTERS as u64;
/// What a count is by; also in the steps below.
const AMOUNT: u32 = 3;
const LOG_BYTES: usize = 1 << 16;
const LONGEST_RUN: usize = 100_000;

pub struct State {
    words: Vec<u64>,
    kept: Vec<u64>,
    out: Vec<u8>,
    /// One message for each counter, as bytes and as each side holds it.
    bytes: Vec<Vec<u8>>,
    messages: Vec<Message>,
    forms: Vec<library::Message>,
    entries: Vec<Vec<rpcgen::Entry>>,
    logs: Vec<u8>,
    /// A long list of steps, and the part of it that the next run takes.
    steps: Vec<u8>,
    part: Range<usize>,
    answers: Vec<u64>,
    /// Cards of the chassis that is run, and how many deliveries are made there at most.
    cards: usize,
    most: u64,
    /// The number that every call is to answer, and the sum of those that were answered.
    intended: u64,
    numbers: u64,
    /// The active counters, as answered or read.
    active: u64,
}

impl State {
    /// The words as they were; for runs, the list's next part, so that none is learnt by heart.
    pub fn put_back(&mut self) {
        self.words.copy_from_slice(&self.kept);
        let round = CARDS * STEP_BYTES;
        let from = self.part.end.next_multiple_of(round);
        let end = from + self.part.len();
        self.part = if end > self.steps.len() { 0..self.part.len() } else { from..end };
    }
}

pub type Work = fn(&mut State);

pub struct Item {
    pub name: String,
    /// Calls, or steps, in one batch.
    pub calls: u64,
    /// A batch lasts long enough to be interrupted by other work of the machine.
    pub long: bool,
    pub make: fn() -> State,
    /// The library first; ratios are the library's time over each other side's.
    pub sides: Vec<(&'static str, Work)>,
}

/// Work of the library, the reference and, where there is a third, the calls by hand.
fn item(name: &str, make: fn() -> State, work: &[Work]) -> Item {
    let sides = ["library", "reference", "C"].into_iter().zip(work.iter().copied()).collect();
    Item { name: name.into(), calls: CALLS, long: false, make, sides }
}

/// Also against the library's two calls.
fn read_and_clear(name: &str, make: fn() -> State) -> Item {
    let mut item = item(
        &format!("read and clear, {name}"),
        make,
        &[
            |s| each(s, library_read_and_clear),
            |s| each(s, reference_read_and_clear),
            |s| each(s, c_read_and_clear),
        ],
    );
    item.sides.push(("read, then clear", |s| each(s, library_read_then_clear)));
    item
}

pub fn calls() -> Vec<Item> {
    let open: &[Work] =
        &[|s| each(s, library_open), |s| each(s, reference_open), |s| each(s, c_open)];
    let read: &[Work] =
        &[|s| each(s, library_read), |s| each(s, reference_read), |s| each(s, c_read)];
    let count: &[Work] =
        &[|s| each(s, library_count), |s| each(s, reference_count), |s| each(s, c_count)];
    let clear: &[Work] =
        &[|s| each(s, library_clear), |s| each(s, reference_clear), |s| each(s, c_clear)];
    let take: &[Work] =
        &[|s| each(s, library_take), |s| each(s, reference_take), |s| each(s, c_take)];
    let clear_of = &format!("take a clear of {CARDS}");
    vec![
        item("open", full, open),
        item(&format!("read, {CARDS} holders"), full, read),
        item("read, no holder", empty, read),
        item("count, going on", full, count),
        item("count, start", empty, count),
        item(&format!("clear, {CARDS} entries"), full, clear),
        item("clear, no entry", empty, clear),
        read_and_clear(&format!("{CARDS} entries"), full),
        read_and_clear("no entry", empty),
        item("take an increment", increments, take),
        item("take an increment, start", starts, take),
        item("take an increment, the row empties", last_increments, take),
        item(clear_of, clears, take),
        item(&format!("{clear_of}, the row empties"), last_clears, take),
        item("take a clear of none", empty_clears, take),
        item("take, repeated (8)", repeated, take),
        item(&format!("waiting, the {CALLS}th"), increments, &[library_waiting, reference_waiting]),
    ]
}

/// Which counters are active, and the reads that say the same: there a call is all of them.
pub fn polls() -> [Item; 2] {
    let asked: &[Work] =
        &[|s| each(s, library_active), |s| each(s, reference_active), |s| each(s, c_active)];
    let reads = item(
        &format!("reading {COUNTERS} counters"),
        few_active,
        &[library_read_all, reference_read_all, c_read_all],
    );
    [item("active counters", few_active, asked), Item { calls: 1, ..reads }]
}

/// A message alone, from and to bytes.
pub fn messages() -> Vec<Item> {
    let read = |name: &str, make| Item {
        name: format!("message read: {name}"),
        calls: CALLS,
        long: false,
        make,
        sides: vec![
            ("library", |s: &mut State| each(s, library_read_message)),
            ("reference", |s: &mut State| each(s, reference_read_message)),
            ("rpcgen", |s: &mut State| each(s, rpcgen_read)),
            ("rpcgen, allocating", |s: &mut State| each(s, rpcgen_read_allocating)),
        ],
    };
    let write = |name: &str, make| Item {
        name: format!("message write: {name}"),
        calls: CALLS,
        long: false,
        make,
        sides: vec![
            ("library", |s: &mut State| each(s, library_write_message)),
            ("reference", |s: &mut State| each(s, reference_write_message)),
            ("rpcgen", |s: &mut State| each(s, rpcgen_write)),
        ],
    };
    let clear = &format!("clear of {CARDS}");
    vec![
        read("increment", increments as fn() -> State),
        read(clear, clears),
        write("increment", increments),
        write(clear, clears),
    ]
}

/// A log in the other version; a call is one message of it. Beside it, the log copied.
pub fn conversions() -> Vec<Item> {
    let item = |name: String, make, library: Work, reference: Work| Item {
        name,
        calls: MADE as u64,
        long: false,
        make,
        sides: vec![("library", library), ("reference", reference), (COPY, copy_log as Work)],
    };
    let both = |name: &str, [plain, current]: [fn() -> State; 2]| {
        let up = (library_to_version_2 as Work, reference_to_version_2 as Work);
        let down = (library_to_version_1 as Work, reference_to_version_1 as Work);
        [
            item(format!("to version 2, {name}"), plain, up.0, up.1),
            item(format!("to version 1, {name}"), current, down.0, down.1),
        ]
    };
    let clears = &format!("clears of {CARDS}");
    [
        both("increments", [|| log(PLAIN, no_clear), || log(CURRENT, no_clear)]),
        both(clears, [|| log(PLAIN, full_clear), || log(CURRENT, full_clear)]),
        both("one clear in eight", [|| log(PLAIN, some_clear), || log(CURRENT, some_clear)]),
    ]
    .into_iter()
    .flatten()
    .collect()
}

/// The side that copies a log of the same length.
pub const COPY: &str = "copy";

/// Bytes of the log that is converted.
pub fn log_bytes(state: &State) -> usize {
    state.logs.len()
}

/// Runs of so many steps, and of none, which only writes the fresh replicas.
pub fn runs() -> Vec<Item> {
    let run = |name: &str, calls, make| Item {
        name: name.into(),
        calls,
        long: true,
        make,
        sides: vec![("library", library_run as Work), ("reference", reference_run as Work)],
    };
    vec![
        run("run of no steps", 1, (|| steps(0, Step::clear)) as fn() -> State),
        run("run of 1,000 steps", 1_000, || steps(1_000, Step::clear)),
        run("run of 10,000 steps", 10_000, || steps(10_000, Step::clear)),
        run("run of 100,000 steps", LONGEST_RUN as u64, || steps(LONGEST_RUN, Step::clear)),
        run("run of 10,000, read and clear", 10_000, || steps(10_000, Step::read_and_clear)),
    ]
}

/// What waits after a run, delivered; a call is one delivery. Beside each, the steps of that run: the
/// deliveries as steps are what a run takes longer with them.
pub fn deliveries() -> Vec<(Item, Item)> {
    let item = |name: &str, calls, make: [fn() -> State; 2], call: [Work; 2]| {
        let ([deliver, before], [library, reference]) = (make, call);
        let sides = vec![("library", library), ("reference", reference), (AS_STEPS, library_run)];
        let name = format!("deliver {name}");
        let run = Item {
            name: format!("{name}: the run before"),
            calls,
            long: true,
            make: before,
            sides: vec![("library", library_run as Work)],
        };
        (Item { name, calls, long: true, make: deliver, sides }, run)
    };
    let at_once: [Work; 2] = [library_deliver, reference_deliver];
    let one_by_one: [Work; 2] = [library_deliver_one_by_one, reference_deliver_one_by_one];
    let all = |cards: usize| (cards * (cards - 1) * MADE) as u64;
    let in_turn = ONE_BY_ONE as u64;
    let most = &format!("all, {CARDS} cards");
    vec![
        item("all, 2 cards", all(2), [|| waiting(2, ALL), || waiting(2, 0)], at_once),
        item("all, 4 cards", all(4), [|| waiting(4, ALL), || waiting(4, 0)], at_once),
        item(most, all(CARDS), [|| waiting(CARDS, ALL), || waiting(CARDS, 0)], at_once),
        item("all of one link", MADE as u64, [|| one_link(ALL), || one_link(0)], at_once),
        item("1 a call, long logs", in_turn, [in_calls_of_one, || waiting(CARDS, 0)], one_by_one),
    ]
}

pub const AS_STEPS: &str = "as steps";

/// A call that finds nothing waiting, of cards that have made nothing: its checks.
pub fn none_waiting() -> Item {
    let sides: [(&str, Work); 2] =
        [("library", library_deliver_one_by_one), ("reference", reference_deliver_one_by_one)];
    Item {
        name: format!("deliver none, {CARDS} cards"),
        calls: ONE_BY_ONE as u64,
        long: true,
        make: || pump(CARDS, &[], &[], ALL),
        sides: sides.to_vec(),
    }
}

/// One drop from end to end: one count, and its message taken on every other card.
pub fn drops() -> Vec<Item> {
    let drop = |cards: usize, make: fn() -> State| {
        let name = format!("a drop, {cards} cards");
        item(&name, make, &[library_drops, reference_drops, c_drops])
    };
    vec![
        drop(2, || counted(2)),
        drop(4, || counted(4)),
        drop(8, || counted(8)),
        drop(CARDS, || counted(CARDS)),
    ]
}

/// One loop for all sides and items, its calls not unrolled.
#[inline(never)]
fn each(state: &mut State, call: fn(&mut State, usize)) {
    for counter in 0..COUNTERS {
        call(state, counter);
    }
}

// States. Card 0's replica; card 1 is the sender.

fn blank() -> State {
    let mut words = vec![0; replica_words(CARDS, COUNTERS)];
    replica::open(&mut words, CARDS as u64, COUNTERS as u64, 0).expect("right sizes");
    State {
        kept: words.clone(),
        words,
        out: vec![0; LONGEST_MESSAGE],
        bytes: Vec::new(),
        messages: Vec::new(),
        forms: Vec::new(),
        entries: Vec::new(),
        logs: Vec::new(),
        steps: Vec::new(),
        part: 0..0,
        answers: Vec::new(),
        cards: CARDS,
        most: 0,
        intended: OK,
        numbers: 0,
        active: 0,
    }
}

/// Every card has sent a thousand messages, half of them increments; no entries.
fn empty() -> State {
    let mut state = blank();
    for card in 0..CARDS {
        state.kept[increments_at(card)] = 500;
        state.kept[messages_at(CARDS, card)] = 1_000;
    }
    state.put_back();
    state
}

/// The same with an entry for every card on every counter.
fn full() -> State {
    let mut state = empty();
    for place in 0..CARDS * COUNTERS {
        let (p, c) = (100 + place as u64 % 7, 400);
        let at = entry_at(CARDS, place / CARDS, place % CARDS);
        state.kept[at].copy_from_slice(&[p, p - 5, c]);
    }
    mark(&mut state);
    state
}

/// One counter in sixteen has entries, those of two cards.
fn few_active() -> State {
    let mut state = empty();
    for counter in (0..COUNTERS).step_by(16) {
        for card in [counter % CARDS, counter % CARDS + 1] {
            state.kept[entry_at(CARDS, counter, card)].copy_from_slice(&[100, 95, 400]);
        }
    }
    mark(&mut state);
    state
}

/// The counters' bits, by their rows: without them their calls are refused.
fn mark(state: &mut State) {
    for counter in 0..COUNTERS {
        replica::mark(&mut state.kept, counter);
    }
    state.put_back();
}

/// The state with a message for each counter.
fn with_messages(mut state: State, body: fn(u64) -> Body) -> State {
    for counter in 0..COUNTERS {
        let sequence = 1_001 + counter as u64;
        let message = Message {
            version: CURRENT,
            sender: 1,
            sequence,
            counter: counter as u32,
            body: body(counter as u64),
        };
        let mut out = [0; LONGEST_MESSAGE];
        let length = message::write(&message, &mut out).expect("in range");
        state.bytes.push(out[..length].to_vec());
        state.logs.extend(&out[..length]);
        state.messages.push(message);
        state.forms.push(form_of(&message));
        state.entries.push(match message.body {
            Body::Increment { .. } => Vec::new(),
            Body::Clear(entries) => {
                let list = entries.as_slice().iter();
                list.map(|e| rpcgen::Entry { card: e.card, p: e.p, c: e.c }).collect()
            }
        });
    }
    state
}

fn increments() -> State {
    with_messages(full(), |counter| Body::Increment {
        p: 200 + counter,
        start: false,
        amount: AMOUNT,
    })
}

/// C of the sender when it has counted on all counters up to this one.
const fn counted_to(counter: u64) -> u64 {
    500 + (counter + 1) * AMOUNT as u64
}

fn starts() -> State {
    with_messages(empty(), |counter| Body::Increment {
        p: counted_to(counter),
        start: true,
        amount: AMOUNT,
    })
}

/// The only entry of each row is of a clear that has overtaken the count.
fn last_increments() -> State {
    let mut state = empty();
    for counter in 0..COUNTERS {
        let entry = [counted_to(counter as u64); 3];
        state.kept[entry_at(CARDS, counter, 1)].copy_from_slice(&entry);
    }
    mark(&mut state);
    with_messages(state, |counter| Body::Increment {
        p: counted_to(counter),
        start: false,
        amount: AMOUNT,
    })
}

/// Some entries go.
fn clears() -> State {
    with_messages(full(), |counter| clear_to(99 + counter % 5))
}

/// All entries go.
fn last_clears() -> State {
    with_messages(full(), |_| clear_to(399))
}

fn empty_clears() -> State {
    with_messages(full(), |_| Body::Clear(Entries::new()))
}

/// A clear with an entry for each card.
fn clear_to(p: u64) -> Body {
    let mut entries = Entries::new();
    for card in 0..CARDS as u32 {
        entries.push(Entry { card, p, c: 399 });
    }
    Body::Clear(entries)
}

fn repeated() -> State {
    let mut state = increments();
    state.intended = REPEATED;
    state.kept[messages_at(CARDS, 1)] = 5_000;
    state.put_back();
    state
}

/// Card after card makes a message on one of four counters, one in eight a clear by this step, and
/// every other card takes it at once: the same mix however long the list.
fn steps(len: usize, clear: fn(u32, u32) -> Step) -> State {
    let mut random = Random::new(3);
    let mut state = blank();
    for place in 0..LONGEST_RUN {
        let card = (place / CARDS % CARDS) as u32;
        let other = (card + (place % CARDS) as u32) % CARDS as u32;
        let counter = random.below(4) as u32;
        let step = match (place % CARDS, random.below(8)) {
            (0, 0) => clear(card, counter),
            (0, _) => Step::count_by(card, counter, AMOUNT),
            _ => Step::deliver(other, card),
        };
        state.steps.extend(step.to_bytes());
    }
    state.part = 0..len * STEP_BYTES;
    state.kept = vec![0; CARDS * replica_words(CARDS, COUNTERS)];
    state.words = state.kept.clone();
    state.logs = vec![0; CARDS * LOG_BYTES];
    state.answers = vec![0; ANSWER_WORDS * len];
    state
}

/// Messages that a card has made before what waits is delivered, and before its log is converted.
const MADE: usize = 1_000;
/// More than wait anywhere.
const ALL: u64 = u64::MAX;
/// Calls of one delivery each; each begins again at the first link.
const ONE_BY_ONE: usize = 200;

/// Every card has made its messages, one in eight a clear, and none has been delivered. Then at most
/// `most` are: as steps, which stand behind those that make the messages.
fn waiting(cards: usize, most: u64) -> State {
    let mut random = Random::new(4);
    let mut made = Vec::new();
    for card in (0..MADE).flat_map(|_| 0..cards as u32) {
        let counter = random.below(4) as u32;
        made.push(match random.below(8) {
            0 => Step::clear(card, counter),
            _ => Step::count_by(card, counter, AMOUNT),
        });
    }
    let delivered = in_rounds(cards, &made, most);
    pump(cards, &made, &delivered, most)
}

fn in_calls_of_one() -> State {
    let mut state = waiting(CARDS, 0);
    state.most = 1;
    let deliver = Step::deliver(0, 1).to_bytes();
    state.steps.extend([deliver; ONE_BY_ONE].as_flattened());
    state.part = 0..state.steps.len();
    state.answers.extend([0; ANSWER_WORDS * ONE_BY_ONE]);
    state
}

/// Of the messages of card 0 all have been delivered, but to the last card.
fn one_link(most: u64) -> State {
    let mut made = Vec::new();
    for counter in (0..MADE).map(|place| place as u32 % 4) {
        made.push(Step::count_by(0, counter, AMOUNT));
        made.extend((1..CARDS as u32 - 1).map(|card| Step::deliver(card, 0)));
    }
    let delivered = in_rounds(CARDS, &made, most);
    pump(CARDS, &made, &delivered, most)
}

/// The words and logs after these steps; for a run, the steps with the deliveries behind them.
fn pump(cards: usize, made: &[Step], delivered: &[Step], most: u64) -> State {
    let mut state = blank();
    (state.cards, state.most) = (cards, most);
    state.kept = vec![0; cards * replica_words(cards, COUNTERS)];
    state.words = state.kept.clone();
    state.logs = vec![0; cards * LOG_BYTES];
    state.steps = made.iter().flat_map(|step| step.to_bytes()).collect();
    state.part = 0..state.steps.len();
    state.answers = vec![0; ANSWER_WORDS * made.len()];
    reference_run(&mut state);
    assert!(state.answers.iter().all(|word| *word == 0), "every step is accepted");
    state.kept = state.words.clone();
    state.steps.extend(delivered.iter().flat_map(|step| step.to_bytes()));
    state.part = 0..state.steps.len();
    state.answers = vec![0; ANSWER_WORDS * (made.len() + delivered.len())];
    state
}

/// The deliveries after these steps, by counting what was made and what each card has had.
fn in_rounds(cards: usize, made: &[Step], most: u64) -> Vec<Step> {
    let mut waiting = vec![vec![0; cards]; cards];
    for step in made {
        if step.kind == STEP_DELIVER {
            waiting[step.first as usize][step.second as usize] -= 1;
        } else {
            let others = (0..cards).filter(|card| *card != step.first as usize);
            others.for_each(|card| waiting[card][step.first as usize] += 1);
        }
    }
    let mut delivered = Vec::new();
    while waiting.iter().flatten().any(|waiting| *waiting > 0) {
        for (receiver, waiting) in waiting.iter_mut().enumerate() {
            for (sender, waiting) in waiting.iter_mut().enumerate() {
                if *waiting > 0 {
                    *waiting -= 1;
                    delivered.push(Step::deliver(receiver as u32, sender as u32));
                }
            }
        }
    }
    delivered.truncate(most.min(delivered.len() as u64) as usize);
    delivered
}

/// Replicas of so many cards, one behind the other; each card has counted on each counter.
fn counted(cards: usize) -> State {
    let mut state = blank();
    let len = replica_words(cards, COUNTERS);
    state.cards = cards;
    state.words = vec![0; cards * len];
    for (own, words) in state.words.chunks_exact_mut(len).enumerate() {
        replica::open(words, cards as u64, COUNTERS as u64, own as u64).expect("right sizes");
    }
    for first in 0..cards {
        drop_each(&mut state, first, reference_count_one, reference_take_one);
    }
    state.kept = state.words.clone();
    state
}

/// A log of this version whose counts are by one. Of each message `entries` says whether it is a
/// clear, and of how many entries.
fn log(version: Version, entries: fn(&mut Random) -> Option<usize>) -> State {
    let mut random = Random::new(5);
    let mut state = blank();
    for place in 0..MADE as u64 {
        let body = match entries(&mut random) {
            None => Body::Increment {
                p: 1 + place,
                start: random.percent(10),
                amount: version.has_amount.into(),
            },
            Some(len) => {
                let mut entries = Entries::new();
                (0..len as u32).for_each(|card| entries.push(Entry { card, p: 99, c: 399 }));
                Body::Clear(entries)
            }
        };
        let counter = random.below(COUNTERS as u64) as u32;
        let message = Message { version, sender: 1, sequence: 1 + place, counter, body };
        let mut out = [0; LONGEST_MESSAGE];
        let length = message::write(&message, &mut out).expect("in range");
        state.logs.extend(&out[..length]);
    }
    state.out = vec![0; 2 * state.logs.len()];
    state
}

fn no_clear(_: &mut Random) -> Option<usize> {
    None
}

fn full_clear(_: &mut Random) -> Option<usize> {
    Some(CARDS)
}

fn some_clear(random: &mut Random) -> Option<usize> {
    (random.below(8) == 0).then(|| random.between(0, CARDS as u64) as usize)
}

// The calls. All sides are real calls: nothing is inlined into the loop.

/// The number of the reference's answer.
fn number<T>(answer: Result<T, u64>) -> u64 {
    answer.err().unwrap_or(OK)
}

fn library_open(s: &mut State, _: usize) {
    s.numbers += black_box(library::open(&mut s.words, CARDS as u64, COUNTERS as u64, 0));
}

#[inline(never)]
fn reference_open(s: &mut State, _: usize) {
    s.numbers += number(black_box(replica::open(&mut s.words, CARDS as u64, COUNTERS as u64, 0)));
}

fn c_open(s: &mut State, _: usize) {
    s.numbers += black_box(peer::open(&mut s.words, CARDS as u64, COUNTERS as u64, 0));
}

fn library_read(s: &mut State, counter: usize) {
    s.numbers += black_box(library::read(&s.words, counter as u64)).number;
}

#[inline(never)]
fn reference_read(s: &mut State, counter: usize) {
    s.numbers += number(black_box(replica::read(&s.words, counter as u64)));
}

fn c_read(s: &mut State, counter: usize) {
    s.numbers += black_box(peer::read(&s.words, counter as u64)).number;
}

fn library_active(s: &mut State, _: usize) {
    let answer = black_box(library::active_counters(&s.words));
    s.numbers += answer.number;
    s.active = answer.counters;
}

#[inline(never)]
fn reference_active(s: &mut State, _: usize) {
    let answer = black_box(replica::active(&s.words));
    s.numbers += number(answer);
    s.active = answer.unwrap_or(0);
}

fn c_active(s: &mut State, _: usize) {
    let answer = black_box(peer::active_counters(&s.words));
    s.numbers += answer.number;
    s.active = answer.counters;
}

/// The counters that have holders: one loop for all sides. A read gives the number answered and the
/// holders.
#[inline(never)]
fn read_all(s: &mut State, read: fn(&[u64], u64) -> (u64, u64)) {
    s.active = 0;
    for counter in 0..COUNTERS as u64 {
        let (number, holders) = read(&s.words, counter);
        s.numbers += number;
        s.active |= u64::from(holders != 0) << counter;
    }
}

fn library_read_all(s: &mut State) {
    read_all(s, |words, counter| {
        let reading = library::read(words, counter);
        (reading.number, reading.holders)
    });
}

#[inline(never)]
fn reference_read_one(words: &[u64], counter: u64) -> (u64, u64) {
    let reading = replica::read(words, counter);
    (number(reading), reading.map_or(0, |reading| reading.holders))
}

fn reference_read_all(s: &mut State) {
    read_all(s, reference_read_one);
}

fn c_read_all(s: &mut State) {
    read_all(s, |words, counter| {
        let reading = peer::read(words, counter);
        (reading.number, reading.holders)
    });
}

fn library_count(s: &mut State, counter: usize) {
    let (counter, amount) = (counter as u64, AMOUNT.into());
    s.numbers += black_box(library::count(&mut s.words, counter, amount, &mut s.out)).number;
}

#[inline(never)]
fn reference_count(s: &mut State, counter: usize) {
    let (counter, amount) = (counter as u64, AMOUNT.into());
    s.numbers += number(black_box(replica::count(&mut s.words, counter, amount, &mut s.out)));
}

fn c_count(s: &mut State, counter: usize) {
    let (counter, amount) = (counter as u64, AMOUNT.into());
    s.numbers += black_box(peer::count(&mut s.words, counter, amount, &mut s.out)).number;
}

fn library_clear(s: &mut State, counter: usize) {
    s.numbers += black_box(library::clear(&mut s.words, counter as u64, &mut s.out)).number;
}

#[inline(never)]
fn reference_clear(s: &mut State, counter: usize) {
    s.numbers += number(black_box(replica::clear(&mut s.words, counter as u64, &mut s.out)));
}

fn c_clear(s: &mut State, counter: usize) {
    s.numbers += black_box(peer::clear(&mut s.words, counter as u64, &mut s.out)).number;
}

fn library_read_and_clear(s: &mut State, counter: usize) {
    let counter = counter as u64;
    s.numbers += black_box(library::read_and_clear(&mut s.words, counter, &mut s.out)).number;
}

fn library_read_then_clear(s: &mut State, counter: usize) {
    library_read(s, counter);
    library_clear(s, counter);
}

#[inline(never)]
fn reference_read_and_clear(s: &mut State, counter: usize) {
    let counter = counter as u64;
    s.numbers += number(black_box(replica::read_and_clear(&mut s.words, counter, &mut s.out)));
}

fn c_read_and_clear(s: &mut State, counter: usize) {
    let counter = counter as u64;
    s.numbers += black_box(peer::read_and_clear(&mut s.words, counter, &mut s.out)).number;
}

fn library_take(s: &mut State, counter: usize) {
    s.numbers += black_box(library::take(&mut s.words, &s.bytes[counter])).number;
}

#[inline(never)]
fn reference_take(s: &mut State, counter: usize) {
    s.numbers += number(black_box(replica::take(&mut s.words, &s.bytes[counter])));
}

fn c_take(s: &mut State, counter: usize) {
    s.numbers += black_box(peer::take(&mut s.words, &s.bytes[counter])).number;
}

/// A drop on each counter, the cards in turn: one loop for all sides. A count gives the number
/// answered and the length written, a take the number.
#[inline(never)]
fn drop_each(
    s: &mut State,
    first: usize,
    count: fn(&mut [u64], u64, &mut [u8]) -> (u64, u64),
    take: fn(&mut [u64], &[u8]) -> u64,
) {
    let len = replica_words(s.cards, COUNTERS);
    let mut own = first;
    for counter in 0..COUNTERS as u64 {
        let (number, length) = count(&mut s.words[own * len..][..len], counter, &mut s.out);
        s.numbers += number;
        for card in (0..s.cards).filter(|card| *card != own) {
            s.numbers += take(&mut s.words[card * len..][..len], &s.out[..length as usize]);
        }
        own = if own + 1 == s.cards { 0 } else { own + 1 };
    }
}

fn library_drops(s: &mut State) {
    let count = |words: &mut [u64], counter, out: &mut [u8]| {
        let sent = library::count(words, counter, 1, out);
        (sent.number, sent.length)
    };
    drop_each(s, 0, count, |words, message| library::take(words, message).number);
}

#[inline(never)]
fn reference_count_one(words: &mut [u64], counter: u64, out: &mut [u8]) -> (u64, u64) {
    let sent = replica::count(words, counter, 1, out);
    (number(sent), sent.map_or(0, |sent| sent.length))
}

#[inline(never)]
fn reference_take_one(words: &mut [u64], message: &[u8]) -> u64 {
    number(replica::take(words, message))
}

fn reference_drops(s: &mut State) {
    drop_each(s, 0, reference_count_one, reference_take_one);
}

fn c_drops(s: &mut State) {
    let count = |words: &mut [u64], counter, out: &mut [u8]| {
        let sent = peer::count(words, counter, 1, out);
        (sent.number, sent.length)
    };
    drop_each(s, 0, count, |words, message| peer::take(words, message).number);
}

/// The whole batch in one call: the log is walked from its start.
fn library_waiting(s: &mut State) {
    black_box(library::waiting(&s.logs, CALLS));
}

#[inline(never)]
fn reference_waiting(s: &mut State) {
    black_box(chassis::waiting(&s.logs, CALLS));
}

fn library_read_message(s: &mut State, counter: usize) {
    black_box(library::read_message(&s.bytes[counter]));
}

#[inline(never)]
fn reference_read_message(s: &mut State, counter: usize) {
    black_box(message::read_alone(&s.bytes[counter]));
}

fn rpcgen_read(s: &mut State, counter: usize) {
    black_box(rpcgen::read(&s.bytes[counter]));
}

fn rpcgen_read_allocating(s: &mut State, counter: usize) {
    black_box(rpcgen::read_allocating(&s.bytes[counter]));
}

fn library_write_message(s: &mut State, counter: usize) {
    black_box(library::write_message(s.forms[counter], &mut s.out));
}

#[inline(never)]
fn reference_write_message(s: &mut State, counter: usize) {
    let _ = black_box(message::write(&s.messages[counter], &mut s.out));
}

fn rpcgen_write(s: &mut State, counter: usize) {
    let m = &s.messages[counter];
    black_box(match m.body {
        Body::Increment { p, start, amount } => {
            rpcgen::write_increment(m.sender, m.sequence, m.counter, p, start, amount, &mut s.out)
        }
        Body::Clear(_) => {
            let entries = &mut s.entries[counter];
            rpcgen::write_clear(m.sender, m.sequence, m.counter, entries, &mut s.out)
        }
    });
}

fn library_run(s: &mut State) {
    let (r, k, l) = (s.cards as u64, COUNTERS as u64, LOG_BYTES as u64);
    let lent = Buffers { words: &mut s.words, logs: &mut s.logs, answers: &mut s.answers };
    s.numbers += black_box(library::run(r, k, l, &s.steps[s.part.clone()], lent));
}

#[inline(never)]
fn reference_run(s: &mut State) {
    let (r, k, l) = (s.cards as u64, COUNTERS as u64, LOG_BYTES as u64);
    let lent = Buffers { words: &mut s.words, logs: &mut s.logs, answers: &mut s.answers };
    s.numbers += number(black_box(chassis::run(r, k, l, &s.steps[s.part.clone()], lent)));
}

fn library_deliver(s: &mut State) {
    let (r, k, l) = (s.cards as u64, COUNTERS as u64, LOG_BYTES as u64);
    let made = black_box(library::deliver_pending(r, k, l, s.most, &mut s.words, &s.logs));
    s.numbers += made.number;
}

#[inline(never)]
fn reference_deliver(s: &mut State) {
    let (r, k, l) = (s.cards as u64, COUNTERS as u64, LOG_BYTES as u64);
    let made = black_box(chassis::deliver_pending(r, k, l, s.most, &mut s.words, &s.logs));
    s.numbers += number(made);
}

fn library_deliver_one_by_one(s: &mut State) {
    for _ in 0..ONE_BY_ONE {
        library_deliver(s);
    }
}

fn reference_deliver_one_by_one(s: &mut State) {
    for _ in 0..ONE_BY_ONE {
        reference_deliver(s);
    }
}

/// The whole log in one call.
fn library_to_version_2(s: &mut State) {
    black_box(library::to_version_2(&s.logs, &mut s.out));
}

#[inline(never)]
fn reference_to_version_2(s: &mut State) {
    let _ = black_box(convert::to_version_2(&s.logs, &mut s.out));
}

fn library_to_version_1(s: &mut State) {
    black_box(library::to_version_1(&s.logs, &mut s.out));
}

#[inline(never)]
fn reference_to_version_1(s: &mut State) {
    let _ = black_box(convert::to_version_1(&s.logs, &mut s.out));
}

#[inline(never)]
fn copy_log(s: &mut State) {
    s.out[..s.logs.len()].copy_from_slice(&s.logs);
    black_box(&mut s.out);
}

/// The library and the reference write the same log, and it is another than the copied one.
pub fn conversions_agree(item: &Item) -> bool {
    let written: Vec<Vec<u8>> = item
        .sides
        .iter()
        .map(|(_, work)| {
            let mut state = (item.make)();
            work(&mut state);
            state.out
        })
        .collect();
    matches!(&written[..], [library, reference, copy] if library == reference && library != copy)
}

/// What every side of an item leaves behind, for a check that all did the same work.
pub fn outcome(state: &State) -> impl PartialEq + '_ {
    let State { words, out, logs, answers, numbers, active, .. } = state;
    (words, out, logs, answers, numbers, active)
}

/// So many calls have answered the number that they are to answer, and all steps were accepted.
pub fn as_intended(state: &State, calls: u64) -> bool {
    state.numbers == calls * state.intended
        && state.answers.chunks(ANSWER_WORDS).all(|answer| answer[0] == OK)
}

/// The library and rpcgen write every message of the state as the reference's bytes, and read it
/// from them.
pub fn messages_agree(state: &mut State) -> bool {
    (0..state.messages.len()).all(|counter| {
        let written = [library_write_message, rpcgen_write].iter().all(|write| {
            state.out.fill(0);
            write(state, counter);
            let bytes = &state.bytes[counter];
            state.out[..bytes.len()] == bytes[..]
        });
        let bytes = &state.bytes[counter];
        let read = library::MessageReading { number: OK, message: state.forms[counter] };
        written
            && library::read_message(bytes) == read
            && rpcgen::read(bytes) == state.messages[counter].sequence
    })
}
