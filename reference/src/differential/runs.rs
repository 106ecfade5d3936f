//! Runs: random lists and sizes, and every list of a small chassis to a depth, against the
//! reference and against the ledger of every counter.

use super::total::{accepted, Collector};
use super::{against_ledgers, answers, generate, number, Guarded, Place, Tally};
use crate::chassis::{self, Answer, Buffers, Step};
use crate::ledger::Ledger;
use crate::library;
use crate::limits::*;
use crate::random::Random;
use crate::replica::{self, received_from};

pub const RUN: &[u64] = &[OK, BAD_SIZES];
/// `EXHAUSTED` needs `MAX` messages of one card first.
pub const STEP: &[u64] =
    &[OK, BAD_COUNTER, BAD_CARD, BAD_KIND, NOTHING_WAITING, LOG_FULL, BAD_AMOUNT];

/// Of each kind of step, how its amounts are tallied where it was accepted, and where they were
/// refused.
const AMOUNTS_OF: [(u32, &str, &str); 4] = [
    (STEP_COUNT, "count by", "count not by"),
    (STEP_CLEAR, "clear with", "clear not with"),
    (STEP_DELIVER, "deliver with", "deliver not with"),
    (STEP_READ_AND_CLEAR, "read and clear with", "read and clear not with"),
];

/// A run of either side, steps given as bytes.
type Run = fn(u64, u64, u64, &[u8], Buffers) -> u64;

fn reference(cards: u64, counters: u64, log_bytes: u64, steps: &[u8], lent: Buffers) -> u64 {
    number(chassis::run(cards, counters, log_bytes, steps, lent))
}

/// The same steps, handed over as records.
const RECORDS: [Run; 2] = [
    |r, k, log_bytes, steps, lent| {
        number(chassis::run_records(r, k, log_bytes, &steps_of(steps), lent))
    },
    |r, k, log_bytes, steps, lent| library::run_records(r, k, log_bytes, &steps_of(steps), lent),
];

/// Everything that a run is given.
#[derive(Clone, Debug)]
struct Lent {
    cards: u64,
    counters: u64,
    log_bytes: u64,
    steps: Vec<u8>,
    words: Guarded<u64>,
    logs: Guarded<u8>,
    answers: Guarded<u64>,
}

impl Lent {
    fn run(&mut self, call: Run) -> u64 {
        let lent = Buffers {
            words: self.words.get_mut(),
            logs: self.logs.get_mut(),
            answers: self.answers.get_mut(),
        };
        call(self.cards, self.counters, self.log_bytes, &self.steps, lent)
    }

    fn same_buffers(&self, other: &Lent) -> bool {
        self.words == other.words && self.logs == other.logs && self.answers == other.answers
    }

    /// What a read of the counter on the card gives after the first `len` steps, by the reference.
    fn value_after(&self, len: usize, card: u32, counter: u32) -> u64 {
        let mut part = self.clone();
        part.steps.truncate(len * STEP_BYTES);
        part.answers = Guarded::new(&vec![0; len * ANSWER_WORDS]);
        assert_eq!(part.run(reference), OK);
        let each = replica_words(self.cards as usize, self.counters as usize);
        let words = &part.words.get()[card as usize * each..][..each];
        replica::read(words, counter.into()).expect("a run's words").value
    }
}

fn steps_of(bytes: &[u8]) -> Vec<Step> {
    bytes.as_chunks::<STEP_BYTES>().0.iter().map(Step::from_bytes).collect()
}

/// `cases` runs; the tally has the run's numbers and the steps' answers.
pub fn random_runs(seed: u64, cases: u64, longest: u64) -> Tally {
    let mut tally = Tally::default();
    for case in 0..cases {
        let mut random = Random::case(seed, case);
        let mut lent = right_sizes(&mut random, longest);
        if random.percent(15) {
            wrong_sizes(&mut random, &mut lent);
        }
        compare(&lent, &|| format!("seed {seed} case {case}"), &mut tally);
    }
    tally
}

/// Panics unless runs and steps gave all of their numbers, and nothing else.
pub fn require_all(tally: &Tally) {
    tally.require("run", RUN);
    tally.require("records", RUN);
    tally.require("step", STEP);
    tally.require("value", &[0, 1]);
    // How many counters of a card are active; 3 is any from there on.
    tally.require("active", &[0, 1, 2, 3]);
    let amounts = generate::STEP_AMOUNTS;
    for (kind, accepted, refused) in AMOUNTS_OF {
        let fits = |amount: &u32| Step { kind, amount: *amount, ..Step::clear(0, 0) }.amount_fits();
        let (right, wrong): (Vec<u32>, Vec<u32>) = amounts.iter().partition(|amount| fits(amount));
        for (name, amounts) in [(accepted, right), (refused, wrong)] {
            tally.require(name, &amounts.into_iter().map(u64::from).collect::<Vec<_>>());
        }
    }
    tally.require("no kind with", &amounts.map(u64::from));
}

/// The amounts at the edges, by what they were answered.
fn note_amount(tally: &mut Tally, step: Step, number: u64) {
    let of_kind = AMOUNTS_OF.into_iter().find(|(kind, ..)| *kind == step.kind);
    let name = match (number, of_kind) {
        _ if !generate::STEP_AMOUNTS.contains(&step.amount) => return,
        (OK, Some((_, accepted, _))) => accepted,
        (BAD_AMOUNT, Some((.., refused))) => refused,
        (BAD_KIND, None) => "no kind with",
        _ => return,
    };
    tally.note(name, step.amount.into());
}

fn compare(lent: &Lent, place: Place, tally: &mut Tally) {
    let (mut ours, mut theirs) = (lent.clone(), lent.clone());
    let (our_number, their_number) = (ours.run(reference), theirs.run(library::run));
    assert_eq!(our_number, their_number, "run: {}", place());
    assert!(ours.same_buffers(&theirs), "run, {their_number}: {}\n{ours:?}\n{theirs:?}", place());
    tally.note("run", their_number);
    if lent.steps.len().is_multiple_of(STEP_BYTES) {
        for call in RECORDS {
            let mut records = lent.clone();
            assert_eq!(records.run(call), their_number, "run of records: {}", place());
            assert!(records.same_buffers(&theirs), "run of records: {}", place());
        }
        tally.note("records", their_number);
    }
    if their_number != OK {
        assert!(theirs.same_buffers(lent), "a refused run wrote: {}", place());
        return;
    }
    let (cards, counters) = (lent.cards as usize, lent.counters as usize);
    let mut ledgers: Vec<Ledger> = (0..counters).map(|q| Ledger::new(cards, q)).collect();
    for (at, step) in steps_of(&lent.steps).into_iter().enumerate() {
        let answer = answers(theirs.answers.get())[at];
        let [number, value] = answer;
        tally.note("step", number);
        note_amount(tally, step, number);
        if step.kind == STEP_READ_AND_CLEAR && number == OK {
            let due = lent.value_after(at, step.first, step.second);
            assert_eq!(value, due, "{step:?}, number {at}: {}", place());
            tally.note("value", value.min(1));
        }
        feed(&mut ledgers, step, answer, cards, place);
    }
    for (card, words) in theirs.words.get().chunks_exact(replica_words(cards, counters)).enumerate()
    {
        against_ledgers(&ledgers, card, words, place);
        let active = library::active_counters(words).counters;
        tally.note("active", active.count_ones().min(3).into());
    }
    waiting_in_logs(&theirs, &ledgers[0], place);
}

/// The answer is one that the ledgers allow, and they are fed whether it is 0. The value is that
/// of the counter's ledger before an accepted read-and-clear, and otherwise 0.
fn feed(ledgers: &mut [Ledger], step: Step, answer: Answer, cards: usize, place: Place) {
    let [number, value] = answer;
    let (first, second) = (step.first as usize, step.second as usize);
    if step.kind == STEP_DELIVER && first < cards && second < cards && first != second {
        let due = step.amount == 0 && ledgers[0].waits(first, second);
        assert_eq!(number == OK, due, "{step:?} answered {number}: {}", place());
    }
    let due = match step.kind {
        STEP_READ_AND_CLEAR if number == OK => ledgers[second].value(first),
        _ => 0,
    };
    assert_eq!(value, due, "{step:?} answered {number}: {}", place());
    for ledger in ledgers {
        if let Err(trouble) = ledger.feed(step, number == OK) {
            panic!("{trouble}: {}", place());
        }
    }
}

/// On a run's own logs, the next message of every link is where `waiting` says, and take accepts
/// it exactly when the ledger's link has something to hand over.
fn waiting_in_logs(after: &Lent, ledger: &Ledger, place: Place) {
    let (cards, counters) = (after.cards as usize, after.counters as usize);
    let each = replica_words(cards, counters);
    let log_bytes = after.log_bytes as usize;
    for receiver in 0..cards {
        let words = &after.words.get()[receiver * each..][..each];
        for sender in (0..cards).filter(|sender| *sender != receiver) {
            let log = &after.logs.get()[sender * log_bytes..][..log_bytes];
            let q = received_from(words, sender) + 1;
            let ours = chassis::waiting(log, q);
            let theirs = library::waiting(log, q);
            let theirs = (theirs.start as usize, theirs.length as usize);
            assert_eq!((ours.start, ours.len()), theirs, "{receiver} from {sender}: {}", place());
            if ledger.waits(receiver, sender) {
                let mut words = words.to_vec();
                let taken = library::take(&mut words, &log[theirs.0..][..theirs.1]);
                assert_eq!(
                    (taken.number, taken.sequence),
                    (OK, q),
                    "{receiver} from {sender}: {}",
                    place()
                );
            }
        }
    }
}

fn right_sizes(random: &mut Random, longest: u64) -> Lent {
    let (cards, counters) = match random.below(30) {
        0 => generate::shape(random),
        1..=10 => (2, 1),
        11..=20 => (3, random.between(1, 2) as usize),
        _ => (random.between(1, 5) as usize, random.between(1, 3) as usize),
    };
    let (steps, log_bytes) = list(random, cards, counters, longest);
    let logs = log_content(random, cards, counters, log_bytes);
    Lent {
        cards: cards as u64,
        counters: counters as u64,
        log_bytes: log_bytes as u64,
        words: Guarded::new(&random.words(cards * replica_words(cards, counters))),
        logs: Guarded::new(&logs),
        answers: Guarded::new(&random.words(ANSWER_WORDS * steps.len())),
        steps: steps.iter().flat_map(|step| step.to_bytes()).collect(),
    }
}

/// Steps, at most `longest`, and the bytes of a card's log, at times too few for them.
pub(super) fn list(
    random: &mut Random,
    cards: usize,
    counters: usize,
    longest: u64,
) -> (Vec<Step>, usize) {
    let len = if random.percent(5) { random.below(3) } else { random.below(longest + 1) };
    let steps = (0..len).map(|_| step(random, cards, counters)).collect();
    let increment = INCREMENT_BYTES as u64;
    let log_bytes = match random.below(8) {
        0 => random.below(increment + 4),
        1 => increment * random.below(6),
        2 => random.below(400),
        _ => (increment + 4) * longest + random.below(9),
    };
    (steps, log_bytes as usize)
}

/// Mostly in range; otherwise a number at an edge, or any.
fn step(random: &mut Random, cards: usize, counters: usize) -> Step {
    let mut step = generate::good_step(random, cards, counters);
    if random.percent(6) {
        let number = match random.below(4) {
            0 => random.word() as u32,
            1 => cards as u32,
            2 => counters as u32,
            _ => random.pick(&generate::EDGES) as u32,
        };
        match random.below(4) {
            0 => step.kind = number,
            1 => step.first = number,
            2 => step.second = number,
            _ => step.second = step.first,
        }
    }
    if random.percent(6) {
        step.amount = match random.below(4) {
            0 => random.word() as u32,
            _ => random.pick(&generate::STEP_AMOUNTS),
        };
    }
    step
}

/// Logs as lent: zeros, noise, or messages that read and that no card of this run has made.
pub(super) fn log_content(
    random: &mut Random,
    cards: usize,
    counters: usize,
    log_bytes: usize,
) -> Vec<u8> {
    let len = cards * log_bytes;
    match random.below(3) {
        0 => vec![0; len],
        1 => random.bytes(len),
        _ => (0..cards).flat_map(|card| foreign_log(random, card, counters, log_bytes)).collect(),
    }
}

fn foreign_log(random: &mut Random, card: usize, counters: usize, log_bytes: usize) -> Vec<u8> {
    let mut log = Vec::new();
    for sequence in 1.. {
        if log.len() >= log_bytes {
            break;
        }
        let draft = generate::Draft {
            version: if random.percent(90) { MESSAGE_VERSION } else { MESSAGE_VERSION_1 },
            kind: if random.percent(90) { MESSAGE_INCREMENT } else { MESSAGE_CLEAR },
            sender: card as u32,
            sequence,
            counter: random.below(counters as u64) as u32,
            p: sequence,
            start: 1,
            amount: 1,
            entries: Vec::new(),
        };
        log.extend(draft.bytes());
    }
    log.truncate(log_bytes);
    log
}

/// One size made wrong, products that wrap included.
fn wrong_sizes(random: &mut Random, lent: &mut Lent) {
    let one_off = |random: &mut Random, len: usize| {
        if len > 0 && random.percent(50) {
            len - 1
        } else {
            len + 1
        }
    };
    match random.below(9) {
        0 => lent.cards = random.pick(&generate::EDGES),
        1 => lent.counters = random.pick(&generate::EDGES),
        2 => lent.log_bytes = random.pick(&generate::EDGES),
        3 => {
            let len = one_off(random, lent.words.get().len());
            lent.words = Guarded::new(&random.words(len));
        }
        4 => {
            let len = one_off(random, lent.logs.get().len());
            lent.logs = Guarded::new(&random.bytes(len));
        }
        5 => {
            let len = lent.answers.get().len();
            // One word for each step is too few.
            let a_word_each = random.percent(50);
            let len = if a_word_each { len / ANSWER_WORDS } else { one_off(random, len) };
            lent.answers = Guarded::new(&random.words(len));
        }
        6 => {
            let extra = random.between(1, STEP_BYTES as u64 - 1) as usize;
            lent.steps.extend(random.bytes(extra));
        }
        7 => {
            // The log's r times L is 2^64 or more, its low 64 bits the length lent.
            let shift = lent.cards.trailing_zeros().clamp(1, MOST_CARDS.ilog2());
            lent.cards = 1 << shift;
            lent.log_bytes = 1 << (64 - shift);
            let words =
                lent.cards as usize * replica_words(lent.cards as usize, lent.counters as usize);
            lent.words = Guarded::new(&random.words(words));
            lent.logs = Guarded::new(&[]);
        }
        _ => {
            lent.words = Guarded::new(&[]);
            lent.logs = Guarded::new(&[]);
        }
    }
}

/// Every list of in-range steps up to `depth`, counts by these amounts; gives how many lists were
/// run.
pub fn exhaustive(
    cards: usize,
    counters: usize,
    amounts: &[u32],
    log_bytes: usize,
    depth: usize,
) -> u64 {
    let mut search = Search {
        cards,
        counters,
        log_bytes,
        alphabet: alphabet(cards, counters, amounts),
        steps: Vec::new(),
        lists: 0,
        foreign: foreign_logs(cards, counters, log_bytes),
    };
    let ledgers: Vec<Ledger> = (0..counters).map(|q| Ledger::new(cards, q)).collect();
    search.visit(&ledgers, depth);
    search.lists
}

pub fn alphabet(cards: usize, counters: usize, amounts: &[u32]) -> Vec<Step> {
    let mut steps = Vec::new();
    for card in 0..cards as u32 {
        for counter in 0..counters as u32 {
            steps.extend(amounts.iter().map(|amount| Step::count_by(card, counter, *amount)));
            steps.push(Step::clear(card, counter));
            steps.push(Step::read_and_clear(card, counter));
        }
        steps.extend((0..cards as u32).filter(|s| *s != card).map(|s| Step::deliver(card, s)));
    }
    steps
}

fn foreign_logs(cards: usize, counters: usize, log_bytes: usize) -> Vec<u8> {
    let mut random = Random::new(1);
    (0..cards).flat_map(|card| foreign_log(&mut random, card, counters, log_bytes)).collect()
}

struct Search {
    cards: usize,
    counters: usize,
    log_bytes: usize,
    alphabet: Vec<Step>,
    steps: Vec<u8>,
    lists: u64,
    foreign: Vec<u8>,
}

impl Search {
    fn visit(&mut self, ledgers: &[Ledger], depth: usize) {
        let answers = self.run();
        self.lists += 1;
        let ledgers = self.follow(ledgers, &answers);
        if depth == 0 {
            return;
        }
        for at in 0..self.alphabet.len() {
            self.steps.extend(self.alphabet[at].to_bytes());
            self.visit(&ledgers, depth - 1);
            self.steps.truncate(self.steps.len() - STEP_BYTES);
        }
    }

    /// Both runs of the present list, compared; the answers and the words stay for the ledgers.
    fn run(&mut self) -> (Vec<Answer>, Vec<u64>) {
        let (r, k, log) = (self.cards as u64, self.counters as u64, self.log_bytes as u64);
        let each = replica_words(self.cards, self.counters);
        let len = self.steps.len() / STEP_BYTES;
        let on = |call: Run| {
            let (mut words, mut logs) = (vec![7; self.cards * each], self.foreign.clone());
            let mut answers = vec![[7; ANSWER_WORDS]; len];
            let flat = answers.as_flattened_mut();
            let lent = Buffers { words: &mut words, logs: &mut logs, answers: flat };
            (call(r, k, log, &self.steps, lent), words, logs, answers)
        };
        let theirs = on(library::run);
        assert!(on(reference) == theirs, "run of {}", self.text());
        let (_, words, _, answers) = theirs;
        (answers, words)
    }

    /// The ledgers after the last step, held against every read; and the total, wherever one card
    /// alone clears, always by read-and-clear.
    fn follow(&self, before: &[Ledger], run: &(Vec<Answer>, Vec<u64>)) -> Vec<Ledger> {
        let mut ledgers = before.to_vec();
        let (answers, words) = run;
        let place = || self.text();
        let steps = steps_of(&self.steps);
        if let (Some(step), Some(answer)) = (steps.last(), answers.last()) {
            feed(&mut ledgers, *step, *answer, self.cards, &place);
        }
        let each = replica_words(self.cards, self.counters);
        for (card, words) in words.chunks_exact(each).enumerate() {
            against_ledgers(&ledgers, card, words, &place);
            for counter in 0..self.counters {
                Collector { card, counter }.check(accepted(&steps, answers), words, &place);
            }
        }
        ledgers
    }

    fn text(&self) -> String {
        format!(
            "{:?}, r {} k {} L {}",
            steps_of(&self.steps),
            self.cards,
            self.counters,
            self.log_bytes
        )
    }
}
