//! Whole isolation of a counter: its own steps of a list, run alone, are all accepted with the same
//! values, and leave every card's read of it as the whole list does.

use super::{generate, runs, Place, Tally};
use crate::chassis::{Answer, Buffers, Step};
use crate::ledger::Ledger;
use crate::library::{self, Reading};
use crate::limits::*;
use crate::message::{self, Body, Message};
use crate::random::Random;

/// What a counter's own steps are worth as a test.
const EMPTY: u64 = 0;
const SOME: u64 = 1;
/// They have a clear, and a message that came after another counter's on its link; and the list
/// has declined steps.
const MIXED: u64 = 2;

/// `lists` lists of up to `longest` steps, every counter of each.
pub fn random_lists(seed: u64, lists: u64, longest: u64) -> Tally {
    let mut tally = Tally::default();
    let usual = |random: &mut Random| match random.below(20) {
        0 => (random.between(1, MOST_CARDS as u64) as usize, random.between(1, 8) as usize),
        _ => (random.between(2, 4) as usize, random.between(2, 4) as usize),
    };
    for (case, mut random, list) in series(seed, lists, longest, usual) {
        list.check(&mut random, &|| format!("seed {seed} case {case}"), &mut tally);
    }
    tally
}

/// `lists` lists of up to `longest` steps, each with its case and what goes on at random from there.
/// One in twenty is of any number of cards and counters, the others as `usual` says.
pub(super) fn series(
    seed: u64,
    lists: u64,
    longest: u64,
    usual: impl Fn(&mut Random) -> (usize, usize),
) -> impl Iterator<Item = (u64, Random, List)> {
    (0..lists).map(move |case| {
        let mut random = Random::case(seed, case);
        let (cards, counters) = match random.below(20) {
            0 => generate::shape(&mut random),
            _ => usual(&mut random),
        };
        let (steps, log_bytes) = runs::list(&mut random, cards, counters, longest);
        (case, random, List { cards, counters, log_bytes, steps })
    })
}

/// Panics unless enough of the series was worth something.
pub fn require_all(tally: &Tally, lists: u64) {
    tally.require("step", runs::STEP);
    tally.require("sublist", &[EMPTY, SOME, MIXED]);
    tally.require("value", &[0, 1]);
    assert!(tally.times("sublist", MIXED) > lists / 4, "few mixed lists");
    // Messages that are others alone, since p counts the increments of all counters.
    tally.require("bytes", &[0, 1]);
    // 14 on account of other counters, and 14 all the same.
    tally.require("full", &[0, 1]);
}

/// Steps, and the sizes of their run.
#[derive(Clone, Debug)]
pub struct List {
    pub cards: usize,
    pub counters: usize,
    pub log_bytes: usize,
    pub steps: Vec<Step>,
}

/// What the library's run leaves.
pub struct After {
    pub answers: Vec<Answer>,
    pub(super) words: Vec<u64>,
    pub(super) logs: Vec<u8>,
}

impl List {
    fn of(&self, steps: Vec<Step>) -> List {
        List { steps, ..*self }
    }

    /// The run, on buffers that hold anything.
    pub fn run(&self, random: &mut Random) -> After {
        let words = random.words(self.cards * replica_words(self.cards, self.counters));
        let logs = runs::log_content(random, self.cards, self.counters, self.log_bytes);
        self.run_on(words, logs)
    }

    pub(super) fn run_on(&self, mut words: Vec<u64>, mut logs: Vec<u8>) -> After {
        let mut answers = vec![[u64::MAX; ANSWER_WORDS]; self.steps.len()];
        let steps: Vec<u8> = self.steps.iter().flat_map(|step| step.to_bytes()).collect();
        let (r, k, log_bytes) = (self.cards as u64, self.counters as u64, self.log_bytes as u64);
        let flat = answers.as_flattened_mut();
        let lent = Buffers { words: &mut words, logs: &mut logs, answers: flat };
        assert_eq!(library::run(r, k, log_bytes, &steps, lent), OK);
        After { answers, words, logs }
    }

    /// A card's words.
    pub fn replica<'a>(&self, after: &'a After, card: usize) -> &'a [u64] {
        let each = replica_words(self.cards, self.counters);
        &after.words[card * each..][..each]
    }

    /// The counter's ledger, fed the steps and which of them the run accepted.
    pub fn ledger(&self, after: &After, counter: usize) -> Ledger {
        let mut ledger = Ledger::new(self.cards, counter);
        for (step, [number, _]) in self.steps.iter().zip(&after.answers) {
            if let Err(trouble) = ledger.feed(*step, *number == OK) {
                panic!("{trouble}: {self:?}");
            }
        }
        ledger
    }

    /// Every card's read of the counter.
    pub fn reads(&self, after: &After, counter: usize) -> Vec<Reading> {
        let words = after.words.chunks_exact(replica_words(self.cards, self.counters));
        let reads: Vec<_> = words.map(|words| library::read(words, counter as u64)).collect();
        assert!(reads.iter().all(|read| read.number == OK), "{self:?}");
        reads
    }

    /// The messages that each card has made, from its log's bytes.
    pub(super) fn messages(&self, after: &After) -> Vec<Vec<Message>> {
        let mut made = vec![0; self.cards];
        for (step, [number, _]) in self.steps.iter().zip(&after.answers) {
            if *number == OK && step.kind != STEP_DELIVER {
                made[step.first as usize] += 1;
            }
        }
        let messages = made.into_iter().enumerate().map(|(card, made)| {
            let mut log = &after.logs[card * self.log_bytes..][..self.log_bytes];
            let mut next = || {
                let message = message::read_front(log).expect("a message that was made");
                log = &log[message.length()..];
                message
            };
            (0..made).map(|_| next()).collect()
        });
        messages.collect()
    }

    /// The counter that each step belongs to: none if it was declined; of a delivery, that of the
    /// message that it handed over.
    fn belongs(&self, after: &After) -> Vec<Option<usize>> {
        let messages = self.messages(after);
        let mut received = vec![vec![0; self.cards]; self.cards];
        let mut belongs = Vec::new();
        for (step, [number, _]) in self.steps.iter().zip(&after.answers) {
            let (first, second) = (step.first as usize, step.second as usize);
            belongs.push(match step.kind {
                _ if *number != OK => None,
                STEP_DELIVER => {
                    let at = &mut received[first][second];
                    *at += 1;
                    Some(messages[second][*at - 1].counter as usize)
                }
                _ => Some(second),
            });
        }
        belongs
    }

    /// The counter's own steps, told the answers of the whole list, and those that are theirs.
    pub fn own(&self, after: &After, counter: usize) -> (List, Vec<Answer>) {
        let answered = self.steps.iter().copied().zip(after.answers.iter().copied());
        let own = answered.zip(self.belongs(after)).filter(|(_, of)| *of == Some(counter));
        let (steps, answers) = own.map(|(answered, _)| answered).unzip();
        (self.of(steps), answers)
    }

    /// Every counter alone, and every single step.
    pub fn check(&self, random: &mut Random, place: Place, tally: &mut Tally) {
        let whole = self.run(random);
        whole.answers.iter().for_each(|[number, _]| tally.note("step", *number));
        self.other_steps_leave_the_reads(&whole, place);
        for counter in 0..self.counters {
            let place = || format!("counter {counter} alone: {}, {self:?}", place());
            let (own, answers) = self.own(&whole, counter);
            let alone = own.run(random);
            assert!(alone.answers.iter().all(|[number, _]| *number == OK), "{}", place());
            assert_eq!(alone.answers, answers, "{}", place());
            answers.iter().for_each(|[_, value]| tally.note("value", (*value).min(1)));
            let (reads, due) = (own.reads(&alone, counter), self.reads(&whole, counter));
            assert_eq!(reads, due, "{}", place());
            tally.note("sublist", self.worth(&whole, &own, counter));
            let same = self.bodies(&whole, counter) == own.bodies(&alone, counter);
            tally.note("bytes", u64::from(!same));
            self.full_log(&whole, counter, random, tally);
        }
    }

    /// Of the counter's messages, all but the header.
    fn bodies(&self, after: &After, counter: usize) -> Vec<Body> {
        let messages = self.messages(after).concat();
        let own = messages.iter().filter(|message| message.counter as usize == counter);
        own.map(|message| message.body).collect()
    }

    /// Every shorter list: a step that is not the counter's leaves every card's read of it, and a
    /// value that a step answers was that card's read before it.
    fn other_steps_leave_the_reads(&self, whole: &After, place: Place) {
        let belongs = self.belongs(whole);
        let mut reads: Option<Vec<Vec<Reading>>> = None;
        for len in 0..=self.steps.len() {
            let part = self.of(self.steps[..len].to_vec());
            let after = part.run_on(whole.words.clone(), whole.logs.clone());
            assert_eq!(after.answers, whole.answers[..len], "{}", place());
            let now: Vec<_> = (0..self.counters).map(|q| part.reads(&after, q)).collect();
            if let Some(before) = reads {
                let (step, [number, value]) = (self.steps[len - 1], whole.answers[len - 1]);
                let due = match step.kind {
                    STEP_READ_AND_CLEAR if number == OK => {
                        before[step.second as usize][step.first as usize].value
                    }
                    _ => 0,
                };
                assert_eq!(value, due, "step {len}: {}, {part:?}", place());
                for counter in (0..self.counters).filter(|q| belongs[len - 1] != Some(*q)) {
                    let place = || format!("step {len}, counter {counter}: {}", place());
                    assert_eq!(before[counter], now[counter], "{}, {part:?}", place());
                }
            }
            reads = Some(now);
        }
    }

    fn worth(&self, whole: &After, own: &List, counter: usize) -> u64 {
        if own.steps.is_empty() {
            return EMPTY;
        }
        let declined = whole.answers.iter().any(|[number, _]| *number != OK);
        let cleared = own.steps.iter().any(|step| step.clears());
        let mut others = vec![vec![false; self.cards]; self.cards];
        let mut crossed = false;
        for (step, of) in self.steps.iter().zip(self.belongs(whole)) {
            if let (STEP_DELIVER, Some(of)) = (step.kind, of) {
                let other = &mut others[step.first as usize][step.second as usize];
                crossed |= of == counter && *other;
                *other |= of != counter;
            }
        }
        if declined && cleared && crossed {
            MIXED
        } else {
            SOME
        }
    }

    /// The interference that there is. Of the counter's counts and clears that found the log full,
    /// one finds room in a list without the other counters' steps: 1.
    fn full_log(&self, whole: &After, counter: usize, random: &mut Random, tally: &mut Tally) {
        let belongs = self.belongs(whole);
        let full = |at: usize| {
            whole.answers[at][0] == LOG_FULL && self.steps[at].second as usize == counter
        };
        let asked = (0..self.steps.len()).filter(|at| belongs[*at] == Some(counter) || full(*at));
        let asked: Vec<usize> = asked.collect();
        if asked.iter().any(|at| full(*at)) {
            let after = self.of(asked.iter().map(|at| self.steps[*at]).collect()).run(random);
            let mut both = asked.iter().zip(after.answers);
            let room = both.any(|(at, [number, _])| full(*at) && number == OK);
            tally.note("full", u64::from(room));
        }
    }
}
