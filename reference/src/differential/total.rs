//! The total. Where one card alone clears a counter, always by read-and-clear, the values that it
//! has answered and the value of a read there now are together the increments of that counter that
//! the card has received, its own included, an increment by w counting as w.
//!
//! Answers, words and reads are the library's. What the card has received is counted here from the
//! accepted steps alone: neither the reference nor the ledger is asked.

use std::collections::VecDeque;

use super::alone::{series, After, List};
use super::{network, Place, Tally, READ_AND_CLEAR};
use crate::chassis::{Answer, Step};
use crate::library;
use crate::limits::*;
use crate::random::Random;

/// What a total is worth as a test.
const NOTHING: u64 = 0;
const SOME: u64 = 1;
/// Several answers are not 0, nor is the read now, and units of other cards are among them.
const MIXED: u64 = 2;

/// The one card that may clear the counter.
#[derive(Clone, Copy, Debug)]
pub struct Collector {
    pub card: usize,
    pub counter: usize,
}

/// Both sides of the equation, and what they are made of.
#[derive(Clone, Copy, Debug, Default, PartialEq, Eq)]
pub struct Total {
    /// The sum of the values answered, and how many of them are not 0.
    pub answered: u64,
    pub answers: u64,
    /// The value of a read now.
    pub value: u64,
    /// Units received, and how many of them are the card's own.
    pub received: u64,
    pub own: u64,
}

impl Collector {
    fn any(random: &mut Random, cards: usize, counters: usize) -> Collector {
        let card = random.below(cards as u64) as usize;
        Collector { card, counter: random.below(counters as u64) as usize }
    }

    /// Whether the step must not be accepted: a clear of the counter that is plain or another
    /// card's.
    pub fn forbids(self, step: Step) -> bool {
        step.clears() && step.second as usize == self.counter && step != self.collecting()
    }

    fn collecting(self) -> Step {
        Step::read_and_clear(self.card as u32, self.counter as u32)
    }

    /// Told the accepted steps with the values that they answered, and the card's words now.
    pub fn total(self, accepted: impl Iterator<Item = (Step, u64)>, words: &[u64]) -> Total {
        let read = library::read(words, self.counter as u64);
        assert_eq!(read.number, OK);
        let mut total = Total { value: read.value, ..Default::default() };
        // Of each other card, the messages that this one has not taken: how many units of the
        // counter each counts.
        let mut under_way = vec![VecDeque::new(); MOST_CARDS];
        for (step, value) in accepted {
            let (first, second) = (step.first as usize, step.second as usize);
            if step.kind == STEP_DELIVER {
                if first == self.card {
                    total.received += under_way[second].pop_front().expect("a message to take");
                }
                continue;
            }
            let counts = step.kind == STEP_COUNT && second == self.counter;
            let units = if counts { u64::from(step.amount) } else { 0 };
            if first == self.card {
                total.received += units;
                total.own += units;
            } else {
                under_way[first].push_back(units);
            }
            if step == self.collecting() {
                total.answered += value;
                total.answers += u64::from(value > 0);
            }
        }
        total
    }

    /// The total, which comes out; none where a step is one that must not be accepted.
    pub(super) fn check(
        self,
        accepted: impl Iterator<Item = (Step, u64)> + Clone,
        words: &[u64],
        place: Place,
    ) -> Option<Total> {
        if accepted.clone().any(|(step, _)| self.forbids(step)) {
            return None;
        }
        let total = self.total(accepted, words);
        assert!(total.comes_out(), "{self:?}, {total:?}: {}", place());
        Some(total)
    }
}

impl Total {
    pub fn comes_out(&self) -> bool {
        self.answered + self.value == self.received
    }

    pub(super) fn note(&self, tally: &mut Tally) {
        let mixed = self.answers > 1 && self.value > 0 && self.received > self.own;
        let worth = match self.received {
            0 => NOTHING,
            _ if mixed => MIXED,
            _ => SOME,
        };
        tally.note("total", worth);
    }
}

/// The accepted steps of a list, with the values that they answered.
pub fn accepted<'a>(
    steps: &'a [Step],
    answers: &'a [Answer],
) -> impl Iterator<Item = (Step, u64)> + Clone + 'a {
    let accepted = steps.iter().zip(answers).filter(|(_, [number, _])| *number == OK);
    accepted.map(|(step, [_, value])| (*step, *value))
}

/// `lists` lists of up to `longest` steps, with one collector each.
pub fn random_lists(seed: u64, lists: u64, longest: u64) -> Tally {
    let mut tally = Tally::default();
    let usual =
        |random: &mut Random| (random.between(1, 4) as usize, random.between(1, 3) as usize);
    for (case, mut random, mut list) in series(seed, lists, longest, usual) {
        let collector = Collector::any(&mut random, list.cards, list.counters);
        let after = only_allowed(&mut random, &mut list, collector);
        note_clears(&list, &after, collector, &mut tally);
        let place = || format!("seed {seed} case {case}, {list:?}");
        let words = list.replica(&after, collector.card);
        let total = collector.check(accepted(&list.steps, &after.answers), words, &place);
        total.expect("only what is allowed").note(&mut tally);
    }
    tally
}

/// Panics unless enough of the lists were worth something.
pub fn require_all(tally: &Tally, lists: u64) {
    tally.require("total", &[NOTHING, SOME, MIXED]);
    assert!(tally.times("total", MIXED) > lists / 20, "few mixed totals");
    tally.require("collecting", &[OK, LOG_FULL]);
    tally.require("forbidden", &[BAD_CARD, LOG_FULL, BAD_AMOUNT]);
    // Of other counters, by anyone and by either kind of step.
    tally.require("other", &[STEP_CLEAR.into(), STEP_READ_AND_CLEAR.into()]);
}

/// Histories of calls over the network that loses, repeats, reorders and damages, each with one
/// collector, until `calls` calls have been made.
pub fn histories(seed: u64, calls: u64) -> Tally {
    network::histories_with(seed, calls, |random, cards, counters| {
        Some(Collector::any(random, cards, counters))
    })
}

/// Panics unless enough of the histories were worth something.
pub fn require_histories(tally: &Tally) {
    tally.require("total", &[NOTHING, SOME, MIXED]);
    tally.require(READ_AND_CLEAR.name, &[OK, BAD_COUNTER, SHORT_OUTPUT]);
    for (message, number) in [("next", OK), ("old", REPEATED), ("later", EARLY)] {
        tally.require(message, &[number]);
    }
    let times = |worth| tally.times("total", worth);
    assert!(times(MIXED) > times(SOME) / 10, "few mixed totals");
}

/// Half of the list's clears become the collector's, and some are of a card that is not there.
/// Of the others that it forbids those stay that the run declines.
fn only_allowed(random: &mut Random, list: &mut List, collector: Collector) -> After {
    for step in &mut list.steps {
        if step.clears() {
            match random.below(8) {
                0..=3 => *step = collector.collecting(),
                4 => (step.first, step.second) = (list.cards as u32, collector.counter as u32),
                _ => {}
            }
        }
    }
    loop {
        let after = list.run(random);
        let mut answers = after.answers.iter();
        let before = list.steps.len();
        list.steps.retain(|step| {
            let [number, _] = answers.next().expect("an answer for each step");
            *number != OK || !collector.forbids(*step)
        });
        // Without a step others may find room: the list is run again.
        if list.steps.len() == before {
            return after;
        }
    }
}

fn note_clears(list: &List, after: &After, collector: Collector, tally: &mut Tally) {
    for (step, [number, _]) in list.steps.iter().zip(&after.answers) {
        if *step == collector.collecting() {
            tally.note("collecting", *number);
        } else if collector.forbids(*step) {
            tally.note("forbidden", *number);
        } else if step.clears() && *number == OK {
            tally.note("other", step.kind.into());
        }
    }
}
