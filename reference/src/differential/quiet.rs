//! When a counter is quiet: in the words that the library's runs leave, exactly when the ledger's
//! received and cancelled sets of the card are equal. Told apart from what looks like it.

use super::alone::series;
use super::{against_ledgers, Tally};
use crate::ledger::Ledger;
use crate::library;
use crate::random::Random;

/// What quiet might be mistaken for. Each is tallied by whether it says the same of a read.
const MISTAKEN: [&str; 3] = ["value 0", "own entry", "sizes"];

/// `lists` lists of up to `longest` steps, every counter on every card of each.
pub fn random_lists(seed: u64, lists: u64, longest: u64) -> Tally {
    let mut tally = Tally::default();
    // With three cards a clear can overtake what it clears.
    let usual =
        |random: &mut Random| (random.between(3, 4) as usize, random.between(1, 2) as usize);
    for (case, mut random, list) in series(seed, lists, longest, usual) {
        let after = list.run(&mut random);
        let ledgers: Vec<Ledger> = (0..list.counters).map(|q| list.ledger(&after, q)).collect();
        let place = || format!("seed {seed} case {case}, {list:?}");
        for card in 0..list.cards {
            let words = list.replica(&after, card);
            against_ledgers(&ledgers, card, words, &place);
            for (counter, ledger) in ledgers.iter().enumerate() {
                note(&mut tally, library::read(words, counter as u64), ledger, card);
            }
        }
    }
    tally
}

fn note(tally: &mut Tally, read: library::Reading, ledger: &Ledger, card: usize) {
    let quiet = ledger.has_equal_sets(card);
    tally.note("quiet", quiet.into());
    let own_entry_absent = read.holders >> card & 1 == 0;
    let mistaken = [read.value == 0, own_entry_absent, ledger.has_sets_of_one_size(card)];
    for (name, says) in MISTAKEN.into_iter().zip(mistaken) {
        // What is quiet is so by each of them: they only say it too often.
        assert!(says || !quiet, "{name}");
        tally.note(name, (says == quiet).into());
    }
}

/// Panics unless each mistake was told apart often enough.
pub fn require_all(tally: &Tally, lists: u64) {
    tally.require("quiet", &[0, 1]);
    for name in MISTAKEN {
        tally.require(name, &[0, 1]);
        assert!(tally.times(name, 0) > lists / 400, "{name} is seldom told apart");
    }
}
