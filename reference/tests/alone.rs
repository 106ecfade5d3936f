//! Whole isolation of a counter in the library's runs: other counters might as well not exist, but
//! for the room in the logs.

use yelansub_reference::chassis::Step;
use yelansub_reference::differential::alone::{self, List};
use yelansub_reference::differential::{self, Tally};
use yelansub_reference::library::Reading;
use yelansub_reference::limits::*;
use yelansub_reference::random::Random;

#[test]
fn every_counter_alone_is_accepted_and_reads_the_same() {
    let (seed, lists) = (differential::seed(20_260_501), 10_000);
    let tally = alone::random_lists(seed, lists, 60);
    println!("{lists} lists from seed {seed}, every counter of each\n{tally}");
    alone::require_all(&tally, lists);
}

#[test]
fn counters_share_a_log_and_what_was_accepted_stands_alone() {
    // Room for two increments: counter 1 leaves none for counter 0's second count, and card 1's
    // clear of counter 0 none for that of counter 1.
    let log_bytes = 2 * INCREMENT_BYTES;
    let list = |steps: &[Step]| List { cards: 2, counters: 2, log_bytes, steps: steps.to_vec() };
    let both = list(&[
        Step::count_by(0, 0, 3),
        Step::count(0, 1),
        Step::count(0, 0),
        Step::deliver(1, 0),
        Step::read_and_clear(1, 0),
        Step::deliver(1, 0),
        Step::deliver(1, 0),
        Step::read_and_clear(1, 1),
    ]);
    let random = &mut Random::new(1);
    let after = both.run(random);
    let numbers = [OK, OK, LOG_FULL, OK, OK, OK, NOTHING_WAITING, LOG_FULL];
    assert_eq!(after.answers.iter().map(|answer| answer[0]).collect::<Vec<_>>(), numbers);
    // What is declined answers no value, though counter 1 reads 1 there.
    assert_eq!((after.answers[4], after.answers[7]), ([OK, 3], [LOG_FULL, 0]));
    assert_eq!(values(&both.reads(&after, 1)), [1, 1]);

    // So a list without counter 1 is answered otherwise, and read otherwise.
    let count_twice = [Step::count_by(0, 0, 3), Step::count(0, 0), Step::deliver(1, 0)];
    let without = list(&[&count_twice[..], &[Step::clear(1, 0)]].concat());
    let after_without = without.run(random);
    assert_eq!(after_without.answers, [[OK, 0]; 4]);
    assert_eq!(values(&without.reads(&after_without, 0)), [4, 0]);
    assert_eq!(values(&both.reads(&after, 0)), [3, 0]);

    // But the steps that were accepted need no other counter to be so.
    let (own, answers) = both.own(&after, 0);
    let steps = [Step::count_by(0, 0, 3), Step::deliver(1, 0), Step::read_and_clear(1, 0)];
    assert_eq!(own.steps, steps);
    assert_eq!(answers, [[OK, 0], [OK, 0], [OK, 3]]);
    assert_eq!(both.own(&after, 1).0.steps, [Step::count(0, 1), Step::deliver(1, 0)]);
    both.check(random, &|| "two counters".into(), &mut Tally::default());
}

fn values(reads: &[Reading]) -> Vec<u64> {
    reads.iter().map(|read| read.value).collect()
}
