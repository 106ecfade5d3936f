//! What a card that alone clears a counter has read and cleared of it, with what it reads now, is all
//! that it has received: in the library's runs, and in a driver's calls over a bad network.
//! YELANSUB_SEED sets another seed; `cargo run --release --bin soak -- total 100000` makes more.

use yelansub_reference::chassis::Step;
use yelansub_reference::differential::alone::List;
use yelansub_reference::differential::seed;
use yelansub_reference::differential::total::{self, accepted, Collector, Total};
use yelansub_reference::limits::*;
use yelansub_reference::random::Random;

#[test]
fn the_answers_of_a_run_and_a_read_are_all_that_was_received() {
    let (seed, lists) = (seed(20_260_601), 60_000);
    let tally = total::random_lists(seed, lists, 80);
    println!("{lists} lists from seed {seed}\n{tally}");
    total::require_all(&tally, lists);
}

#[test]
fn the_answers_of_calls_and_a_read_are_all_that_was_received() {
    let (seed, calls) = (seed(20_260_602), 200_000);
    let tally = total::histories(seed, calls);
    println!("{calls} calls from seed {seed}\n{tally}");
    total::require_histories(&tally);
}

/// Of card 0 and counter 0, two cards and one counter.
fn total_of(steps: &[Step]) -> Total {
    let list = List { cards: 2, counters: 1, log_bytes: 400, steps: steps.to_vec() };
    let after = list.run(&mut Random::new(1));
    assert!(after.answers.iter().all(|[number, _]| *number == OK));
    let words = list.replica(&after, 0);
    Collector { card: 0, counter: 0 }.total(accepted(steps, &after.answers), words)
}

/// One drop of its own before the first evening; before the second another, and one of card 1's
/// two; the other one is the value now.
#[test]
fn four_drops_over_two_evenings() {
    let (drop, other, evening) = (Step::count(0, 0), Step::count(1, 0), Step::read_and_clear(0, 0));
    let come = Step::deliver(0, 1);
    let total = total_of(&[drop, evening, other, drop, other, come, evening, come]);
    assert_eq!(total, Total { answered: 3, answers: 2, value: 1, received: 4, own: 2 });
    assert!(total.comes_out());
}

/// The same in lots: by 3 and by 250, and card 1's by 40 and by 65,535.
#[test]
fn four_lots_over_two_evenings() {
    let (evening, come) = (Step::read_and_clear(0, 0), Step::deliver(0, 1));
    let by = |card: u32, amount: u32| Step::count_by(card, 0, amount);
    let before = [by(0, 3), evening, by(1, 40), by(0, 250), by(1, 65_535)];
    let total = total_of(&[&before[..], &[come, evening, come]].concat());
    let (answered, received) = (3 + 250 + 40, 3 + 250 + 40 + 65_535);
    assert_eq!(total, Total { answered, answers: 2, value: 65_535, received, own: 253 });
    assert!(total.comes_out());
}

/// Why no other card may clear the counter, and no plain clear may.
#[test]
fn what_is_cleared_otherwise_is_missing() {
    let drop = Step::count(0, 0);
    assert!(!total_of(&[drop, Step::clear(0, 0)]).comes_out());
    let to_the_other = [drop, Step::deliver(1, 0)];
    for clear in [Step::clear(1, 0), Step::read_and_clear(1, 0)] {
        let list = [&to_the_other[..], &[clear, Step::deliver(0, 1)]].concat();
        let missing = Total { received: 1, own: 1, ..Default::default() };
        assert_eq!(total_of(&list), missing);
    }
}
