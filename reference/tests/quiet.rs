//! A counter is quiet on a card exactly when the ledger's received and cancelled sets of that card
//! are equal, in the library's runs. YELANSUB_SEED sets another seed;
//! `cargo run --release --bin soak -- quiet 100000` makes more.

use yelansub_reference::chassis::Step;
use yelansub_reference::differential::alone::List;
use yelansub_reference::differential::{quiet, seed};
use yelansub_reference::library::{self, Reading};
use yelansub_reference::limits::*;
use yelansub_reference::listing::listing;
use yelansub_reference::random::Random;

#[test]
fn quiet_is_equal_sets() {
    let (seed, lists) = (seed(20_260_701), 40_000);
    let tally = quiet::random_lists(seed, lists, 60);
    println!("{lists} lists from seed {seed}\n{tally}");
    quiet::require_all(&tally, lists);
}

const COUNTED: [Step; 1] = [Step::count_by(0, 0, 3)];
/// Card 1 clears card 0's count, and the clear comes to card 2 first.
const OVERTAKEN: [Step; 4] =
    [Step::count(0, 0), Step::deliver(1, 0), Step::clear(1, 0), Step::deliver(2, 1)];

/// What card 2 of three reads of the one counter, and whether its ledger's sets are equal, and of
/// one size, and something is cancelled there before it has come.
fn card_2(steps: &[Step]) -> (Reading, [bool; 3]) {
    let list = List { cards: 3, counters: 1, log_bytes: 400, steps: steps.to_vec() };
    let after = list.run(&mut Random::new(1));
    assert!(after.answers.iter().all(|[number, _]| *number == OK));
    let ledger = list.ledger(&after, 0);
    let sets = [ledger.has_equal_sets(2), ledger.has_sets_of_one_size(2)];
    let read = library::read(list.replica(&after, 2), 0);
    (read, [sets[0], sets[1], ledger.has_cancelled_ahead(2)])
}

const fn reading(value: u64, holders: u64, holder_count: u64) -> Reading {
    Reading { number: OK, value, holders, holder_count }
}

#[test]
fn a_value_of_0_with_a_cancelled_count_under_way_is_not_quiet() {
    let (read, sets) = card_2(&OVERTAKEN);
    assert_eq!((read, read.is_quiet(), sets), (reading(0, 1, 1), false, [false, false, true]));
    let arrived = [&OVERTAKEN[..], &[Step::deliver(2, 0)]].concat();
    let (read, sets) = card_2(&arrived);
    assert_eq!((read, read.is_quiet(), sets), (reading(0, 0, 0), true, [true, true, false]));
}

/// It counts when it comes.
#[test]
fn a_count_under_way_that_is_not_cancelled_is_no_holder() {
    let (read, sets) = card_2(&COUNTED);
    assert_eq!((read, read.is_quiet(), sets), (reading(0, 0, 0), true, [true, true, false]));
    let (read, sets) = card_2(&[COUNTED[0], Step::deliver(2, 0)]);
    assert_eq!((read, read.is_quiet(), sets), (reading(3, 1, 1), false, [false, false, false]));
}

/// Two of four units have been cancelled before they have come; two have not.
#[test]
fn lots_that_are_cancelled_in_part() {
    let counts = [Step::count_by(0, 0, 2), Step::deliver(1, 0), Step::count_by(0, 0, 2)];
    let list = [&counts[..], &[Step::clear(1, 0), Step::deliver(2, 1)]].concat();
    let (read, sets) = card_2(&list);
    assert_eq!((read, read.is_quiet(), sets), (reading(0, 1, 1), false, [false, false, true]));
    let (read, sets) = card_2(&[&list[..], &[Step::deliver(2, 0)]].concat());
    assert_eq!((read, read.is_quiet(), sets), (reading(0, 0, 0), true, [true, true, false]));
    let (read, sets) = card_2(&[&list[..], &[Step::deliver(2, 0); 2]].concat());
    assert_eq!((read, read.is_quiet(), sets), (reading(2, 1, 1), false, [false, false, false]));
}

/// One name in each set, and not the same.
#[test]
fn sets_of_one_size_are_not_equal_sets() {
    let list = [&OVERTAKEN[..], &[Step::count(1, 0), Step::deliver(2, 1)]].concat();
    let (read, sets) = card_2(&list);
    assert_eq!((read, read.is_quiet(), sets), (reading(1, 3, 2), false, [false, true, true]));
}

/// All other numbers of a refused read are 0, its holders among them.
#[test]
fn a_refused_read_is_not_quiet() {
    let mut words = vec![0; replica_words(2, 1)];
    assert_eq!(library::open(&mut words, 2, 1, 0), OK);
    assert!(library::read(&words, 0).is_quiet());
    let read = library::read(&words, 1);
    assert_eq!((read.number, read.holders, read.is_quiet()), (BAD_COUNTER, 0, false));
}

/// The listing's last column: of card 2 it was 1 when quiet meant a value of 0.
#[test]
fn the_column_is_0_while_a_cancelled_count_is_under_way() {
    let mut input = [3u32, 1].map(u32::to_be_bytes).concat();
    input.extend(OVERTAKEN.iter().flat_map(|step| step.to_bytes()));
    let lines = |last: &str| {
        format!("card,counter,value,holders,quiet\r\n0,0,1,1,0\r\n1,0,0,0,1\r\n{last}\r\n")
    };
    assert_eq!(listing(&input), lines("2,0,0,1,0"));
    input.extend(Step::deliver(2, 0).to_bytes());
    assert_eq!(listing(&input), lines("2,0,0,0,1"));
}
