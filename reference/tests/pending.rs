//! Delivering what waits: the library against the reference and against deliveries made one by one.
//! YELANSUB_SEED sets another seed; `cargo run --release --bin soak -- pending 100000` makes more.

use yelansub_reference::differential::{pending, seed};

#[test]
fn calls_after_runs_are_deliver_steps_in_rounds() {
    let (seed, lists) = (seed(20_260_801), 20_000);
    let tally = pending::after_runs(seed, lists, 60);
    println!("{lists} lists from seed {seed}\n{tally}");
    pending::require_runs(&tally);
}

#[test]
fn calls_on_any_words_and_logs_agree() {
    let (seed, cases) = (seed(20_260_802), 60_000);
    let tally = pending::random_states(seed, cases);
    println!("{cases} words and logs from seed {seed}\n{tally}");
    pending::require_states(&tally);
}

#[test]
fn every_list_of_two_cards_to_depth_5_with_every_most() {
    println!("r 2, k 1: {} calls", pending::every_most(2, 1, 1, 400, 5));
}

#[test]
fn every_list_of_three_cards_to_depth_4_with_every_most() {
    println!("r 3, k 1: {} calls", pending::every_most(3, 1, 2, 300, 4));
}
