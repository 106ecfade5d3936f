//! A count by w is w counts by one in a row, in the library's runs.
//! YELANSUB_SEED sets another seed.

use yelansub_reference::differential::{seed, units};

#[test]
fn a_run_leaves_what_its_single_steps_leave() {
    let (seed, lists) = (seed(20_260_901), 20_000);
    let tally = units::random_lists(seed, lists, 60);
    println!("{lists} lists from seed {seed}\n{tally}");
    units::require_all(&tally);
}
