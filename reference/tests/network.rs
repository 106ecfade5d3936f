//! A driver's calls on the library's replicas over a bad network, and what its theorem asks for.
//! YELANSUB_SEED sets another seed; `cargo run --release --bin soak -- network 1000000` makes more.

use yelansub_reference::differential::{self, network};
use yelansub_reference::library::{count, open, read, take};
use yelansub_reference::limits::*;

#[test]
fn histories_over_a_network_that_loses_repeats_reorders_and_damages() {
    let (seed, calls) = (differential::seed(20_260_401), 200_000);
    let tally = network::histories(seed, calls);
    println!("{calls} calls from seed {seed}\n{tally}");
    network::require_all(&tally);
}

/// Two cards and one counter.
fn opened() -> [Vec<u64>; 2] {
    [0, 1].map(|card| {
        let mut words = vec![9; replica_words(2, 1)];
        assert_eq!(open(&mut words, 2, 1, card), OK);
        words
    })
}

fn counted(words: &mut [u64]) -> [u8; INCREMENT_BYTES] {
    let mut message = [0; INCREMENT_BYTES];
    assert_eq!(count(words, 0, 3, &mut message).number, OK);
    message
}

/// Why nothing forged may be accepted: take cannot tell, and the true message comes too late.
#[test]
fn a_forged_message_counts() {
    let [mut first, mut second] = opened();
    let [_, mut elsewhere] = opened();
    let forged = counted(&mut elsewhere);
    assert_eq!(take(&mut first, &forged).number, OK);
    assert_eq!((read(&first, 0).value, read(&second, 0).value), (3, 0));
    let message = counted(&mut second);
    assert_eq!(take(&mut first, &message).number, REPEATED);
}

/// Why a card is opened once: what it writes after a second time is taken for repeated.
#[test]
fn a_card_opened_again_is_not_heard() {
    let [mut first, mut second] = opened();
    for _ in 0..2 {
        let message = counted(&mut first);
        assert_eq!(take(&mut second, &message).number, OK);
    }
    assert_eq!(open(&mut first, 2, 1, 0), OK);
    let message = counted(&mut first);
    assert_eq!(take(&mut second, &message).number, REPEATED);
    assert_eq!((read(&first, 0).value, read(&second, 0).value), (3, 6));
}
