//! A log in the other version: the library against the reference, and converted messages against
//! cards of version 1.
//! YELANSUB_SEED sets another seed; `cargo run --release --bin soak -- convert 100000` makes more.

use yelansub_reference::differential::generate::Draft;
use yelansub_reference::differential::{convert, seed};
use yelansub_reference::limits::*;
use yelansub_reference::replica::{self, entry_at, increments_at, messages_at};
use yelansub_reference::version_1;

#[test]
fn logs_convert_as_the_reference_does_and_back() {
    let (seed, cases) = (seed(20_261_001), 10_000);
    let tallies = convert::random_logs(seed, cases);
    for (call, tally) in convert::CONVERTING.iter().zip(&tallies) {
        println!("{}, {cases} logs from seed {seed}\n{tally}", call.name);
    }
    convert::require_all(&tallies);
}

#[test]
fn every_byte_of_a_log_with_every_value() {
    let tallies = convert::every_byte_damaged();
    for (call, tally) in convert::CONVERTING.iter().zip(&tallies) {
        println!("{}\n{tally}", call.name);
    }
    convert::require_damaged(&tallies);
}

#[test]
fn converted_messages_leave_what_cards_of_version_1_leave() {
    let (seed, lists) = (seed(20_261_002), 10_000);
    let tally = convert::same_replicas(seed, lists, 60);
    println!("{lists} lists from seed {seed}\n{tally}");
    convert::require_replicas(&tally);
}

#[test]
fn old_and_new_cards_leave_what_cards_of_version_1_leave() {
    let (seed, lists) = (seed(20_261_003), 10_000);
    let tally = convert::together(seed, lists, 60);
    println!("{lists} lists from seed {seed}\n{tally}");
    convert::require_together(&tally);
}

// ---- the rules of version 1 at their edges

/// Card 1 of three on two counters. Every card has made ten messages and counted five.
fn card_of_three() -> Vec<u64> {
    let mut words = vec![0; replica_words(3, 2)];
    assert_eq!(replica::open(&mut words, 3, 2, 1), Ok(()));
    for card in 0..3 {
        words[increments_at(card)] = 5;
        words[messages_at(3, card)] = 10;
        words[entry_at(3, 0, card)].copy_from_slice(&[3, 1, 4]);
    }
    replica::mark(&mut words, 0);
    words
}

/// The next message of card 0, an increment.
fn next() -> Draft {
    Draft {
        version: MESSAGE_VERSION_1,
        kind: MESSAGE_INCREMENT,
        sender: 0,
        sequence: 11,
        counter: 0,
        p: 4,
        start: 0,
        amount: 0,
        entries: Vec::new(),
    }
}

fn take(words: &[u64], draft: &Draft) -> Result<Vec<u64>, u64> {
    let mut after = words.to_vec();
    let answer = version_1::take(&mut after, &draft.bytes());
    assert!(answer.is_ok() || after == words);
    answer.map(|_| after)
}

#[test]
fn version_1_asks_for_no_more_units_than_messages() {
    for card in 0..3 {
        for (increments, due) in [(9, None), (10, None), (11, Some(BAD_ROW)), (MAX, Some(BAD_ROW))]
        {
            let mut words = card_of_three();
            words[increments_at(card)] = increments;
            let mut out = [0; LONGEST_MESSAGE];
            assert_eq!(version_1::count(&mut words.clone(), 0, &mut out).err(), due);
            assert_eq!(version_1::clear(&mut words.clone(), 0, &mut out).err(), due);
            // Plausible whatever C is.
            assert_eq!(take(&words, &next()).err(), due);
            assert!(replica::read(&words, 0).is_ok());
        }
    }
}

#[test]
fn version_1_counts_to_its_last_message() {
    for (made, due) in [(MAX - 1, None), (MAX, Some(EXHAUSTED)), (MAX + 1, Some(BAD_ROW))] {
        for increments in [5, made] {
            let mut words = card_of_three();
            words[messages_at(3, 1)] = made;
            words[increments_at(1)] = increments;
            let mut out = [0; LONGEST_MESSAGE];
            assert_eq!(version_1::count(&mut words.clone(), 0, &mut out).err(), due);
            assert_eq!(version_1::clear(&mut words.clone(), 0, &mut out).err(), due);
        }
    }
    let (mut words, mut out) = (card_of_three(), [0; PLAIN_INCREMENT_BYTES]);
    assert_eq!(version_1::count(&mut words, 0, &mut out[1..]), Err(SHORT_OUTPUT));
    assert_eq!(version_1::count(&mut words, 2, &mut out), Err(BAD_COUNTER));
    assert_eq!(version_1::count(&mut words[1..], 0, &mut out), Err(BAD_REPLICA));
    assert_eq!((words, out), (card_of_three(), [0; PLAIN_INCREMENT_BYTES]));
}

/// p of what it sends, and what it leaves: on from C where there is no entry, and from p where there
/// is.
#[test]
fn version_1_counts_by_one() {
    let (words, mut out) = (card_of_three(), [0; PLAIN_INCREMENT_BYTES]);
    for (counter, p, start, entry) in [(0, 4, 0, [4, 1, 6]), (1, 6, 1, [6, 5, 6])] {
        let mut after = words.clone();
        let sent = version_1::count(&mut after, counter, &mut out).expect("accepted");
        assert_eq!((sent.sequence, sent.length), (11, 36));
        let draft = Draft { sender: 1, counter: counter as u32, p, start, ..next() };
        assert_eq!(out[..], draft.bytes());
        assert_eq!(after[entry_at(3, counter as usize, 1)], entry);
        assert_eq!((after[increments_at(1)], after[messages_at(3, 1)]), (6, 11));
    }
}

#[test]
fn version_1_takes_what_can_come_next() {
    let words = card_of_three();
    let number = |draft: Draft| take(&words, &draft).err().unwrap_or(OK);
    for (p, start, due) in [
        (1, 0, IMPLAUSIBLE),
        (2, 0, OK),
        (6, 0, OK),
        (7, 0, IMPLAUSIBLE),
        (5, 1, IMPLAUSIBLE),
        (6, 1, OK),
        (7, 1, IMPLAUSIBLE),
    ] {
        assert_eq!(number(Draft { p, start, ..next() }), due, "{p} {start}");
    }
    let clear = |entries: &[(u32, u64, u64)]| {
        number(Draft { kind: MESSAGE_CLEAR, entries: entries.to_vec(), ..next() })
    };
    assert_eq!([clear(&[(0, 1, 5)]), clear(&[(1, 1, 5)]), clear(&[(2, 1, 6)])], [OK; 3]);
    assert_eq!([clear(&[(0, 1, 6)]), clear(&[(1, 1, 6)])], [IMPLAUSIBLE; 2]);
    assert_eq!(clear(&[(3, 1, 1)]), BAD_CARD);
    assert_eq!(number(Draft { version: MESSAGE_VERSION, amount: 1, ..next() }), UNREADABLE);
    assert_eq!(number(Draft { counter: 2, ..next() }), BAD_COUNTER);
    assert_eq!(number(Draft { sender: 1, ..next() }), BAD_CARD);
    assert_eq!(number(Draft { sender: 3, ..next() }), BAD_CARD);
    assert_eq!(number(Draft { sequence: 10, ..next() }), REPEATED);
    assert_eq!(number(Draft { sequence: 12, ..next() }), EARLY);
}

#[test]
fn version_1_leaves_what_its_rules_say() {
    let after = |entry: [u64; 3], draft: Draft| {
        let mut words = card_of_three();
        words[entry_at(3, 0, 0)].copy_from_slice(&entry);
        let after = take(&words, &draft).expect("taken");
        assert_eq!(after[messages_at(3, 0)], 11);
        (after[increments_at(0)], after[entry_at(3, 0, 0)].to_vec())
    };
    let increment = |p, start| Draft { p, start, ..next() };
    assert_eq!(after([0, 0, 0], increment(6, 1)), (6, vec![6, 5, 6]));
    assert_eq!(after([0, 0, 0], increment(4, 0)), (6, vec![4, 3, 6]));
    assert_eq!(after([3, 1, 4], increment(6, 1)), (6, vec![6, 5, 6]));
    assert_eq!(after([3, 1, 4], increment(4, 0)), (6, vec![4, 1, 6]));
    assert_eq!(after([6, 6, 6], increment(4, 0)), (6, vec![0, 0, 0]));
    assert_eq!(after([7, 7, 7], increment(4, 0)), (6, vec![7, 7, 7]));
    let clear = |p, c| Draft { kind: MESSAGE_CLEAR, entries: vec![(0, p, c)], ..next() };
    assert_eq!(after([0, 0, 0], clear(4, 5)), (5, vec![0, 0, 0]));
    assert_eq!(after([3, 1, 4], clear(2, 3)), (5, vec![3, 2, 4]));
    assert_eq!(after([3, 1, 4], clear(3, 4)), (5, vec![0, 0, 0]));
    assert_eq!(after([3, 1, 7], clear(3, 4)), (5, vec![3, 3, 7]));
    // Of card 2, whose increments can be ahead of this card.
    let words = card_of_three();
    let ahead = Draft { kind: MESSAGE_CLEAR, counter: 1, entries: vec![(2, 5, 6)], ..next() };
    assert_eq!(take(&words, &ahead).expect("taken")[entry_at(3, 1, 2)], [5, 5, 6]);
}
