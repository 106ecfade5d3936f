//! The specification's scenarios, by name, through the library's calls and runs.

use yelansub_reference::chassis::{self, Buffers, Step};
use yelansub_reference::differential::generate::Draft;
use yelansub_reference::library;
use yelansub_reference::limits::*;
use yelansub_reference::listing::listing;
use yelansub_reference::replica::{entry_at, increments_at, messages_at};

const LOG_BYTES: usize = 4096;

const fn count(card: u32, counter: u32) -> Step {
    Step::count(card, counter)
}

const fn count_by(card: u32, counter: u32, amount: u32) -> Step {
    Step::count_by(card, counter, amount)
}

const fn clear(card: u32, counter: u32) -> Step {
    Step::clear(card, counter)
}

const fn read_and_clear(card: u32, counter: u32) -> Step {
    Step::read_and_clear(card, counter)
}

/// To the first card, from the second.
const fn deliver(receiver: u32, sender: u32) -> Step {
    Step::deliver(receiver, sender)
}

/// Every card's words and log after a run in which each step was accepted, and the values read.
struct After {
    cards: usize,
    counters: usize,
    words: Vec<u64>,
    logs: Vec<u8>,
    values: Vec<u64>,
}

fn after(cards: usize, counters: usize, steps: &[Step]) -> After {
    let bytes: Vec<u8> = steps.iter().flat_map(|step| step.to_bytes()).collect();
    let (r, k) = (cards as u64, counters as u64);
    let mut words = vec![9; cards * replica_words(cards, counters)];
    let mut logs = vec![9; cards * LOG_BYTES];
    let mut answers = vec![[9; ANSWER_WORDS]; steps.len()];
    let (mut our_words, mut our_logs, mut our_answers) =
        (words.clone(), logs.clone(), answers.clone());
    let flat = our_answers.as_flattened_mut();
    let lent = Buffers { words: &mut our_words, logs: &mut our_logs, answers: flat };
    chassis::run(r, k, LOG_BYTES as u64, &bytes, lent).unwrap();
    let flat = answers.as_flattened_mut();
    let lent = Buffers { words: &mut words, logs: &mut logs, answers: flat };
    assert_eq!(library::run(r, k, LOG_BYTES as u64, &bytes, lent), OK);
    assert!(answers.iter().all(|[number, _]| *number == OK), "{answers:?}");
    assert!(words == our_words && logs == our_logs && answers == our_answers);
    let values = answers.iter().map(|[_, value]| *value).collect();
    After { cards, counters, words, logs, values }
}

impl After {
    fn replica(&self, card: usize) -> &[u64] {
        let each = replica_words(self.cards, self.counters);
        &self.words[card * each..][..each]
    }

    /// The entry that `card` keeps for card `of` on `counter`: p, n and c.
    fn entry(&self, card: usize, counter: usize, of: usize) -> [u64; ENTRY_WORDS] {
        let words = &self.replica(card)[entry_at(self.cards, counter, of)];
        words.try_into().expect("an entry's words")
    }

    /// Value and holders.
    fn read(&self, card: usize, counter: u64) -> (u64, u64) {
        let reading = library::read(self.replica(card), counter);
        assert_eq!(reading.number, OK);
        assert_eq!(reading.holder_count, u64::from(reading.holders.count_ones()));
        (reading.value, reading.holders)
    }
}

const ABSENT: [u64; ENTRY_WORDS] = [0; ENTRY_WORDS];

fn fresh(cards: usize, counters: usize, own: u64) -> Vec<u64> {
    let mut words = vec![9; replica_words(cards, counters)];
    assert_eq!(library::open(&mut words, cards as u64, counters as u64, own), OK);
    words
}

/// The bytes of card 0's first count, but for their sequence, in this version.
fn first_count(version: u32, sequence: u64) -> Vec<u8> {
    let (kind, sender, counter, entries) = (MESSAGE_INCREMENT, 0, 0, Vec::new());
    let draft =
        Draft { version, kind, sender, sequence, counter, p: 1, start: 1, amount: 1, entries };
    draft.bytes()
}

const LISTED: [Step; 4] = [count(0, 0), deliver(1, 0), clear(1, 0), count(0, 0)];

#[test]
fn the_listing() {
    let run = after(2, 1, &LISTED);
    assert_eq!(run.read(0, 0), (2, 1));
    assert_eq!(run.read(1, 0), (0, 0));
    let mut input = [2u32, 1].map(u32::to_be_bytes).concat();
    input.extend(LISTED.iter().flat_map(|step| step.to_bytes()));
    let text = "card,counter,value,holders,quiet\r\n0,0,2,1,0\r\n1,0,0,0,1\r\n";
    assert_eq!(listing(&input), text);
    assert_eq!(listing(&input[..7]), "refused,11\r\n");
}

/// The same with a step of kind 4: it answers the drop that card 1 had seen, and leaves what the
/// clear leaves.
#[test]
fn the_listing_by_read_and_clear() {
    let (cleared, mut list) = (after(2, 1, &LISTED), LISTED);
    list[2] = read_and_clear(1, 0);
    let run = after(2, 1, &list);
    assert_eq!((&cleared.values[..], &run.values[..]), (&[0; 4][..], &[0, 0, 1, 0][..]));
    assert_eq!((run.words, run.logs), (cleared.words, cleared.logs));
}

#[test]
fn the_clear_comes_back_after_a_second_count() {
    let mut list = LISTED.to_vec();
    list.push(deliver(0, 1));
    let run = after(2, 1, &list);
    assert_eq!((run.entry(0, 0, 0), run.read(0, 0).0), ([2, 1, 2], 1));
    list.push(deliver(1, 0));
    let run = after(2, 1, &list);
    assert_eq!((run.entry(1, 0, 0), run.read(1, 0).0), ([2, 1, 2], 1));
}

#[test]
fn a_clear_before_its_increment() {
    let mut list = vec![count(0, 0), deliver(1, 0), clear(1, 0), deliver(2, 1)];
    let run = after(3, 1, &list);
    assert_eq!((run.entry(2, 0, 0), run.read(2, 0)), ([1, 1, 1], (0, 1)));
    list.push(deliver(2, 0));
    let run = after(3, 1, &list);
    assert_eq!((run.entry(2, 0, 0), run.read(2, 0)), (ABSENT, (0, 0)));
}

#[test]
fn a_new_start_before_the_clear_it_follows() {
    let mut list = vec![count(0, 0), deliver(1, 0), deliver(2, 0), clear(1, 0), deliver(0, 1)];
    list.extend([count(0, 0), deliver(2, 0)]);
    let run = after(3, 1, &list);
    assert_eq!((run.entry(2, 0, 0), run.read(2, 0).0), ([2, 1, 2], 1));
    list.push(deliver(2, 1));
    let run = after(3, 1, &list);
    assert_eq!((run.entry(2, 0, 0), run.read(2, 0).0), ([2, 1, 2], 1));
}

#[test]
fn a_start_after_counts_elsewhere() {
    let run = after(1, 2, &[count(0, 0), count(0, 0), count(0, 1)]);
    assert_eq!((run.entry(0, 1, 0), run.read(0, 1).0), ([3, 2, 3], 1));
}

#[test]
fn a_start_after_an_own_clear() {
    let run = after(1, 1, &[count(0, 0), clear(0, 0), count(0, 0)]);
    assert_eq!((run.entry(0, 0, 0), run.read(0, 0).0), ([2, 1, 2], 1));
}

#[test]
fn two_counts_read_and_cleared() {
    let run = after(1, 1, &[count(0, 0), count(0, 0), read_and_clear(0, 0)]);
    assert_eq!((&run.values[..], run.read(0, 0)), (&[0, 0, 2][..], (0, 0)));
}

#[test]
fn a_clear_of_nothing() {
    let mut words = fresh(2, 1, 0);
    let mut out = [0; clear_bytes(0)];
    let sent = library::clear(&mut words, 0, &mut out);
    assert_eq!(sent, library::Sent { number: OK, sequence: 1, length: clear_bytes(0) as u64 });
    assert_eq!((words[increments_at(0)], words[messages_at(2, 0)]), (0, 1), "C and N of card 0");
}

#[test]
fn a_read_and_clear_of_nothing() {
    let mut words = fresh(2, 1, 0);
    let mut out = [0; clear_bytes(0)];
    let cleared = library::read_and_clear(&mut words, 0, &mut out);
    let length = out.len() as u64;
    assert_eq!(cleared, library::Cleared { number: OK, value: 0, sequence: 1, length });
    assert_eq!((words[increments_at(0)], words[messages_at(2, 0)]), (0, 1), "C and N of card 0");
}

#[test]
fn an_output_byte_too_few() {
    let mut words = fresh(2, 1, 0);
    let before = words.clone();
    let mut out = [7; INCREMENT_BYTES];
    let short = library::count(&mut words, 0, 1, &mut out[1..]);
    assert_eq!(short, library::Sent { number: SHORT_OUTPUT, sequence: 0, length: 0 });
    assert_eq!((&words, out), (&before, [7; INCREMENT_BYTES]));
    let sent = library::count(&mut words, 0, 1, &mut out);
    assert_eq!(sent, library::Sent { number: OK, sequence: 1, length: INCREMENT_BYTES as u64 });
}

#[test]
fn sequences_in_turn() {
    let mut words = fresh(2, 1, 1);
    let mut take = |sequence| {
        let taken = library::take(&mut words, &first_count(MESSAGE_VERSION, sequence));
        (taken.number, taken.sequence)
    };
    assert_eq!(take(0), (UNREADABLE, 0));
    assert_eq!(take(2), (EARLY, 0));
    assert_eq!(take(1), (OK, 1));
    assert_eq!(take(1), (REPEATED, 0));
}

#[test]
fn lots_before_and_after_a_clear() {
    let counts = [count_by(0, 0, 3), deliver(1, 0), clear(0, 0), count_by(0, 0, 5)];
    let run = after(2, 1, &[&counts[..], &[deliver(1, 0); 2]].concat());
    assert_eq!((run.entry(1, 0, 0), run.read(1, 0).0), ([8, 3, 8], 5));
}

#[test]
fn amounts_that_a_step_cannot_have() {
    let answer = |step: Step| {
        let (mut words, mut logs) = (vec![9; 2 * replica_words(2, 1)], vec![9; 2 * LOG_BYTES]);
        let mut answers = [9; 2 * ANSWER_WORDS];
        let steps = [count(0, 0).to_bytes(), step.to_bytes()].concat();
        let lent = Buffers { words: &mut words, logs: &mut logs, answers: &mut answers };
        assert_eq!(library::run(2, 1, LOG_BYTES as u64, &steps, lent), OK);
        assert_eq!(answers[..3], [OK, 0, answers[2]]);
        answers[2]
    };
    assert_eq!(answer(count_by(0, 0, 0)), BAD_AMOUNT);
    assert_eq!(answer(count_by(0, 0, 65_536)), BAD_AMOUNT);
    for step in [clear(0, 0), read_and_clear(0, 0), deliver(1, 0)] {
        assert_eq!(answer(step), OK);
        assert_eq!(answer(Step { amount: 1, ..step }), BAD_AMOUNT);
    }
    assert_eq!(answer(Step { amount: 1, ..clear(0, 1) }), BAD_COUNTER);
}

/// The wrong turn "dropping an entry as soon as p = n", at a clear taken over a present entry.
#[test]
fn a_clear_that_knows_more_stays_until_the_rest_has_come() {
    let mut list = vec![count(0, 0), count(0, 0), deliver(1, 0), deliver(1, 0), deliver(2, 0)];
    list.extend([clear(1, 0), deliver(2, 1)]);
    let run = after(3, 1, &list);
    assert_eq!((run.entry(2, 0, 0), run.read(2, 0)), ([2, 2, 2], (0, 1)));
    list.push(deliver(2, 0));
    let run = after(3, 1, &list);
    assert_eq!((run.entry(2, 0, 0), run.read(2, 0)), (ABSENT, (0, 0)));
}

/// The same wrong turn at an increment that a clear has overtaken.
#[test]
fn an_overtaken_increment_leaves_the_entry_until_the_last_has_come() {
    let mut list = [[count(0, 0); 3], [deliver(1, 0); 3]].concat();
    list.extend([clear(1, 0), deliver(2, 1)]);
    for _ in 0..2 {
        list.push(deliver(2, 0));
        let run = after(3, 1, &list);
        assert_eq!((run.entry(2, 0, 0), run.read(2, 0)), ([3, 3, 3], (0, 1)));
    }
    list.push(deliver(2, 0));
    let run = after(3, 1, &list);
    assert_eq!((run.entry(2, 0, 0), run.read(2, 0)), (ABSENT, (0, 0)));
}

/// Source document 001, section 2: increment by 2, deliver, remove at the other card, increment
/// by 3 meanwhile. The ideal outcome there is 3, on both once everything has come.
#[test]
fn embedded_counter_keeps_the_concurrent_increment() {
    // One by one, and in lots.
    for (first, second) in [
        (vec![count(0, 0); 2], vec![count(0, 0); 3]),
        (vec![count_by(0, 0, 2)], vec![count_by(0, 0, 3)]),
    ] {
        let come = |counts: &[Step]| vec![deliver(1, 0); counts.len()];
        let mut list = [&first[..], &come(&first), &[clear(1, 0)], &second].concat();
        assert_eq!(after(2, 1, &list).read(0, 0).0, 5);
        assert_eq!(after(2, 1, &list).read(1, 0).0, 0);
        list.push(deliver(0, 1));
        assert_eq!(after(2, 1, &list).read(0, 0).0, 3);
        list.extend(come(&second));
        let run = after(2, 1, &list);
        assert_eq!((run.read(0, 0).0, run.read(1, 0).0), (3, 3));
    }
}

#[test]
fn bytes_past_a_cards_own_messages_are_no_message() {
    for (version, reads) in [(MESSAGE_VERSION, true), (MESSAGE_VERSION_1, false)] {
        let foreign = first_count(version, 1);
        let mut logs = [&foreign[..], &foreign].concat();
        let steps = deliver(1, 0).to_bytes();
        let mut words = vec![0; 2 * replica_words(2, 1)];
        let mut answers = [9; ANSWER_WORDS];
        let waits = library::waiting(&foreign, 1).length;
        assert_eq!(waits, if reads { foreign.len() as u64 } else { 0 });
        let lent = Buffers { words: &mut words, logs: &mut logs, answers: &mut answers };
        assert_eq!(library::run(2, 1, foreign.len() as u64, &steps, lent), OK);
        assert_eq!(answers, [NOTHING_WAITING, 0]);
        assert_eq!(logs, [&foreign[..], &foreign].concat());
    }
}

#[test]
fn nothing_lent() {
    assert_eq!(library::open(&mut [], 1, 1, 0), BAD_REPLICA);
    assert_eq!(library::read(&[], 0).number, BAD_REPLICA);
    assert_eq!(library::count(&mut [], 0, 1, &mut []).number, BAD_REPLICA);
    assert_eq!(library::clear(&mut [], 0, &mut []).number, BAD_REPLICA);
    assert_eq!(library::read_and_clear(&mut [], 0, &mut []).number, BAD_REPLICA);
    assert_eq!(library::take(&mut [], &[]).number, BAD_REPLICA);
    assert_eq!(library::read_message(&[]).number, UNREADABLE);
    assert_eq!(library::write_message(library::Message::default(), &mut []).number, UNREADABLE);
    assert_eq!(library::waiting(&[], 1), library::Span::default());
    let run = |cards, words: &mut [u64]| {
        let lent = Buffers { words, logs: &mut [], answers: &mut [] };
        library::run(cards, 1, 0, &[], lent)
    };
    assert_eq!(run(1, &mut []), BAD_SIZES);
    assert_eq!(library::deliver_pending(1, 1, 0, 1, &mut [], &[]).number, BAD_SIZES);
    let mut words = fresh(2, 1, 0);
    assert_eq!(library::count(&mut words, 0, 1, &mut []).number, SHORT_OUTPUT);
    assert_eq!(library::clear(&mut words, 0, &mut []).number, SHORT_OUTPUT);
    assert_eq!(library::read_and_clear(&mut words, 0, &mut []).number, SHORT_OUTPUT);
    assert_eq!(library::take(&mut words, &[]).number, UNREADABLE);
    let mut both = vec![7; 2 * words.len()];
    assert_eq!(run(2, &mut both), OK);
    assert_eq!(library::deliver_pending(2, 1, 0, 1, &mut both, &[]), library::Delivered::default());
}
