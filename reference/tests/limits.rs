//! Every limit of the specification at its edge and one past it, with all else fitting: the library and
//! the reference both give the number due, and a refusal leaves everything as it was.

use std::fmt::Debug;

use yelansub_reference::chassis::{self, Answer, Buffers, Step};
use yelansub_reference::differential::convert::{Converting, CONVERTING};
use yelansub_reference::differential::convert::{TO_VERSION_1, TO_VERSION_2};
use yelansub_reference::differential::generate::{Draft, AMOUNTS, STEP_AMOUNTS};
use yelansub_reference::differential::{active, cleared, delivered, messages, number};
use yelansub_reference::differential::{reading, taken, written};
use yelansub_reference::differential::{Sending, CLEAR, COUNT, READ_AND_CLEAR, SENDING};
use yelansub_reference::limits::*;
use yelansub_reference::replica::{self, entry_at, increments_at, messages_at};
use yelansub_reference::replica::{ACTIVE_AT, CARDS_AT, COUNTERS_AT, OWN_AT};
use yelansub_reference::{library, message};

const CARDS: u64 = MOST_CARDS as u64;
const COUNTERS: u64 = MOST_COUNTERS as u64;
/// The last card of the largest chassis.
const LAST: u32 = MOST_CARDS as u32 - 1;

// ---- a call on both sides, from the same words and bytes

/// Both sides' answers are the same, and so is what they leave; that is `before` after a refusal.
fn agree<A: PartialEq + Debug, W: PartialEq + Debug>(
    what: &dyn Debug,
    answers: [A; 2],
    number: u64,
    after: [&W; 2],
    before: &W,
) -> u64 {
    assert_eq!(answers[0], answers[1], "{what:?}");
    assert_eq!(after[0], after[1], "{what:?}");
    assert!(number == OK || after[0] == before, "{what:?} was refused with {number} and wrote");
    number
}

fn open(len: usize, cards: u64, counters: u64, own: u64) -> u64 {
    let before = vec![9; len];
    let (mut ours, mut theirs) = (before.clone(), before.clone());
    let answer = library::open(&mut theirs, cards, counters, own);
    let due = number(replica::open(&mut ours, cards, counters, own));
    let what = (len, cards, counters, own);
    agree(&what, [answer, due], answer, [&theirs, &ours], &before)
}

fn read(words: &[u64], counter: u64) -> library::Reading {
    let answer = library::read(words, counter);
    assert_eq!(answer, reading(replica::read(words, counter)));
    answer
}

/// The number and the word.
fn active_counters(words: &[u64]) -> (u64, u64) {
    let answer = library::active_counters(words);
    assert_eq!(answer, active(replica::active(words)));
    (answer.number, answer.counters)
}

/// With an output of `room` bytes; a count is by 1.
fn send(call: &Sending, words: &mut Vec<u64>, counter: u64, room: usize) -> library::Cleared {
    send_by(call, words, counter, 1, room)
}

fn send_by(
    call: &Sending,
    words: &mut Vec<u64>,
    counter: u64,
    amount: u64,
    room: usize,
) -> library::Cleared {
    let before = (words.clone(), vec![9; room]);
    let (mut ours, mut theirs) = (before.clone(), before.clone());
    let answer = (call.theirs)(&mut theirs.0, counter, amount, &mut theirs.1);
    let due = cleared((call.ours)(&mut ours.0, counter, amount, &mut ours.1));
    agree(&(counter, amount, room), [answer, due], answer.number, [&theirs, &ours], &before);
    *words = theirs.0;
    answer
}

fn take(words: &mut Vec<u64>, bytes: &[u8]) -> u64 {
    let before = words.clone();
    let (mut ours, mut theirs) = (before.clone(), before.clone());
    let answer = library::take(&mut theirs, bytes);
    let due = taken(replica::take(&mut ours, bytes));
    agree(&bytes, [answer, due], answer.number, [&theirs, &ours], &before);
    *words = theirs;
    answer.number
}

/// With an output of `room` bytes; gives the number, and what was written.
fn convert(call: &Converting, log: &[u8], room: usize) -> (u64, Vec<u8>) {
    let (before, lent) = (vec![9; room], log.to_vec());
    let (mut ours, mut theirs) = (before.clone(), before.clone());
    let answer = (call.theirs)(&lent, &mut theirs);
    let due = written((call.ours)(log, &mut ours));
    let what = (call.name, log, room);
    agree(&what, [answer, due], answer.number, [&theirs, &ours], &before);
    assert_eq!(lent, log, "{what:?}");
    assert_eq!(theirs[answer.length..], before[answer.length..], "{what:?}");
    theirs.truncate(answer.length);
    (answer.number, theirs)
}

/// The run's number and the steps' answers; the run over records is the same.
fn run(cards: u64, counters: u64, log_bytes: usize, steps: &[Step]) -> (u64, Vec<Answer>) {
    let bytes: Vec<u8> = steps.iter().flat_map(|step| step.to_bytes()).collect();
    let (r, k, log) = (cards as usize, counters as usize, log_bytes as u64);
    let answers = vec![[9; ANSWER_WORDS]; steps.len()];
    let before = (vec![9; r * replica_words(r, k)], vec![9; r * log_bytes], answers);
    let on = |call: &dyn Fn(Buffers) -> u64| {
        let mut lent = before.clone();
        let answers = lent.2.as_flattened_mut();
        let number = call(Buffers { words: &mut lent.0, logs: &mut lent.1, answers });
        (number, lent)
    };
    let theirs = on(&|lent| library::run(cards, counters, log, &bytes, lent));
    let records = on(&|lent| library::run_records(cards, counters, log, steps, lent));
    let ours = on(&|lent| number(chassis::run(cards, counters, log, &bytes, lent)));
    assert_eq!(theirs, records, "{steps:?}");
    agree(&(cards, counters, steps), [theirs.0, ours.0], theirs.0, [&theirs.1, &ours.1], &before);
    (theirs.0, theirs.1 .2)
}

/// Sizes, words and logs for delivering what waits.
#[derive(Clone)]
struct Lent {
    cards: u64,
    counters: u64,
    log_bytes: u64,
    words: Vec<u64>,
    logs: Vec<u8>,
}

impl Lent {
    /// The number, and how many deliveries were made.
    fn deliver_pending(&mut self, most: u64) -> (u64, u64) {
        let (r, k, log) = (self.cards, self.counters, self.log_bytes);
        let (before, logs) = (self.words.clone(), self.logs.clone());
        let (mut ours, mut theirs) = (before.clone(), before.clone());
        let answer = library::deliver_pending(r, k, log, most, &mut theirs, &self.logs);
        let due = delivered(chassis::deliver_pending(r, k, log, most, &mut ours, &logs));
        agree(&(r, k, log, most), [answer, due], answer.number, [&theirs, &ours], &before);
        assert_eq!(self.logs, logs);
        self.words = theirs;
        (answer.number, answer.deliveries)
    }

    /// What the call answers after a change, with nothing delivered.
    fn number_with(&self, change: impl FnOnce(&mut Lent)) -> u64 {
        let mut lent = self.clone();
        change(&mut lent);
        let (number, deliveries) = lent.deliver_pending(0);
        assert_eq!(deliveries, 0);
        assert_eq!(lent.deliver_pending(u64::MAX).0, number);
        number
    }

    fn replica(&mut self, card: usize) -> &mut [u64] {
        let each = replica_words(self.cards as usize, self.counters as usize);
        &mut self.words[card * each..][..each]
    }

    fn log(&mut self, card: usize) -> &mut [u8] {
        &mut self.logs[card * self.log_bytes as usize..][..self.log_bytes as usize]
    }

    /// Message number q of the card, an increment among increments, becomes this; it may be shorter.
    fn rewrite(&mut self, card: usize, q: usize, draft: Draft) {
        let (at, bytes) = ((q - 1) * INCREMENT_BYTES, draft.bytes());
        self.log(card)[at..at + bytes.len()].copy_from_slice(&bytes);
    }
}

// ---- r, k and the own card

/// r, k and own card at every edge, and whether they are those of a replica.
fn heads() -> Vec<([u64; 3], bool)> {
    let mut list = Vec::new();
    for cards in [0, 1, 2, CARDS - 1, CARDS, CARDS + 1] {
        for counters in [0, 1, 2, COUNTERS - 1, COUNTERS, COUNTERS + 1] {
            for own in [0, cards.saturating_sub(1), cards, cards + 1, u64::MAX] {
                let right = cards <= CARDS && (1..=COUNTERS).contains(&counters) && own < cards;
                list.push(([cards, counters, own], right));
            }
        }
    }
    list
}

/// A fresh replica of these numbers, in range or not.
fn words_of(cards: u64, counters: u64, own: u64) -> Vec<u64> {
    let mut words = vec![0; replica_words(cards as usize, counters as usize)];
    (words[CARDS_AT], words[COUNTERS_AT], words[OWN_AT]) = (cards, counters, own);
    words
}

#[test]
fn a_replica_is_opened_within_the_limits_and_with_its_length() {
    for ([cards, counters, own], right) in heads() {
        let len = replica_words(cards as usize, counters as usize);
        let due = if right { OK } else { BAD_REPLICA };
        assert_eq!(open(len, cards, counters, own), due, "{cards} {counters} {own}");
        assert_eq!(open(len - 1, cards, counters, own), BAD_REPLICA);
        assert_eq!(open(len + 1, cards, counters, own), BAD_REPLICA);
    }
}

#[test]
fn words_are_a_replica_within_the_limits_and_with_its_length() {
    for ([cards, counters, own], right) in heads() {
        let mut words = words_of(cards, counters, own);
        let len = words.len();
        let due = if right { OK } else { BAD_REPLICA };
        assert_eq!(read(&words, 0).number, due, "{cards} {counters} {own}");
        assert_eq!(active_counters(&words), (due, 0), "{cards} {counters} {own}");
        for call in &SENDING {
            assert_eq!(send(call, &mut words.clone(), 0, LONGEST_MESSAGE).number, due);
        }
        let due = if right { UNREADABLE } else { BAD_REPLICA };
        assert_eq!(take(&mut words, &[]), due);
        words.push(0);
        assert_eq!(read(&words, 0).number, BAD_REPLICA);
        assert_eq!(active_counters(&words), (BAD_REPLICA, 0));
        words.truncate(len - 1);
        assert_eq!(read(&words, 0).number, BAD_REPLICA);
        assert_eq!(active_counters(&words), (BAD_REPLICA, 0));
    }
}

#[test]
fn a_run_is_within_the_limits() {
    for ([cards, counters, own], _) in heads() {
        let right = (1..=CARDS).contains(&cards) && (1..=COUNTERS).contains(&counters);
        if own == 0 {
            let due = if right { OK } else { BAD_SIZES };
            assert_eq!(run(cards, counters, 0, &[]).0, due, "{cards} {counters}");
        }
    }
}

// ---- counters, rows and sequences

/// Card 1 of three on two counters. Every card has made ten messages and counted five.
fn replica_of_three() -> Vec<u64> {
    let mut words = vec![0; replica_words(3, 2)];
    assert_eq!(library::open(&mut words, 3, 2, 1), OK);
    for card in 0..3 {
        words[increments_at(card)] = 5;
        words[messages_at(3, card)] = 10;
        for counter in 0..2 {
            words[entry_at(3, counter, card)].copy_from_slice(&[3, 1, 4]);
        }
    }
    words[ACTIVE_AT] = 0b11;
    words
}

/// The next message of card 0 on that replica, an increment.
fn next_of_card_0() -> Draft {
    Draft {
        version: MESSAGE_VERSION,
        kind: MESSAGE_INCREMENT,
        sender: 0,
        sequence: 11,
        counter: 0,
        p: 4,
        start: 0,
        amount: 1,
        entries: Vec::new(),
    }
}

fn next_clear_of_card_0(entries: &[(u32, u64, u64)]) -> Draft {
    Draft { kind: MESSAGE_CLEAR, entries: entries.to_vec(), ..next_of_card_0() }
}

#[test]
fn counters_below_k() {
    for (counter, due) in [(0, OK), (1, OK), (2, BAD_COUNTER), (u64::MAX, BAD_COUNTER)] {
        let words = replica_of_three();
        assert_eq!(read(&words, counter).number, due);
        for call in &SENDING {
            assert_eq!(send(call, &mut words.clone(), counter, LONGEST_MESSAGE).number, due);
        }
    }
    for (counter, due) in [(1, OK), (2, BAD_COUNTER), (COUNTERS - 1, BAD_COUNTER)] {
        let draft = Draft { counter: counter as u32, ..next_of_card_0() };
        assert_eq!(take(&mut replica_of_three(), &draft.bytes()), due, "{counter}");
    }
}

/// Every call on counter 0 after the changes finds its row well-formed, or none does. Counter 1's
/// row has kept its entries and its bit: it is as well-formed as C and N are.
fn row(changes: &[(usize, u64)], well_formed: bool) {
    let mut words = replica_of_three();
    for (at, word) in changes {
        words[*at] = *word;
    }
    let due = if well_formed { OK } else { BAD_ROW };
    assert_eq!(read(&words, 0).number, due, "{changes:?}");
    for call in &SENDING {
        let number = send(call, &mut words.clone(), 0, LONGEST_MESSAGE).number;
        // The own N may be MAX, and the own C.
        assert!(number == due || (well_formed && number == EXHAUSTED), "{changes:?}: {number}");
    }
    let number = take(&mut words.clone(), &next_of_card_0().bytes());
    assert_eq!(number == BAD_ROW, !well_formed, "{changes:?}: {number}");
    let of_all = |at: usize| (increments_at(0)..entry_at(3, 0, 0).start).contains(&at);
    let due = if changes.iter().all(|(at, _)| of_all(*at)) { due } else { OK };
    assert_eq!(read(&words, 1).number, due, "{changes:?}");
    assert_eq!(active_counters(&words), (OK, words[ACTIVE_AT]), "{changes:?}");
}

#[test]
fn well_formed_rows() {
    row(&[], true);
    for card in 0..3 {
        let (increments, messages) = (increments_at(card), messages_at(3, card));
        let at = entry_at(3, 0, card).start;
        let (p, n, c) = (at, at + 1, at + 2);
        row(&[(messages, MAX)], true);
        row(&[(messages, MAX + 1)], false);
        row(&[(messages, u64::MAX)], false);
        // C may be above N.
        row(&[(messages, 0)], true);
        row(&[(increments, 11)], true);
        row(&[(increments, MAX)], true);
        row(&[(increments, MAX + 1)], false);
        row(&[(increments, u64::MAX)], false);
        row(&[(increments, MAX), (messages, MAX)], true);
        row(&[(increments, MAX + 1), (messages, MAX)], false);
        row(&[(increments, MAX), (messages, MAX + 1)], false);
        row(&[(n, 0)], true);
        row(&[(n, 3)], true);
        row(&[(n, 4)], false);
        row(&[(p, 1)], true);
        row(&[(p, 0)], false);
        row(&[(p, 0), (n, 0)], false);
        row(&[(p, 0), (n, 0), (c, 0)], true);
        row(&[(p, 0), (c, 0)], false);
        row(&[(p, 4)], true);
        row(&[(p, 5)], false);
        row(&[(c, 3)], true);
        row(&[(c, 2)], false);
        // The own entry does not pass the own C; others' may.
        let own = card == 1;
        row(&[(c, 5)], true);
        row(&[(c, 6)], !own);
        row(&[(c, MAX)], !own);
        row(&[(p, MAX), (c, MAX)], !own);
        row(&[(c, MAX + 1)], false);
        row(&[(p, MAX), (n, MAX), (c, MAX), (increments, MAX)], true);
        row(&[(c, MAX + 1), (increments, MAX)], false);
    }
    // The bit of counter 0, and the entries of all cards.
    let none: Vec<(usize, u64)> =
        (entry_at(3, 0, 0).start..entry_at(3, 1, 0).start).map(|at| (at, 0)).collect();
    row(&[(ACTIVE_AT, 0b11)], true);
    row(&[(ACTIVE_AT, 0b10)], false);
    row(&none, false);
    row(&[&none[..], &[(ACTIVE_AT, 0b10)]].concat(), true);
    for card in 0..3 {
        let at = entry_at(3, 0, card).start;
        let one = [&none[..], &[(at, 1), (at + 1, 1), (at + 2, 1)]].concat();
        row(&one, true);
        row(&[&one[..], &[(ACTIVE_AT, 0b10)]].concat(), false);
    }
}

#[test]
fn the_last_message_of_a_card() {
    for call in &SENDING {
        let mut words = replica_of_three();
        words[messages_at(3, 1)] = MAX - 1;
        let last = send(call, &mut words, 0, LONGEST_MESSAGE);
        assert_eq!((last.number, last.sequence), (OK, MAX));
        for next in &SENDING {
            assert_eq!(send(next, &mut words, 0, LONGEST_MESSAGE).number, EXHAUSTED);
        }
        assert_eq!(read(&words, 0).number, OK);
    }
}

/// Every set of causes, as whether it has each of them, with the number of its first.
fn causes<const MANY: usize>(numbers: [u64; MANY]) -> impl Iterator<Item = ([bool; MANY], u64)> {
    (0..1 << MANY).map(move |set: usize| {
        let has: [bool; MANY] = core::array::from_fn(|cause| set >> cause & 1 == 1);
        let first = has.iter().position(|has| *has).map_or(OK, |cause| numbers[cause]);
        (has, first)
    })
}

/// Bits of a word of `replica_of_three` that are turned.
type Turn = (usize, u64);

/// What makes it no replica, and what makes counter 0's row not well-formed, in every pair: an own
/// card of 3, or a one at bit k; a p of 5, or counter 0's bit gone.
fn heads_and_rows() -> Vec<(Turn, Turn)> {
    let rows = [(entry_at(3, 0, 0).start, 3 ^ 5), (ACTIVE_AT, 0b001)];
    let heads = [(OWN_AT, 1 ^ 3), (ACTIVE_AT, 0b100)];
    heads.into_iter().flat_map(|head| rows.map(|row| (head, row))).collect()
}

fn turned(turns: [(Turn, bool); 2]) -> Vec<u64> {
    let mut words = replica_of_three();
    for ((at, bits), _) in turns.into_iter().filter(|(_, has)| *has) {
        words[at] ^= bits;
    }
    words
}

#[test]
fn refusals_of_a_read_in_their_order() {
    for (has, due) in causes([BAD_REPLICA, BAD_COUNTER, BAD_ROW]) {
        for (head, row) in heads_and_rows() {
            let words = turned([(head, has[0]), (row, has[2])]);
            assert_eq!(read(&words, if has[1] { 2 } else { 0 }).number, due, "{has:?}");
            // No row is looked at.
            let active = if has[0] { (BAD_REPLICA, 0) } else { (OK, words[ACTIVE_AT]) };
            assert_eq!(active_counters(&words), active, "{has:?}");
        }
    }
}

/// Each cause alone and every order: the first of a set of causes is answered.
#[test]
fn refusals_of_a_count_in_their_order() {
    let order = [BAD_REPLICA, BAD_COUNTER, BAD_AMOUNT, BAD_ROW, EXHAUSTED, SHORT_OUTPUT];
    let wrong = AMOUNTS.into_iter().filter(|amount| !is_amount(*amount));
    for (has, due) in causes(order) {
        for (amount, by_units) in wrong.clone().flat_map(|amount| [(amount, false), (amount, true)])
        {
            for (head, row) in heads_and_rows() {
                let mut words = turned([(head, has[0]), (row, has[3])]);
                let last = if by_units { increments_at(1) } else { messages_at(3, 1) };
                words[last] = if has[4] { MAX } else { words[last] };
                let counter = if has[1] { 2 } else { 0 };
                let amount = if has[2] { amount } else { 1 };
                let room = if has[5] { INCREMENT_BYTES - 1 } else { INCREMENT_BYTES };
                let answer = send_by(&COUNT, &mut words, counter, amount, room);
                assert_eq!(answer.number, due, "{has:?}, {amount}");
            }
        }
    }
}

#[test]
fn refusals_of_a_clear_in_their_order() {
    let order = [BAD_REPLICA, BAD_COUNTER, BAD_ROW, EXHAUSTED, SHORT_OUTPUT];
    for (has, due) in causes(order) {
        for (call, (head, row)) in [CLEAR, READ_AND_CLEAR]
            .iter()
            .flat_map(|call| heads_and_rows().into_iter().map(move |wrong| (call, wrong)))
        {
            let mut words = turned([(head, has[0]), (row, has[2])]);
            words[messages_at(3, 1)] = if has[3] { MAX } else { 10 };
            let counter = if has[1] { 2 } else { 0 };
            let room = if has[4] { clear_bytes(3) - 1 } else { clear_bytes(3) };
            assert_eq!(send(call, &mut words, counter, room).number, due, "{has:?}");
        }
    }
}

/// The sequence is a repeated one or an early one; a message of version 1 does not read.
#[test]
fn refusals_of_a_take_in_their_order() {
    for (sequence, number) in [(10, REPEATED), (12, EARLY)] {
        let order = [BAD_REPLICA, UNREADABLE, BAD_COUNTER, BAD_ROW, BAD_CARD, number, IMPLAUSIBLE];
        for (has, due) in causes(order) {
            for (head, row) in heads_and_rows() {
                let mut words = turned([(head, has[0]), (row, has[3])]);
                let draft = Draft {
                    version: if has[1] { MESSAGE_VERSION_1 } else { MESSAGE_VERSION },
                    counter: if has[2] { 2 } else { 0 },
                    sender: u32::from(has[4]),
                    sequence: if has[5] { sequence } else { 11 },
                    p: if has[6] { 9 } else { 4 },
                    ..next_of_card_0()
                };
                assert_eq!(take(&mut words, &draft.bytes()), due, "{has:?}");
            }
        }
    }
}

// ---- amounts

#[test]
fn amounts_of_a_count() {
    for amount in AMOUNTS {
        let due = if (1..=65_535).contains(&amount) { OK } else { BAD_AMOUNT };
        let mut words = replica_of_three();
        let answer = send_by(&COUNT, &mut words, 0, amount, INCREMENT_BYTES);
        assert_eq!(answer.number, due, "{amount}");
        if due == OK {
            assert_eq!(words[entry_at(3, 0, 1)], [3 + amount, 1, 5 + amount]);
            assert_eq!((words[increments_at(1)], words[messages_at(3, 1)]), (5 + amount, 11));
        }
    }
}

/// Where the own entry is absent p goes on from C, where it is not from its p.
#[test]
fn the_last_units_of_a_card() {
    for amount in [1, 2, 9, MOST_AMOUNT] {
        for (increments, due) in [
            (MAX - amount - 1, OK),
            (MAX - amount, OK),
            (MAX - amount + 1, EXHAUSTED),
            (MAX - 1, if amount == 1 { OK } else { EXHAUSTED }),
            (MAX, EXHAUSTED),
        ] {
            for entry in [[0, 0, 0], [3, 1, 4], [increments, 1, increments]] {
                let mut words = replica_of_three();
                words[increments_at(1)] = increments;
                words[entry_at(3, 0, 1)].copy_from_slice(&entry);
                let mut after = words.clone();
                let answer = send_by(&COUNT, &mut after, 0, amount, INCREMENT_BYTES);
                assert_eq!(answer.number, due, "{increments} {amount}");
                if due == OK {
                    let c = increments + amount;
                    let entry = match entry {
                        [0, ..] => [c, increments, c],
                        [p, n, _] => [p + amount, n, c],
                    };
                    assert_eq!(after[entry_at(3, 0, 1)], entry);
                    assert_eq!(after[increments_at(1)], c);
                }
                // A clear counts nothing.
                for clear in [CLEAR, READ_AND_CLEAR] {
                    let mut words = words.clone();
                    assert_eq!(send(&clear, &mut words, 0, LONGEST_MESSAGE).number, OK);
                }
            }
        }
    }
}

/// What the most cards can have counted at most; the own card, which is card 0, has counted `own`.
fn all_counted(own: u64) -> Vec<u64> {
    let mut words = vec![0; replica_words(MOST_CARDS, 1)];
    assert_eq!(library::open(&mut words, CARDS, 1, 0), OK);
    for card in 0..MOST_CARDS {
        let most = if card == 0 { own } else { MAX };
        (words[increments_at(card)], words[messages_at(MOST_CARDS, card)]) = (most, most);
        words[entry_at(MOST_CARDS, 0, card)].copy_from_slice(&[most, 0, most]);
    }
    words[ACTIVE_AT] = 1;
    words
}

#[test]
fn the_largest_value_read() {
    let reading = read(&all_counted(MAX), 0);
    assert_eq!((reading.number, reading.value), (OK, CARDS * MAX));
    assert_eq!(reading.value.to_string().len(), 16);
    assert_eq!(reading.holders, (1 << MOST_CARDS) - 1);
}

/// Of all but the own card's last: a card with that has made its last message.
#[test]
fn the_largest_value_read_and_cleared() {
    let mut words = all_counted(MAX - 1);
    let value = CARDS * MAX - 1;
    assert_eq!(read(&words, 0).value, value);
    let answer = send(&READ_AND_CLEAR, &mut words, 0, LONGEST_MESSAGE);
    let length = LONGEST_MESSAGE as u64;
    assert_eq!(answer, library::Cleared { number: OK, value, sequence: MAX, length });
    assert_eq!(read(&words, 0), library::Reading::default());
}

#[test]
fn sequences_taken() {
    let take_numbered = |received: u64, sequence: u64| {
        let mut words = replica_of_three();
        words[messages_at(3, 0)] = received;
        take(&mut words, &Draft { sequence, ..next_of_card_0() }.bytes())
    };
    assert_eq!(take_numbered(10, 0), UNREADABLE);
    assert_eq!(take_numbered(10, 1), REPEATED);
    assert_eq!(take_numbered(10, 10), REPEATED);
    assert_eq!(take_numbered(10, 11), OK);
    assert_eq!(take_numbered(10, 12), EARLY);
    assert_eq!(take_numbered(10, MAX), EARLY);
    assert_eq!(take_numbered(10, MAX + 1), UNREADABLE);
    assert_eq!(take_numbered(MAX - 1, MAX), OK);
    assert_eq!(take_numbered(MAX - 2, MAX), EARLY);
    assert_eq!(take_numbered(MAX, MAX), REPEATED);
    assert_eq!(take_numbered(MAX, MAX + 1), UNREADABLE);
}

// ---- fields of a message

#[test]
fn senders_taken() {
    // A sender that is not there, and one that no message can have.
    for cards in [2, MOST_CARDS - 1, MOST_CARDS] {
        let mut words = vec![0; replica_words(cards, 1)];
        assert_eq!(library::open(&mut words, cards as u64, 1, 0), OK);
        let mut take_from = |sender: usize| {
            let draft = Draft { sequence: 1, p: 1, start: 1, ..next_of_card_0() };
            take(&mut words, &Draft { sender: sender as u32, ..draft }.bytes())
        };
        assert_eq!(take_from(0), BAD_CARD);
        assert_eq!(take_from(cards - 1), OK);
        let past = if cards < MOST_CARDS { BAD_CARD } else { UNREADABLE };
        assert_eq!(take_from(cards), past);
        assert_eq!(take_from(MOST_CARDS), UNREADABLE);
        assert_eq!(take_from(u32::MAX as usize), UNREADABLE);
    }
}

#[test]
fn fields_that_no_message_has() {
    let next = next_of_card_0;
    let clear = next_clear_of_card_0;
    let cards = MOST_CARDS as u32;
    assert_eq!(take(&mut replica_of_three(), &next().bytes()), OK);
    assert_eq!(take(&mut replica_of_three(), &clear(&[(0, 1, 1)]).bytes()), OK);
    let wrong = [
        Draft { version: 0, ..next() },
        Draft { version: MESSAGE_VERSION + 1, ..next() },
        Draft { version: MESSAGE_VERSION + 1, ..clear(&[]) },
        Draft { amount: 0, ..next() },
        Draft { amount: MOST_AMOUNT as u32 + 1, ..next() },
        Draft { amount: u32::MAX, ..next() },
        Draft { kind: 0, ..clear(&[]) },
        Draft { kind: MESSAGE_CLEAR + 1, ..clear(&[]) },
        Draft { counter: MOST_COUNTERS as u32, ..next() },
        Draft { p: 0, ..next() },
        Draft { p: MAX + 1, ..next() },
        Draft { start: 2, ..next() },
        clear(&[(cards, 1, 1)]),
        clear(&[(0, 0, 1)]),
        clear(&[(0, 0, 0)]),
        clear(&[(0, 2, 1)]),
        clear(&[(2, 1, MAX + 1)]),
        clear(&[(2, MAX + 1, MAX + 1)]),
        clear(&[(0, 1, 1), (0, 1, 1)]),
        clear(&[(1, 1, 1), (0, 1, 1)]),
    ];
    for draft in wrong {
        assert_eq!(take(&mut replica_of_three(), &draft.bytes()), UNREADABLE, "{draft:?}");
        assert_eq!(message::read_alone(&draft.bytes()), None);
        assert_eq!(library::read_message(&draft.bytes()).number, UNREADABLE, "{draft:?}");
    }
}

/// They read alone, and are no message to a card. In version 2 they would be taken.
#[test]
fn messages_of_version_1() {
    for right in [next_of_card_0(), next_clear_of_card_0(&[]), next_clear_of_card_0(&[(0, 1, 1)])] {
        assert_eq!(take(&mut replica_of_three(), &right.bytes()), OK);
        let mut bytes = Draft { version: MESSAGE_VERSION_1, ..right.clone() }.bytes();
        assert_eq!(take(&mut replica_of_three(), &bytes), UNREADABLE);
        let read = library::read_message(&bytes);
        assert_eq!(read, messages::reading(message::read_alone(&bytes)));
        assert_eq!((read.number, read.message.version, read.message.amount), (OK, 1, 0));
        // Nor is one whose version alone is another: it has the other's length.
        let own = bytes.clone();
        bytes[3] = MESSAGE_VERSION as u8;
        let same = right.kind == MESSAGE_CLEAR;
        let due = if same { OK } else { UNREADABLE };
        assert_eq!(take(&mut replica_of_three(), &bytes), due);
        assert_eq!(library::read_message(&bytes).number, due);
        bytes = right.bytes();
        bytes[3] = MESSAGE_VERSION_1 as u8;
        assert_eq!(library::read_message(&bytes).number, due);
        assert_eq!(bytes == own, same);
    }
}

/// A record has one form: an amount is 0 in version 1 and in a clear.
#[test]
fn amounts_of_a_record() {
    let write = |draft: &Draft, amount: u32| {
        let form = library::read_message(&draft.bytes());
        assert_eq!(form.number, OK, "{draft:?}");
        let mut out = [9; LONGEST_MESSAGE];
        let form = library::Message { amount, ..form.message };
        let written = library::write_message(form, &mut out);
        assert!(written.number == OK || out == [9; LONGEST_MESSAGE]);
        (written.number, written.length)
    };
    let [current, plain] = [MESSAGE_VERSION, MESSAGE_VERSION_1].map(|version| {
        [next_of_card_0(), next_clear_of_card_0(&[])].map(|d| Draft { version, ..d })
    });
    for amount in STEP_AMOUNTS {
        let right = if is_amount(amount.into()) { (OK, INCREMENT_BYTES) } else { (UNREADABLE, 0) };
        assert_eq!(write(&current[0], amount), right, "{amount}");
        let unused = |length: usize| if amount == 0 { (OK, length) } else { (UNREADABLE, 0) };
        assert_eq!(write(&plain[0], amount), unused(PLAIN_INCREMENT_BYTES), "{amount}");
        for clear in [&current[1], &plain[1]] {
            assert_eq!(write(clear, amount), unused(clear_bytes(0)), "{amount}");
        }
    }
}

#[test]
fn increments_that_can_come_next() {
    // C of the sender, then amount, p and start.
    let take_increment = |increments: u64, amount: u64, p: u64, start: u32| {
        let mut words = replica_of_three();
        words[increments_at(0)] = increments;
        take(&mut words, &Draft { amount: amount as u32, p, start, ..next_of_card_0() }.bytes())
    };
    for amount in [1, 2, 9, MOST_AMOUNT] {
        for increments in [1, 5, MAX - amount - 1, MAX - amount] {
            let next = increments + amount;
            let past = if next == MAX { UNREADABLE } else { IMPLAUSIBLE };
            let take = |p, start| take_increment(increments, amount, p, start);
            assert_eq!(take(next - 1, 1), IMPLAUSIBLE);
            assert_eq!(take(next, 1), OK);
            assert_eq!(take(next + 1, 1), past);
            // Without start p is above the amount: less reads, and cannot come.
            assert_eq!(take(1, 0), IMPLAUSIBLE);
            assert_eq!(take(amount, 0), IMPLAUSIBLE);
            assert_eq!(take(amount + 1, 0), OK);
            assert_eq!(take(next, 0), OK);
            assert_eq!(take(next + 1, 0), past);
        }
        assert_eq!(take_increment(0, amount, amount, 1), OK);
        assert_eq!(take_increment(0, amount, amount, 0), IMPLAUSIBLE);
        assert_eq!(take_increment(0, amount, amount + 1, 0), IMPLAUSIBLE);
        assert_eq!(take_increment(5, amount, MAX, 1), IMPLAUSIBLE);
        // C + w above MAX, which no p is.
        for increments in [MAX - amount + 1, MAX] {
            for p in [amount + 1, MAX - 1, MAX] {
                assert_eq!(take_increment(increments, amount, p, 0), IMPLAUSIBLE);
                assert_eq!(take_increment(increments, amount, p, 1), IMPLAUSIBLE);
            }
        }
    }
}

/// Absent, or with start: n is p less the amount. Otherwise n stays.
#[test]
fn what_an_increment_leaves() {
    let after = |entry: [u64; 3], p: u64, start: u32| {
        let mut words = replica_of_three();
        words[entry_at(3, 0, 0)].copy_from_slice(&entry);
        let draft = Draft { amount: 4, p, start, ..next_of_card_0() };
        assert_eq!(take(&mut words, &draft.bytes()), OK);
        assert_eq!((words[increments_at(0)], words[messages_at(3, 0)]), (9, 11));
        words[entry_at(3, 0, 0)].to_vec()
    };
    assert_eq!(after([0, 0, 0], 9, 1), [9, 5, 9]);
    assert_eq!(after([0, 0, 0], 7, 0), [7, 3, 9]);
    assert_eq!(after([3, 1, 4], 9, 1), [9, 5, 9]);
    assert_eq!(after([3, 1, 4], 7, 0), [7, 1, 9]);
    // A clear of all of it has come before; and one of more.
    assert_eq!(after([9, 9, 9], 7, 0), [0, 0, 0]);
    assert_eq!(after([10, 10, 10], 7, 0), [10, 10, 10]);
}

#[test]
fn clears_that_can_come_next() {
    let take_clear = |card: u32, p: u64, c: u64| {
        take(&mut replica_of_three(), &next_clear_of_card_0(&[(card, p, c)]).bytes())
    };
    // C of the sender and of the own card is 5, and nobody can have heard of more.
    for known in [0, 1] {
        assert_eq!(take_clear(known, 5, 5), OK);
        assert_eq!(take_clear(known, 1, 6), IMPLAUSIBLE);
        assert_eq!(take_clear(known, MAX, MAX), IMPLAUSIBLE);
    }
    assert_eq!(take_clear(2, 1, 6), OK);
    assert_eq!(take_clear(2, MAX, MAX), OK);
    assert_eq!(take_clear(2, MAX, MAX + 1), UNREADABLE);
    assert_eq!(take_clear(3, 1, 1), BAD_CARD);
    assert_eq!(take_clear(LAST, 1, 1), BAD_CARD);
    assert_eq!(take_clear(LAST + 1, 1, 1), UNREADABLE);
}

/// Every number of entries that a clear can have, and one more: made, too long for an output that
/// is a byte too short, and taken.
#[test]
fn entries_of_a_clear() {
    for (entries, call) in (0..=MOST_CARDS).flat_map(|e| [(e, CLEAR), (e, READ_AND_CLEAR)]) {
        let mut cards: Vec<Vec<u64>> = (0..MOST_CARDS as u64)
            .map(|own| {
                let mut words = vec![0; replica_words(MOST_CARDS, MOST_COUNTERS)];
                assert_eq!(library::open(&mut words, CARDS, COUNTERS, own), OK);
                words
            })
            .collect();
        let counter = COUNTERS - 1;
        let words = &mut cards[0];
        for card in 0..entries {
            (words[increments_at(card)], words[messages_at(MOST_CARDS, card)]) = (1, 1);
            words[entry_at(MOST_CARDS, counter as usize, card)].copy_from_slice(&[1, 0, 1]);
        }
        words[ACTIVE_AT] = u64::from(entries > 0) << counter;
        let read = read(words, counter);
        assert_eq!((read.value, read.holder_count), (entries as u64, entries as u64));
        assert_eq!(read.holders, (1 << entries) - 1);
        let length = clear_bytes(entries);
        for short in [0, length - 1] {
            let answer = send(&call, &mut words.clone(), counter, short);
            assert_eq!((answer.number, answer.value), (SHORT_OUTPUT, 0));
        }
        let mut bytes = vec![0; length];
        let made = (call.theirs)(&mut words.clone(), counter, 0, &mut bytes);
        let value = if call.kind == STEP_READ_AND_CLEAR { read.value } else { 0 };
        assert_eq!((made.number, made.value, made.length), (OK, value, length as u64));
        assert_eq!(send(&call, &mut words.clone(), counter, length + 1), made);
        assert_eq!(send(&call, words, counter, length), made);
        // Card 1, where it has had nothing but card 0's counts.
        let words = &mut cards[1];
        words[messages_at(MOST_CARDS, 0)] = made.sequence - 1;
        words[increments_at(0)] = made.sequence - 1;
        (words[increments_at(1)], words[messages_at(MOST_CARDS, 1)]) = (1, 1);
        assert_eq!(take(words, &bytes), OK, "{entries} entries");
    }
    let one_more: Vec<_> = (0..=MOST_CARDS as u32).map(|card| (card, 1, 1)).collect();
    let draft = next_clear_of_card_0(&one_more);
    assert_eq!(take(&mut replica_of_three(), &draft.bytes()), UNREADABLE);
    assert_eq!(library::read_message(&draft.bytes()).number, UNREADABLE);
}

#[test]
fn outputs_of_an_increment() {
    for (room, due) in [
        (0, SHORT_OUTPUT),
        (INCREMENT_BYTES - 1, SHORT_OUTPUT),
        (INCREMENT_BYTES, OK),
        (INCREMENT_BYTES + 1, OK),
    ] {
        let answer = send(&COUNT, &mut replica_of_three(), 0, room);
        let length = if due == OK { INCREMENT_BYTES as u64 } else { 0 };
        assert_eq!((answer.number, answer.length), (due, length));
    }
}

// ---- steps and logs

/// Whether a step of the kind can have the amount.
fn fits(kind: u32, amount: u32) -> bool {
    if kind == STEP_COUNT {
        (1..=65_535).contains(&amount)
    } else {
        amount == 0
    }
}

#[test]
fn numbers_of_a_step() {
    let both_words = |step: Step| {
        let (number, answers) = run(2, 2, LONGEST_MESSAGE, &[Step::count(0, 0), step]);
        assert_eq!((number, answers[0]), (OK, [OK, 0]));
        answers[1]
    };
    let answer = |step: Step| {
        let [number, value] = both_words(step);
        assert_eq!(value, 0, "{step:?}");
        number
    };
    for kind in (0..9).chain([u32::MAX]) {
        let due = if STEP_KINDS.contains(&kind) { OK } else { BAD_KIND };
        // Card 1 and counter 0, or to card 1 from card 0.
        let step = Step { kind, amount: u32::from(kind == STEP_COUNT), ..Step::clear(1, 0) };
        assert_eq!(answer(step), due, "{kind}");
        for amount in STEP_AMOUNTS {
            let due = if due == OK && !fits(kind, amount) { BAD_AMOUNT } else { due };
            assert_eq!(answer(Step { amount, ..step }), due, "{kind}, {amount}");
        }
    }
    assert_eq!(both_words(Step::read_and_clear(0, 0)), [OK, 1]);
    assert_eq!(both_words(Step::clear(0, 0)), [OK, 0]);
    for call in [Step::count, Step::clear, Step::read_and_clear] {
        assert_eq!(answer(call(1, 1)), OK);
        assert_eq!(answer(call(2, 1)), BAD_CARD);
        assert_eq!(answer(call(u32::MAX, 1)), BAD_CARD);
        assert_eq!(answer(call(1, 2)), BAD_COUNTER);
        assert_eq!(answer(call(1, u32::MAX)), BAD_COUNTER);
        assert_eq!(answer(call(2, 2)), BAD_CARD);
    }
    assert_eq!(answer(Step::deliver(1, 0)), OK);
    assert_eq!(answer(Step::deliver(0, 1)), NOTHING_WAITING);
    assert_eq!(answer(Step::deliver(0, 0)), BAD_CARD);
    assert_eq!(answer(Step::deliver(2, 0)), BAD_CARD);
    assert_eq!(answer(Step::deliver(1, 2)), BAD_CARD);
    assert_eq!(answer(Step::deliver(u32::MAX, u32::MAX)), BAD_CARD);
}

/// Every set of causes that a step can have, but for 4, which needs MAX messages or units.
#[test]
fn refusals_of_a_step_in_their_order() {
    let wrong = |kind: u32| STEP_AMOUNTS.into_iter().filter(move |amount| !fits(kind, *amount));
    for (has, due) in causes([BAD_KIND, BAD_CARD, BAD_COUNTER, BAD_AMOUNT, LOG_FULL]) {
        for kind in [STEP_COUNT, STEP_CLEAR, STEP_READ_AND_CLEAR] {
            for amount in wrong(kind) {
                let step = Step {
                    kind: if has[0] { 5 } else { kind },
                    first: if has[1] { 2 } else { 1 },
                    second: if has[2] { 2 } else { 1 },
                    amount: if has[3] { amount } else { u32::from(kind == STEP_COUNT) },
                };
                let log_bytes = if has[4] { clear_bytes(0) - 1 } else { LONGEST_MESSAGE };
                assert_eq!(run(2, 2, log_bytes, &[step]).1, [[due, 0]], "{step:?}");
            }
        }
    }
    for (has, due) in causes([BAD_KIND, BAD_CARD, BAD_AMOUNT, NOTHING_WAITING]) {
        for (amount, sender) in wrong(STEP_DELIVER).flat_map(|amount| [(amount, 1), (amount, 2)]) {
            let step = Step {
                kind: if has[0] { 5 } else { STEP_DELIVER },
                first: 1,
                second: if has[1] { sender } else { 0 },
                amount: if has[2] { amount } else { 0 },
            };
            let made = if has[3] { Step::clear(1, 0) } else { Step::clear(0, 0) };
            let answers = run(2, 2, LONGEST_MESSAGE, &[made, step]).1;
            assert_eq!(answers, [[OK, 0], [due, 0]], "{step:?}");
        }
    }
}

#[test]
fn steps_are_whole() {
    // Twelve bytes more are no step without an amount.
    for (extra, due) in [(0, OK), (1, BAD_SIZES), (12, BAD_SIZES), (STEP_BYTES - 1, BAD_SIZES)] {
        let steps = [&Step::count(0, 0).to_bytes()[..], &vec![0; extra]].concat();
        let (mut words, mut logs) = (vec![9; replica_words(1, 1)], vec![9; INCREMENT_BYTES]);
        let mut answers = [9; ANSWER_WORDS];
        let lent = Buffers { words: &mut words, logs: &mut logs, answers: &mut answers };
        assert_eq!(library::run(1, 1, INCREMENT_BYTES as u64, &steps, lent), due);
    }
}

#[test]
fn answers_of_two_words_for_each_step() {
    let list = [Step::count(0, 0), Step::read_and_clear(0, 0), Step::clear(0, 0)];
    let log = LONGEST_MESSAGE as u64;
    for steps in (0..=list.len()).map(|len| &list[..len]) {
        let bytes: Vec<u8> = steps.iter().flat_map(|step| step.to_bytes()).collect();
        for len in 0..=ANSWER_WORDS * (steps.len() + 1) {
            let due = if len == 2 * steps.len() { OK } else { BAD_SIZES };
            let before = (vec![9; replica_words(1, 1)], vec![9; LONGEST_MESSAGE], vec![9; len]);
            let on = |call: &dyn Fn(Buffers) -> u64| {
                let mut lent = before.clone();
                let (words, logs, answers) = (&mut lent.0, &mut lent.1, &mut lent.2);
                assert_eq!(call(Buffers { words, logs, answers }), due, "{len}, {steps:?}");
                assert_eq!(lent == before, due != OK, "{len}, {steps:?}");
            };
            on(&|lent| library::run(1, 1, log, &bytes, lent));
            on(&|lent| library::run_records(1, 1, log, steps, lent));
            on(&|lent| number(chassis::run(1, 1, log, &bytes, lent)));
            on(&|lent| number(chassis::run_records(1, 1, log, steps, lent)));
        }
    }
}

#[test]
fn logs_that_are_just_long_enough() {
    let count = Step::count(0, 0);
    let last = |log_bytes: usize, steps: &[Step]| *run(2, 1, log_bytes, steps).1.last().unwrap();
    assert_eq!(last(INCREMENT_BYTES - 1, &[count]), [LOG_FULL, 0]);
    assert_eq!(last(INCREMENT_BYTES, &[count]), [OK, 0]);
    assert_eq!(last(2 * INCREMENT_BYTES - 1, &[count, count]), [LOG_FULL, 0]);
    assert_eq!(last(2 * INCREMENT_BYTES, &[count, count]), [OK, 0]);
    for (clear, value) in [(Step::clear(1, 0), 0), (Step::read_and_clear(1, 0), 1)] {
        assert_eq!(last(clear_bytes(0) - 1, &[clear]), [LOG_FULL, 0]);
        assert_eq!(last(clear_bytes(0), &[clear]), [OK, 0]);
        let steps = [count, Step::deliver(1, 0), clear];
        assert_eq!(last(clear_bytes(1) - 1, &steps), [LOG_FULL, 0]);
        assert_eq!(last(clear_bytes(1), &steps), [OK, value]);
    }
}

#[test]
fn logs_whose_product_wraps() {
    // Two logs of 2^63 bytes are 2^64, and none was lent.
    let (cards, counters, log_bytes) = (2, 1, 1 << 63);
    let len = 2 * replica_words(2, 1);
    let refused = |call: &dyn Fn(Buffers) -> u64| {
        let mut words = vec![9; len];
        let lent = Buffers { words: &mut words, logs: &mut [], answers: &mut [] };
        assert_eq!(call(lent), BAD_SIZES);
        assert_eq!(words, vec![9; len]);
    };
    refused(&|lent| library::run(cards, counters, log_bytes, &[], lent));
    refused(&|lent| library::run_records(cards, counters, log_bytes, &[], lent));
    refused(&|lent| number(chassis::run(cards, counters, log_bytes, &[], lent)));
}

#[test]
fn messages_of_a_log() {
    let increment = next_of_card_0().bytes();
    let full: Vec<_> = (0..MOST_CARDS as u32).map(|card| (card, 1, 1)).collect();
    let clear = next_clear_of_card_0(&full).bytes();
    assert_eq!((increment.len(), clear.len()), (INCREMENT_BYTES, LONGEST_MESSAGE));
    let log = [&increment[..], &clear, &increment].concat();
    let waiting = |log: &[u8], q: u64| {
        let span = library::waiting(log, q);
        let ours = chassis::waiting(log, q);
        assert_eq!((span.start as usize, span.length as usize), (ours.start, ours.len()));
        (ours.start, ours.len())
    };
    assert_eq!(waiting(&log, 1), (0, INCREMENT_BYTES));
    assert_eq!(waiting(&log, 2), (INCREMENT_BYTES, LONGEST_MESSAGE));
    assert_eq!(waiting(&log, 3), (INCREMENT_BYTES + LONGEST_MESSAGE, INCREMENT_BYTES));
    for q in [0, 4, MAX, MAX + 1, u64::MAX] {
        assert_eq!(waiting(&log, q), (0, 0), "{q}");
    }
    assert_eq!(waiting(&log[..log.len() - 1], 3), (0, 0));
    assert_eq!(waiting(&log[..log.len() - 1], 2), (INCREMENT_BYTES, LONGEST_MESSAGE));
    // A message of version 1 does not read, and nothing behind it does.
    for draft in [next_of_card_0(), next_clear_of_card_0(&full)] {
        let plain = Draft { version: MESSAGE_VERSION_1, ..draft }.bytes();
        let log = [&increment[..], &plain, &increment].concat();
        assert_eq!(waiting(&log, 1), (0, INCREMENT_BYTES));
        assert_eq!((waiting(&log, 2), waiting(&log, 3)), ((0, 0), (0, 0)));
        assert_eq!(waiting(&plain, 1), (0, 0));
    }
}

// ---- delivering what waits

/// What the cards below count by: on counter 0, on counter 1, and with a third message.
const LOTS: [u32; 3] = [3, 5, 1];

/// Three cards and two counters, every card with two counts that no other has: twelve messages wait.
/// The logs have room for a third, where nothing stands.
fn two_of_each() -> Lent {
    let counts = |card| [0, 1].map(|counter| Step::count_by(card, counter, LOTS[counter as usize]));
    let steps: Vec<Step> = (0..3).flat_map(counts).collect();
    let log_bytes = 3 * INCREMENT_BYTES;
    let mut lent = Lent {
        cards: 3,
        counters: 2,
        log_bytes: log_bytes as u64,
        words: vec![9; 3 * replica_words(3, 2)],
        logs: vec![0; 3 * log_bytes],
    };
    let mut answers = vec![9; ANSWER_WORDS * steps.len()];
    let (words, logs, answers) = (&mut lent.words, &mut lent.logs, &mut answers);
    let lent_to_run = Buffers { words, logs, answers };
    assert_eq!(library::run_records(3, 2, log_bytes as u64, &steps, lent_to_run), OK);
    lent
}

/// Message number q of the card there: its first count is on counter 0, its second on counter 1.
fn count_of(card: usize, q: u64) -> Draft {
    let (sender, counter) = (card as u32, q as u32 - 1);
    let p = LOTS[..q as usize].iter().sum::<u32>().into();
    let amount = LOTS[q as usize - 1];
    Draft { sender, sequence: q, counter, p, start: 1, amount, ..next_of_card_0() }
}

#[test]
fn deliveries_up_to_the_most() {
    for most in (0..15).chain([u64::from(u32::MAX), 1 << 32, 1 << 63, u64::MAX]) {
        let mut lent = two_of_each();
        assert_eq!(lent.deliver_pending(most), (OK, most.min(12)));
        // What each card has of each: in rounds of six, to card 0 from 1 and from 2, and so on.
        let links = [(0, 1), (0, 2), (1, 0), (1, 2), (2, 0), (2, 1)];
        for (at, (receiver, sender)) in links.into_iter().enumerate() {
            let due = (most.saturating_sub(at as u64).div_ceil(6)).min(2);
            assert_eq!(lent.replica(receiver)[messages_at(3, sender)], due, "{most}");
        }
        assert_eq!(lent.deliver_pending(u64::MAX), (OK, 12 - most.min(12)));
        assert_eq!(lent.deliver_pending(u64::MAX), (OK, 0));
        for counter in 0..2 {
            let read = |card: usize| library::read(lent.clone().replica(card), counter);
            let value = 3 * u64::from(LOTS[counter as usize]);
            let due = library::Reading { number: OK, value, holders: 7, holder_count: 3 };
            assert_eq!([0, 1, 2].map(read), [due; 3]);
        }
    }
}

#[test]
fn deliveries_within_the_limits_and_with_their_lengths() {
    for ([cards, counters, own], _) in heads() {
        if own != 0 {
            continue;
        }
        let words = (0..cards).flat_map(|own| words_of(cards, counters, own)).collect();
        let lent = Lent { cards, counters, log_bytes: 0, words, logs: Vec::new() };
        let right = (1..=CARDS).contains(&cards) && (1..=COUNTERS).contains(&counters);
        let due = if right { OK } else { BAD_SIZES };
        assert_eq!(lent.number_with(|_| {}), due, "{cards} {counters}");
    }
    let lent = two_of_each();
    assert_eq!(lent.number_with(|_| {}), OK);
    assert_eq!(lent.number_with(|lent| lent.words.push(0)), BAD_SIZES);
    assert_eq!(lent.number_with(|lent| lent.words.truncate(lent.words.len() - 1)), BAD_SIZES);
    assert_eq!(lent.number_with(|lent| lent.words.clear()), BAD_SIZES);
    assert_eq!(lent.number_with(|lent| lent.logs.push(0)), BAD_SIZES);
    assert_eq!(lent.number_with(|lent| lent.logs.truncate(lent.logs.len() - 1)), BAD_SIZES);
    assert_eq!(lent.number_with(|lent| lent.logs.clear()), BAD_SIZES);
    for log_bytes in [0, lent.log_bytes - 1, lent.log_bytes + 1, u64::MAX] {
        assert_eq!(lent.number_with(|lent| lent.log_bytes = log_bytes), BAD_SIZES);
    }
    // Two logs of 2^63 bytes are 2^64, and none was lent.
    let words = [0, 1].map(|own| {
        let mut words = vec![0; replica_words(2, 1)];
        assert_eq!(library::open(&mut words, 2, 1, own), OK);
        words
    });
    let (words, logs) = (words.concat(), Vec::new());
    let lent = Lent { cards: 2, counters: 1, log_bytes: 1 << 63, words, logs };
    assert_eq!(lent.number_with(|_| {}), BAD_SIZES);
    assert_eq!(lent.number_with(|lent| lent.log_bytes = 0), OK);
}

#[test]
fn one_card_has_no_link() {
    let (mut words, logs) = (vec![0; replica_words(1, 1)], vec![9; INCREMENT_BYTES]);
    assert_eq!(library::open(&mut words, 1, 1, 0), OK);
    let log_bytes = logs.len() as u64;
    let mut lent = Lent { cards: 1, counters: 1, log_bytes, words, logs };
    assert_eq!(lent.deliver_pending(u64::MAX), (OK, 0));
    assert_eq!(library::count(&mut lent.words, 0, 9, &mut lent.logs).number, OK);
    assert_eq!(lent.deliver_pending(u64::MAX), (OK, 0));
    lent.logs[0] ^= 1;
    assert_eq!(lent.deliver_pending(u64::MAX), (BAD_LOG, 0));
}

#[test]
fn replicas_of_these_sizes_in_their_place() {
    let lent = two_of_each();
    for card in 0..3 {
        for (at, right) in [(CARDS_AT, 3), (COUNTERS_AT, 2), (OWN_AT, card as u64)] {
            for word in [0, 1, 2, 3, 4, u64::MAX] {
                let due = if word == right { OK } else { BAD_REPLICA };
                let number = lent.number_with(|lent| lent.replica(card)[at] = word);
                assert_eq!(number, due, "card {card}, word {at}: {word}");
            }
        }
    }
    let each = replica_words(3, 2);
    assert_eq!(lent.number_with(|lent| lent.words.rotate_left(each)), BAD_REPLICA);
    // Both counters are active on every card; there is none at bit 2 or above.
    for (card, bit) in (0..3).flat_map(|card| (2..64).map(move |bit| (card, bit))) {
        let number = lent.number_with(|lent| lent.replica(card)[ACTIVE_AT] = 0b11 | 1 << bit);
        assert_eq!(number, BAD_REPLICA, "card {card}, bit {bit}");
    }
}

#[test]
fn every_row_of_every_replica() {
    let lent = two_of_each();
    for (card, of) in (0..9).map(|place| (place / 3, place % 3)) {
        let set = |at: usize, word| lent.number_with(|lent| lent.replica(card)[at] = word);
        assert_eq!(set(increments_at(of), MAX), OK, "C above N");
        assert_eq!(set(increments_at(of), MAX + 1), BAD_ROW);
        assert_eq!(set(messages_at(3, of), MAX + 1), BAD_ROW);
        for counter in 0..2 {
            let entry = entry_at(3, counter, of);
            // No entry that is there, absent or not, stays well-formed with one of these.
            assert_eq!(set(entry.start, 9), BAD_ROW, "p above c");
            assert_eq!(set(entry.start + 1, 9), BAD_ROW, "n above p");
            assert_eq!(set(entry.start + 2, MAX + 1), BAD_ROW);
            let due = if card == of { BAD_ROW } else { OK };
            let number =
                lent.number_with(|lent| lent.replica(card)[entry].copy_from_slice(&[9, 0, 9]));
            assert_eq!(number, due, "c above C, of card {of} on card {card}");
        }
    }
    // A bit without an entry, and an entry without its bit, on every card and counter.
    for (card, counter) in (0..6).map(|place| (place / 2, place % 2)) {
        let bit_gone = |lent: &mut Lent| lent.replica(card)[ACTIVE_AT] = 0b11 ^ 1 << counter;
        let row_gone = |lent: &mut Lent| {
            lent.replica(card)[entry_at(3, counter, 0).start..][..9].fill(0);
        };
        let both_gone = |lent: &mut Lent| {
            bit_gone(lent);
            row_gone(lent);
        };
        assert_eq!(lent.number_with(bit_gone), BAD_ROW, "card {card}, counter {counter}");
        assert_eq!(lent.number_with(row_gone), BAD_ROW, "card {card}, counter {counter}");
        assert_eq!(lent.number_with(both_gone), OK, "card {card}, counter {counter}");
    }
}

#[test]
fn logs_that_begin_with_what_was_made() {
    let lent = two_of_each();
    let own = |card: usize| messages_at(3, card);
    for card in 0..3 {
        let other = (card + 1) % 3;
        for q in [1, 2] {
            let with =
                |draft: Draft| lent.number_with(|lent| lent.rewrite(card, q as usize, draft));
            let right = || count_of(card, q);
            assert_eq!(with(right()), OK);
            for version in [MESSAGE_VERSION_1, MESSAGE_VERSION + 1] {
                assert_eq!(with(Draft { version, ..right() }), BAD_LOG);
            }
            for amount in [0, MOST_AMOUNT as u32 + 1] {
                assert_eq!(with(Draft { amount, ..right() }), BAD_LOG);
            }
            assert_eq!(with(Draft { p: 0, ..right() }), BAD_LOG);
            assert_eq!(with(Draft { counter: MOST_COUNTERS as u32, ..right() }), BAD_LOG);
            assert_eq!(with(Draft { sender: other as u32, ..right() }), BAD_LOG);
            for sequence in [0, 1, 2, 3, MAX, MAX + 1] {
                let due = if sequence == q { OK } else { BAD_LOG };
                assert_eq!(with(Draft { sequence, ..right() }), due, "{sequence} for {q}");
            }
            // What take looks at is not looked at here.
            assert_eq!(with(Draft { counter: 2, ..right() }), OK);
            assert_eq!(with(Draft { counter: MOST_COUNTERS as u32 - 1, ..right() }), OK);
            assert_eq!(with(Draft { p: MAX, ..right() }), OK);
            assert_eq!(with(Draft { amount: MOST_AMOUNT as u32, ..right() }), OK);
        }
        // Also what every card has had.
        let all_had = |lent: &mut Lent| assert_eq!(lent.deliver_pending(u64::MAX), (OK, 12));
        assert_eq!(lent.number_with(all_had), OK);
        let and_lost = |lent: &mut Lent| {
            all_had(lent);
            lent.rewrite(card, 1, count_of(card, 3));
        };
        assert_eq!(lent.number_with(and_lost), BAD_LOG);
        // A third message: made, and not there; there, and not made; both.
        let made = |lent: &mut Lent| lent.replica(card)[own(card)] = 3;
        let there = |lent: &mut Lent| lent.rewrite(card, 3, count_of(card, 3));
        assert_eq!(lent.number_with(made), BAD_LOG);
        assert_eq!(lent.number_with(|lent| lent.log(card)[2 * INCREMENT_BYTES..].fill(7)), OK);
        assert_eq!(lent.number_with(there), OK);
        let both = |lent: &mut Lent| {
            made(lent);
            there(lent);
        };
        assert_eq!(lent.number_with(both), OK);
        assert_eq!(lent.number_with(|lent| lent.replica(card)[own(card)] = MAX), BAD_LOG);
        // Another card has had as many as were made, and one more.
        for (received, due) in [(0, OK), (1, OK), (2, OK), (3, BAD_LOG), (MAX, BAD_LOG)] {
            let number = lent.number_with(|lent| lent.replica(other)[own(card)] = received);
            assert_eq!(number, due, "{received} received");
        }
        let more_received = |lent: &mut Lent| {
            there(lent);
            lent.replica(other)[own(card)] = 3;
        };
        assert_eq!(lent.number_with(more_received), BAD_LOG);
    }
    // The last byte of the last message.
    let cut = |lent: &mut Lent, left: usize| {
        let logs: Vec<u8> = (0..3).flat_map(|card| lent.log(card)[..left].to_vec()).collect();
        (lent.log_bytes, lent.logs) = (left as u64, logs);
    };
    assert_eq!(lent.number_with(|lent| cut(lent, 2 * INCREMENT_BYTES)), OK);
    assert_eq!(lent.number_with(|lent| cut(lent, 2 * INCREMENT_BYTES - 1)), BAD_LOG);
    assert_eq!(lent.number_with(|lent| cut(lent, 0)), BAD_LOG);
}

/// Each fault on another card. Without the first of them, the next is answered.
#[test]
fn refusals_of_deliveries_in_their_order() {
    let orders = [[0, 1, 2], [0, 2, 1], [1, 0, 2], [1, 2, 0], [2, 0, 1], [2, 1, 0]];
    // The own card, or a one at bit k; n above p, or the bit of counter 1.
    let n = entry_at(3, 1, 2).start + 1;
    let pairs = [(OWN_AT, n), (OWN_AT, ACTIVE_AT), (ACTIVE_AT, n), (ACTIVE_AT, ACTIVE_AT)];
    for ([head, row, log], (in_head, in_row)) in
        orders.into_iter().flat_map(|cards| pairs.map(|pair| (cards, pair)))
    {
        let mut lent = two_of_each();
        let refused = |lent: &mut Lent, number: u64| {
            for most in [0, 1, u64::MAX] {
                let place = ([head, row, log], in_head, in_row);
                assert_eq!(lent.deliver_pending(most), (number, 0), "{place:?}");
            }
        };
        let head_bits = if in_head == OWN_AT { head as u64 ^ 3 } else { 0b100 };
        let row_bits = if in_row == ACTIVE_AT { 0b010 } else { lent.replica(row)[n] ^ 9 };
        lent.words.push(0);
        lent.replica(head)[in_head] ^= head_bits;
        lent.replica(row)[in_row] ^= row_bits;
        lent.log(log)[0] = 9;
        refused(&mut lent, BAD_SIZES);
        lent.words.pop();
        refused(&mut lent, BAD_REPLICA);
        lent.replica(head)[in_head] ^= head_bits;
        refused(&mut lent, BAD_ROW);
        lent.replica(row)[in_row] ^= row_bits;
        refused(&mut lent, BAD_LOG);
        lent.log(log)[0] = 0;
        assert_eq!(lent.words, two_of_each().words);
        assert_eq!(lent.deliver_pending(u64::MAX), (OK, 12));
    }
}

/// One message is changed, of card 0 to all: take declines it, for every reason that there is.
#[test]
fn links_passed_over() {
    let stranger = [(1, 1, 1), (3, 1, 1)];
    let declined = [
        (Draft { counter: 2, ..count_of(0, 1) }, BAD_COUNTER),
        (Draft { p: 4, ..count_of(0, 1) }, IMPLAUSIBLE),
        (Draft { amount: 4, ..count_of(0, 1) }, IMPLAUSIBLE),
        (Draft { start: 0, ..count_of(0, 1) }, IMPLAUSIBLE),
        (Draft { sequence: 1, ..next_clear_of_card_0(&stranger) }, BAD_CARD),
        (Draft { sequence: 1, ..next_clear_of_card_0(&[(0, 1, 3)]) }, IMPLAUSIBLE),
    ];
    for (draft, number) in declined {
        let mut lent = two_of_each();
        let log = [draft.bytes(), count_of(0, 2).bytes()].concat();
        lent.log(0)[..log.len()].copy_from_slice(&log);
        let before = lent.clone();
        assert_eq!(take(&mut lent.clone().replica(1).to_vec(), &draft.bytes()), number);
        // Cards 1 and 2 have two each from one another, and card 0 two from each.
        assert_eq!(lent.deliver_pending(u64::MAX), (OK, 8), "{draft:?}");
        assert_eq!(lent.deliver_pending(u64::MAX), (OK, 0), "{draft:?}");
        assert_eq!(lent.replica(1)[messages_at(3, 0)], 0);
        assert_eq!(lent.replica(2)[messages_at(3, 0)], 0);
        // What is declined is no delivery: the third is to card 1 from card 2.
        let mut lent = before;
        assert_eq!(lent.deliver_pending(3), (OK, 3));
        assert_eq!(lent.replica(1)[messages_at(3, 2)], 1);
        assert_eq!(lent.replica(2)[messages_at(3, 1)], 0);
    }
}

/// Card 1 has had more of card 0 than leaves room for its counts: by 3, or by 3 and by 5.
#[test]
fn links_without_room_for_the_units() {
    for (room, taken) in [(0, 0), (2, 0), (3, 1), (7, 1), (8, 2)] {
        let mut lent = two_of_each();
        lent.replica(1)[increments_at(0)] = MAX - room;
        // Without start: p fits, and C + w is all that is asked.
        for q in [1, 2] {
            lent.rewrite(0, q, Draft { p: 9, start: 0, ..count_of(0, q as u64) });
        }
        lent.replica(2)[increments_at(0)] = 9;
        assert_eq!(lent.deliver_pending(u64::MAX), (OK, 10 + taken), "{room}");
        assert_eq!(lent.replica(1)[messages_at(3, 0)], taken);
    }
}

// ---- a log in the other version

/// The messages' bytes in this version, end to end; every amount is 1.
fn log_of(version: u32, drafts: &[Draft]) -> Vec<u8> {
    drafts.iter().flat_map(|draft| Draft { version, ..draft.clone() }.bytes()).collect()
}

/// The bytes of the drafts as they are.
fn end_to_end(drafts: &[Draft]) -> Vec<u8> {
    drafts.iter().flat_map(Draft::bytes).collect()
}

/// Lists of messages that convert: none, one of each kind and length, and several.
fn lists() -> Vec<Vec<Draft>> {
    let largest =
        Draft { sender: LAST, sequence: MAX, counter: 63, p: MAX, start: 1, ..next_of_card_0() };
    let mut lists = vec![Vec::new(), vec![next_of_card_0()], vec![largest]];
    for entries in 0..=MOST_CARDS as u32 {
        let list: Vec<_> = (0..entries).map(|card| (card, 1, MAX - u64::from(card))).collect();
        lists.push(vec![next_clear_of_card_0(&list)]);
    }
    let singly = lists.concat();
    lists.push(vec![next_of_card_0(); 40]);
    lists.push(vec![next_clear_of_card_0(&[]); 40]);
    lists.push([&singly[..], &singly].concat());
    lists.push(singly.into_iter().flat_map(|draft| [draft, next_of_card_0()]).collect());
    lists
}

/// The bytes of both versions, each made from the fields: short by one, by more, exact, and longer.
#[test]
fn outputs_of_a_converted_log() {
    for list in lists() {
        let increments = list.iter().filter(|draft| draft.kind == MESSAGE_INCREMENT).count();
        let [plain, current] = [MESSAGE_VERSION_1, MESSAGE_VERSION].map(|of| log_of(of, &list));
        assert_eq!(current.len(), plain.len() + 4 * increments);
        for (call, log, due) in [(TO_VERSION_2, &plain, &current), (TO_VERSION_1, &current, &plain)]
        {
            for room in [due.len(), due.len() + 1, due.len() + 4, 2 * due.len() + 9] {
                assert_eq!(convert(&call, log, room), (OK, due.clone()), "{} {room}", call.name);
            }
            for short in [1, 4, 27, due.len()].into_iter().filter(|_| !due.is_empty()) {
                let room = due.len() - short;
                assert_eq!(convert(&call, log, room), (SHORT_OUTPUT, Vec::new()), "{room}");
            }
        }
    }
    // The room that is enough for every log.
    let log = log_of(MESSAGE_VERSION_1, &vec![next_of_card_0(); 40]);
    let enough = log.len() + log.len() / 9;
    assert_eq!(convert(&TO_VERSION_2, &log, enough).0, OK);
    assert_eq!(convert(&TO_VERSION_2, &log, enough - 1).0, SHORT_OUTPUT);
}

#[test]
fn an_empty_log_converts_to_an_empty_one() {
    for call in CONVERTING {
        for room in [0, 1, LONGEST_MESSAGE] {
            assert_eq!(convert(&call, &[], room), (OK, Vec::new()), "{} {room}", call.name);
        }
    }
}

/// The number of a log that is not one of messages of its version, or has a w above 1: whether there
/// is room does not matter.
fn refused(call: &Converting, log: &[u8], due: u64) {
    for room in [0, 1, log.len(), 2 * log.len() + 9] {
        let answer = convert(call, log, room);
        assert_eq!(answer, (due, Vec::new()), "{}, {room}: {log:?}", call.name);
    }
}

#[test]
fn logs_that_end_with_a_message() {
    for list in lists() {
        for call in CONVERTING {
            let log = log_of(call.from.number, &list);
            for cut in [1, 4, 27].into_iter().filter(|_| !list.is_empty()) {
                refused(&call, &log[..log.len() - cut], UNREADABLE);
            }
            for draft in [next_of_card_0(), next_clear_of_card_0(&[(0, 1, 1)])] {
                let front = log_of(call.from.number, &[draft]);
                for more in 1..front.len() {
                    refused(&call, &[&log[..], &front[..more]].concat(), UNREADABLE);
                }
            }
            for more in [1, 4, 27, 28, 36, 40] {
                refused(&call, &[&log[..], &vec![0; more]].concat(), UNREADABLE);
            }
        }
    }
    // An increment with the other version's length.
    for call in CONVERTING {
        let mut log = log_of(call.to.number, &[next_of_card_0(), next_of_card_0()]);
        log[3] = call.from.number as u8;
        refused(&call, &log, UNREADABLE);
    }
}

/// Three messages, of which this one takes the place: first, in the middle, and last.
fn in_each_place(version: u32, draft: &Draft) -> [Vec<u8>; 3] {
    [0, 1, 2].map(|at| {
        let clear = next_clear_of_card_0(&[(0, 1, 1)]);
        let list = [next_of_card_0(), clear, next_of_card_0()];
        let mut list = list.map(|draft| Draft { version, ..draft });
        list[at] = draft.clone();
        end_to_end(&list)
    })
}

/// Each field one past its edge, in any one message of a log.
#[test]
fn logs_with_a_message_that_does_not_read() {
    let cards = MOST_CARDS as u32;
    for call in CONVERTING {
        let version = call.from.number;
        let next = || Draft { version, ..next_of_card_0() };
        let clear = |list: &[(u32, u64, u64)]| Draft { version, ..next_clear_of_card_0(list) };
        let one_more: Vec<_> = (0..=cards).map(|card| (card, 1, 1)).collect();
        let wrong = [
            Draft { version: call.to.number, ..next() },
            Draft { version: call.to.number, ..clear(&[]) },
            Draft { version: 0, ..next() },
            Draft { version: MESSAGE_VERSION + 1, ..clear(&[]) },
            Draft { kind: 0, ..clear(&[]) },
            Draft { kind: MESSAGE_CLEAR + 1, ..clear(&[]) },
            Draft { sender: cards, ..next() },
            Draft { sequence: 0, ..next() },
            Draft { sequence: MAX + 1, ..next() },
            Draft { counter: MOST_COUNTERS as u32, ..next() },
            Draft { p: 0, ..next() },
            Draft { p: MAX + 1, ..next() },
            Draft { start: 2, ..next() },
            clear(&one_more),
            clear(&[(cards, 1, 1)]),
            clear(&[(0, 0, 1)]),
            clear(&[(0, 2, 1)]),
            clear(&[(0, 1, MAX + 1)]),
            clear(&[(1, 1, 1), (1, 1, 1)]),
            clear(&[(1, 1, 1), (0, 1, 1)]),
        ];
        for log in wrong.iter().flat_map(|draft| in_each_place(version, draft)) {
            refused(&call, &log, UNREADABLE);
        }
    }
}

/// They read alone, whatever their sender and sequence, and so they convert.
#[test]
fn senders_and_sequences_of_a_log_are_not_looked_at() {
    let sequences = [MAX, 1, 1, 7, MAX - 1, 2];
    let numbered = (0..2 * MOST_CARDS).map(|at| Draft {
        sender: (at * 7 % MOST_CARDS) as u32,
        sequence: sequences[at % sequences.len()],
        counter: (at * 11 % MOST_COUNTERS) as u32,
        ..if at % 3 == 0 { next_clear_of_card_0(&[(LAST, MAX, MAX)]) } else { next_of_card_0() }
    });
    let list: Vec<Draft> = numbered.collect();
    for call in CONVERTING {
        let [log, due] = [call.from, call.to].map(|version| log_of(version.number, &list));
        assert_eq!(convert(&call, &log, due.len()), (OK, due), "{}", call.name);
    }
}

/// Only 1 converts. What is no amount does not read, and 6 comes before 17.
#[test]
fn amounts_of_a_log() {
    for amount in STEP_AMOUNTS.into_iter().chain([2, 3, 256, 257, 65_534]) {
        for start in [0, 1] {
            let draft = Draft { amount, start, ..next_of_card_0() };
            for log in in_each_place(MESSAGE_VERSION, &draft) {
                match amount {
                    1 => assert_eq!(convert(&TO_VERSION_1, &log, log.len()).0, OK),
                    0 | 65_536.. => refused(&TO_VERSION_1, &log, UNREADABLE),
                    _ => refused(&TO_VERSION_1, &log, ABOVE_ONE),
                }
                refused(&TO_VERSION_2, &log, UNREADABLE);
            }
        }
    }
}

/// Every set of causes, the messages that are wrong in every order.
#[test]
fn refusals_of_a_conversion_in_their_order() {
    for [unread, above, other] in [[0, 1, 2], [0, 2, 1], [1, 0, 2], [1, 2, 0], [2, 0, 1], [2, 1, 0]]
    {
        let list = |version: u32, has_unread: bool, has_above: bool| {
            let mut list = [(); 3].map(|()| Draft { version, ..next_of_card_0() });
            list[unread].start = if has_unread { 2 } else { 0 };
            list[above].amount = if has_above { 2 } else { 1 };
            list[other] = Draft { version, ..next_clear_of_card_0(&[]) };
            end_to_end(&list)
        };
        for (has, due) in causes([UNREADABLE, ABOVE_ONE, SHORT_OUTPUT]) {
            let log = list(MESSAGE_VERSION, has[0], has[1]);
            let room = 2 * PLAIN_INCREMENT_BYTES + clear_bytes(0) - usize::from(has[2]);
            assert_eq!(convert(&TO_VERSION_1, &log, room).0, due, "{has:?}, {unread} {above}");
        }
        for (has, due) in causes([UNREADABLE, SHORT_OUTPUT]) {
            let log = list(MESSAGE_VERSION_1, has[0], false);
            let room = 2 * INCREMENT_BYTES + clear_bytes(0) - usize::from(has[1]);
            assert_eq!(convert(&TO_VERSION_2, &log, room).0, due, "{has:?}, {unread}");
        }
    }
}

// ---- the largest chassis, in the specification's own numbers

#[test]
fn twelve_cards_at_the_most() {
    for (cards, right) in [(11, true), (12, true), (13, false)] {
        let due = |refusal| if right { OK } else { refusal };
        for own in [0, cards - 1] {
            let words = words_of(cards, 1, own);
            assert_eq!(open(words.len(), cards, 1, own), due(BAD_REPLICA), "{cards}");
            assert_eq!(read(&words, 0).number, due(BAD_REPLICA), "{cards}");
            for call in &SENDING {
                assert_eq!(send(call, &mut words.clone(), 0, 268).number, due(BAD_REPLICA));
            }
            let sender = ((own + 1) % cards) as u32;
            let first = Draft { sender, sequence: 1, p: 1, start: 1, ..next_of_card_0() };
            assert_eq!(take(&mut words.clone(), &first.bytes()), due(BAD_REPLICA), "{cards}");
        }
        assert_eq!(run(cards, 1, 0, &[]).0, due(BAD_SIZES), "{cards}");
        let words = (0..cards).flat_map(|own| words_of(cards, 1, own)).collect();
        let lent = Lent { cards, counters: 1, log_bytes: 0, words, logs: Vec::new() };
        assert_eq!(lent.number_with(|_| {}), due(BAD_SIZES), "{cards}");
    }
}

/// The header's struct with these fields; it has no place for a thirteenth entry.
fn record_of(draft: &Draft) -> library::Message {
    let Draft { version, kind, sender, sequence, counter, .. } = *draft;
    let form = library::Message { version, kind, sender, sequence, counter, ..Default::default() };
    if kind == MESSAGE_INCREMENT {
        let amount = if version == MESSAGE_VERSION_1 { 0 } else { draft.amount };
        return library::Message { p: draft.p, start: draft.start, amount, ..form };
    }
    let mut form = library::Message { len: draft.entries.len(), ..form };
    for (entry, (card, p, c)) in form.entries.iter_mut().zip(&draft.entries) {
        (entry.card, entry.p, entry.c) = (*card, *p, *c);
    }
    form
}

/// In either version, alone and in a log: read, written and converted where it reads, and else 6. A
/// card of three takes none of them: where it reads, its sender or an entry's card is not there.
fn reads_in_both_versions(draft: &Draft, reads: bool) {
    let due = if reads { OK } else { UNREADABLE };
    for call in CONVERTING {
        let draft = Draft { version: call.from.number, ..draft.clone() };
        let (bytes, form) = (draft.bytes(), record_of(&draft));
        let read = library::read_message(&bytes);
        assert_eq!(read, messages::reading(message::read_alone(&bytes)), "{draft:?}");
        assert_eq!(read.number, due, "{draft:?}");
        assert!(!reads || read.message == form, "{draft:?}");
        let mut out = vec![9; bytes.len()];
        assert_eq!(library::write_message(form, &mut out).number, due, "{draft:?}");
        assert_eq!(out, if reads { bytes.clone() } else { vec![9; bytes.len()] }, "{draft:?}");
        assert_eq!(convert(&call, &bytes, bytes.len() + 4).0, due, "{draft:?}");
    }
    let bytes = draft.bytes();
    let found = if reads { 0..bytes.len() } else { 0..0 };
    assert_eq!(chassis::waiting(&bytes, 1), found, "{draft:?}");
    assert_eq!(library::waiting(&bytes, 1).length as usize, found.len(), "{draft:?}");
    let due = if reads { BAD_CARD } else { UNREADABLE };
    assert_eq!(take(&mut replica_of_three(), &bytes), due, "{draft:?}");
}

#[test]
fn cards_of_a_message_are_0_to_11() {
    for (card, reads) in [(11, true), (12, false), (15, false)] {
        reads_in_both_versions(&Draft { sender: card, ..next_of_card_0() }, reads);
        reads_in_both_versions(&Draft { sender: card, ..next_clear_of_card_0(&[]) }, reads);
        reads_in_both_versions(&next_clear_of_card_0(&[(card, 1, 1)]), reads);
        reads_in_both_versions(&next_clear_of_card_0(&[(0, 1, 1), (card, 1, 1)]), reads);
    }
}

/// The longest message is 268 bytes.
#[test]
fn a_clear_has_12_entries_at_the_most() {
    for (entries, length, reads) in [(12, 268, true), (13, 288, false)] {
        let list: Vec<_> = (0..entries).map(|card| (card, 1, 1)).collect();
        let draft = next_clear_of_card_0(&list);
        assert_eq!(draft.bytes().len(), length);
        reads_in_both_versions(&draft, reads);
    }
    assert_eq!(LONGEST_MESSAGE, 268);
}

// ---- the active counters, in the specification's own numbers: the fourth word, bit q for counter q

/// Card 0 of two, fresh, with this word.
fn card_0_of_two(counters: u64, active: u64) -> Vec<u64> {
    let mut words = vec![0; 4 + 2 * 2 + 3 * 2 * counters as usize];
    (words[0], words[1], words[3]) = (2, counters, active);
    words
}

/// The first words of card 0 with these entries of a counter's row, each of one of the two cards.
fn with_entries(mut words: Vec<u64>, counter: u64, entries: &[(usize, [u64; 3])]) -> Vec<u64> {
    for (card, entry) in entries {
        words[8 + 6 * counter as usize + 3 * card..][..3].copy_from_slice(entry);
    }
    words
}

/// Card 1's first message of two: an increment by 1, or a clear.
fn first_of_card_1(counter: u64, kind: u32) -> Draft {
    let (sender, sequence, counter) = (1, 1, counter as u32);
    Draft { kind, sender, sequence, counter, p: 1, start: 1, ..next_of_card_0() }
}

/// The number and the fourth word that each call leaves which looks at a counter's row of such a
/// card 0: read, count, clear, read and clear, and card 1's first increment taken, and its first
/// clear, which is empty.
fn each_call(words: &[u64], counter: u64) -> [(u64, u64); 6] {
    let sent = |call: &Sending| {
        let mut words = words.to_vec();
        (send(call, &mut words, counter, 268).number, words[3])
    };
    let took = |kind: u32| {
        let mut words = words.to_vec();
        (take(&mut words, &first_of_card_1(counter, kind).bytes()), words[3])
    };
    let [count, clear, read_and_clear] = [COUNT, CLEAR, READ_AND_CLEAR].map(|call| sent(&call));
    let [increment, empty] = [1, 2].map(took);
    [(read(words, counter).number, words[3]), count, clear, read_and_clear, increment, empty]
}

/// What delivering what waits answers to two cards without a message, this one in its place.
fn among_two(words: &[u64]) -> u64 {
    let counters = words[1];
    let mut other = card_0_of_two(counters, 0);
    other[2] = 1 - words[2];
    let words = if words[2] == 0 { [words, &other] } else { [&other, words] }.concat();
    let lent = Lent { cards: 2, counters, log_bytes: 0, words, logs: Vec::new() };
    lent.number_with(|_| {})
}

#[test]
fn lengths_of_a_replica_with_its_word_of_bits() {
    for (cards, counters, len) in
        [(1, 1, 9), (2, 1, 14), (3, 2, 28), (2, 63, 386), (1, 64, 198), (12, 1, 64), (12, 64, 2332)]
    {
        assert_eq!(replica_words(cards as usize, counters as usize), len);
        for given in [0, 1, 2, 3, 4, 5, len - 1, len, len + 1] {
            let due = if given == len { 0 } else { 1 };
            assert_eq!(open(given, cards, counters, 0), due, "{cards} {counters} {given}");
            let mut words = vec![0; given];
            for (at, word) in [cards, counters, 0, 1].into_iter().enumerate().take(given) {
                words[at] = word;
            }
            // The bit of counter 0, whose row has no entry: 2 where it is a replica.
            let row = if given == len { 2 } else { 1 };
            assert_eq!(active_counters(&words), (due, 1 - due), "{cards} {counters} {given}");
            assert_eq!(read(&words, 0).number, row);
            for call in &SENDING {
                assert_eq!(send(call, &mut words.clone(), 0, 268).number, row);
            }
            let other = Draft { sender: 1, ..first_of_card_1(0, 1) };
            assert_eq!(take(&mut words.clone(), &other.bytes()), row);
        }
    }
    // r = k = 1, every length.
    for len in 0..20 {
        let mut words = vec![0; len];
        words.iter_mut().take(2).for_each(|word| *word = 1);
        assert_eq!(active_counters(&words), (if len == 9 { 0 } else { 1 }, 0), "{len}");
        assert_eq!(open(len, 1, 1, 0), if len == 9 { 0 } else { 1 }, "{len}");
    }
    let all = (0..2).flat_map(|own| [2, 1, own, 0, 0, 0, 0, 0, 0, 0, 0, 0, 0, 0]).collect();
    let lent = Lent { cards: 2, counters: 1, log_bytes: 0, words: all, logs: Vec::new() };
    assert_eq!(lent.number_with(|lent| assert_eq!(lent.words.len(), 28)), 0);
    // 3 + 2r + 3rk for each.
    assert_eq!(lent.number_with(|lent| lent.words.truncate(26)), 11);
    assert_eq!(lent.number_with(|lent| lent.words.truncate(27)), 11);
    assert_eq!(lent.number_with(|lent| lent.words.push(0)), 11);
}

#[test]
fn no_bit_at_k_or_above() {
    for (k, below, high) in
        [(1, 1, 1..64), (2, 3, 2..64), (63, u64::MAX >> 1, 63..64), (64, u64::MAX, 64..64)]
    {
        // Whatever stands below, the call answers the word; other calls ask for their counter's bit.
        for word in [0, 1, 1 << (k - 1), below, below - 1, below ^ 1 << (k - 1)] {
            let words = card_0_of_two(k, word);
            assert_eq!(active_counters(&words), (0, word), "k {k}, {word:#x}");
            for counter in [0, k - 1] {
                let due = if word >> counter & 1 == 1 { 2 } else { 0 };
                let numbers = each_call(&words, counter).map(|(number, _)| number);
                assert_eq!(numbers, [due; 6], "k {k}, {word:#x}, counter {counter}");
            }
            assert_eq!(among_two(&words), if word == 0 { 0 } else { 2 }, "k {k}, {word:#x}");
        }
        for word in high.flat_map(|bit| [1u64 << bit, 1 << bit | 1, 1 << bit | below]) {
            let words = card_0_of_two(k, word);
            assert_eq!(active_counters(&words), (1, 0), "k {k}, {word:#x}");
            // Also of a counter that there is not: 1 comes before 3.
            for counter in [0, k - 1, k] {
                let left = each_call(&words, counter);
                assert_eq!(left, [(1, word); 6], "k {k}, {word:#x}, counter {counter}");
            }
            assert_eq!(among_two(&words), 1, "k {k}, {word:#x}");
            let mut last = words.clone();
            last[2] = 1;
            assert_eq!(among_two(&last), 1, "k {k}, {word:#x}");
        }
    }
    // All ones are the word of 64 counters, and of no fewer.
    assert_eq!(active_counters(&card_0_of_two(64, u64::MAX)), (0, u64::MAX));
    assert_eq!(active_counters(&card_0_of_two(63, u64::MAX)), (1, 0));
    assert_eq!(active_counters(&card_0_of_two(63, u64::MAX >> 1)), (0, u64::MAX >> 1));
}

/// With a bit too many every call gives 1, whatever else is wrong: 3, 16, 6, 2, 5 come after it.
#[test]
fn a_high_bit_comes_before_all_else() {
    let mut words = card_0_of_two(2, 0b100);
    words[4..].fill(u64::MAX);
    assert_eq!(active_counters(&words), (1, 0));
    assert_eq!(read(&words, 2).number, 1);
    for call in &SENDING {
        for (counter, amount, room) in [(2, 0, 0), (0, 0, 0), (0, 1, 0), (0, 1, 268)] {
            assert_eq!(send_by(call, &mut words, counter, amount, room).number, 1);
        }
    }
    for bytes in [vec![], vec![0; 40], first_of_card_1(2, 1).bytes(), first_of_card_1(0, 2).bytes()]
    {
        assert_eq!(take(&mut words, &bytes), 1);
    }
    assert_eq!(among_two(&words), 1);
    // Without it the next cause is answered.
    words[3] = 0b11;
    assert_eq!(active_counters(&words), (0, 0b11));
    assert_eq!(read(&words, 2).number, 3);
    assert_eq!(read(&words, 1).number, 2);
    assert_eq!(send_by(&COUNT, &mut words, 0, 0, 0).number, 16);
    assert_eq!(take(&mut words, &[]), 6);
    assert_eq!(among_two(&words), 2);
}

/// One without an entry, and an entry without the one: 2 to every call that looks at that row, and
/// to no other, which leave the bit as it is.
#[test]
fn a_bit_that_disagrees_with_its_row() {
    for (k, q, others) in [
        (1, 0, &[][..]),
        (2, 0, &[1]),
        (2, 1, &[0]),
        (63, 0, &[1, 62]),
        (63, 62, &[0, 61]),
        (64, 0, &[1, 31, 32, 63]),
        (64, 31, &[0, 30, 32, 63]),
        (64, 32, &[0, 31, 33, 63]),
        (64, 63, &[0, 1, 31, 32, 62]),
    ] {
        let bit = 1u64 << q;
        let one = card_0_of_two(k, bit);
        // The own C is 1 where the own entry has a c of 1.
        let mut counted = card_0_of_two(k, 0);
        (counted[4], counted[6]) = (1, 1);
        let own = with_entries(counted, q, &[(0, [1, 0, 1])]);
        let ahead = with_entries(card_0_of_two(k, 0), q, &[(1, [1, 1, 1])]);
        let both = with_entries(own.clone(), q, &[(1, [2, 1, 2])]);
        for words in [one, own, ahead, both] {
            let wrong = words[3];
            assert_eq!(active_counters(&words), (0, wrong), "k {k}, counter {q}");
            assert_eq!(each_call(&words, q), [(2, wrong); 6], "k {k}, counter {q}");
            assert_eq!(among_two(&words), 2, "k {k}, counter {q}");
            for other in others {
                // Read, count, clear twice, an increment and a clear taken.
                let counted = wrong | 1 << other;
                let left = [wrong, counted, wrong, wrong, counted, wrong].map(|word| (0, word));
                assert_eq!(each_call(&words, *other), left, "k {k}, counter {q}, {other}");
            }
            // The right bit, and nothing else of the row, makes the calls on it accept.
            let mut right = words.clone();
            right[3] = wrong ^ bit;
            assert_eq!(each_call(&right, q).map(|(number, _)| number), [0; 6]);
            assert_eq!(among_two(&right), if right[6] == 1 { 15 } else { 0 });
        }
    }
}

/// No row is looked at, nor C, nor N.
#[test]
fn the_word_is_answered_where_rows_are_damaged() {
    for (k, words) in [(2, [0, 1, 2, 3]), (64, [0, 1 << 63, u64::MAX - 1, u64::MAX])] {
        for word in words {
            let whole = card_0_of_two(k, word);
            let [mut most, mut past, mut entries] = [whole.clone(), whole.clone(), whole];
            most[4..].fill(u64::MAX);
            past[4..8].fill(MAX + 1);
            entries[8..].fill(1 << 63);
            for words in [most, past, entries] {
                assert_eq!(active_counters(&words), (0, word), "k {k}");
                for counter in [0, 1, k - 1] {
                    let left = each_call(&words, counter);
                    assert_eq!(left, [(2, word); 6], "k {k}, {word:#x}, counter {counter}");
                }
                assert_eq!(among_two(&words), 2, "k {k}, {word:#x}");
            }
        }
    }
}

#[test]
fn open_writes_a_word_of_zero() {
    for (r, k, own, len) in [(1, 1, 0, 9), (3, 2, 1, 28), (2, 63, 1, 386), (12, 64, 11, 2332)] {
        let mut words = vec![u64::MAX; len];
        assert_eq!(library::open(&mut words, r, k, own), 0);
        assert_eq!(words[..4], [r, k, own, 0]);
        assert!(words[4..].iter().all(|word| *word == 0));
        assert_eq!(active_counters(&words), (0, 0));
        // Refused, it leaves all ones.
        let mut words = vec![u64::MAX; len];
        assert_eq!(library::open(&mut words, r, k, r), 1);
        assert_eq!(words, vec![u64::MAX; len]);
    }
}

/// Two cards and two counters. Card 0 counts 5 of counter 1; card 1 takes that, counts 7 of counter
/// 0 and clears counter 1. So every card has a bit that is zero, and one that is one.
#[test]
fn a_run_begins_fresh_whatever_the_words_held() {
    let counted = [Step::count_by(0, 1, 5), Step::deliver(1, 0), Step::count_by(1, 0, 7)];
    let steps = [&counted[..], &[Step::clear(1, 1)]].concat();
    #[rustfmt::skip]
    let due = [
        2, 2, 0, 0b10, 5, 0, 1, 0, 0, 0, 0, 0, 0, 0, 5, 0, 5, 0, 0, 0,
        2, 2, 1, 0b01, 5, 7, 1, 2, 0, 0, 0, 7, 0, 7, 0, 0, 0, 0, 0, 0,
    ];
    let bytes: Vec<u8> = steps.iter().flat_map(|step| step.to_bytes()).collect();
    for held in [u64::MAX, 0, 1, 0b11] {
        let on = |call: &dyn Fn(Buffers) -> u64| {
            let (mut words, mut logs, mut answers) = ([held; 40], [9; 176], [9; 8]);
            let lent = Buffers { words: &mut words, logs: &mut logs, answers: &mut answers };
            (call(lent), words, answers)
        };
        for (number, words, answers) in [
            on(&|lent| library::run(2, 2, 88, &bytes, lent)),
            on(&|lent| library::run_records(2, 2, 88, &steps, lent)),
            on(&|lent| number(chassis::run(2, 2, 88, &bytes, lent))),
        ] {
            assert_eq!((number, words, answers), (0, due, [0; 8]), "{held:#x}");
        }
        let (number, words, answers) = on(&|lent| library::run(2, 2, 89, &bytes, lent));
        assert_eq!((number, words, answers), (11, [held; 40], [9; 8]), "{held:#x}");
    }
    assert_eq!(active_counters(&due[..20]), (0, 0b10));
    assert_eq!(active_counters(&due[20..]), (0, 0b01));
}

/// The message that the call makes.
fn made(call: &Sending, words: &mut [u64], counter: u64, amount: u64) -> Vec<u8> {
    let mut out = vec![9; 268];
    let answer = (call.theirs)(words, counter, amount, &mut out);
    assert_eq!(answer.number, 0);
    out.truncate(answer.length as usize);
    out
}

/// The bit of a counter of three cards after each call, all other bits being 0, or all ones though
/// no other row has an entry: they are not looked at and stay.
#[test]
fn the_bit_follows_its_row() {
    for (k, q) in [(1, 0), (2, 0), (2, 1), (63, 0), (63, 62), (64, 0), (64, 33), (64, 63)] {
        let (bit, all): (u64, u64) = (1 << q, u64::MAX >> (64 - k));
        for others in [0, all & !bit] {
            for clear in [CLEAR, READ_AND_CLEAR] {
                let mut cards = [0, 1, 2].map(|own| {
                    let mut words = words_of(3, k, own);
                    words[3] = others;
                    words
                });
                let [zero, one, two] = &mut cards;
                let is = |words: &[u64], held: u64, reads: [u64; 2]| {
                    assert_eq!(active_counters(words), (0, others | held), "k {k}, counter {q}");
                    let read = read(words, q);
                    assert_eq!((read.number, [read.value, read.holders]), (0, reads));
                };
                // A clear of nothing, made and taken: it says nothing.
                let empty = made(&clear, zero, q, 0);
                assert_eq!(empty.len(), 28);
                is(zero, 0, [0, 0]);
                for other in [&mut *one, &mut *two] {
                    assert_eq!(take(other, &empty), 0);
                    is(other, 0, [0, 0]);
                }
                // A count sets the bit, and another leaves it.
                let first = made(&COUNT, zero, q, 3);
                is(zero, bit, [3, 1]);
                let second = made(&COUNT, zero, q, 4);
                is(zero, bit, [7, 1]);
                // An increment taken sets it. A clear of all that was received clears it.
                assert_eq!(take(one, &first), 0);
                is(one, bit, [3, 1]);
                let cleared = made(&clear, one, q, 0);
                assert_eq!(cleared.len(), 48);
                is(one, 0, [0, 0]);
                // A clear ahead of its increment sets it: value 0, and a holder.
                assert_eq!(take(two, &cleared), 0);
                is(two, bit, [0, 1]);
                // A clear there leaves what is ahead.
                let again = made(&clear, two, q, 0);
                assert_eq!(again.len(), 48);
                is(two, bit, [0, 1]);
                // The increment then comes, and takes it away.
                assert_eq!(take(two, &first), 0);
                is(two, 0, [0, 0]);
                // Taken where more was counted it leaves an entry.
                assert_eq!(take(zero, &cleared), 0);
                is(zero, bit, [4, 1]);
                assert_eq!(take(zero, &again), 0);
                is(zero, bit, [4, 1]);
                // What was not cleared comes, and is cleared by its own card.
                assert_eq!(take(one, &second), 0);
                is(one, bit, [4, 1]);
                let last = made(&clear, zero, q, 0);
                is(zero, 0, [0, 0]);
                assert_eq!(take(one, &last), 0);
                is(one, 0, [0, 0]);
                // Refused calls move nothing.
                for words in [zero, one, two] {
                    let before = words.clone();
                    assert_eq!(send(&COUNT, words, q, 39).number, 5);
                    assert_eq!(send_by(&COUNT, words, q, 65_536, 268).number, 16);
                    assert_eq!(send(&clear, words, q, 27).number, 5);
                    assert_eq!(send(&clear, words, k, 268).number, 3);
                    assert_eq!(*words, before);
                }
            }
        }
    }
}

/// Three cards, two counters: the bits before and after deliveries, in rounds.
#[test]
fn bits_after_deliveries() {
    // Card 0 counts on counter 0, card 1 takes that and clears, card 2 counts on counter 1.
    let steps =
        [Step::count_by(0, 0, 3), Step::deliver(1, 0), Step::clear(1, 0), Step::count_by(2, 1, 5)];
    // After so many deliveries: to card 0 from 1 (the clear) and 2, to card 1 from 2, to card 2
    // from 0 and 1.
    let due = [
        [0b01, 0b00, 0b10],
        [0b00, 0b00, 0b10],
        [0b10, 0b00, 0b10],
        [0b10, 0b10, 0b10],
        [0b10, 0b10, 0b11],
        [0b10, 0b10, 0b10],
    ];
    for (most, due) in due.into_iter().enumerate() {
        let mut lent = Lent {
            cards: 3,
            counters: 2,
            log_bytes: 80,
            words: vec![u64::MAX; 3 * 28],
            logs: vec![0; 240],
        };
        let mut answers = [9; 8];
        let (words, logs) = (&mut lent.words, &mut lent.logs);
        let buffers = Buffers { words, logs, answers: &mut answers };
        assert_eq!(library::run_records(3, 2, 80, &steps, buffers), 0);
        assert_eq!(answers, [0; 8]);
        assert_eq!(lent.deliver_pending(most as u64), (0, most as u64));
        for (card, due) in due.into_iter().enumerate() {
            assert_eq!(active_counters(lent.replica(card)), (0, due), "{most}, card {card}");
        }
    }
}

/// A message that is declined, or a link that is passed over, moves no bit.
#[test]
fn bits_after_a_link_is_passed_over() {
    let mut lent = two_of_each();
    lent.rewrite(0, 1, Draft { counter: 2, ..count_of(0, 1) });
    for card in [1, 2] {
        // Card 1 has neither counted nor taken anything of counter 0, nor has card 2.
        lent.replica(card)[entry_at(3, 0, 0).start..][..9].fill(0);
        lent.replica(card)[3] = 0b10;
        lent.rewrite(card, 1, Draft { counter: 1, ..count_of(card, 1) });
    }
    assert_eq!(lent.deliver_pending(u64::MAX), (0, 8));
    for (card, due) in [(0, 0b11), (1, 0b10), (2, 0b10)] {
        assert_eq!(active_counters(lent.replica(card)), (0, due), "card {card}");
    }
}
