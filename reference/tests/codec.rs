//! The reference's own reader and writer: the round trips that the library's wire proves.

use yelansub_reference::differential::generate;
use yelansub_reference::limits::*;
use yelansub_reference::message::{self, Body, Entries, Entry, Message, CURRENT, PLAIN, VERSIONS};
use yelansub_reference::random::Random;

const CARDS: u32 = MOST_CARDS as u32;

#[test]
fn bytes_that_read_are_the_bytes_written() {
    let (seed, cases) = (7, 200_000);
    let mut read = [0; VERSIONS.len()];
    for case in 0..cases {
        let mut random = Random::case(seed, case);
        let words = generate::replica(&mut random);
        let mut draft = generate::draft(&mut random, &words);
        draft.version = random.pick(&VERSIONS).number;
        let mut bytes = draft.bytes();
        if random.percent(30) {
            generate::damage_bytes(&mut random, &mut bytes);
        }
        if let Some(message) = message::read_alone(&bytes) {
            let current = message.version == CURRENT;
            read[usize::from(current)] += 1;
            assert_eq!(message::read(&bytes), current.then_some(message));
            let mut out = [0; LONGEST_MESSAGE];
            let length = message::write(&message, &mut out).expect("room for every message");
            assert_eq!(out[..length], bytes, "seed {seed} case {case}");
            bytes.extend([1; 5]);
            assert_eq!(message::read_front(&bytes), current.then_some(message));
            assert_eq!(message::read(&bytes), None);
            assert_eq!(message::read_alone(&bytes), None);
        }
    }
    println!("{read:?} of {cases} read");
    assert!(read.iter().all(|read| *read > cases / 8));
}

#[test]
fn a_message_out_of_range_is_not_written() {
    let right = Message {
        version: CURRENT,
        sender: 3,
        sequence: 8,
        counter: 2,
        body: Body::Increment { p: 4, start: false, amount: 3 },
    };
    let clear = |list: &[(u32, u64, u64)]| {
        let mut entries = Entries::new();
        list.iter().for_each(|e| entries.push(Entry { card: e.0, p: e.1, c: e.2 }));
        Message { body: Body::Clear(entries), ..right }
    };
    let by = |version, amount| Message {
        version,
        body: Body::Increment { p: 4, start: false, amount },
        ..right
    };
    let most = MOST_AMOUNT as u32;
    let wrong = [
        by(CURRENT, 0),
        by(CURRENT, most + 1),
        by(CURRENT, u32::MAX),
        by(PLAIN, 1),
        by(PLAIN, u32::MAX),
        Message { sender: CARDS, ..right },
        Message { sequence: 0, ..right },
        Message { sequence: MAX + 1, ..right },
        Message { counter: MOST_COUNTERS as u32, ..right },
        Message { body: Body::Increment { p: 0, start: true, amount: 1 }, ..right },
        Message { body: Body::Increment { p: MAX + 1, start: true, amount: 1 }, ..right },
        clear(&[(CARDS, 1, 1)]),
        clear(&[(1, 0, 1)]),
        clear(&[(1, 2, 1)]),
        clear(&[(1, 1, MAX + 1)]),
        clear(&[(1, 1, 1), (1, 1, 1)]),
        clear(&[(2, 1, 1), (1, 1, 1)]),
    ];
    for message in wrong {
        let mut out = [9; LONGEST_MESSAGE];
        assert_eq!(message::write(&message, &mut out), Err(UNREADABLE), "{message:?}");
        assert_eq!(message::write(&message, &mut []), Err(UNREADABLE), "6 comes before 5");
        assert_eq!(out, [9; LONGEST_MESSAGE]);
    }
    let mut out = [9; INCREMENT_BYTES];
    assert_eq!(message::write(&right, &mut out[1..]), Err(SHORT_OUTPUT));
    assert_eq!(out, [9; INCREMENT_BYTES]);
    assert_eq!(message::write(&right, &mut out), Ok(INCREMENT_BYTES));
    for (message, length) in [
        (by(CURRENT, 1), INCREMENT_BYTES),
        (by(CURRENT, most), INCREMENT_BYTES),
        (right.plain(), PLAIN_INCREMENT_BYTES),
    ] {
        assert_eq!(message::write(&message, &mut out[..length - 1]), Err(SHORT_OUTPUT));
        assert_eq!(message::write(&message, &mut out), Ok(length));
    }
    let mut out = [9; clear_bytes(2)];
    let last = clear(&[(0, 1, 1), (CARDS - 1, MAX, MAX)]);
    assert_eq!(message::write(&last, &mut out[1..]), Err(SHORT_OUTPUT));
    assert_eq!(message::write(&last, &mut out), Ok(clear_bytes(2)));
}
