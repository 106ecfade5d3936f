//! The library and the reference against bytes made by rpcgen and libtirpc from
//! `include/message.x` (`vectors/regenerate.sh` makes them again).

use yelansub_reference::differential::convert::{TO_VERSION_1, TO_VERSION_2};
use yelansub_reference::differential::{messages, taken};
use yelansub_reference::library;
use yelansub_reference::limits::*;
use yelansub_reference::message::{self, Body, Entries, Entry, Message, CURRENT, VERSIONS};
use yelansub_reference::replica::{self, entry_at, increments_at, messages_at};

const VECTORS: &str = include_str!("../vectors/messages.txt");

struct Vector {
    message: Message,
    bytes: Vec<u8>,
}

fn vectors() -> Vec<Vector> {
    let list: Vec<Vector> = VECTORS.lines().map(vector).collect();
    assert!(list.len() > 400, "the file of vectors is short");
    list
}

/// Those that a card can make and take.
fn current() -> Vec<Vector> {
    vectors().into_iter().filter(|vector| vector.message.version == CURRENT).collect()
}

fn vector(line: &str) -> Vector {
    let mut fields = line.split(' ').collect::<Vec<_>>();
    let bytes = unhex(fields.pop().expect("bytes last"));
    let kind = fields.remove(0);
    let mut numbers: Vec<u64> = fields.iter().map(|f| f.parse().expect("a number")).collect();
    let version = u32::try_from(numbers.remove(0)).expect("a version");
    let version = VERSIONS.into_iter().find(|of| of.number == version).expect("a version");
    let body = match kind {
        "increment" => {
            Body::Increment { p: numbers[3], start: numbers[4] == 1, amount: numbers[5] as u32 }
        }
        "clear" => {
            let mut entries = Entries::new();
            for e in numbers[4..].chunks_exact(3) {
                entries.push(Entry { card: e[0] as u32, p: e[1], c: e[2] });
            }
            assert_eq!(entries.as_slice().len() as u64, numbers[3]);
            Body::Clear(entries)
        }
        other => panic!("{other}"),
    };
    let message = Message {
        version,
        sender: numbers[0] as u32,
        sequence: numbers[1],
        counter: numbers[2] as u32,
        body,
    };
    Vector { message, bytes }
}

fn unhex(text: &str) -> Vec<u8> {
    let digits = text.as_bytes().chunks_exact(2);
    digits.map(|d| u8::from_str_radix(std::str::from_utf8(d).unwrap(), 16).unwrap()).collect()
}

struct Words(Vec<u64>);

impl Words {
    /// C = N = MAX for every card but `sender`, which has made or sent one message less than
    /// `message.sequence`; an increment's p is what it has counted and the amount.
    fn before(message: &Message, own: usize) -> Words {
        let mut words = vec![0; replica_words(MOST_CARDS, MOST_COUNTERS)];
        replica::open(&mut words, MOST_CARDS as u64, MOST_COUNTERS as u64, own as u64).unwrap();
        for card in 0..MOST_CARDS {
            words[increments_at(card)] = MAX;
            words[messages_at(MOST_CARDS, card)] = MAX;
        }
        let sender = message.sender as usize;
        words[messages_at(MOST_CARDS, sender)] = message.sequence - 1;
        words[increments_at(sender)] = match message.body {
            Body::Increment { p, amount, .. } => p - u64::from(amount),
            Body::Clear(_) => message.sequence - 1,
        };
        Words(words)
    }

    fn set(&mut self, counter: u32, card: u32, entry: [u64; ENTRY_WORDS]) {
        let at = entry_at(MOST_CARDS, counter as usize, card as usize);
        self.0[at].copy_from_slice(&entry);
        replica::mark(&mut self.0, counter as usize);
    }
}

/// A replica whose next count or clear makes the vector's message.
fn maker(message: &Message) -> Vec<u64> {
    let mut words = Words::before(message, message.sender as usize);
    match &message.body {
        Body::Increment { start: true, .. } => {}
        Body::Increment { p, start: false, amount } => {
            let before = p - u64::from(*amount);
            words.set(message.counter, message.sender, [before, 0, before]);
        }
        Body::Clear(entries) => {
            for e in entries.as_slice() {
                words.set(message.counter, e.card, [e.p, 0, e.c]);
            }
        }
    }
    words.0
}

/// A replica of another card whose next message from the sender is the vector's.
fn taker(message: &Message) -> Vec<u64> {
    Words::before(message, (message.sender as usize + 1) % MOST_CARDS).0
}

#[test]
fn the_specifications_example_is_first_in_both_versions() {
    let fields = "00000001 00000000 0000000000000001 00000000 0000000000000001 00000001";
    for (at, hex) in [format!("00000002 {fields} 00000001"), format!("00000001 {fields}")]
        .into_iter()
        .enumerate()
    {
        assert_eq!(vectors()[at].bytes, unhex(&hex.replace(' ', "")));
    }
}

#[test]
fn vectors_cover_every_number_of_entries() {
    let list = vectors();
    for (version, entries) in VERSIONS.iter().flat_map(|v| (0..=MOST_CARDS).map(move |e| (v, e))) {
        let has = |v: &Vector| match v.message.body {
            Body::Increment { .. } => false,
            Body::Clear(of) => v.message.version == *version && of.as_slice().len() == entries,
        };
        assert!(list.iter().any(has), "{entries} entries in {version:?}");
    }
}

#[test]
fn vectors_cover_the_amounts_at_the_edges() {
    for edge in [1, MOST_AMOUNT as u32] {
        for due in [false, true] {
            let has = |v: &Vector| match v.message.body {
                Body::Increment { start, amount, .. } => (start, amount) == (due, edge),
                Body::Clear(_) => false,
            };
            assert!(current().iter().any(has), "{edge}, start {due}");
        }
    }
}

#[test]
fn reference_writes_and_reads_the_vectors() {
    for Vector { message, bytes } in vectors() {
        let mut out = [0; LONGEST_MESSAGE];
        assert_eq!(message::write(&message, &mut out), Ok(bytes.len()));
        assert_eq!(out[..bytes.len()], bytes);
        assert_eq!(message::read_alone(&bytes), Some(message));
    }
}

#[test]
fn library_reads_and_writes_the_vectors() {
    for Vector { message, bytes } in vectors() {
        let form = messages::form_of(&message);
        let read = library::MessageReading { number: OK, message: form };
        assert_eq!(library::read_message(&bytes), read, "{message:?}");
        let mut out = [0xee; LONGEST_MESSAGE + 4];
        let written = library::write_message(form, &mut out);
        assert_eq!(written, library::Written { number: OK, length: bytes.len() }, "{message:?}");
        assert_eq!(out[..bytes.len()], bytes, "{message:?}");
        assert!(out[bytes.len()..].iter().all(|byte| *byte == 0xee), "{message:?}");
    }
}

#[test]
fn library_makes_the_vectors() {
    for Vector { message, bytes } in current() {
        let mut words = maker(&message);
        let mut out = [0xee; LONGEST_MESSAGE + 4];
        let counter = u64::from(message.counter);
        let sent = match message.body {
            Body::Increment { amount, .. } => {
                library::count(&mut words, counter, amount.into(), &mut out)
            }
            Body::Clear(_) => library::clear(&mut words, counter, &mut out),
        };
        let expected =
            library::Sent { number: OK, sequence: message.sequence, length: bytes.len() as u64 };
        assert_eq!(sent, expected, "{message:?}");
        assert_eq!(out[..bytes.len()], bytes, "{message:?}");
        assert!(out[bytes.len()..].iter().all(|byte| *byte == 0xee), "{message:?}");
    }
}

#[test]
fn library_takes_the_vectors_of_version_2() {
    for Vector { message, bytes } in vectors() {
        let mut words = taker(&message);
        let mut ours = words.clone();
        let due = if message.version == CURRENT { Ok(message.sequence) } else { Err(UNREADABLE) };
        assert_eq!(library::take(&mut words, &bytes), taken(due), "{message:?}");
        assert_eq!(replica::take(&mut ours, &bytes), due);
        assert_eq!(words, ours, "{message:?}");
    }
}

#[test]
fn every_flipped_bit_and_every_other_length_of_the_vectors_agrees() {
    let mut unreadable = 0;
    for Vector { message, bytes } in vectors() {
        let before = taker(&message);
        let (mut ours, mut theirs) = (before.clone(), before.clone());
        let mut agree = |bytes: &[u8]| {
            let expected = replica::take(&mut ours, bytes);
            let taken = library::take(&mut theirs, bytes);
            let answer = if taken.number == OK { Ok(taken.sequence) } else { Err(taken.number) };
            assert_eq!(answer, expected, "{bytes:?}");
            assert_eq!(ours, theirs, "{bytes:?}");
            let read = messages::reading(message::read_alone(bytes));
            assert_eq!(library::read_message(bytes), read, "{bytes:?}");
            unreadable += u32::from(taken.number == UNREADABLE);
            if taken.number == OK {
                ours.copy_from_slice(&before);
                theirs.copy_from_slice(&before);
            }
        };
        let mut longer = bytes.clone();
        longer.extend([0; clear_bytes(1)]);
        for len in 0..longer.len() {
            agree(&longer[..len]);
        }
        let mut flipped = bytes.clone();
        for bit in 0..8 * bytes.len() {
            flipped[bit / 8] ^= 1 << (bit % 8);
            agree(&flipped);
            flipped[bit / 8] ^= 1 << (bit % 8);
        }
    }
    println!("{unreadable} changed messages did not read");
    assert!(unreadable > 10_000);
}

/// The vectors that are one message in both versions, end to end in each: by one where it counts.
#[test]
fn the_log_of_one_version_converts_to_that_of_the_other() {
    let list = vectors();
    let is_by_one = |vector: &&Vector| match vector.message.body {
        Body::Increment { amount, .. } => amount == 1,
        Body::Clear(_) => true,
    };
    let (mut current, mut plain, mut many) = (Vec::new(), Vec::new(), [0, 0]);
    for vector in list.iter().filter(|v| v.message.version == CURRENT).filter(is_by_one) {
        let plain_message = vector.message.plain();
        if let Some(other) = list.iter().find(|other| other.message == plain_message) {
            many[usize::from(matches!(vector.message.body, Body::Clear(_)))] += 1;
            current.extend(&vector.bytes);
            plain.extend(&other.bytes);
        }
    }
    assert!(many[0] >= 5 && many[1] > 100, "{many:?} vectors in both versions");
    assert_eq!(current.len(), plain.len() + 4 * many[0]);
    for (call, log, due) in [(TO_VERSION_2, &plain, &current), (TO_VERSION_1, &current, &plain)] {
        let (mut ours, mut theirs) = (vec![0; due.len()], vec![0; due.len()]);
        assert_eq!((call.ours)(log, &mut ours), Ok(due.len()), "{}", call.name);
        let answer = (call.theirs)(log, &mut theirs);
        assert_eq!((answer.number, answer.length), (OK, due.len()), "{}", call.name);
        assert!(ours == *due && theirs == *due, "{}", call.name);
    }
}
