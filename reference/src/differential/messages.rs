//! A message alone, read from bytes and written from the header's struct, good and damaged.

use super::{generate, written, Guarded, Place, Tally};
use crate::library::{self, MessageReading, Written};
use crate::limits::*;
use crate::message::{self, Body, Entries, Entry, Message, VERSIONS};
use crate::random::Random;

/// Numbers that each call can give.
pub const READ: &[u64] = &[OK, UNREADABLE];
pub const WRITE: &[u64] = &[OK, SHORT_OUTPUT, UNREADABLE];
/// What writing gives where one field takes every edge and there is room.
pub const FIELD: &[u64] = &[OK, UNREADABLE];

type Set<T> = (&'static str, fn(&mut T, u64));

pub const FIELDS: [Set<library::Message>; 9] = [
    ("version", |form, number| form.version = number as u32),
    ("kind", |form, number| form.kind = number as u32),
    ("sender", |form, number| form.sender = number as u32),
    ("sequence", |form, number| form.sequence = number),
    ("counter", |form, number| form.counter = number as u32),
    ("p", |form, number| form.p = number),
    ("start", |form, number| form.start = number as u32),
    ("amount", |form, number| form.amount = number as u32),
    ("len", |form, number| form.len = number as usize),
];

pub const ENTRY_FIELDS: [Set<Entry>; 3] = [
    ("entry card", |entry, number| entry.card = number as u32),
    ("entry p", |entry, number| entry.p = number),
    ("entry c", |entry, number| entry.c = number),
];

/// The header's struct for a message: what its version and its kind do not use is 0.
pub fn form_of(message: &Message) -> library::Message {
    let Message { version, sender, sequence, counter, body } = *message;
    let mut form = library::Message {
        version: version.number,
        sender,
        sequence,
        counter,
        ..Default::default()
    };
    match body {
        Body::Increment { p, start, amount } => {
            form.kind = MESSAGE_INCREMENT;
            form.p = p;
            form.start = u32::from(start);
            form.amount = amount;
        }
        Body::Clear(entries) => {
            let list = entries.as_slice();
            form.kind = MESSAGE_CLEAR;
            form.len = list.len();
            form.entries[..list.len()].copy_from_slice(list);
        }
    }
    form
}

/// The message that a struct is the one form of, its numbers in range or not.
fn message_of(form: &library::Message) -> Option<Message> {
    let version = VERSIONS.into_iter().find(|version| version.number == form.version)?;
    let body = match form.kind {
        MESSAGE_INCREMENT if form.start <= 1 => {
            Body::Increment { p: form.p, start: form.start == 1, amount: form.amount }
        }
        MESSAGE_CLEAR if form.len <= MOST_CARDS => {
            let mut entries = Entries::new();
            form.entries[..form.len].iter().for_each(|entry| entries.push(*entry));
            Body::Clear(entries)
        }
        _ => return None,
    };
    let library::Message { sender, sequence, counter, .. } = *form;
    let message = Message { version, sender, sequence, counter, body };
    (form_of(&message) == *form).then_some(message)
}

/// What the library answers where the reference reads this.
pub fn reading(message: Option<Message>) -> MessageReading {
    match message {
        Some(message) => MessageReading { number: OK, message: form_of(&message) },
        None => MessageReading { number: UNREADABLE, ..Default::default() },
    }
}

/// The reference's writing of the header's struct.
fn write(form: &library::Message, out: &mut [u8]) -> Written {
    written(match message_of(form) {
        Some(message) => message::write(&message, out),
        None => Err(UNREADABLE),
    })
}

/// `cases` messages: each read as bytes and written as a struct, either damaged or not.
pub fn random_messages(seed: u64, cases: u64) -> Tally {
    let mut tally = Tally::default();
    for case in 0..cases {
        let mut random = Random::case(seed, case);
        let place = || format!("seed {seed} case {case}");
        let bytes = bytes(&mut random);
        tally.note("read_message", compare_read(&bytes, &place));
        if let Some(read) = message::read_alone(&bytes) {
            tally.note("version read", read.version.number.into());
        }
        let message = generate::message(&mut random);
        let mut form = form_of(&message);
        for _ in 0..random.pick(&[0, 0, 1, 1, 2, 3]) {
            damage_form(&mut random, &mut form);
        }
        let content = room(&mut random, message.length());
        let number = compare_write(form, &content, &place);
        tally.note("write_message", number);
        if number == OK {
            tally.note("version written", form.version.into());
        }
    }
    tally
}

/// Panics unless both calls gave all of their numbers, and nothing else.
pub fn require_all(tally: &Tally) {
    tally.require("read_message", READ);
    tally.require("write_message", WRITE);
    for name in ["version read", "version written"] {
        tally.require(name, &VERSIONS.map(|version| version.number.into()));
    }
}

/// Of both versions an increment and every length of clear, each of its fields at every edge; gives
/// what each field was answered when written, and when read.
pub fn every_field_at_every_edge() -> [Tally; 2] {
    let [mut written, mut read] = [Tally::default(), Tally::default()];
    let mut compare = |name, form: library::Message, place: Place| {
        let number = compare_write(form, &[0xee; LONGEST_MESSAGE], place);
        written.note(name, number);
        if let (true, Some(unused)) = (name == "amount", unused_amount(&form)) {
            written.note(unused, number);
        }
        read.note(name, compare_read(&bytes_of(&form), place));
    };
    for base in bases() {
        for number in generate::EDGES {
            for (name, set) in FIELDS {
                let mut form = base;
                set(&mut form, number);
                compare(name, form, &|| format!("{name} {number} in {base:?}"));
            }
            for at in 0..MOST_CARDS {
                for (name, set) in ENTRY_FIELDS {
                    let mut form = base;
                    set(&mut form.entries[at], number);
                    compare(name, form, &|| format!("{name} {number} at {at} in {base:?}"));
                }
            }
        }
    }
    [written, read]
}

/// Where a struct has an amount that is no part of its message: in range only if it is 0.
pub const UNUSED_AMOUNTS: [&str; 2] = ["amount in version 1", "amount in a clear"];

fn unused_amount(form: &library::Message) -> Option<&'static str> {
    match form.kind {
        MESSAGE_CLEAR => Some(UNUSED_AMOUNTS[1]),
        _ if form.version == MESSAGE_VERSION_1 => Some(UNUSED_AMOUNTS[0]),
        _ => None,
    }
}

/// The bytes of a struct's fields, in range or not, with at most one entry too many.
fn bytes_of(form: &library::Message) -> Vec<u8> {
    let entries = form.entries.iter().cycle().take(form.len.min(MOST_CARDS + 1));
    let draft = generate::Draft {
        version: form.version,
        kind: form.kind,
        sender: form.sender,
        sequence: form.sequence,
        counter: form.counter,
        p: form.p,
        start: form.start,
        amount: form.amount,
        entries: entries.map(|entry| (entry.card, entry.p, entry.c)).collect(),
    };
    draft.bytes()
}

fn bases() -> Vec<library::Message> {
    let mut list = Vec::new();
    for version in VERSIONS {
        let header =
            library::Message { version: version.number, sequence: 9, ..Default::default() };
        let amount = if version.has_amount { 5 } else { 0 };
        list.push(library::Message { kind: MESSAGE_INCREMENT, p: 7, amount, ..header });
        for len in 0..=MOST_CARDS {
            let mut clear = library::Message { kind: MESSAGE_CLEAR, len, ..header };
            for (card, entry) in clear.entries[..len].iter_mut().enumerate() {
                // p takes numbers on both sides of c.
                *entry = Entry { card: card as u32, p: 2, c: MOST_CARDS as u64 + 1 };
            }
            list.push(clear);
        }
    }
    list
}

fn compare_read(bytes: &[u8], place: Place) -> u64 {
    let lent = Guarded::new(bytes);
    let theirs = library::read_message(lent.get());
    assert_eq!(reading(message::read_alone(bytes)), theirs, "{bytes:?}: {}", place());
    assert_eq!(lent, Guarded::new(bytes), "reading wrote: {}", place());
    if theirs.number == OK {
        let mut out = [0; LONGEST_MESSAGE];
        let written = library::write_message(theirs.message, &mut out);
        assert_eq!(written, Written { number: OK, length: bytes.len() }, "{}", place());
        assert_eq!(&out[..written.length], bytes, "{}", place());
    }
    theirs.number
}

fn compare_write(form: library::Message, content: &[u8], place: Place) -> u64 {
    let (mut our_out, mut their_out) = (Guarded::new(content), Guarded::new(content));
    let ours = write(&form, our_out.get_mut());
    let theirs = library::write_message(form, their_out.get_mut());
    assert_eq!(ours, theirs, "{form:?}: {}", place());
    assert_eq!(our_out, their_out, "{form:?}: {}", place());
    let (bytes, past) = their_out.get().split_at(theirs.length);
    assert_eq!(past, &content[theirs.length..], "bytes past the message: {}", place());
    if theirs.number == OK {
        let read = library::read_message(bytes);
        assert_eq!(read, MessageReading { number: OK, message: form }, "{}", place());
    }
    theirs.number
}

/// The bytes of a message, damaged or not, or any bytes.
fn bytes(random: &mut Random) -> Vec<u8> {
    if random.percent(5) {
        let len = random.below(LONGEST_MESSAGE as u64 + 20) as usize;
        return random.bytes(len);
    }
    let mut out = [0; LONGEST_MESSAGE];
    let length = message::write(&generate::message(random), &mut out).expect("in range");
    let mut bytes = out[..length].to_vec();
    for _ in 0..random.pick(&[0, 1, 1, 2]) {
        generate::damage_bytes(random, &mut bytes);
    }
    bytes
}

/// One wound: a field, one of any entry, two entries exchanged, or one entry more or less.
fn damage_form(random: &mut Random, form: &mut library::Message) {
    let number = match random.below(3) {
        0 => random.word(),
        1 => random.pick(&generate::EDGES),
        _ => random.below(4),
    };
    let at = random.below(MOST_CARDS as u64) as usize;
    match random.below(8) {
        0..=2 => random.pick(&FIELDS).1(form, number),
        3..=5 => random.pick(&ENTRY_FIELDS).1(&mut form.entries[at], number),
        6 => form.entries.swap(at, random.below(MOST_CARDS as u64) as usize),
        _ => form.len = form.len.wrapping_add(random.pick(&[1, usize::MAX])),
    }
}

/// Output for a message of `needed` bytes: short by one, exact, longer by one, or of any length.
fn room(random: &mut Random, needed: usize) -> Vec<u8> {
    let any = random.below(LONGEST_MESSAGE as u64 + 60) as usize;
    let len = random.pick(&[needed, needed, needed - 1, needed + 1, 0, any, any]);
    random.bytes(len)
}
