//! SPECIFICATION 3 and 4: the replica, and count, clear, take, read, read-and-clear.
//!
//! The words: r, k, own card; a bit for each active counter; C[j]; N[j]; then, counter by counter, (p, n, c) for each card.

use core::ops::Range;

use crate::limits::*;
use crate::message::{self, Body, Entries, Entry, Message, CURRENT};

/// Where r stands among the words,
pub const CARDS_AT: usize = 0;
/// k,
pub const COUNTERS_AT: usize = 1;
/// the own card,
pub const OWN_AT: usize = 2;
/// the active counters, a bit each,
pub const ACTIVE_AT: usize = 3;

/// C of a card,
pub const fn increments_at(card: usize) -> usize {
    HEAD_WORDS + card
}

/// N of a card,
pub const fn messages_at(cards: usize, card: usize) -> usize {
    HEAD_WORDS + cards + card
}

/// and a card's entry of a counter: p, n and c.
pub const fn entry_at(cards: usize, counter: usize, card: usize) -> Range<usize> {
    let row = replica_words(cards, counter);
    row + ENTRY_WORDS * card..row + ENTRY_WORDS * (card + 1)
}

#[derive(Clone, Copy, Debug, Default, PartialEq, Eq)]
pub struct Reading {
    pub value: u64,
    pub holders: u64,
    pub holder_count: u64,
}

#[derive(Clone, Copy, Debug, Default, PartialEq, Eq)]
pub struct Sent {
    pub sequence: u64,
    pub length: u64,
}

/// What clear returns, and the value beside it.
#[derive(Clone, Copy, Debug, Default, PartialEq, Eq)]
pub struct Cleared {
    pub value: u64,
    pub sent: Sent,
}

impl Cleared {
    /// Of a call that reads no value.
    pub fn unread(sent: Sent) -> Cleared {
        Cleared { value: 0, sent }
    }
}

/// One card's entry of one counter: Algorithm 1's M[j]. Absent is (0, 0, 0).
#[derive(Clone, Copy, Debug, PartialEq, Eq)]
struct Cell {
    p: u64,
    n: u64,
    c: u64,
}

impl Cell {
    const ABSENT: Cell = Cell { p: 0, n: 0, c: 0 };

    fn of(words: &[u64]) -> Cell {
        Cell { p: words[0], n: words[1], c: words[2] }
    }

    fn words(self) -> [u64; ENTRY_WORDS] {
        [self.p, self.n, self.c]
    }

    fn is_absent(self) -> bool {
        self == Cell::ABSENT
    }

    fn well_formed(self) -> bool {
        self.is_absent() || (1 <= self.p && self.p <= self.c && self.c <= MAX && self.n <= self.p)
    }

    fn max(self, other: Cell) -> Cell {
        Cell { p: self.p.max(other.p), n: self.n.max(other.n), c: self.c.max(other.c) }
    }
}

/// r, k and own card of words whose length fits them.
#[derive(Clone, Copy)]
struct Shape {
    cards: usize,
    counters: usize,
    own: usize,
}

impl Shape {
    fn new(words: usize, cards: u64, counters: u64, own: u64) -> Result<Shape, u64> {
        let limits = (1..=MOST_CARDS as u64).contains(&cards)
            && (1..=MOST_COUNTERS as u64).contains(&counters)
            && own < cards;
        if !limits || words != replica_words(cards as usize, counters as usize) {
            return Err(BAD_REPLICA);
        }
        Ok(Shape { cards: cards as usize, counters: counters as usize, own: own as usize })
    }

    fn of(words: &[u64]) -> Result<Shape, u64> {
        let head = words.first_chunk::<HEAD_WORDS>().ok_or(BAD_REPLICA)?;
        let shape = Shape::new(words.len(), head[CARDS_AT], head[COUNTERS_AT], head[OWN_AT])?;
        if (shape.counters..u64::BITS as usize).any(|bit| head[ACTIVE_AT] >> bit & 1 == 1) {
            return Err(BAD_REPLICA);
        }
        Ok(shape)
    }

    fn counter(self, counter: u64) -> Result<usize, u64> {
        if counter < self.counters as u64 {
            Ok(counter as usize)
        } else {
            Err(BAD_COUNTER)
        }
    }
}

/// A replica's shape, and a counter that it has; refused with 1, 3.
#[derive(Clone, Copy)]
struct Place {
    shape: Shape,
    counter: usize,
}

impl Place {
    fn of(words: &[u64], counter: u64) -> Result<Place, u64> {
        let shape = Shape::of(words)?;
        Ok(Place { shape, counter: shape.counter(counter)? })
    }
}

/// One counter of a replica: C and N of every card, and the counter's row.
struct Row<'a> {
    own: usize,
    active: bool,
    increments: &'a [u64],
    messages: &'a [u64],
    cells: &'a [u64],
}

impl<'a> Row<'a> {
    fn of(words: &'a [u64], shape: Shape, counter: usize) -> Row<'a> {
        let r = shape.cards;
        let (increments, rest) = words[HEAD_WORDS..].split_at(r);
        let (messages, rows) = rest.split_at(r);
        let cells = &rows[ENTRY_WORDS * r * counter..][..ENTRY_WORDS * r];
        let active = words[ACTIVE_AT] >> counter & 1 == 1;
        Row { own: shape.own, active, increments, messages, cells }
    }

    fn cells(&self) -> impl Iterator<Item = Cell> + '_ {
        self.cells.chunks_exact(ENTRY_WORDS).map(Cell::of)
    }

    fn cell(&self, card: usize) -> Cell {
        Cell::of(&self.cells[ENTRY_WORDS * card..][..ENTRY_WORDS])
    }

    fn check(self) -> Result<Row<'a>, u64> {
        if self.counted() && self.entered() {
            Ok(self)
        } else {
            Err(BAD_ROW)
        }
    }

    /// Of C and N, which all rows share.
    fn counted(&self) -> bool {
        self.increments.iter().chain(self.messages).all(|number| *number <= MAX)
    }

    /// Of the row's own entries, and its bit.
    fn entered(&self) -> bool {
        self.cell(self.own).c <= self.increments[self.own]
            && self.cells().all(Cell::well_formed)
            && self.active == self.cells().any(|cell| !cell.is_absent())
    }
}

/// N of the sender, in words that are a replica.
pub fn received_from(words: &[u64], sender: usize) -> u64 {
    words[messages_at(words[CARDS_AT] as usize, sender)]
}

/// Every row is well-formed; refused with 1, 2.
pub fn check_rows(words: &[u64]) -> Result<(), u64> {
    let shape = Shape::of(words)?;
    let row = |counter| Row::of(words, shape, counter);
    if row(0).counted() && (0..shape.counters).all(|counter| row(counter).entered()) {
        Ok(())
    } else {
        Err(BAD_ROW)
    }
}

/// Writes a fresh replica; only refused with 1.
pub fn open(words: &mut [u64], cards: u64, counters: u64, own: u64) -> Result<(), u64> {
    Shape::new(words.len(), cards, counters, own)?;
    words.fill(0);
    words[CARDS_AT] = cards;
    words[COUNTERS_AT] = counters;
    words[OWN_AT] = own;
    Ok(())
}

/// Value, holders and how many; refused with 1, 3, 2.
pub fn read(words: &[u64], counter: u64) -> Result<Reading, u64> {
    let Place { shape, counter } = Place::of(words, counter)?;
    let row = Row::of(words, shape, counter).check()?;
    let mut reading = Reading::default();
    for (card, cell) in row.cells().enumerate() {
        if !cell.is_absent() {
            reading.value += cell.p - cell.n;
            reading.holders |= 1 << card;
            reading.holder_count += 1;
        }
    }
    Ok(reading)
}

/// The active counters, a bit each; only refused with 1.
pub fn active(words: &[u64]) -> Result<u64, u64> {
    Shape::of(words).map(|_| words[ACTIVE_AT])
}

/// Sets a counter's bit by its row.
pub fn mark(words: &mut [u64], counter: usize) {
    let cards = words[CARDS_AT] as usize;
    let held = (0..cards).any(|card| words[entry_at(cards, counter, card)] != [0; ENTRY_WORDS]);
    words[ACTIVE_AT] = words[ACTIVE_AT] & !(1 << counter) | u64::from(held) << counter;
}

/// Counts `amount` on `counter`: the message to `out`, and applied; refused with 1, 3, 16, 2, 4, 5.
pub fn count(words: &mut [u64], counter: u64, amount: u64, out: &mut [u8]) -> Result<Sent, u64> {
    let place = Place::of(words, counter)?;
    if !is_amount(amount) {
        return Err(BAD_AMOUNT);
    }
    send(words, place, amount, out, |row| {
        let own = row.cell(row.own);
        let start = own.is_absent();
        let before = if start { row.increments[row.own] } else { own.p };
        Body::Increment { p: before + amount, start, amount: amount as u32 }
    })
}

/// Clears `counter`: every present entry to `out`, and applied; refused with 1, 3, 2, 4, 5.
pub fn clear(words: &mut [u64], counter: u64, out: &mut [u8]) -> Result<Sent, u64> {
    send(words, Place::of(words, counter)?, 0, out, |row| clearing(row).1)
}

/// Clears `counter`, and gives the value that a read gives just before; refused as clear.
pub fn read_and_clear(words: &mut [u64], counter: u64, out: &mut [u8]) -> Result<Cleared, u64> {
    let mut value = 0;
    let sent = send(words, Place::of(words, counter)?, 0, out, |row| {
        let (read, clear) = clearing(row);
        value = read;
        clear
    })?;
    Ok(Cleared { value, sent })
}

/// The value of a row, and the clear of all that it holds.
fn clearing(row: &Row) -> (u64, Body) {
    let mut value = 0;
    let mut entries = Entries::new();
    for (card, cell) in row.cells().enumerate() {
        if !cell.is_absent() {
            value += cell.p - cell.n;
            entries.push(Entry { card: card as u32, p: cell.p, c: cell.c });
        }
    }
    (value, Body::Clear(entries))
}

/// Makes a message that counts `units`; refused with 2, 4, 5.
fn send(
    words: &mut [u64],
    place: Place,
    units: u64,
    out: &mut [u8],
    body: impl FnOnce(&Row) -> Body,
) -> Result<Sent, u64> {
    let Place { shape, counter } = place;
    let row = Row::of(words, shape, counter).check()?;
    let made = row.messages[shape.own];
    if made == MAX || row.increments[shape.own] + units > MAX {
        return Err(EXHAUSTED);
    }
    let message = Message {
        version: CURRENT,
        sender: shape.own as u32,
        sequence: made + 1,
        counter: counter as u32,
        body: body(&row),
    };
    let length = message::write(&message, out)?;
    apply(words, shape, &message);
    Ok(Sent { sequence: message.sequence, length: length as u64 })
}

/// Takes another card's next message and gives its sequence; refused with 1, 6, 3, 2, 7, 8, 9, 10.
pub fn take(words: &mut [u64], bytes: &[u8]) -> Result<u64, u64> {
    let shape = Shape::of(words)?;
    let message = message::read(bytes).ok_or(UNREADABLE)?;
    take_read(words, shape, &message)
}

/// Takes a message already read.
pub fn take_message(words: &mut [u64], message: &Message) -> Result<u64, u64> {
    let shape = Shape::of(words)?;
    take_read(words, shape, message)
}

fn take_read(words: &mut [u64], shape: Shape, message: &Message) -> Result<u64, u64> {
    let counter = shape.counter(u64::from(message.counter))?;
    let row = Row::of(words, shape, counter).check()?;
    let sender = message.sender as usize;
    if sender >= shape.cards || sender == shape.own || names_stranger(message, shape.cards) {
        return Err(BAD_CARD);
    }
    let received = row.messages[sender];
    if message.sequence <= received {
        return Err(REPEATED);
    }
    if message.sequence > received + 1 {
        return Err(EARLY);
    }
    if !plausible(message, &row) {
        return Err(IMPLAUSIBLE);
    }
    apply(words, shape, message);
    Ok(message.sequence)
}

fn names_stranger(message: &Message, cards: usize) -> bool {
    match &message.body {
        Body::Increment { .. } => false,
        Body::Clear(entries) => entries.as_slice().iter().any(|e| e.card as usize >= cards),
    }
}

fn plausible(message: &Message, row: &Row) -> bool {
    let sender = message.sender as usize;
    match &message.body {
        Body::Increment { p, start, amount } => {
            let amount = u64::from(*amount);
            let next = row.increments[sender] + amount;
            let follows = if *start { *p == next } else { amount < *p && *p <= next };
            follows && next <= MAX
        }
        Body::Clear(entries) => entries.as_slice().iter().all(|e| {
            let card = e.card as usize;
            (card != row.own && card != sender) || e.c <= row.increments[card]
        }),
    }
}

/// The effect of a message of `message.sender` on a replica that accepts it.
fn apply(words: &mut [u64], shape: Shape, message: &Message) {
    let r = shape.cards;
    let sender = message.sender as usize;
    let (increments, rest) = words[HEAD_WORDS..].split_at_mut(r);
    let (messages, rows) = rest.split_at_mut(r);
    let cells = &mut rows[ENTRY_WORDS * r * message.counter as usize..][..ENTRY_WORDS * r];
    match &message.body {
        Body::Increment { p, start, amount } => {
            let amount = u64::from(*amount);
            let c = increments[sender] + amount;
            update(cells, sender, |cell| incremented(cell, amount, *p, *start, c));
            increments[sender] = c;
        }
        Body::Clear(entries) => {
            for e in entries.as_slice() {
                let card = e.card as usize;
                update(cells, card, |cell| cleared(cell, e.p, e.c, increments[card]));
            }
        }
    }
    messages[sender] += 1;
    mark(words, message.counter as usize);
}

fn update(cells: &mut [u64], card: usize, next: impl FnOnce(Cell) -> Cell) {
    let place = &mut cells[ENTRY_WORDS * card..][..ENTRY_WORDS];
    place.copy_from_slice(&next(Cell::of(place)).words());
}

/// "Increment from j by w": for an amount of 1, Algorithm 1, lines 17 to 25.
fn incremented(cell: Cell, amount: u64, p: u64, start: bool, c: u64) -> Cell {
    let n = if start || cell.is_absent() { p - amount } else { 0 };
    let next = cell.max(Cell { p, n, c });
    if next.p == next.n && next.c == c {
        Cell::ABSENT
    } else {
        next
    }
}

/// "Clear taken, for each (j, p, c)": Algorithm 1, lines 30 to 38.
fn cleared(cell: Cell, p: u64, c: u64, received: u64) -> Cell {
    if cell.is_absent() {
        return if c > received { Cell { p, n: p, c } } else { Cell::ABSENT };
    }
    let next = cell.max(Cell { p, n: p, c });
    if next.p == next.n && next.c <= received {
        Cell::ABSENT
    } else {
        next
    }
}
