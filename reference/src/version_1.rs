//! SPECIFICATION 6.4: cards of version 1, which count by one and know no amount. Written for itself,
//! not as counts by 1: what such cards leave is compared with what the converted messages leave.

use crate::limits::*;
use crate::message::{self, Body, Entries, Entry, Message, PLAIN};
use crate::replica::{self, entry_at, increments_at, messages_at, Sent};

/// p, n and c; three zeros where there is none.
type Cell = [u64; ENTRY_WORDS];
const ABSENT: Cell = [0; ENTRY_WORDS];

fn greatest(cell: Cell, other: Cell) -> Cell {
    core::array::from_fn(|field| cell[field].max(other[field]))
}

/// One card's words, which are a replica.
struct Card<'a> {
    words: &'a mut [u64],
    cards: usize,
    counters: usize,
    own: usize,
}

impl<'a> Card<'a> {
    /// Refused with 1.
    fn of(words: &'a mut [u64]) -> Result<Card<'a>, u64> {
        let [cards, counters, own, active, ..] = *words else { return Err(BAD_REPLICA) };
        let limits = (1..=MOST_CARDS as u64).contains(&cards)
            && (1..=MOST_COUNTERS as u64).contains(&counters)
            && own < cards;
        if !limits || words.len() != replica_words(cards as usize, counters as usize) {
            return Err(BAD_REPLICA);
        }
        if counters < 64 && active >> counters != 0 {
            return Err(BAD_REPLICA);
        }
        let [cards, counters, own] = [cards, counters, own].map(|number| number as usize);
        Ok(Card { words, cards, counters, own })
    }

    /// C of a card,
    fn increments(&self, card: usize) -> u64 {
        self.words[increments_at(card)]
    }

    /// and N.
    fn messages(&self, card: usize) -> u64 {
        self.words[messages_at(self.cards, card)]
    }

    fn cell(&self, counter: usize, card: usize) -> Cell {
        let at = entry_at(self.cards, counter, card).start;
        core::array::from_fn(|field| self.words[at + field])
    }

    fn set(&mut self, counter: usize, card: usize, cell: Cell) {
        let at = entry_at(self.cards, counter, card);
        self.words[at].copy_from_slice(&cell);
    }

    /// A counter below k, its row well-formed; refused with 3, 2.
    fn row(&self, counter: u64) -> Result<usize, u64> {
        if counter >= self.counters as u64 {
            return Err(BAD_COUNTER);
        }
        let counter = counter as usize;
        for card in 0..self.cards {
            let (increments, messages) = (self.increments(card), self.messages(card));
            let cell = self.cell(counter, card);
            let [p, n, c] = cell;
            let entry = cell == ABSENT || (1 <= p && p <= c && c <= MAX && n <= p);
            let own = card != self.own || c <= increments;
            if increments > messages || messages > MAX || !entry || !own {
                return Err(BAD_ROW);
            }
        }
        Ok(counter)
    }

    /// Refused with 4, 5.
    fn send(&mut self, counter: usize, body: Body, out: &mut [u8]) -> Result<Sent, u64> {
        if self.messages(self.own) == MAX {
            return Err(EXHAUSTED);
        }
        let message = Message {
            version: PLAIN,
            sender: self.own as u32,
            sequence: self.messages(self.own) + 1,
            counter: counter as u32,
            body,
        };
        let length = message::write(&message, out)?;
        self.apply(&message);
        Ok(Sent { sequence: message.sequence, length: length as u64 })
    }

    fn apply(&mut self, message: &Message) {
        let (sender, counter) = (message.sender as usize, message.counter as usize);
        match &message.body {
            Body::Increment { p, start, .. } => {
                let c = self.increments(sender) + 1;
                let cell = self.cell(counter, sender);
                let n = if *start || cell == ABSENT { p - 1 } else { 0 };
                let [p, n, latest] = greatest(cell, [*p, n, c]);
                let gone = p == n && latest == c;
                self.set(counter, sender, if gone { ABSENT } else { [p, n, latest] });
                self.words[increments_at(sender)] = c;
            }
            Body::Clear(entries) => {
                for entry in entries.as_slice() {
                    self.clear_entry(counter, entry);
                }
            }
        }
        self.words[messages_at(self.cards, sender)] += 1;
        // A card of version 1 has no such word: it is compared with one worked out from the rows.
        replica::mark(self.words, counter);
    }

    fn clear_entry(&mut self, counter: usize, entry: &Entry) {
        let card = entry.card as usize;
        let (cell, received) = (self.cell(counter, card), self.increments(card));
        if cell == ABSENT && entry.c <= received {
            return;
        }
        let [p, n, c] = greatest(cell, [entry.p, entry.p, entry.c]);
        let gone = cell != ABSENT && p == n && c <= received;
        self.set(counter, card, if gone { ABSENT } else { [p, n, c] });
    }

    /// Of another card's message, which is the next.
    fn is_plausible(&self, message: &Message) -> bool {
        let sender = message.sender as usize;
        match &message.body {
            Body::Increment { p, start, .. } => {
                let next = self.increments(sender) + 1;
                if *start {
                    *p == next
                } else {
                    1 < *p && *p <= next
                }
            }
            Body::Clear(entries) => entries.as_slice().iter().all(|entry| {
                let card = entry.card as usize;
                ![self.own, sender].contains(&card) || entry.c <= self.increments(card)
            }),
        }
    }
}

/// Counts one; refused with 1, 3, 2, 4, 5.
pub fn count(words: &mut [u64], counter: u64, out: &mut [u8]) -> Result<Sent, u64> {
    let mut card = Card::of(words)?;
    let counter = card.row(counter)?;
    let own = card.cell(counter, card.own);
    let start = own == ABSENT;
    let p = if start { card.increments(card.own) } else { own[0] } + 1;
    card.send(counter, Body::Increment { p, start, amount: 0 }, out)
}

/// Clears all that the counter's row holds; refused with 1, 3, 2, 4, 5.
pub fn clear(words: &mut [u64], counter: u64, out: &mut [u8]) -> Result<Sent, u64> {
    let mut card = Card::of(words)?;
    let counter = card.row(counter)?;
    let mut entries = Entries::new();
    for j in 0..card.cards {
        let [p, _, c] = card.cell(counter, j);
        if p > 0 {
            entries.push(Entry { card: j as u32, p, c });
        }
    }
    card.send(counter, Body::Clear(entries), out)
}

/// Takes another card's next message of version 1 and gives its sequence; refused with 1, 6, 3, 2,
/// 7, 8, 9, 10.
pub fn take(words: &mut [u64], bytes: &[u8]) -> Result<u64, u64> {
    let mut card = Card::of(words)?;
    let message = message::read_front_in(bytes, PLAIN).ok_or(UNREADABLE)?;
    if message.length() != bytes.len() {
        return Err(UNREADABLE);
    }
    card.row(message.counter.into())?;
    let mut named = vec![message.sender];
    if let Body::Clear(entries) = &message.body {
        named.extend(entries.as_slice().iter().map(|entry| entry.card));
    }
    let sender = message.sender as usize;
    if sender == card.own || named.iter().any(|named| *named as usize >= card.cards) {
        return Err(BAD_CARD);
    }
    let received = card.messages(sender);
    if message.sequence <= received {
        return Err(REPEATED);
    }
    if message.sequence > received + 1 {
        return Err(EARLY);
    }
    if !card.is_plausible(&message) {
        return Err(IMPLAUSIBLE);
    }
    card.apply(&message);
    Ok(message.sequence)
}

/// A call that makes a message.
type Make = fn(&mut [u64], u64, &mut [u8]) -> Result<Sent, u64>;

/// A step of a run: kind, then card and counter, or receiver and sender.
pub type Step = [u32; 3];

/// Several cards, with the messages that each has made.
#[derive(Clone, Debug, PartialEq, Eq)]
pub struct Chassis {
    /// Of each card its words,
    pub words: Vec<Vec<u64>>,
    /// and its messages, which are its log end to end.
    pub made: Vec<Vec<Vec<u8>>>,
    log_bytes: usize,
}

impl Chassis {
    /// With logs of so many bytes; r and k are in range.
    pub fn fresh(cards: usize, counters: usize, log_bytes: usize) -> Chassis {
        let open = |own: usize| {
            let mut words = vec![0; replica_words(cards, counters)];
            replica::open(&mut words, cards as u64, counters as u64, own as u64).expect("in range");
            words
        };
        let words = (0..cards).map(open).collect();
        Chassis { words, made: vec![Vec::new(); cards], log_bytes }
    }

    pub fn cards(&self) -> usize {
        self.words.len()
    }

    /// A card's messages end to end.
    pub fn log(&self, card: usize) -> Vec<u8> {
        self.made[card].concat()
    }

    /// Gives the step's answer: 0, or 12, 7, 3, 4, 14 or 13.
    pub fn step(&mut self, [kind, first, second]: Step) -> u64 {
        let (first, second) = (first as usize, second as usize);
        let answer = match kind {
            STEP_COUNT => self.make(count, first, second),
            STEP_CLEAR => self.make(clear, first, second),
            STEP_DELIVER => self.deliver(first, second),
            _ => Err(BAD_KIND),
        };
        answer.err().unwrap_or(OK)
    }

    fn make(&mut self, call: Make, card: usize, counter: usize) -> Result<(), u64> {
        if card >= self.cards() {
            return Err(BAD_CARD);
        }
        let room = self.log_bytes - self.made[card].iter().map(Vec::len).sum::<usize>();
        let mut out = vec![0; room.min(LONGEST_MESSAGE)];
        let sent = call(&mut self.words[card], counter as u64, &mut out);
        let sent = sent.map_err(|number| if number == SHORT_OUTPUT { LOG_FULL } else { number })?;
        out.truncate(sent.length as usize);
        self.made[card].push(out);
        Ok(())
    }

    /// The sender's message number N + 1, N being the receiver's.
    fn deliver(&mut self, receiver: usize, sender: usize) -> Result<(), u64> {
        if receiver.max(sender) >= self.cards() || receiver == sender {
            return Err(BAD_CARD);
        }
        let received = self.words[receiver][messages_at(self.cards(), sender)];
        let message = self.made[sender].get(received as usize).ok_or(NOTHING_WAITING)?;
        take(&mut self.words[receiver], message).map(|_| ())
    }
}
