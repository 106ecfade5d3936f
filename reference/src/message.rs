//! SPECIFICATION 2, the message: big-endian, every field in range, the length exact.
//! What cards send is of the current version; a message alone is of either.

use crate::limits::*;

// Where the fields of the header stand, and where it ends.
const VERSION_AT: usize = 0;
const KIND_AT: usize = 4;
const SENDER_AT: usize = 8;
const SEQUENCE_AT: usize = 12;
const COUNTER_AT: usize = 20;
const HEADER_BYTES: usize = 24;

// Behind the header of an increment.
const P_AT: usize = 0;
const START_AT: usize = 8;
const AMOUNT_AT: usize = 12;

// In an entry of a clear. The entries follow a word that counts them.
const ENTRY_CARD_AT: usize = 0;
const ENTRY_P_AT: usize = 4;
const ENTRY_C_AT: usize = 12;
const ENTRY_BYTES: usize = clear_bytes(1) - clear_bytes(0);

#[repr(C)]
#[derive(Clone, Copy, Debug, Default, PartialEq, Eq)]
pub struct Entry {
    pub card: u32,
    pub p: u64,
    pub c: u64,
}

/// A clear's entries: at most one for each card, in order of card.
#[derive(Clone, Copy, Debug)]
pub struct Entries {
    list: [Entry; MOST_CARDS],
    len: usize,
}

impl Entries {
    pub fn new() -> Self {
        Entries { list: [Entry::default(); MOST_CARDS], len: 0 }
    }

    /// Panics at more than `MOST_CARDS` entries.
    pub fn push(&mut self, entry: Entry) {
        self.list[self.len] = entry;
        self.len += 1;
    }

    pub fn as_slice(&self) -> &[Entry] {
        &self.list[..self.len]
    }
}

impl Default for Entries {
    fn default() -> Self {
        Self::new()
    }
}

impl PartialEq for Entries {
    fn eq(&self, other: &Self) -> bool {
        self.as_slice() == other.as_slice()
    }
}

/// A version: its number, and whether its increments have an amount. Nothing else differs.
#[derive(Clone, Copy, Debug, PartialEq, Eq)]
pub struct Version {
    pub number: u32,
    pub has_amount: bool,
}

pub const PLAIN: Version = Version { number: MESSAGE_VERSION_1, has_amount: false };
pub const CURRENT: Version = Version { number: MESSAGE_VERSION, has_amount: true };
pub const VERSIONS: [Version; 2] = [PLAIN, CURRENT];

impl Version {
    pub fn increment_bytes(self) -> usize {
        if self.has_amount {
            INCREMENT_BYTES
        } else {
            PLAIN_INCREMENT_BYTES
        }
    }

    fn amount_in_range(self, amount: u32) -> bool {
        if self.has_amount {
            is_amount(amount.into())
        } else {
            amount == 0
        }
    }
}

#[derive(Clone, Copy, Debug, PartialEq)]
pub enum Body {
    /// The amount is 0 where the version has none.
    Increment {
        p: u64,
        start: bool,
        amount: u32,
    },
    Clear(Entries),
}

#[derive(Clone, Copy, Debug, PartialEq)]
pub struct Message {
    pub version: Version,
    pub sender: u32,
    pub sequence: u64,
    pub counter: u32,
    pub body: Body,
}

impl Message {
    /// Bytes that the written message takes.
    pub fn length(&self) -> usize {
        match &self.body {
            Body::Increment { .. } => self.version.increment_bytes(),
            Body::Clear(entries) => clear_bytes(entries.len),
        }
    }

    /// The same in version 1, which has no amount.
    pub fn plain(mut self) -> Message {
        self.version = PLAIN;
        if let Body::Increment { amount, .. } = &mut self.body {
            *amount = 0;
        }
        self
    }

    fn in_range(&self) -> bool {
        header_in_range(self.sender, self.sequence, self.counter)
            && match &self.body {
                Body::Increment { p, amount, .. } => {
                    positive(*p) && self.version.amount_in_range(*amount)
                }
                Body::Clear(entries) => entries_in_range(entries.as_slice()),
            }
    }
}

fn header_in_range(sender: u32, sequence: u64, counter: u32) -> bool {
    (sender as usize) < MOST_CARDS && positive(sequence) && (counter as usize) < MOST_COUNTERS
}

fn entries_in_range(list: &[Entry]) -> bool {
    list.iter().all(entry_in_range) && list.windows(2).all(|pair| pair[0].card < pair[1].card)
}

fn positive(number: u64) -> bool {
    (1..=MAX).contains(&number)
}

fn entry_in_range(entry: &Entry) -> bool {
    (entry.card as usize) < MOST_CARDS && 1 <= entry.p && entry.p <= entry.c && entry.c <= MAX
}

fn int(bytes: &[u8], at: usize) -> u32 {
    u32::from_be_bytes(*bytes[at..].first_chunk().expect("within the fields"))
}

fn hyper(bytes: &[u8], at: usize) -> u64 {
    u64::from_be_bytes(*bytes[at..].first_chunk().expect("within the fields"))
}

/// The message of a card at the front of `bytes`, whatever follows it.
pub fn read_front(bytes: &[u8]) -> Option<Message> {
    read_if(bytes, CURRENT, |_| true)
}

/// The same of a message of this version. Both name `read_if` themselves, so that each has its own
/// copy, the first with its version known.
#[inline]
pub fn read_front_in(bytes: &[u8], version: Version) -> Option<Message> {
    read_if(bytes, version, |_| true)
}

/// The message of a card that `bytes` are, no byte more; otherwise they do not read (6).
pub fn read(bytes: &[u8]) -> Option<Message> {
    read_if(bytes, CURRENT, |length| length == bytes.len())
}

/// The same of a message alone, in the version that it says.
pub fn read_alone(bytes: &[u8]) -> Option<Message> {
    let number = u32::from_be_bytes(*bytes.first_chunk()?);
    let version = VERSIONS.into_iter().find(|version| version.number == number)?;
    read_if(bytes, version, |length| length == bytes.len())
}

/// Bytes of the clear at the front of `bytes`, which begin with a message that reads; none of an
/// increment.
#[inline]
pub fn clear_length(bytes: &[u8]) -> Option<usize> {
    let is_clear = int(bytes, KIND_AT) == MESSAGE_CLEAR;
    is_clear.then(|| clear_bytes(int(bytes, HEADER_BYTES) as usize))
}

/// Makes written bytes say this version.
#[inline]
pub fn set_version(bytes: &mut [u8], version: Version) {
    set_int(bytes, VERSION_AT, version.number);
}

#[inline]
fn read_if(bytes: &[u8], version: Version, fits: impl Fn(usize) -> bool) -> Option<Message> {
    let (head, rest) = bytes.split_first_chunk::<HEADER_BYTES>()?;
    let sender = int(head, SENDER_AT);
    let sequence = hyper(head, SEQUENCE_AT);
    let counter = int(head, COUNTER_AT);
    if int(head, VERSION_AT) != version.number || !header_in_range(sender, sequence, counter) {
        return None;
    }
    match int(head, KIND_AT) {
        MESSAGE_INCREMENT if fits(version.increment_bytes()) => {
            let fields = rest.get(..version.increment_bytes() - HEADER_BYTES)?;
            let (p, start) = (hyper(fields, P_AT), int(fields, START_AT));
            let amount = if version.has_amount { int(fields, AMOUNT_AT) } else { 0 };
            if !positive(p) || start > 1 || !version.amount_in_range(amount) {
                return None;
            }
            let body = Body::Increment { p, start: start == 1, amount };
            Some(Message { version, sender, sequence, counter, body })
        }
        MESSAGE_CLEAR => {
            let (count, rest) = rest.split_first_chunk::<4>()?;
            let count = u32::from_be_bytes(*count) as usize;
            if count > MOST_CARDS || !fits(clear_bytes(count)) {
                return None;
            }
            let list = rest.get(..count * ENTRY_BYTES)?.as_chunks::<ENTRY_BYTES>().0;
            let mut entries = Entries::new();
            for fields in list {
                entries.push(Entry {
                    card: int(fields, ENTRY_CARD_AT),
                    p: hyper(fields, ENTRY_P_AT),
                    c: hyper(fields, ENTRY_C_AT),
                });
            }
            if !entries_in_range(entries.as_slice()) {
                return None;
            }
            Some(Message { version, sender, sequence, counter, body: Body::Clear(entries) })
        }
        _ => None,
    }
}

/// Writes the message to the front of `out` and gives its length; refused with 6, then 5.
pub fn write(message: &Message, out: &mut [u8]) -> Result<usize, u64> {
    if !message.in_range() {
        return Err(UNREADABLE);
    }
    let length = message.length();
    let out = out.get_mut(..length).ok_or(SHORT_OUTPUT)?;
    let (head, rest) = out.split_first_chunk_mut::<HEADER_BYTES>().expect("longer than that");
    set_int(head, VERSION_AT, message.version.number);
    set_int(head, SENDER_AT, message.sender);
    set_hyper(head, SEQUENCE_AT, message.sequence);
    set_int(head, COUNTER_AT, message.counter);
    match &message.body {
        Body::Increment { p, start, amount } => {
            set_int(head, KIND_AT, MESSAGE_INCREMENT);
            set_hyper(rest, P_AT, *p);
            set_int(rest, START_AT, u32::from(*start));
            if message.version.has_amount {
                set_int(rest, AMOUNT_AT, *amount);
            }
        }
        Body::Clear(entries) => {
            set_int(head, KIND_AT, MESSAGE_CLEAR);
            let (count, rest) = rest.split_at_mut(4);
            set_int(count, 0, entries.len as u32);
            let places = rest.as_chunks_mut::<ENTRY_BYTES>().0;
            for (place, entry) in places.iter_mut().zip(entries.as_slice()) {
                set_int(place, ENTRY_CARD_AT, entry.card);
                set_hyper(place, ENTRY_P_AT, entry.p);
                set_hyper(place, ENTRY_C_AT, entry.c);
            }
        }
    }
    Ok(length)
}

fn set_int(bytes: &mut [u8], at: usize, field: u32) {
    bytes[at..at + 4].copy_from_slice(&field.to_be_bytes());
}

fn set_hyper(bytes: &mut [u8], at: usize, field: u64) {
    bytes[at..at + 8].copy_from_slice(&field.to_be_bytes());
}
