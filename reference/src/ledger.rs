//! SPECIFICATION 7, the ledger: for one counter, which names each card has received and which are
//! cancelled there. It is fed steps and whether each was accepted, and nothing else.

use std::collections::{BTreeSet, VecDeque};

use crate::chassis::Step;
use crate::limits::{STEP_CLEAR, STEP_COUNT, STEP_DELIVER, STEP_READ_AND_CLEAR};
use crate::names::Names;

#[derive(Clone, Debug, Default)]
struct Card {
    received: Names,
    cancelled: Names,
}

impl Card {
    fn counting(&self) -> Names {
        self.received.without(&self.cancelled)
    }

    /// The cards with a name in exactly one of the two sets.
    fn holding(&self) -> BTreeSet<usize> {
        let ahead = self.cancelled.without(&self.received);
        self.counting().cards().chain(ahead.cards()).collect()
    }

    fn apply(&mut self, message: &Message) {
        self.received.join(&message.adds);
        self.cancelled.join(&message.cancels);
    }
}

/// A message as the ledger sees it; one of another counter adds and cancels nothing.
#[derive(Clone, Debug, Default)]
struct Message {
    adds: Names,
    cancels: Names,
}

/// The card's names up to this one.
fn up_to(card: usize, latest: u64) -> Names {
    Names::of(card, 1..latest + 1)
}

#[derive(Clone, Debug)]
pub struct Ledger {
    counter: usize,
    cards: Vec<Card>,
    /// Names given out, for each card.
    made: Vec<u64>,
    /// `links[sender][receiver]`, oldest first.
    links: Vec<Vec<VecDeque<Message>>>,
}

impl Ledger {
    pub fn new(cards: usize, counter: usize) -> Ledger {
        Ledger {
            counter,
            cards: vec![Card::default(); cards],
            made: vec![0; cards],
            links: vec![vec![VecDeque::new(); cards]; cards],
        }
    }

    /// Whether the link has something to hand over.
    pub fn waits(&self, receiver: usize, sender: usize) -> bool {
        !self.links[sender][receiver].is_empty()
    }

    /// Feeds one step. An accepted step that the ledger cannot follow is an error.
    pub fn feed(&mut self, step: Step, accepted: bool) -> Result<(), String> {
        if !accepted {
            return Ok(());
        }
        let (first, second) = (step.first as usize, step.second as usize);
        if first >= self.cards.len() {
            return Err(format!("{step:?} accepted for a card that is not there"));
        }
        match step.kind {
            STEP_COUNT => {
                let message = if second == self.counter {
                    self.count(first, step.amount.into())
                } else {
                    Message::default()
                };
                self.send(first, message);
                Ok(())
            }
            STEP_CLEAR | STEP_READ_AND_CLEAR => {
                let message =
                    if second == self.counter { self.clear(first) } else { Message::default() };
                self.send(first, message);
                Ok(())
            }
            STEP_DELIVER if second < self.cards.len() => {
                let message = self.links[second][first].pop_front();
                let message =
                    message.ok_or(format!("{step:?} accepted with nothing to hand over"))?;
                self.cards[first].apply(&message);
                Ok(())
            }
            _ => Err(format!("{step:?} accepted")),
        }
    }

    fn count(&mut self, maker: usize, amount: u64) -> Message {
        let counting = self.cards[maker].counting().cards().any(|card| card == maker);
        let before = self.made[maker];
        self.made[maker] += amount;
        Message {
            adds: Names::of(maker, before + 1..before + amount + 1),
            cancels: if counting { Names::default() } else { up_to(maker, before) },
        }
    }

    fn clear(&self, maker: usize) -> Message {
        let Card { received, cancelled } = &self.cards[maker];
        let mut message = Message::default();
        for card in self.cards[maker].holding() {
            message.cancels.join(&up_to(card, received.latest(card).max(cancelled.latest(card))));
        }
        message
    }

    /// The maker applies its own message when making it; every link from it queues it.
    fn send(&mut self, maker: usize, message: Message) {
        self.cards[maker].apply(&message);
        for (receiver, link) in self.links[maker].iter_mut().enumerate() {
            if receiver != maker {
                link.push_back(message.clone());
            }
        }
    }

    /// The same names in the card's two sets.
    pub fn has_equal_sets(&self, card: usize) -> bool {
        let card = &self.cards[card];
        card.received == card.cancelled
    }

    /// As many names in the one as in the other.
    pub fn has_sets_of_one_size(&self, card: usize) -> bool {
        let card = &self.cards[card];
        card.received.len() == card.cancelled.len()
    }

    /// Whether some unit that a link has still to hand over to the card is cancelled there.
    pub fn has_cancelled_ahead(&self, card: usize) -> bool {
        let cancelled = &self.cards[card].cancelled;
        let mut under_way = self.links.iter().flat_map(|links| &links[card]);
        under_way.any(|message| message.adds.without(cancelled) != message.adds)
    }

    pub fn value(&self, card: usize) -> u64 {
        self.cards[card].counting().len()
    }

    /// Bit j is one when card j is holding.
    pub fn holders(&self, card: usize) -> u64 {
        self.cards[card].holding().into_iter().fold(0, |set, other| set | 1 << other)
    }
}
