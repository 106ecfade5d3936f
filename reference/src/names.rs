//! A set of names. A name is a card and an ordinal: its first, second, ... unit of a counter.
//!
//! A count makes as many names as its amount says, so the names of a card are held as ranges.

use core::ops::Range;
use std::collections::BTreeMap;

#[derive(Clone, Debug, Default, PartialEq, Eq)]
pub struct Names {
    /// Of each card that has a name here, its ranges, rising, none touching the next: so equal sets
    /// are held alike.
    ranges: BTreeMap<usize, Vec<Range<u64>>>,
}

impl Names {
    /// The card's names with these ordinals.
    pub fn of(card: usize, ordinals: Range<u64>) -> Names {
        let mut names = Names::default();
        names.add(card, ordinals);
        names
    }

    fn add(&mut self, card: usize, ordinals: Range<u64>) {
        if ordinals.is_empty() {
            return;
        }
        let ranges = self.ranges.entry(card).or_default();
        let mut whole = ordinals;
        ranges.retain(|range| {
            let apart = range.end < whole.start || whole.end < range.start;
            if !apart {
                whole = range.start.min(whole.start)..range.end.max(whole.end);
            }
            apart
        });
        ranges.push(whole);
        ranges.sort_unstable_by_key(|range| range.start);
    }

    /// All of the other set join this one.
    pub fn join(&mut self, other: &Names) {
        for (card, ranges) in &other.ranges {
            ranges.iter().for_each(|range| self.add(*card, range.clone()));
        }
    }

    /// The names that are not in the other set.
    pub fn without(&self, other: &Names) -> Names {
        let mut rest = Names::default();
        for (card, ranges) in &self.ranges {
            let mut left = ranges.clone();
            for gone in other.ranges.get(card).into_iter().flatten() {
                let parts = |range: &Range<u64>| {
                    [range.start..range.end.min(gone.start), range.start.max(gone.end)..range.end]
                };
                left = left.iter().flat_map(parts).filter(|part| !part.is_empty()).collect();
            }
            left.into_iter().for_each(|range| rest.add(*card, range));
        }
        rest
    }

    pub fn len(&self) -> u64 {
        self.ranges.values().flatten().map(|range| range.end - range.start).sum()
    }

    pub fn is_empty(&self) -> bool {
        self.ranges.is_empty()
    }

    /// The cards that have a name here.
    pub fn cards(&self) -> impl Iterator<Item = usize> + '_ {
        self.ranges.keys().copied()
    }

    /// The ordinal of the card's latest name, or 0.
    pub fn latest(&self, card: usize) -> u64 {
        self.ranges.get(&card).and_then(|ranges| ranges.last()).map_or(0, |range| range.end - 1)
    }
}
