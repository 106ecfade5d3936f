//! The ledger's sets of names, which are held as ranges, against sets that hold every name.

use std::collections::BTreeSet;

use yelansub_reference::names::Names;
use yelansub_reference::random::Random;

type Name = (usize, u64);

const CARDS: u64 = 3;

/// The same few ranges both ways.
fn any(random: &mut Random) -> (Names, BTreeSet<Name>) {
    let (mut names, mut each) = (Names::default(), BTreeSet::new());
    for _ in 0..random.below(6) {
        let card = random.below(CARDS) as usize;
        let first = random.between(1, 12);
        let ordinals = first..first + random.below(5);
        names.join(&Names::of(card, ordinals.clone()));
        each.extend(ordinals.map(|ordinal| (card, ordinal)));
    }
    (names, each)
}

#[test]
fn ranges_are_the_names_in_them() {
    let mut met = [0; 3];
    for case in 0..100_000 {
        let mut random = Random::case(9, case);
        let ((left, left_each), (right, right_each)) = (any(&mut random), any(&mut random));
        assert_eq!(left == right, left_each == right_each, "case {case}");
        let without = left_each.difference(&right_each).copied().collect();
        let joined = left_each.union(&right_each).copied().collect();
        let mut both = left.clone();
        both.join(&right);
        let sets = [(left.without(&right), without), (both, joined), (left, left_each)];
        for ((names, each), met) in sets.into_iter().zip(&mut met) {
            assert_eq!(names.len(), each.len() as u64, "case {case}");
            assert_eq!(names.is_empty(), each.is_empty(), "case {case}");
            let cards: BTreeSet<usize> = each.iter().map(|name| name.0).collect();
            assert_eq!(names.cards().collect::<BTreeSet<_>>(), cards, "case {case}");
            for card in 0..CARDS as usize {
                let latest = each.range((card, 0)..(card + 1, 0)).next_back();
                assert_eq!(names.latest(card), latest.map_or(0, |name| name.1), "case {case}");
            }
            let rebuilt = each.iter().fold(Names::default(), |mut set, (card, ordinal)| {
                set.join(&Names::of(*card, *ordinal..ordinal + 1));
                set
            });
            assert_eq!(names, rebuilt, "case {case}");
            *met += usize::from(!each.is_empty());
        }
    }
    assert!(met.iter().all(|met| *met > 50_000), "{met:?}");
}
