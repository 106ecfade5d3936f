//! A count by w is w counts by one in a row, and its delivery their w deliveries: the library's run
//! of a list, and that of its single steps, leave the same C and entries and answer the same values.
//! A count by one and its delivery are Algorithm 1's own steps.

use std::iter;

use super::alone::{series, After, List};
use super::Tally;
use crate::chassis::Step;
use crate::limits::*;
use crate::message::Body;
use crate::random::Random;
use crate::replica::messages_at;

/// Larger amounts are brought down to at most this: their single steps would be too many.
const MOST: u32 = 20;

/// `lists` lists of up to `longest` steps.
pub fn random_lists(seed: u64, lists: u64, longest: u64) -> Tally {
    let mut tally = Tally::default();
    let usual =
        |random: &mut Random| (random.between(2, 4) as usize, random.between(1, 3) as usize);
    for (case, mut random, mut list) in series(seed, lists, longest, usual) {
        for step in list.steps.iter_mut().filter(|step| step.amount_fits()) {
            step.amount = step.amount.min(step.amount % MOST + 1);
        }
        let after = list.run(&mut random);
        let single = single_steps(&list, &after, &mut tally);
        let words = vec![0; after.words.len()];
        let after_single = single.run_on(words, vec![0; single.cards * single.log_bytes]);
        let place = || format!("seed {seed} case {case}, {list:?}");
        assert!(after_single.answers.iter().all(|[number, _]| *number == OK), "{}", place());
        assert_eq!(values(&single, &after_single), values(&list, &after), "{}", place());
        for card in 0..list.cards {
            let of = |list: &List, after: &After| without_messages(list, list.replica(after, card));
            assert_eq!(of(&single, &after_single), of(&list, &after), "{}", place());
        }
    }
    tally
}

/// Panics unless counts by 1, by 2 and by more were made and delivered.
pub fn require_all(tally: &Tally) {
    for name in ["counted", "delivered"] {
        tally.require(name, &[1, 2, 3]);
    }
}

/// The accepted steps, each as many times as it has units; the logs are long enough for them.
fn single_steps(list: &List, after: &After, tally: &mut Tally) -> List {
    let messages = list.messages(after);
    let mut received = vec![vec![0; list.cards]; list.cards];
    let mut steps = Vec::new();
    let accepted = list.steps.iter().zip(&after.answers).filter(|(_, [number, _])| *number == OK);
    for (step, _) in accepted {
        let (single, times) = match step.kind {
            STEP_COUNT => {
                tally.note("counted", step.amount.min(3).into());
                (Step { amount: 1, ..*step }, step.amount)
            }
            STEP_DELIVER => {
                let at = &mut received[step.first as usize][step.second as usize];
                *at += 1;
                match messages[step.second as usize][*at - 1].body {
                    Body::Increment { amount, .. } => {
                        tally.note("delivered", amount.min(3).into());
                        (*step, amount)
                    }
                    Body::Clear(_) => (*step, 1),
                }
            }
            _ => (*step, 1),
        };
        steps.extend(iter::repeat_n(single, times as usize));
    }
    List { steps, log_bytes: list.log_bytes * MOST as usize, ..*list }
}

/// What the accepted read-and-clears have answered.
fn values(list: &List, after: &After) -> Vec<u64> {
    let answered = list.steps.iter().zip(&after.answers);
    let read =
        answered.filter(|(step, [number, _])| step.kind == STEP_READ_AND_CLEAR && *number == OK);
    read.map(|(_, [_, value])| *value).collect()
}

/// A replica's words but for N, which counts messages.
fn without_messages(list: &List, words: &[u64]) -> Vec<u64> {
    let messages = messages_at(list.cards, 0)..messages_at(list.cards, list.cards);
    [&words[..messages.start], &words[messages.end..]].concat()
}
