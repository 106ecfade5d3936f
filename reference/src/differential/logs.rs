//! `waiting` on logs of good messages, damaged ones and other bytes.

use super::{generate, Tally};
use crate::limits::*;
use crate::message::{self, PLAIN};
use crate::random::Random;
use crate::{chassis, library};

/// 1 where a message waits, 0 where the part is empty.
pub const WAITING: &[u64] = &[0, 1];

pub fn random_logs(seed: u64, cases: u64) -> Tally {
    let mut tally = Tally::default();
    for case in 0..cases {
        let mut random = Random::case(seed, case);
        let log = log(&mut random);
        let mut places: Vec<u64> = (0..12).collect();
        places.push(random.below(40));
        places.push(random.pick(&generate::EDGES));
        let plain = plain_place(&log);
        for q in places {
            let ours = chassis::waiting(&log, q);
            let theirs = library::waiting(&log, q);
            let theirs = (theirs.start as usize, theirs.length as usize);
            assert_eq!((ours.start, ours.len()), theirs, "waiting {q}: seed {seed} case {case}");
            tally.note("waiting", u64::from(!ours.is_empty()));
            if plain == Some(q) {
                tally.note("version 1", u64::from(theirs.1 > 0));
            }
        }
    }
    tally
}

/// Panics unless messages waited, and did not, and those of version 1 never.
pub fn require_all(tally: &Tally) {
    tally.require("waiting", WAITING);
    tally.require("version 1", &[0]);
}

/// The place of the first message that does not read, where it is one of version 1.
pub(super) fn plain_place(log: &[u8]) -> Option<u64> {
    let (mut rest, mut q) = (log, 1);
    while let Some(message) = message::read_front(rest) {
        rest = &rest[message.length()..];
        q += 1;
    }
    let mut fronts = (0..=rest.len().min(LONGEST_MESSAGE)).map(|len| &rest[..len]);
    let plain = |front: &[u8]| message::read_alone(front).is_some_and(|m| m.version == PLAIN);
    fronts.any(plain).then_some(q)
}

fn log(random: &mut Random) -> Vec<u8> {
    let mut log = Vec::new();
    for _ in 0..random.below(9) {
        // Only reading counts: senders, sequences and counters need not fit one another.
        let words = generate::replica(random);
        let bytes = generate::draft(random, &words).bytes();
        if message::read_alone(&bytes).is_some() || random.percent(5) {
            log.extend(bytes);
        }
    }
    match random.below(4) {
        0 => generate::damage_bytes(random, &mut log),
        1 => {
            let more = random.below(60) as usize;
            log.extend(random.bytes(more));
        }
        2 => log.truncate(random.below(log.len() as u64 + 1) as usize),
        _ => {}
    }
    log
}
