//! SPECIFICATION 2.1: a log in the other version. One pass tests and measures, one writes.

use crate::limits::*;
use crate::message::{self, Body, Version, CURRENT, PLAIN};

/// The amount of every increment in a log that converts.
const ONE: u32 = 1;

/// Writes a log of version 1 to `out` as one of version 2, and gives its length; refused with 6, 5.
pub fn to_version_2(log: &[u8], out: &mut [u8]) -> Result<usize, u64> {
    let found = survey(log, PLAIN)?;
    let length = log.len() + found.increments * (INCREMENT_BYTES - PLAIN_INCREMENT_BYTES);
    write(log, PLAIN, out.get_mut(..length).ok_or(SHORT_OUTPUT)?, CURRENT);
    Ok(length)
}

/// Writes a log of version 2 to `out` as one of version 1, and gives its length; refused with 6, 17,
/// 5.
pub fn to_version_1(log: &[u8], out: &mut [u8]) -> Result<usize, u64> {
    let found = survey(log, CURRENT)?;
    if found.above_one {
        return Err(ABOVE_ONE);
    }
    let length = log.len() - found.increments * (INCREMENT_BYTES - PLAIN_INCREMENT_BYTES);
    write(log, CURRENT, out.get_mut(..length).ok_or(SHORT_OUTPUT)?, PLAIN);
    Ok(length)
}

/// What a log of messages has.
#[derive(Default)]
struct Found {
    increments: usize,
    /// Whether some amount is.
    above_one: bool,
}

/// Refused with 6, unless the bytes are messages of this version end to end.
#[inline]
fn survey(log: &[u8], version: Version) -> Result<Found, u64> {
    let mut found = Found::default();
    let mut rest = log;
    while !rest.is_empty() {
        let message = message::read_front_in(rest, version).ok_or(UNREADABLE)?;
        if let Body::Increment { amount, .. } = message.body {
            found.increments += 1;
            found.above_one |= amount > ONE;
        }
        rest = &rest[message.length()..];
    }
    Ok(found)
}

/// Of a log of messages, those of another version; they fill `out`.
#[inline]
fn write(mut log: &[u8], from: Version, mut out: &mut [u8], to: Version) {
    while !log.is_empty() {
        let (length, new_length, kept) = match message::clear_length(log) {
            Some(length) => (length, length, length),
            None => (from.increment_bytes(), to.increment_bytes(), PLAIN_INCREMENT_BYTES),
        };
        let (place, rest) = out.split_at_mut(new_length);
        place[..kept].copy_from_slice(&log[..kept]);
        message::set_version(place, to);
        // What an increment gains.
        if kept < new_length {
            place[kept..].copy_from_slice(&ONE.to_be_bytes());
        }
        (log, out) = (&log[length..], rest);
    }
}
