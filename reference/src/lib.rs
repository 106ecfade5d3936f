//! The specification written again from its text, in plain Rust: messages, logs in the other
//! version, one card's replica, the chassis and its run, the same of version 1, the listing, and the
//! ledger as a machine of its own.
//!
//! `library` wraps the static library's exports; `differential` holds the two against each
//! other and against the ledger.

pub mod chassis;
pub mod convert;
pub mod ledger;
pub mod limits;
pub mod listing;
pub mod message;
pub mod names;
pub mod random;
pub mod replica;
pub mod version_1;

#[cfg(feature = "library")]
pub mod differential;
#[cfg(feature = "library")]
pub mod library;
