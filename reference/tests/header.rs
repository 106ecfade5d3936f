//! The constants of `limits` are those of `include/yelansub.h`, `library` wraps what it declares, and
//! the tests' tables of answers leave out none of its numbers.

use std::collections::BTreeSet;

use yelansub_reference::differential::{calls, convert, messages, pending, runs};
use yelansub_reference::limits;

const HEADER: &str = include_str!("../../include/yelansub.h");
const LIBRARY: &str = include_str!("../src/library.rs");

macro_rules! named {
    ($($name:ident)*) => { &[$((stringify!($name), limits::$name as u64)),*] };
}

const SIZES: &[(&str, u64)] = named! {
    MOST_CARDS MOST_COUNTERS MOST_AMOUNT MAX
    INCREMENT_BYTES PLAIN_INCREMENT_BYTES STEP_BYTES ANSWER_WORDS
    MESSAGE_VERSION MESSAGE_VERSION_1 MESSAGE_INCREMENT MESSAGE_CLEAR
    STEP_COUNT STEP_CLEAR STEP_DELIVER STEP_READ_AND_CLEAR
};
const ANSWERS: &[(&str, u64)] = named! {
    OK BAD_REPLICA BAD_ROW BAD_COUNTER EXHAUSTED SHORT_OUTPUT UNREADABLE BAD_CARD REPEATED EARLY
    IMPLAUSIBLE BAD_SIZES BAD_KIND NOTHING_WAITING LOG_FULL BAD_LOG BAD_AMOUNT ABOVE_ONE
};
/// What the header computes from these. Both sides try the library with it.
const COMPUTED: [&str; 3] = ["REPLICA_WORDS", "CLEAR_BYTES", "LONGEST_MESSAGE"];

#[test]
fn the_header_has_the_same_numbers() {
    let ours = [SIZES, ANSWERS].concat();
    let mut met = 0;
    for line in HEADER.lines().filter_map(|line| line.strip_prefix("#define YELANSUB_")) {
        let (name, rest) = line.split_once([' ', '(']).unwrap_or((line, ""));
        if name == "H" || COMPUTED.contains(&name) {
            continue;
        }
        let number = rest.trim().trim_start_matches("((uint64_t)");
        let number = number.split([' ', ')']).next().expect("a first word");
        let theirs: u64 = number.parse().unwrap_or_else(|_| panic!("{name} is {rest}"));
        let ours = ours.iter().find(|(of, _)| *of == name);
        assert_eq!(ours, Some(&(name, theirs)), "limits.rs and yelansub.h");
        met += 1;
    }
    assert_eq!(met, ours.len(), "limits.rs has what yelansub.h has not");
}

/// The words of a replica as the header writes them, and for the smallest and the largest.
#[test]
fn the_header_has_the_same_length_of_a_replica() {
    let line = "(4 + 2 * (size_t)(cards) + 3 * (size_t)(cards) * (size_t)(counters))";
    let macro_of = "#define YELANSUB_REPLICA_WORDS(cards, counters) \\\n    ";
    assert!(HEADER.contains(&format!("{macro_of}{line}\n")), "YELANSUB_REPLICA_WORDS is another");
    for (cards, counters, words) in [(0, 0, 4), (1, 1, 9), (12, 64, 2332)] {
        assert_eq!(limits::replica_words(cards, counters), words);
    }
}

/// Names of exports that stand before a bracket, in lines that are no comment.
fn exports(text: &str, before: &str) -> BTreeSet<String> {
    let lines = text.lines().filter(|line| !line.trim_start().starts_with(['*', '/']));
    let named = lines.flat_map(|line| line.split(before).skip(1));
    let names = named.filter_map(|rest| {
        let end = rest.find(|c: char| c != '_' && !c.is_ascii_alphanumeric())?;
        rest[end..].starts_with('(').then(|| rest[..end].to_string())
    });
    names.collect()
}

/// Declared there, declared to Rust, and called by a wrapper.
#[test]
fn every_declaration_of_the_header_is_wrapped() {
    let declared = exports(HEADER, "yelansub_");
    assert_eq!(declared.len(), 15);
    assert!(declared.contains("active_counters"));
    assert_eq!(exports(LIBRARY, "pub fn yelansub_"), declared);
    let handed_on = ["run", "run_records"].map(String::from);
    let called = exports(LIBRARY, "raw::yelansub_").into_iter().chain(handed_on);
    assert_eq!(called.collect::<BTreeSet<_>>(), declared);
}

#[test]
fn every_answer_is_given_by_some_call() {
    let calls =
        [calls::OPEN, calls::READ, calls::ACTIVE, calls::COUNTED, calls::CLEARED, calls::TAKE]
            .concat();
    let others = [messages::READ, messages::WRITE, runs::RUN, runs::STEP, pending::CALL].concat();
    let converted = convert::CONVERTING.map(|call| call.numbers).concat();
    for (name, number) in ANSWERS {
        assert!([&calls, &others, &converted].iter().any(|of| of.contains(number)), "{name}");
    }
}

#[test]
fn every_kind_of_step_is_tried() {
    let steps = runs::alphabet(2, 1, &[1]);
    for kind in limits::STEP_KINDS {
        assert!(steps.iter().any(|step| step.kind == kind), "{kind}");
    }
}
