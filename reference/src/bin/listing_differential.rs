//! Holds the listing program against the reference's listing, byte for byte:
//! `cargo run --release --offline --bin listing_differential -- PROGRAM [CASES] [SEED]`.

use std::io::Write;
use std::process::{Command, Stdio};

use yelansub_reference::chassis::Step;
use yelansub_reference::limits::{self, MOST_AMOUNT, STEP_BYTES};
use yelansub_reference::listing::{listing, LONGEST_INPUT, SIZES_BYTES};
use yelansub_reference::listing::{MOST_CARDS, MOST_COUNTERS, MOST_STEPS};
use yelansub_reference::random::Random;

/// Next to the kinds of step that there are.
const NO_KINDS: [u32; 2] = [0, limits::STEP_KINDS.len() as u32 + 1];

fn main() {
    let mut arguments = std::env::args().skip(1);
    let program = arguments.next().expect("the listing program");
    let cases = arguments.next().map_or(600, |a| a.parse().expect("a number"));
    let seed = arguments.next().map_or(14, |a| a.parse().expect("a number"));
    let mut refused = 0;
    for case in 0..cases {
        let input = input(&mut Random::case(seed, case));
        let expected = listing(&input);
        refused += u64::from(expected.starts_with("refused"));
        let printed = printed(&program, &input);
        let printed = String::from_utf8_lossy(&printed);
        assert_eq!(printed, expected, "seed {seed} case {case}, input {input:?}");
    }
    println!("listing: {cases} inputs from seed {seed}, {refused} refused, all printed alike");
    assert!(0 < refused && refused < cases);
}

fn printed(program: &str, input: &[u8]) -> Vec<u8> {
    let mut child = Command::new(program)
        .stdin(Stdio::piped())
        .stdout(Stdio::piped())
        .spawn()
        .expect("the program starts");
    // A program that has refused may close its input early.
    let _ = child.stdin.take().expect("piped").write_all(input);
    let output = child.wait_with_output().expect("the program ends");
    assert!(output.status.success(), "{}, input {input:?}", output.status);
    output.stdout
}

fn input(random: &mut Random) -> Vec<u8> {
    let mut r = random.between(1, MOST_CARDS.into()) as u32;
    let mut k = random.between(1, MOST_COUNTERS.into()) as u32;
    let steps = match random.below(8) {
        0 => MOST_STEPS as u64,
        1 => random.below(4),
        _ => random.below(MOST_STEPS as u64),
    };
    let mut bytes = Vec::new();
    for _ in 0..steps {
        bytes.extend(step(random, r, k).to_bytes());
    }
    match random.below(16) {
        0 => r = random.pick(&[0, MOST_CARDS + 1, limits::MOST_CARDS as u32, u32::MAX]),
        1 => k = random.pick(&[0, MOST_COUNTERS + 1, limits::MOST_COUNTERS as u32, u32::MAX]),
        2 => bytes.push(0),
        3 => bytes.truncate(random.below(bytes.len() as u64 + 1) as usize),
        4 => {
            let more = random.pick(&[0, 1, STEP_BYTES, 5000]);
            bytes.resize(LONGEST_INPUT - SIZES_BYTES + more, 0);
        }
        _ => {}
    }
    let mut input = Vec::new();
    input.extend(r.to_be_bytes());
    input.extend(k.to_be_bytes());
    input.extend(bytes);
    if random.percent(3) {
        input.truncate(random.below(SIZES_BYTES as u64 + 1) as usize);
    }
    input
}

fn step(random: &mut Random, r: u32, k: u32) -> Step {
    let odd = u64::from(random.percent(4));
    let card = random.below(u64::from(r) + odd) as u32;
    let counter = random.below(u64::from(k) + odd) as u32;
    let mut step = match random.below(16 + 2 * odd) {
        0..=5 => Step::count_by(card, counter, random.amount()),
        6 => Step::clear(card, counter),
        7 => Step::read_and_clear(card, counter),
        16 => Step { kind: random.word() as u32, ..Step::clear(card, 0) },
        17 => Step { kind: random.pick(&NO_KINDS), ..Step::clear(card, 0) },
        _ => Step::deliver(card, random.below(r.into()) as u32),
    };
    if random.percent(2) {
        step.amount = random.pick(&[0, 1, MOST_AMOUNT as u32 + 1, u32::MAX]);
    }
    step
}
