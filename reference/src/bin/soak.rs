//! Random calls, messages, logs and runs against the library for as long as asked, then deeper
//! exhaustive lists: `cargo run --release --offline --bin soak -- [MINUTES] [FIRST_SEED]`.
//! One series alone, as long as asked: `-- network [CALLS] [SEED]`, `-- alone [LISTS] [SEED]`,
//! `-- total [LISTS] [SEED]`, `-- quiet [LISTS] [SEED]`, `-- pending [LISTS] [SEED]`,
//! `-- convert [LOGS] [SEED]`.
//! Each round prints its seed; a difference panics with seed and case.

use std::time::{Duration, Instant};

use yelansub_reference::differential::Tally;
use yelansub_reference::differential::{alone, calls, convert, logs, messages, network};
use yelansub_reference::differential::{pending, quiet, runs, total, units};

/// Calls of histories for each list, which take about as long.
const CALLS_A_LIST: u64 = 10;

fn main() {
    let arguments: Vec<String> = std::env::args().skip(1).collect();
    let number = |at: usize, usual: u64| {
        arguments.get(at).map_or(usual, |given| given.parse().expect("a number"))
    };
    match arguments.first().map(String::as_str) {
        Some("network") => {
            let (calls, seed) = (number(1, 1_000_000), number(2, 1));
            let tally = network::histories(seed, calls);
            println!("{calls} calls from seed {seed}\n{tally}");
            network::require_all(&tally);
        }
        Some("alone") => {
            let (lists, seed) = (number(1, 100_000), number(2, 1));
            let tally = alone::random_lists(seed, lists, 100);
            println!("{lists} lists from seed {seed}\n{tally}");
            alone::require_all(&tally, lists);
        }
        Some("total") => {
            let (lists, seed) = (number(1, 100_000), number(2, 1));
            println!("{lists} lists and {} calls from seed {seed}", CALLS_A_LIST * lists);
            report(total::random_lists(seed, lists, 100), |t| total::require_all(t, lists));
            report(total::histories(seed, CALLS_A_LIST * lists), total::require_histories);
        }
        Some("quiet") => {
            let (lists, seed) = (number(1, 100_000), number(2, 1));
            println!("{lists} lists from seed {seed}");
            report(quiet::random_lists(seed, lists, 100), |t| quiet::require_all(t, lists));
        }
        Some("pending") => {
            let (lists, seed) = (number(1, 100_000), number(2, 1));
            println!("{lists} lists, and as many words and logs, from seed {seed}");
            report(pending::after_runs(seed, lists, 100), pending::require_runs);
            report(pending::random_states(seed, lists), pending::require_states);
        }
        Some("convert") => {
            let (logs, seed) = (number(1, 100_000), number(2, 1));
            println!("{logs} logs each way, and as many lists of version 1, from seed {seed}");
            report_conversions(seed, logs);
        }
        _ => every_series(number(0, 10), number(1, 1_000_000)),
    }
}

fn report(tally: Tally, require: impl Fn(&Tally)) {
    println!("{tally}");
    require(&tally);
}

fn report_conversions(seed: u64, logs: u64) {
    let tallies = convert::random_logs(seed, logs);
    tallies.iter().for_each(|tally| println!("{tally}"));
    convert::require_all(&tallies);
    report(convert::same_replicas(seed, logs, 100), convert::require_replicas);
    report(convert::together(seed, logs, 100), convert::require_together);
}

fn every_series(minutes: u64, first: u64) {
    let until = Instant::now() + Duration::from_secs(60 * minutes);
    for seed in first.. {
        println!("seed {seed}");
        report(calls::random_calls(seed, 200_000), calls::require_all);
        report(messages::random_messages(seed, 200_000), messages::require_all);
        report(logs::random_logs(seed, 20_000), logs::require_all);
        report(runs::random_runs(seed, 20_000, 80), runs::require_all);
        // Too few to meet everything.
        report(runs::random_runs(seed, 20, 5_000), |_| {});
        report(network::histories(seed, 200_000), network::require_all);
        report(alone::random_lists(seed, 10_000, 100), |t| alone::require_all(t, 10_000));
        report(total::random_lists(seed, 10_000, 100), |t| total::require_all(t, 10_000));
        report(quiet::random_lists(seed, 10_000, 100), |t| quiet::require_all(t, 10_000));
        report(total::histories(seed, 100_000), total::require_histories);
        report(units::random_lists(seed, 10_000, 100), units::require_all);
        report(pending::after_runs(seed, 5_000, 100), pending::require_runs);
        report(pending::random_states(seed, 20_000), pending::require_states);
        report_conversions(seed, 10_000);
        if Instant::now() > until {
            break;
        }
    }
    for (cards, counters, log, depth) in [(2, 1, 400, 6), (2, 2, 300, 4), (3, 1, 300, 5)] {
        let calls = pending::every_most(cards, counters, 2, log, depth);
        println!("r {cards}, k {counters}, every list to depth {depth}, every most: {calls}");
    }
    for (cards, counters, amounts, log, depth) in [
        (2, 1, &[1][..], 400, 8),
        (2, 1, &[1, 2], 400, 7),
        (2, 2, &[1], 300, 6),
        (3, 1, &[2], 300, 6),
        (4, 1, &[1], 200, 5),
    ] {
        let lists = runs::exhaustive(cards, counters, amounts, log, depth);
        println!(
            "r {cards}, k {counters}, by {amounts:?}, L {log}, every list to depth {depth}: {lists}"
        );
    }
}
