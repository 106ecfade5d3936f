//! The library against the reference and the ledger, a fixed number of cases from printed seeds.
//! YELANSUB_SEED sets another seed; `cargo run --release --bin soak` goes on for as long as asked.

use yelansub_reference::differential::{self, calls, logs, messages, runs};

fn seed() -> u64 {
    differential::seed(20_260_101)
}

#[test]
fn random_calls_give_the_same_answers_words_and_bytes() {
    let (seed, cases) = (seed(), 400_000);
    let tally = calls::random_calls(seed, cases);
    println!("{cases} replicas from seed {seed}\n{tally}");
    calls::require_all(&tally);
}

#[test]
fn random_runs_agree_with_the_reference_and_the_ledger() {
    let (seed, cases) = (seed(), 60_000);
    let tally = runs::random_runs(seed, cases, 60);
    println!("{cases} runs from seed {seed}\n{tally}");
    runs::require_all(&tally);
}

#[test]
fn longer_random_runs_agree() {
    let (seed, cases) = (seed() + 1, 300);
    let tally = runs::random_runs(seed, cases, 1_000);
    println!("{cases} longer runs from seed {seed}\n{tally}");
    runs::require_all(&tally);
}

#[test]
fn random_messages_read_and_write_the_same() {
    let (seed, cases) = (seed(), 400_000);
    let tally = messages::random_messages(seed, cases);
    println!("{cases} messages from seed {seed}\n{tally}");
    messages::require_all(&tally);
}

#[test]
fn every_field_of_a_message_at_every_edge() {
    let [written, read] = messages::every_field_at_every_edge();
    for name in messages::UNUSED_AMOUNTS {
        written.require(name, messages::FIELD);
    }
    for tally in [written, read] {
        println!("{tally}");
        for (name, _) in messages::FIELDS {
            tally.require(name, messages::FIELD);
        }
        for (name, _) in messages::ENTRY_FIELDS {
            tally.require(name, messages::FIELD);
        }
    }
}

#[test]
fn waiting_agrees_on_good_and_damaged_logs() {
    let (seed, cases) = (seed(), 60_000);
    let tally = logs::random_logs(seed, cases);
    println!("{cases} logs from seed {seed}\n{tally}");
    logs::require_all(&tally);
}

#[test]
fn every_list_of_two_cards_and_one_counter_to_depth_7() {
    let lists = runs::exhaustive(2, 1, &[1], 400, 7);
    assert_eq!(lists, (0..=7).map(|depth| 8u64.pow(depth)).sum());
    println!("r 2, k 1: {lists} lists");
}

#[test]
fn every_list_of_two_cards_and_two_amounts_to_depth_6() {
    let lists = runs::exhaustive(2, 1, &[1, 2], 400, 6);
    assert_eq!(lists, (0..=6).map(|depth| 10u64.pow(depth)).sum());
    println!("r 2, k 1, by 1 and 2: {lists} lists");
}

#[test]
fn every_list_of_two_cards_with_little_log_to_depth_6() {
    let lists = runs::exhaustive(2, 1, &[3], 100, 6);
    assert_eq!(lists, (0..=6).map(|depth| 8u64.pow(depth)).sum());
    println!("r 2, k 1, 100 log bytes: {lists} lists");
}

#[test]
fn every_list_of_two_cards_and_two_counters_to_depth_5() {
    let lists = runs::exhaustive(2, 2, &[1], 300, 5);
    assert_eq!(lists, (0..=5).map(|depth| 14u64.pow(depth)).sum());
    println!("r 2, k 2: {lists} lists");
}

#[test]
fn every_list_of_three_cards_to_depth_5() {
    let lists = runs::exhaustive(3, 1, &[2], 300, 5);
    assert_eq!(lists, (0..=5).map(|depth| 15u64.pow(depth)).sum());
    println!("r 3, k 1: {lists} lists");
}
