//! Times the library beside the Rust reference, the calls by hand in C and rpcgen's C: one process,
//! sides in turn, the least of many rounds. `yelansub_bench` prints everything; `yelansub_bench one ITEM SIDE N`
//! does one thing N times, for callgrind; `yelansub_bench list` names items and sides.

mod clock;
mod items;
mod peer;
mod rpcgen;

use std::time::Duration;

use items::{Item, State, Work};

fn main() {
    let arguments: Vec<String> = std::env::args().skip(1).collect();
    match arguments.iter().map(String::as_str).collect::<Vec<_>>()[..] {
        [] => everything(),
        ["list"] => list(),
        ["one", item, side, times] => one(item, side, times.parse().expect("a number")),
        _ => {
            eprintln!("yelansub_bench [list | one ITEM SIDE TIMES]");
            std::process::exit(2);
        }
    }
}

fn everything() {
    check();
    let (cards, counters) = (items::CARDS, items::COUNTERS);
    println!("Least of many rounds, nanoseconds a call, {cards} cards and {counters} counters.");
    println!("Ratio: the library's time over the other side's; below 1 the library is faster.\n");
    for item in items::calls() {
        print(&item, &least(&item, 3_000));
    }
    println!("\nThe active counters, and the reads that the call replaces, all together:");
    for item in items::polls() {
        print(&item, &least(&item, 3_000));
    }
    println!();
    for item in items::messages() {
        print(&item, &least(&item, 3_000));
    }
    println!("\nA log in the other version, nanoseconds a message:");
    let conversions = items::conversions();
    let times: Vec<Vec<Duration>> = conversions.iter().map(|item| least(item, 3_000)).collect();
    for (item, times) in conversions.iter().zip(&times) {
        print(item, times);
    }
    println!("\nThe same, millions of its bytes a second:");
    for (item, times) in conversions.iter().zip(&times) {
        print_rate(item, times, items::log_bytes(&(item.make)()) as u64, 0);
    }
    println!("\nA drop from end to end: one count, and its message taken on every other card:");
    let drops = items::drops();
    let times: Vec<Vec<Duration>> = drops.iter().map(|item| least(item, 3_000)).collect();
    for (item, times) in drops.iter().zip(&times) {
        print(item, times);
    }
    for (item, times) in drops.iter().zip(&times) {
        let rate = item.calls as f64 / times[0].as_secs_f64();
        println!("{:38} library {rate:10.0} drops a second on one core", item.name);
    }
    println!();
    let runs = items::runs();
    let times: Vec<Vec<Duration>> = runs.iter().map(|run| least(run, rounds_of(run))).collect();
    for (run, times) in runs.iter().zip(&times) {
        print(run, times);
    }
    println!("\nA step, without what a run of no steps takes:");
    for (run, times_of) in runs.iter().zip(&times).skip(1) {
        let a_step = |side: usize| {
            times_of[side].saturating_sub(times[0][side]).as_nanos() as f64 / run.calls as f64
        };
        println!("{:38} library {:8.1}   reference {:8.1}", run.name, a_step(0), a_step(1));
    }
    println!("\nA delivery; as a step, what a run takes longer with it:");
    let mut deliveries = Vec::new();
    for (item, before) in items::deliveries() {
        let rounds = rounds_of_deliveries(&item);
        let (mut times, before) = (least(&item, rounds), least(&before, rounds)[0]);
        for ((side, _), time) in item.sides.iter().zip(&mut times) {
            if *side == items::AS_STEPS {
                *time = time.saturating_sub(before);
            }
        }
        print(&item, &times);
        deliveries.push((item, times));
    }
    let none = items::none_waiting();
    print(&none, &least(&none, rounds_of_deliveries(&none)));
    println!("\nThe same, millions of deliveries a second:");
    for (item, times) in &deliveries {
        print_rate(item, times, item.calls, 3);
    }
}

fn rounds_of(run: &Item) -> u32 {
    (2_000_000 / run.calls.max(1_000)) as u32
}

/// Those of a delivery and of the run before it.
fn rounds_of_deliveries(item: &Item) -> u32 {
    (1_000_000 / item.calls).clamp(20, 100) as u32
}

/// All sides leave the state the same, no call answers another number than it is to, and all read and
/// write the same messages.
fn check() {
    let deliveries = items::deliveries().into_iter().map(|(item, _)| item);
    let none = [items::none_waiting()];
    let replicas = items::calls().into_iter().chain(items::drops());
    for item in replicas.chain(items::runs()).chain(deliveries).chain(none) {
        check_alike(&[item]);
    }
    check_alike(&items::polls());
    for item in items::drops() {
        let mut state = (item.make)();
        item.sides.iter().for_each(|(_, work)| bench_work(&mut state, *work));
        assert!(items::as_intended(&state, item.calls), "{}: a call is refused", item.name);
    }
    for item in items::messages() {
        assert!(items::messages_agree(&mut (item.make)()), "{}: the sides differ", item.name);
    }
    for item in items::conversions() {
        assert!(items::conversions_agree(&item), "{}: the sides differ", item.name);
    }
}

/// Items of one outcome.
fn check_alike(items: &[Item]) {
    let mut states = Vec::new();
    for item in items {
        for (_, work) in &item.sides {
            let mut state = (item.make)();
            bench_work(&mut state, *work);
            assert!(items::as_intended(&state, item.calls), "{}: other numbers", item.name);
            states.push(state);
        }
    }
    let alike = states.windows(2).all(|p| items::outcome(&p[0]) == items::outcome(&p[1]));
    assert!(alike, "{}: the sides differ", items[0].name);
}

/// The least time of a batch, for each side; the sides take turns, and so does the first place.
fn least(item: &Item, rounds: u32) -> Vec<Duration> {
    let mut states: Vec<State> = item.sides.iter().map(|_| (item.make)()).collect();
    let mut best = vec![Duration::MAX; states.len()];
    let now = || clock::now(if item.long { clock::THREAD } else { clock::MONOTONIC });
    for round in 0..rounds as usize {
        for turn in 0..states.len() {
            let side = (round + turn) % states.len();
            states[side].put_back();
            let begin = now();
            bench_work(&mut states[side], item.sides[side].1);
            best[side] = best[side].min(now() - begin);
        }
    }
    best
}

fn print(item: &Item, times: &[Duration]) {
    let a_call = |time: &Duration| time.as_nanos() as f64 / item.calls as f64;
    print!("{:38}", item.name);
    for ((name, _), time) in item.sides.iter().zip(times) {
        print!(" {name} {:8.1}", a_call(time));
        if *name != "library" {
            print!(" ratio {:5.2} ", a_call(&times[0]) / a_call(time));
        }
    }
    println!();
}

/// Millions a second of what a batch has so many of, with so many decimals.
fn print_rate(item: &Item, times: &[Duration], of: u64, decimals: usize) {
    print!("{:38}", item.name);
    for ((name, _), time) in item.sides.iter().zip(times) {
        print!(" {name} {:8.decimals$}", of as f64 / time.as_secs_f64() / 1e6);
    }
    println!();
}

/// The one function whose inside callgrind counts.
#[no_mangle]
#[inline(never)]
extern "Rust" fn bench_work(state: &mut State, work: Work) {
    work(state);
}

fn all() -> Vec<Item> {
    let mut all = items::calls();
    all.extend(items::polls());
    all.extend(items::messages());
    all.extend(items::conversions());
    all.extend(items::drops());
    all.extend(items::runs());
    all.extend(items::deliveries().into_iter().flat_map(|(item, before)| [item, before]));
    all.push(items::none_waiting());
    all
}

fn list() {
    for item in all() {
        for (side, _) in &item.sides {
            println!("{}\t{side}\t{}", item.name, item.calls);
        }
    }
}

fn one(name: &str, side: &str, times: u32) {
    let item = all().into_iter().find(|item| item.name == name).expect("an item of the list");
    let work = item.sides.iter().find(|(of, _)| *of == side).expect("a side of the item").1;
    let mut state = (item.make)();
    for _ in 0..times {
        state.put_back();
        bench_work(&mut state, work);
    }
}
