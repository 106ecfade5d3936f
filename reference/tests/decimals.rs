//! The numbers that the program `decimal_numbers` is given and the texts that it is held to (its
//! files `stdin` and `stdout`), against Rust's own formatting.

use std::fs;

/// From here on a number gives an empty line.
const LIMIT: u64 = 10_u64.pow(16);

fn file(name: &str) -> Vec<u8> {
    let path = concat!(env!("CARGO_MANIFEST_DIR"), "/../crates/decimal_numbers/");
    fs::read(format!("{path}{name}")).expect("the program's file")
}

#[test]
fn texts_are_those_of_the_numbers() {
    let bytes = file("stdin");
    let (numbers, rest) = bytes.as_chunks();
    assert!(rest.is_empty());
    let numbers: Vec<u64> = numbers.iter().map(|n| u64::from_be_bytes(*n)).collect();

    let line = |x: &u64| if *x < LIMIT { format!("{x}\n") } else { "\n".into() };
    let texts: String = numbers.iter().map(line).collect();
    assert_eq!(String::from_utf8_lossy(&file("stdout")), texts);

    let edges = (0..16).flat_map(|digits| [10_u64.pow(digits) - 1, 10_u64.pow(digits)]);
    for x in edges.chain([LIMIT - 1, LIMIT, u64::MAX]) {
        assert!(numbers.contains(&x), "{x}");
    }
    println!("{} numbers, each text Rust's own", numbers.len());
}
