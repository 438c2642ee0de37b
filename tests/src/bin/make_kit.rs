//! make_kit SEED NUMBER: the kit of that number under that seed, as `compare` makes it, on standard output.
//! make_kit --length BYTES: a good kit of exactly so many bytes. make_kit --large F: one of 4,096 events.

use model::generator::{edge, kit_bytes, protocol};
use model::kit;
use model::random::Random;
use std::io::Write;
use std::process::ExitCode;

fn main() -> ExitCode {
    let words: Vec<String> = std::env::args().skip(1).collect();
    let number = |i: usize| words.get(i).and_then(|w| w.parse::<u64>().ok());
    let bytes = match (words.first().map(String::as_str), number(0), number(1)) {
        (Some("--length"), _, Some(length)) => edge::of_length(length as usize),
        (Some("--large"), _, Some(f @ 1..=3)) => kit::bytes(&protocol::large(&mut Random::new(f), f as usize)),
        (_, Some(seed), Some(number)) => kit_bytes(seed, number),
        _ => {
            eprintln!("make_kit SEED NUMBER | make_kit --length BYTES | make_kit --large F");
            return ExitCode::FAILURE;
        }
    };
    std::io::stdout().write_all(&bytes).expect("standard output");
    ExitCode::SUCCESS
}
