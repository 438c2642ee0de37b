//! The model's kitroom: a kit on standard input; the room after N events (first argument; none: after the last) on standard output.
use std::io::{Read, Result, Write};

fn main() -> Result<()> {
    let word = std::env::args_os().nth(1);
    let word = word.as_ref().map(|word| word.to_string_lossy());
    let mut bytes = Vec::new();
    std::io::stdin().take(65537).read_to_end(&mut bytes)?;
    std::io::stdout().write_all(model::print::kitroom_asked(&bytes, word.as_deref()).as_bytes())
}
