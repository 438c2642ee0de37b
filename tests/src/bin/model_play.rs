//! The model's kitplay: a kit on standard input, its play on standard output.
use std::io::{Read, Result, Write};

fn main() -> Result<()> {
    let mut bytes = Vec::new();
    std::io::stdin().take(65537).read_to_end(&mut bytes)?;
    std::io::stdout().write_all(model::print::kitplay(&bytes).as_bytes())
}
