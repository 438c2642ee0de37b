//! A kit written as text (see `text_form`) on standard input, its bytes on standard output.
use std::io::{Read, Write};
use std::process::ExitCode;

fn main() -> ExitCode {
    let mut text = String::new();
    if std::io::stdin().read_to_string(&mut text).is_err() {
        eprintln!("standard input is no text");
        return ExitCode::FAILURE;
    }
    match model::text_form::bytes(&text) {
        Ok(bytes) => {
            std::io::stdout().write_all(&bytes).expect("standard output");
            ExitCode::SUCCESS
        }
        Err(what) => {
            eprintln!("{what}");
            ExitCode::FAILURE
        }
    }
}
