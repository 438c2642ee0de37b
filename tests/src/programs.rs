//! The programs under test: kitplay and kitroom, one process a kit.

use std::io::{ErrorKind, Write};
use std::process::{Command, Stdio};

/// A program's path, or a script and that path, parted by blanks.
#[derive(Default)]
pub struct Programs {
    pub kitplay: Option<String>,
    pub kitroom: Option<String>,
}

impl Programs {
    /// What kitplay prints, if there is one.
    pub fn play(&self, bytes: &[u8]) -> Option<Result<String, String>> {
        self.kitplay.as_deref().map(|command| run(command, None, bytes))
    }

    /// What kitroom prints, if there is one.
    pub fn room(&self, bytes: &[u8], n: Option<usize>) -> Option<Result<String, String>> {
        self.kitroom.as_deref().map(|command| run(command, n, bytes))
    }
}

fn run(command: &str, argument: Option<usize>, input: &[u8]) -> Result<String, String> {
    let told = |e: &dyn std::fmt::Display| format!("{command}: {e}");
    let mut words = command.split_whitespace().map(str::to_string).chain(argument.map(|n| n.to_string()));
    let mut process = Command::new(words.next().ok_or("no program is named")?);
    let mut child = process.args(words).stdin(Stdio::piped()).stdout(Stdio::piped()).spawn().map_err(|e| told(&e))?;
    let mut pipe = child.stdin.take().expect("piped");
    // a program may stop reading once it has seen too many bytes
    match pipe.write_all(input) {
        Err(e) if e.kind() != ErrorKind::BrokenPipe => return Err(told(&e)),
        _ => drop(pipe),
    }
    let output = child.wait_with_output().map_err(|e| told(&e))?;
    if !output.status.success() {
        return Err(told(&output.status));
    }
    String::from_utf8(output.stdout).map_err(|e| told(&e))
}
