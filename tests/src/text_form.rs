//! A kit as an author writes it: settings by name, then one event a line, all numbers decimal.
//!
//! ```text
//! # a comment goes to the end of its line
//! f 1
//! leader 0
//! patience 10
//! replicas 1 1 0
//! 0 1 7            # gap, kind, operands
//! 3 3 0 0 1 1
//! ```

use crate::kit;

/// The settings, in their order, and how many numbers each has (`None`: 2f+1).
const SETTINGS: [(&str, Option<usize>); 4] = [("f", Some(1)), ("leader", Some(1)), ("patience", Some(1)), ("replicas", None)];

/// The kit's bytes, or what is wrong and in which line.
pub fn bytes(text: &str) -> Result<Vec<u8>, String> {
    let mut numbers = Vec::new();
    // the line of each number
    let mut lines = Vec::new();
    let mut settings = SETTINGS.iter();
    let mut events = 0;
    for (i, line) in text.lines().enumerate() {
        let words: Vec<&str> = line.split('#').next().unwrap_or("").split_whitespace().collect();
        if words.is_empty() {
            continue;
        }
        let here = match settings.next() {
            Some((name, count)) => setting(&words, name, count.unwrap_or_else(|| 2 * numbers[0] as usize + 1)),
            None => event(&words),
        };
        numbers.extend(here.map_err(|what| format!("line {}: {what}", i + 1))?);
        match words[0] {
            // the count of events comes next; it is known at the end
            "replicas" => numbers.push(0),
            "f" | "leader" | "patience" => {}
            _ => events += 1,
        }
        lines.resize(numbers.len(), i + 1);
    }
    if let Some((name, _)) = settings.next() {
        return Err(format!("`{name}` is missing"));
    }
    if events > kit::EVENTS {
        return Err(format!("{events} events, more than {}", kit::EVENTS));
    }
    let count_at = 3 + 2 * numbers[0] as usize + 1;
    numbers[count_at] = events;
    match kit::of_numbers(&numbers) {
        Ok(_) => Ok(kit::spell_all(&numbers)),
        Err(number) => Err(format!("line {}: kit {number}", lines[kit::judged(&numbers) - 1])),
    }
}

fn decimals(words: &[&str]) -> Result<Vec<u32>, String> {
    words.iter().map(|w| w.parse().map_err(|_| format!("{w} is no number below 2^32"))).collect()
}

fn counted(numbers: Vec<u32>, wanted: usize) -> Result<Vec<u32>, String> {
    if numbers.len() == wanted {
        Ok(numbers)
    } else {
        Err(format!("{} numbers, not {wanted}", numbers.len()))
    }
}

fn setting(words: &[&str], name: &str, count: usize) -> Result<Vec<u32>, String> {
    if words[0] != name {
        return Err(format!("here stands `{name}` and its number"));
    }
    counted(decimals(&words[1..])?, count)
}

/// Gap, kind, operands; an unknown kind is judged with the kit.
fn event(words: &[&str]) -> Result<Vec<u32>, String> {
    let numbers = decimals(words)?;
    let at = |i: usize| numbers.get(i).copied().unwrap_or(0) as usize;
    let count = match at(1) {
        1 | 5 => 3,
        2 => 7,
        3 => 6,
        4 => 5,
        6 | 7 => 2,
        8 => at(3).saturating_add(at(4)).saturating_add(5),
        _ => numbers.len().max(2),
    };
    counted(numbers, count)
}
