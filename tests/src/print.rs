//! What kitplay and kitroom print.

use crate::kit::{read, Kit};
use crate::play::{Condition, Room};
use std::fmt::Write;

fn word(c: Condition) -> &'static str {
    match c {
        Condition::Running => "running",
        Condition::Halted => "halted",
        Condition::Closed => "closed",
        Condition::Faulty => "faulty",
    }
}

/// The most bytes that the programs take.
pub const INPUT: usize = 65536;

/// What kitplay prints.
pub fn kitplay(bytes: &[u8]) -> String {
    if bytes.len() > INPUT {
        "kit 9\n".to_string()
    } else {
        play_text(bytes)
    }
}

/// What kitroom prints: the room after the first n events; `None`: after all of them.
pub fn kitroom(bytes: &[u8], n: Option<usize>) -> String {
    if bytes.len() > INPUT {
        "kit 9\n".to_string()
    } else {
        room_text(bytes, n)
    }
}

/// What kitroom says of an argument that is not decimal digits.
pub const NO_NUMBER: &str = "the argument is not a number of events\n";

/// What kitroom prints, given this argument or none.
pub fn kitroom_asked(bytes: &[u8], word: Option<&str>) -> String {
    match word {
        None => kitroom(bytes, None),
        Some(word) if word.is_empty() || !word.bytes().all(|b| b.is_ascii_digit()) => NO_NUMBER.to_string(),
        // more digits than a number has room for: past the end of any kit
        Some(word) => kitroom(bytes, Some(word.parse().unwrap_or(usize::MAX))),
    }
}

/// The printed play of any bytes, however many.
pub fn play_text(bytes: &[u8]) -> String {
    match read(bytes) {
        Err(number) => format!("kit {number}\n"),
        Ok(kit) => play_of(&kit),
    }
}

/// The printed play of a kit.
pub fn play_of(kit: &Kit) -> String {
    let mut out = String::new();
    let mut room = Room::new(kit);
    for (i, event) in kit.events.iter().enumerate() {
        let answer = room.step(event);
        writeln!(out, "{} {} {}", i + 1, room.clock, answer).unwrap();
    }
    for (x, p) in room.replicas.iter().enumerate() {
        let list = room.settled(x);
        write!(out, "replica {x} {} {} {}", word(p.condition), list.len(), p.mark).unwrap();
        for r in list {
            write!(out, " {r}").unwrap();
        }
        out.push('\n');
    }
    match room.late {
        Some(t) => writeln!(out, "late {t}").unwrap(),
        None => out.push_str("late none\n"),
    }
    out
}

fn joined<T: ToString>(items: impl Iterator<Item = T>) -> String {
    let all: Vec<String> = items.map(|x| x.to_string()).collect();
    if all.is_empty() {
        "-".to_string()
    } else {
        all.join(",")
    }
}

/// The printed room of any bytes, after the first n events; `None`: after all of them.
pub fn room_text(bytes: &[u8], n: Option<usize>) -> String {
    let kit = match read(bytes) {
        Err(number) => return format!("kit {number}\n"),
        Ok(kit) => kit,
    };
    let n = n.unwrap_or(kit.events.len());
    if n > kit.events.len() {
        return past_the_end(kit.events.len());
    }
    room_of(&kit, n)
}

/// What kitroom says when it is asked for more events than there are.
pub fn past_the_end(events: usize) -> String {
    format!("the kit has {events} events\n")
}

/// The printed room of a kit after its first n events.
pub fn room_of(kit: &Kit, n: usize) -> String {
    let mut room = Room::new(kit);
    let mut answer = "-".to_string();
    for event in &kit.events[..n] {
        answer = room.step(event).to_string();
    }
    let mut out = String::new();
    let late = room.late.map_or("none".to_string(), |t| t.to_string());
    writeln!(out, "event {n} clock {} answer {answer} late {late}", room.clock).unwrap();
    out.push_str("submitted");
    for (r, t) in &room.submitted {
        write!(out, " {r}@{t}").unwrap();
    }
    out.push('\n');
    for (h, history) in room.histories.iter().enumerate() {
        writeln!(out, "history {h} {} {} {}", history.j, history.k, joined(history.list.iter())).unwrap();
    }
    for (x, counters) in room.counters.iter().enumerate() {
        for (name, issued) in counters.iter().enumerate().filter(|(_, c)| !c.is_empty()) {
            write!(out, "counter {x}.{name}").unwrap();
            for c in issued {
                let (kind, a, b) = c.numbers();
                write!(out, " {kind}:{a}:{b}").unwrap();
            }
            out.push('\n');
        }
    }
    for x in 0..room.replicas.len() {
        out.push_str(&replica_line(&room, x));
    }
    out
}

fn replica_line(room: &Room, x: usize) -> String {
    let p = &room.replicas[x];
    let list = room.settled(x);
    let accepted = (0..p.accepted.len())
        .flat_map(|s| (0..3).map(move |m| (s, m)))
        .filter(|&(s, m)| p.accepted[s][m] > 0)
        .map(|(s, m)| format!("{s}.{m}:{}", p.accepted[s][m]));
    format!(
        "replica {x} {} settled={} mark={} held={} noted={} pairmarks={} accepted={} list={}\n",
        word(p.condition),
        list.len(),
        p.mark,
        joined(p.held.iter()),
        joined(p.noted.iter()),
        joined(p.marks.iter()),
        joined(accepted),
        joined(list.iter()),
    )
}
