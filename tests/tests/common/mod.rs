//! Kits for tests, in the readable form.
#![allow(dead_code)]

use model::kit::{read, Kit};
use model::play::Room;
use model::text_form;

/// The settings of a room with f = 1: 0 leads, 1 is the switch leader, 2 is passive.
pub const THREE: &str = "f 1\nleader 0\npatience 10\nreplicas 1 1 0\n";

/// The same with f = 2: 0 leads, 1 is the switch leader, 2 is active, 3 and 4 are passive.
pub const FIVE: &str = "f 2\nleader 0\npatience 10\nreplicas 1 1 1 0 0\n";

/// A kit from settings and events, which `/` parts.
pub fn kit(settings: &str, events: &str) -> Kit {
    let text = format!("{settings}{}", events.replace('/', "\n"));
    read(&text_form::bytes(&text).expect("a good kit")).expect("a good kit")
}

/// The answers of all events.
pub fn answers(settings: &str, events: &str) -> Vec<u32> {
    let kit = kit(settings, events);
    let mut room = Room::new(&kit);
    kit.events.iter().map(|event| room.step(event)).collect()
}

/// The answer of the last event.
pub fn last(settings: &str, events: &str) -> u32 {
    *answers(settings, events).last().expect("an event")
}

/// What a room's end says: f gets the room after the last event.
pub fn after<T>(settings: &str, events: &str, look: impl Fn(&Room) -> T) -> T {
    let kit = kit(settings, events);
    let mut room = Room::new(&kit);
    for event in &kit.events {
        room.step(event);
    }
    look(&room)
}

/// The bytes that hexadecimal text spells; what is no digit only parts them.
pub fn hex(text: &str) -> Vec<u8> {
    let digits: String = text.chars().filter(char::is_ascii_hexdigit).collect();
    (0..digits.len() / 2).map(|i| u8::from_str_radix(&digits[2 * i..2 * i + 2], 16).expect("digits")).collect()
}

/// The number of a kit given in hexadecimal.
pub fn number(text: &str) -> u8 {
    read(&hex(text)).err().unwrap_or(0)
}
