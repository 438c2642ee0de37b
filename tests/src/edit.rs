//! What edits of a kit have in common: of its idle time (`idle`), of the order of its events (`exchange`), of what is put in (`believed`).

use crate::kit::{self, Event, Kit};
use crate::play::Room;

/// The kit with so many events from a place on replaced by these.
pub fn replaced(kit: &Kit, at: usize, many: usize, new: &[Event]) -> Kit {
    let mut other = kit.clone();
    other.events.splice(at..at + many, new.iter().cloned());
    other
}

/// The number with which a kit's bytes are refused, 0 if they are a good kit.
pub fn number(kit: &Kit) -> u8 {
    kit::read(&kit::bytes(kit)).err().unwrap_or(0)
}

/// The room after the first n events.
pub fn after(kit: &Kit, n: usize) -> Room<'_> {
    let mut room = Room::new(kit);
    for event in &kit.events[..n] {
        room.step(event);
    }
    room
}

/// In how many ticks the first client that waits gets late, if one waits.
pub fn ticks_left(room: &Room) -> Option<u32> {
    let &(_, tick) = room.submitted.iter().find(|&&(request, _)| !room.is_answered(request))?;
    u32::try_from((tick + u64::from(room.kit.patience)).saturating_sub(room.clock)).ok()
}

/// Whether two rooms are the same, whatever kits they belong to.
pub fn same_room(a: &Room, b: &Room) -> bool {
    (a.clock, a.late, &a.submitted, &a.histories) == (b.clock, b.late, &b.submitted, &b.histories)
        && (a.filed, &a.counters, &a.replicas) == (b.filed, &b.counters, &b.replicas)
}
