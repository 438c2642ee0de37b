//! Kits at the limits: no events and all of them, the largest numbers, the longest bytes.

use super::protocol;
use crate::kit::{self, Action, Event, Kit, EVENTS, TICKS};
use crate::random::Random;

/// One of them, small ones mostly.
pub fn bytes(random: &mut Random) -> Vec<u8> {
    match random.below(12) {
        0 | 11 => (0..65_537 + random.below(3)).map(|_| random.bits() as u8).collect(),
        1 => of_length(65_536 + random.below(2)),
        2 => {
            let f = random.below(3) + 1;
            let mut kit = protocol::large(random, f);
            if random.once_in(2) {
                kit.patience = 1 + random.below(20_000) as u32;
            }
            kit::bytes(&kit)
        }
        3 | 7 => kit::bytes(&long_wait(random.below(40))),
        4 => kit::bytes(&repeated(Action::Submit(1 + random.below(9) as u32), 200)),
        5 => kit::bytes(&Kit { events: Vec::new(), ..protocol::kit(random) }),
        6 => kit::bytes(&repeated(any_large(random), 10)),
        _ => (0..random.below(30)).map(|_| random.bits() as u8 & random.pick(&[0x03, 0x07, 0xff])).collect(),
    }
}

fn frame() -> Kit {
    Kit { f: 1, leader: 0, patience: TICKS, table: vec![1, 1, 0], events: Vec::new() }
}

/// One event again and again.
fn repeated(action: Action, times: usize) -> Kit {
    Kit { events: vec![Event { gap: 0, action }; times], ..frame() }
}

/// An event whose numbers are the largest that it may have.
fn any_large(random: &mut Random) -> Action {
    match random.below(4) {
        0 => Action::Submit(u32::MAX),
        1 => Action::Deliver { sender: 2, name: 2, value: u32::MAX, to: 0 },
        2 => Action::Hand { ag: u32::MAX, up: u32::MAX, to: 2 },
        _ => Action::File { j: 64, k: 64, list: vec![u32::MAX; 64] },
    }
}

/// A submission, answered or not, and then gaps of the largest size: the clock goes past 32 bits.
fn long_wait(idle: usize) -> Kit {
    let mut kit = frame();
    let event = |gap: u32, action: Action| Event { gap, action };
    kit.events.push(event(TICKS, Action::Idle));
    kit.events.push(event(0, Action::Submit(u32::MAX)));
    kit.events.push(event(TICKS - 1, Action::Deliver { sender: 0, name: 0, value: 1, to: 1 }));
    kit.events.push(event(0, Action::Deliver { sender: 1, name: 0, value: 1, to: 0 }));
    kit.events.extend((0..idle).map(|_| event(TICKS, Action::Idle)));
    kit.events.push(event(0, Action::Submit(1)));
    kit.events.push(event(TICKS, Action::Submit(2)));
    kit
}

/// A good kit of exactly so many bytes.
pub fn of_length(length: usize) -> Vec<u8> {
    let list = |n: usize| Action::File { j: 0, k: 0, list: vec![u32::MAX; n] };
    let mut kit = frame();
    let size = |kit: &Kit| kit::bytes(kit).len();
    while size(&kit) + 325 + 10 <= length {
        let room = (length - size(&kit) - 10) / 325;
        kit.events.extend((0..room.clamp(1, 100)).map(|_| Event { gap: 0, action: list(64) }));
    }
    while size(&kit) + 12 <= length {
        kit.events.push(Event { gap: 0, action: list(1) });
    }
    // an idle event takes two bytes, one with a gap of 128 takes three
    while size(&kit) < length {
        let gap = if length - size(&kit) == 3 { 128 } else { 0 };
        kit.events.push(Event { gap, action: Action::Idle });
    }
    kit::bytes(&kit)
}

/// All that are the same in every run.
pub fn every() -> Vec<Vec<u8>> {
    let mut random = Random::new(1);
    let many = EVENTS as usize;
    let mut all = vec![Vec::new(), vec![0], vec![0x80], vec![0xff; 5], vec![1, 0]];
    for f in 1..=3 {
        all.push(kit::bytes(&Kit { events: Vec::new(), ..protocol::large(&mut random, f) }));
        all.push(kit::bytes(&protocol::large(&mut random, f)));
    }
    all.push(kit::bytes(&repeated(Action::Idle, many)));
    all.push(kit::bytes(&repeated(Action::Build, many)));
    all.push(kit::bytes(&Kit { events: (1..=EVENTS).map(|r| Event { gap: 1, action: Action::Submit(r) }).collect(), ..frame() }));
    all.push(kit::bytes(&Kit { events: vec![Event { gap: TICKS, action: Action::Idle }; many], ..frame() }));
    all.push(kit::bytes(&repeated(Action::File { j: 64, k: 64, list: vec![u32::MAX; 64] }, many)));
    all.push(kit::bytes(&long_wait(4000)));
    for length in 65_530..65_545 {
        all.push(of_length(length));
    }
    all.push(vec![0; 65_536]);
    all.push(vec![0; 65_537]);
    all
}
