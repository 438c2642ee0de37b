//! Kits that know the protocol: each event is chosen by looking at the model's room, so that most are taken and the room gets far.

use super::maker::Maker;
use crate::kit::{Action, Content, Event, Kit, EVENTS, TICKS};
use crate::play::SUBMISSIONS;
use crate::random::Random;

/// Which replicas are faulty.
#[derive(Clone, Copy)]
enum Faults {
    None,
    Leader,
    SwitchLeader,
    Both,
    Some,
}

/// How a kit goes on.
pub struct Style {
    pub events: usize,
    /// Sensible submissions, at most.
    pub submissions: usize,
    /// Of a hundred events so many are none that the protocol would send.
    pub noise: usize,
    /// From this event on there are PANICs and the switch, late or not.
    pub switch_at: usize,
    /// So many events after the late tick its PANIC begins to arrive, and the switch may begin.
    pub travel: usize,
    /// Whom no PANIC ever reaches: replica x if bit x is 1.
    pub deaf: usize,
    /// One certificate of a faulty replica in so many has something wrong.
    pub lies: usize,
    /// One gap in so many ends at the edge of somebody's patience.
    pub near: usize,
    /// Other gaps are below this.
    pub gaps: usize,
    /// Oldest certificates first, mostly.
    pub in_order: bool,
    /// Histories filed and counters filled right at the start.
    pub filing: bool,
    pub flood: bool,
}

/// A kit of any style.
pub fn kit(random: &mut Random) -> Kit {
    let f = random.below(3) + 1;
    let sort = random.below(40);
    let faults = match sort {
        0..=5 => Faults::None,
        6..=11 => Faults::Leader,
        12..=23 => Faults::SwitchLeader,
        24..=26 => Faults::Both,
        _ => Faults::Some,
    };
    let frame = frame(random, f, faults);
    let events = match sort {
        0 | 12 => 600 + random.below(900),
        1..=20 => 20 + random.below(220),
        _ => 5 + random.below(120),
    };
    let long = events > 400;
    let switch_at = if long { events - 90 } else { random.below(events) };
    if sort >= 34 {
        return histories(random, f);
    }
    let style = Style {
        events,
        submissions: if long { 70 } else { random.below(13) },
        noise: if long { 5 } else { random.pick(&[2, 6, 16, 33]) },
        switch_at: if random.once_in(4) { usize::MAX } else { switch_at },
        travel: random.pick(&[0, 0, 0, 2, 9, 30, usize::MAX]),
        deaf: if random.once_in(4) { random.below(1 << (2 * f + 1)) } else { 0 },
        lies: random.pick(&[2, 5, 20, 1000]),
        near: random.pick(&[5, 20, 100, 100_000, 100_000, 100_000]),
        gaps: random.pick(&[1, 1, 2, 4, 30]),
        in_order: long || !random.once_in(4),
        filing: random.once_in(9),
        flood: random.once_in(12),
    };
    if random.once_in(12) {
        wild(random, frame, events)
    } else {
        Maker::new(random, &style, &frame).run()
    }
}

/// A kit whose faulty switch leader has served requests when it tries its histories.
fn histories(random: &mut Random, f: usize) -> Kit {
    let faults = random.pick(&[Faults::SwitchLeader, Faults::SwitchLeader, Faults::Both]);
    let mut frame = frame(random, f, faults);
    frame.patience = frame.patience.max(50);
    let served = 15 + random.below(60);
    let style = Style {
        events: served + 30 + random.below(30),
        submissions: 1 + random.below(5),
        noise: 4,
        switch_at: served,
        travel: random.pick(&[0, 4]),
        deaf: 0,
        lies: random.pick(&[20, 1000]),
        near: 100_000,
        gaps: random.pick(&[1, 2]),
        in_order: !random.once_in(3),
        filing: false,
        flood: false,
    };
    Maker::new(random, &style, &frame).run()
}

/// A large kit: all events that a kit can have, with so many requests served from end to end as they allow.
pub fn large(random: &mut Random, f: usize) -> Kit {
    let mut frame = frame(random, f, Faults::None);
    frame.patience = TICKS;
    let style = Style {
        events: EVENTS as usize,
        submissions: SUBMISSIONS,
        noise: [90, 78, 58][f - 1],
        switch_at: EVENTS as usize - 200,
        travel: 0,
        deaf: 0,
        lies: 1000,
        near: 1 << 40,
        gaps: 100,
        in_order: true,
        filing: false,
        flood: false,
    };
    Maker::new(random, &style, &frame).run()
}

// ---- settings

fn frame(random: &mut Random, f: usize, faults: Faults) -> Kit {
    let size = 2 * f + 1;
    let mut order: Vec<usize> = (0..size).collect();
    shuffle(random, &mut order);
    let leader = order[0];
    let switch_leader = *order[1..f + 1].iter().min().expect("f is 1 or more");
    let mut table = vec![0; size];
    for &x in &order[..f + 1] {
        table[x] = 1;
    }
    shuffle(random, &mut order);
    let mut faulty = match faults {
        Faults::None => vec![],
        Faults::Leader => vec![leader],
        Faults::SwitchLeader => vec![switch_leader],
        Faults::Both => vec![switch_leader, leader],
        Faults::Some => order[..random.below(f + 1)].to_vec(),
    };
    if matches!(faults, Faults::Leader | Faults::SwitchLeader | Faults::Both) && random.once_in(3) {
        faulty.extend(order.iter().find(|x| !faulty.contains(x)));
    }
    faulty.truncate(f);
    faulty.iter().for_each(|&x| table[x] += 2);
    Kit { f: f as u32, leader, patience: patience(random), table, events: Vec::new() }
}

fn patience(random: &mut Random) -> u32 {
    match random.below(8) {
        0 => 1 + random.below(3) as u32,
        1..=4 => 5 + random.below(60) as u32,
        5 => 200 + random.below(1000) as u32,
        6 => TICKS,
        _ => 1 + random.below(TICKS as usize) as u32,
    }
}

pub fn shuffle<T>(random: &mut Random, list: &mut [T]) {
    for i in (1..list.len()).rev() {
        list.swap(i, random.below(i + 1));
    }
}

// ---- events that know nothing but the grammar

fn wild(random: &mut Random, mut frame: Kit, events: usize) -> Kit {
    let size = frame.table.len();
    frame.events = (0..events).map(|_| Event { gap: random.below(3) as u32, action: any_action(random, size) }).collect();
    frame
}

/// Any event, of small numbers.
pub fn any_action(random: &mut Random, size: usize) -> Action {
    let value = |random: &mut Random| random.below(4) as u32;
    match random.below(8) {
        0 => Action::Submit(1 + random.below(5) as u32),
        1 => Action::Issue { replica: random.below(size), name: random.below(3), content: any_content(random) },
        2 | 3 => {
            Action::Deliver { sender: random.below(size), name: random.below(3), value: value(random), to: random.below(size) }
        }
        4 => Action::Hand { ag: value(random), up: value(random), to: random.below(size) },
        5 => Action::Panic(random.below(size)),
        6 => {
            if random.once_in(2) {
                Action::Idle
            } else {
                Action::Build
            }
        }
        _ => any_file(random, &[1, 2, 3, 4, 5]),
    }
}

/// Any content, of small numbers.
pub fn any_content(random: &mut Random) -> Content {
    let a = random.below(5) as u32;
    let b = if random.once_in(8) { random.bits() as u32 } else { random.below(8) as u32 };
    match random.below(5) {
        0 => Content::Prepare(a),
        1 => Content::Commit(a, b),
        2 => Content::Update(a, b),
        3 => Content::History(a),
        _ => Content::Switch(a),
    }
}

/// A filing of these requests, in any order, repeated or not.
pub fn any_file(random: &mut Random, requests: &[u32]) -> Action {
    let n = if random.once_in(10) { 64 } else { random.below(6) };
    let list: Vec<u32> = (0..n).map(|_| random.pick(requests)).collect();
    let k = random.below(n + 1);
    Action::File { j: random.below(k + 1) as u32, k: k as u32, list }
}
