//! bench [ROUNDS]: the same kits with the model, with the tuned player and, built with the feature `library`, with the proved library, in
//! one run and in turns; ns an event for reading (the kit number), for reading and playing, and for the whole (reading, playing,
//! printing), with the ratios to the tuned player. The library's reading and playing ends with the text of the last room, which the
//! others do not print.
//!
//! bench --count WHO read|play|whole KIT TIMES does one of these so often and nothing else, for a tool that counts instructions.

use model::generator::protocol;
use model::kit::{self, Action, Content, Event, Kit, EVENTS, TICKS};
use model::play::{Room, SUBMISSIONS};
use model::random::Random;
use model::{print, tuned};
use std::hint::black_box;
use std::time::Instant;

type Work = fn(&[u8], &mut [u8]) -> usize;

const WORKS: [&str; 3] = ["read", "play", "whole"];

/// Who is measured: its name; how it reads, reads and plays, and does all.
const SUBJECTS: &[(&str, [Work; 3])] = &[
    (
        "model",
        [
            |bytes, _| kit::read(bytes).map_or(0, |kit| kit.events.len()),
            |bytes, _| kit::read(bytes).map_or(0, |kit| play(&kit)),
            |bytes, _| print::play_text(bytes).len(),
        ],
    ),
    (
        "tuned",
        [
            |bytes, _| tuned::kit_number(bytes) as usize,
            |bytes, _| tuned::play(bytes).map_or(0, |sum| sum as usize),
            |bytes, _| tuned::play_text(bytes).len(),
        ],
    ),
    #[cfg(feature = "library")]
    (
        "library",
        [
            |bytes, _| model::library::plain_kit_number(bytes) as usize,
            |bytes, out| model::library::plain_room_text(bytes, EVENTS as usize, out),
            |bytes, out| model::library::plain_play_text(bytes, out),
        ],
    ),
];

fn main() {
    let words: Vec<String> = std::env::args().skip(1).collect();
    let kits = kits();
    match words.iter().map(String::as_str).collect::<Vec<_>>()[..] {
        [] => table(&kits, 200),
        ["--count", who, what, name, times] => count(&kits, who, what, name, times.parse().expect("how often")),
        [rounds] => table(&kits, rounds.parse().expect("how many rounds")),
        _ => eprintln!("bench [ROUNDS] | bench --count WHO read|play|whole KIT TIMES"),
    }
}

fn table(kits: &[(&str, Kit)], rounds: usize) {
    println!("ns an event, the least of {rounds} rounds; ratios to the tuned player");
    let mut out = vec![0; 1 << 20];
    for (name, kit) in kits {
        let bytes = kit::bytes(kit);
        let events = kit.events.len() as f64;
        let mut least = vec![[f64::MAX; 3]; SUBJECTS.len()];
        for _ in 0..rounds {
            for (subject, least) in SUBJECTS.iter().zip(&mut least) {
                for (work, least) in subject.1.iter().zip(least) {
                    *least = least.min(time(|| work(black_box(&bytes), &mut out)) / events);
                }
            }
        }
        println!("\n{name}: {} events, {} taken, {} bytes", kit.events.len(), taken(kit), bytes.len());
        println!("{:10} {:>8} {:>8} {:>8}   {:>6} {:>6} {:>6}", "", "read", "play", "whole", "read", "play", "whole");
        for (subject, ns) in SUBJECTS.iter().zip(&least) {
            let ratio = [0, 1, 2].map(|i| ns[i] / least[1][i]);
            println!(
                "{:10} {:8.1} {:8.1} {:8.1}   {:6.2} {:6.2} {:6.2}",
                subject.0, ns[0], ns[1], ns[2], ratio[0], ratio[1], ratio[2]
            );
        }
    }
}

fn time(work: impl FnOnce() -> usize) -> f64 {
    let start = Instant::now();
    black_box(work());
    start.elapsed().as_nanos() as f64
}

fn count(kits: &[(&str, Kit)], who: &str, what: &str, name: &str, times: usize) {
    let subject = SUBJECTS.iter().find(|s| s.0 == who).expect("model, tuned or library");
    let work = subject.1[WORKS.iter().position(|w| *w == what).expect("read, play or whole")];
    let kit = &kits.iter().find(|k| k.0 == name).expect("a kit's name").1;
    let bytes = kit::bytes(kit);
    let mut out = vec![0; 1 << 20];
    for _ in 0..times {
        black_box(work(black_box(&bytes), &mut out));
    }
    println!("{}", kit.events.len());
}

fn play(kit: &Kit) -> usize {
    let mut room = Room::new(kit);
    kit.events.iter().map(|event| room.step(event) as usize).sum()
}

fn taken(kit: &Kit) -> usize {
    let mut room = Room::new(kit);
    kit.events.iter().filter(|event| room.step(event) == 0).count()
}

// ---- the kits, all as large as a kit can be

fn kits() -> Vec<(&'static str, Kit)> {
    let all = EVENTS as usize;
    let frame = |f: usize| Kit { events: Vec::new(), ..protocol::large(&mut Random::new(f as u64), f) };
    let same = |gap: u32, action: Action| vec![Event { gap, action }; all];
    let submit = |request: u32| Event { gap: 1, action: Action::Submit(request) };
    let submissions = (1..=EVENTS).map(submit).collect();
    // each request of as many as can be submitted, and then again and again until the next one comes
    let tries = (0..EVENTS).map(|i| submit(1 + i * SUBMISSIONS as u32 / EVENTS)).collect();
    vec![
        ("f3", protocol::large(&mut Random::new(3), 3)),
        ("f2", protocol::large(&mut Random::new(2), 2)),
        ("f1", protocol::large(&mut Random::new(1), 1)),
        ("f3-late", late(protocol::large(&mut Random::new(3), 3))),
        ("idle", Kit { events: same(0, Action::Idle), ..frame(3) }),
        ("submissions", Kit { events: submissions, ..frame(3) }),
        ("second tries", Kit { events: tries, ..frame(3) }),
        ("largest", Kit { events: same(TICKS, Action::File { j: 64, k: 64, list: vec![u32::MAX; 64] }), ..frame(3) }),
        ("hands", hands()),
        ("64 KB", full()),
    ]
}

/// The kit with a short patience, and with a PANIC to everybody in the events after the late one.
fn late(kit: Kit) -> Kit {
    let mut kit = Kit { patience: 10_000, ..kit };
    let impatient = kit.clone();
    let mut room = Room::new(&impatient);
    let is_late = |event: &Event| {
        room.step(event);
        room.late.is_some()
    };
    let first = 1 + impatient.events.iter().position(is_late).expect("somebody waits longer");
    for (x, event) in kit.events[first..first + impatient.table.len()].iter_mut().enumerate() {
        event.action = Action::Panic(x);
    }
    kit
}

/// As many numbers as 65,536 bytes can hold: all of one byte, but for the event count.
fn full() -> Kit {
    let event = |requests: usize| Event { gap: 0, action: Action::File { j: 0, k: 0, list: vec![1; requests] } };
    let events = (0..EVENTS as usize).map(|i| event(if i < 12 { 10 } else { 11 })).collect();
    Kit { f: 3, leader: 0, patience: 100, table: vec![1, 1, 1, 1, 0, 0, 0], events }
}

/// The dearest event again and again: a history of 64 requests that is wrong at its very end.
fn hands() -> Kit {
    let mut kit = Kit { f: 3, leader: 0, patience: TICKS, table: vec![1, 3, 3, 1, 0, 0, 0], events: Vec::new() };
    let mut list: Vec<u32> = (1..=64).collect();
    let mut mark = 0u32;
    let mut add = |action: Action| kit.events.push(Event { gap: 0, action });
    let issue = |replica: usize, name: usize, content: Content| Action::Issue { replica, name, content };
    for &r in &list {
        mark = mark.wrapping_mul(2).wrapping_add(r);
        add(Action::Submit(r));
        add(Action::Deliver { sender: 0, name: 0, value: r, to: 3 });
        add(issue(1, 0, Content::Commit(r, r)));
        add(issue(2, 0, Content::Commit(r, r)));
        if r < 64 {
            add(issue(1, 1, Content::Update(r, mark)));
        }
    }
    list[63] = 1;
    add(Action::File { j: 63, k: 63, list });
    add(issue(1, 0, Content::History(0)));
    add(issue(1, 1, Content::History(0)));
    add(Action::Panic(4));
    // the 64th COMMIT stands where a history of 63 asks for the HISTORY, so hand one that is right there
    kit.events.retain(|e| e.action != issue(1, 0, Content::Commit(64, 64)));
    while kit.events.len() < EVENTS as usize {
        kit.events.push(Event { gap: 0, action: Action::Hand { ag: 64, up: 64, to: 4 } });
    }
    kit
}
