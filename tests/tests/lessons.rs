//! The lesson kits: each is what its text says, prints what stands beside it, and teaches what its page says.

use model::believed;
use model::edit::after;
use model::exchange::{check, Pair};
use model::idle::without_line;
use model::kit::{bytes, read, Action, Event, Kit};
use model::play::{Condition, Room};
use model::print::{kitplay, play_of};
use model::random::Random;
use model::text_form;
use std::fs;
use std::path::PathBuf;

const LESSONS: [&str; 6] = ["clean", "late", "order", "switch", "faulty-leader", "faulty-switch-leader"];

/// Kits that a page shows beside its own: the page, the kit.
const BESIDE: [(&str, &str); 5] = [
    ("late", "late-panic"),
    ("late", "late-without-gaps"),
    ("order", "order-2-3"),
    ("order", "order-4-5"),
    ("switch", "switch-later"),
];

fn file(name: &str, kind: &str) -> Vec<u8> {
    let path = PathBuf::from(env!("CARGO_MANIFEST_DIR")).join("../kits/lessons").join(format!("{name}.{kind}"));
    fs::read(&path).unwrap_or_else(|e| panic!("{}: {e}", path.display()))
}

fn text(name: &str, kind: &str) -> String {
    String::from_utf8(file(name, kind)).expect("text")
}

fn kit(name: &str) -> Kit {
    read(&file(name, "kit")).expect("a good kit")
}

#[test]
fn kits_are_what_their_texts_say_and_print_what_stands_beside_them() {
    for name in LESSONS.into_iter().chain(BESIDE.map(|(_, kit)| kit)) {
        assert_eq!(text_form::bytes(&text(name, "txt")).as_ref(), Ok(&file(name, "kit")), "{name}");
        assert_eq!(kitplay(&file(name, "kit")), text(name, "play"), "{name}");
    }
}

#[test]
fn pages_quote_the_plays() {
    for name in LESSONS {
        let beside: String = BESIDE.iter().filter(|(page, _)| *page == name).map(|(_, kit)| text(kit, "play")).collect();
        let plays = text(name, "play") + &beside;
        let page = text(name, "md");
        let quoted = page.lines().filter_map(|line| line.strip_prefix("    ")).filter(|line| *line != "...");
        for line in quoted {
            assert!(plays.lines().any(|l| l == line), "{name}: {line}");
        }
    }
}

/// The least patience at which nobody is late.
fn least_patience(mut kit: Kit) -> u32 {
    let is_late = |kit: &Kit| {
        let mut room = Room::new(kit);
        for event in &kit.events {
            room.step(event);
        }
        room.late.is_some()
    };
    kit.patience = 1;
    while is_late(&kit) {
        kit.patience += 1;
    }
    kit.patience
}

#[test]
fn the_patience_decides_the_last_line_alone() {
    let lines = |name: &str| text(name, "play").lines().map(String::from).collect::<Vec<_>>();
    let (clean, late) = (lines("clean"), lines("late"));
    assert_eq!(clean[..clean.len() - 1], late[..late.len() - 1]);
    assert_eq!((clean.last().unwrap().as_str(), late.last().unwrap().as_str()), ("late none", "late 10"));
}

#[test]
fn the_wrong_number() {
    let (clean, late, old) = (kit("clean"), kit("late"), kit("late-without-gaps"));
    assert_eq!(bytes(&Kit { patience: 10, ..clean.clone() }), bytes(&late));
    let mut dropped = late.clone();
    for event in dropped.events.iter_mut().filter(|e| e.action == Action::Idle) {
        event.gap = 0;
    }
    assert_eq!(bytes(&dropped), bytes(&old));
    assert_eq!(least_patience(clean), 12);
    assert_eq!(least_patience(old), 6);
}

/// However the pause in `late` is cut: without the line of its first part the play is the one beside the page.
#[test]
fn a_pause_may_be_cut() {
    let late = kit("late");
    assert_eq!(late.events[2], Event { gap: 6, action: Action::Idle });
    for part in 0..=6 {
        let mut cut = late.clone();
        cut.events[2].gap = part;
        cut.events.insert(3, Event { gap: 6 - part, action: Action::Idle });
        assert_eq!(without_line(&play_of(&cut), cut.events.len(), 2), text("late", "play"));
    }
}

/// With events 2 and 3 of `order` exchanged, or 6 and 7, the play is the same; with 4 and 5 it is not: what event 5 delivers is issued by event 4.
#[test]
fn two_deliveries_change_places() {
    for first in [2, 6] {
        let mut met = Vec::new();
        assert_eq!(check(&order(first), &mut |case| met.push(case)), Ok(()));
        assert!(met.contains(&"deliveries: both taken"), "event {first}: {met:?}");
        assert_eq!(play_of(&order(first).exchanged), text("order", "play"));
    }
    assert_eq!(bytes(&order(2).exchanged), file("order-2-3", "kit"));
    assert_eq!(bytes(&order(4).exchanged), file("order-4-5", "kit"));
    let (one, other) = (text("order", "play"), text("order-4-5", "play"));
    let differ: Vec<_> = one.lines().zip(other.lines()).filter(|(a, b)| a != b).collect();
    assert_eq!(differ, [("4 5 0", "4 5 15"), ("replica 3 running 1 7 7", "replica 3 running 0 0")]);
}

/// Between events 2 and 3 the rooms differ: who has noted the request.
#[test]
fn the_room_between_the_two() {
    let noted = |name: &str| {
        let kit = kit(name);
        let room = after(&kit, 2);
        [1, 2].map(|x| room.replicas[x].noted.clone())
    };
    assert_eq!(noted("order"), [vec![7], vec![]]);
    assert_eq!(noted("order-2-3"), [vec![], vec![7]]);
}

/// Deliveries at one tick to the same replica: L11 does not speak of them, and in `order` nothing changes.
#[test]
fn two_deliveries_to_one_replica() {
    for first in [9, 11, 12] {
        assert_eq!(check(&order(first), &mut |_| ()), Err("no two deliveries to exchange".to_string()));
        assert_eq!(play_of(&order(first).exchanged), text("order", "play"));
    }
}

/// The lesson `order`, and the kit with this event, counted from 1, and the next one exchanged.
fn order(first: usize) -> Pair {
    Pair::new(kit("order"), first - 1, false)
}

/// Event 7 of `switch` and of `switch-later` is believed at every later moment.
#[test]
fn the_switch_leader_is_believed() {
    for (name, place) in [("switch", 6), ("switch-later", 5)] {
        let mut random = Random::new(7);
        for trial in believed::trials(&kit(name), &mut random) {
            assert_eq!(trial.built_at, Some(place));
            assert_eq!(believed::check(&trial, &mut random, &mut |_| ()), Ok(()), "{name}");
        }
    }
}

/// In `switch-later` the others have closed and a third request is submitted, which the history does not have, before replica 2 halts. Other values
/// than its own are 22, or 15 where one is not issued.
#[test]
fn handed_when_the_others_have_closed() {
    let kit = kit("switch-later");
    let room = after(&kit, 12);
    let conditions: Vec<Condition> = room.replicas.iter().map(|p| p.condition).collect();
    assert_eq!(conditions, [Condition::Closed, Condition::Closed, Condition::Halted]);
    assert_eq!((room.submitted.len(), &room.histories[0].list), (3, &vec![7, 5]));
    let hand = |ag: u32, up: u32| room.clone().step(&Event { gap: 0, action: Action::Hand { ag, up, to: 2 } });
    let answers: Vec<u32> = (0..4).flat_map(|ag| (0..4).map(move |up| (ag, up))).map(|(ag, up)| hand(ag, up)).collect();
    assert_eq!(answers, [15, 15, 15, 15, 15, 22, 22, 15, 15, 22, 0, 15, 15, 15, 15, 15]);
}
