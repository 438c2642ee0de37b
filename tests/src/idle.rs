//! What an editor may do to the idle time of a kit (document 02, L9): make two neighbouring idles one, cut one in two, take out an idle of 0 or
//! put one in. Of the two kits one has an event less; but for that event they play and print the same.

use crate::edit::{after, number, replaced, same_room, ticks_left};
use crate::kit::{self, Action, Event, Kit, EVENTS, TICKS};
use crate::play::Room;
use crate::print::{play_of, INPUT};
use crate::random::Random;

/// Every case that a run has to meet.
pub const CASES: &[&str] = &[
    "idles: two made one",
    "idles: one cut in two",
    "idles: 0 taken out",
    "idles: 0 put in",
    "idles: one of two neighbours is of 0",
    "idles: late in the first of two",
    "idles: late in the second of two",
    "idles: late where the first of two ends",
    "idles: late before the two",
    "idles: nobody late by the end of the two",
    "idles: 0 before the first event",
    "idles: 0 behind the last event",
    "idles: 0 one tick before somebody is late",
    "idles: a refused event behind",
    "idles: an event too many",
    "idles: past 65,536 bytes",
    "idles: a sum past 2^28-1",
];

/// A kit and the same kit with one idle less: event `at` of the first, counted from 0, is not in the second.
pub struct Pair {
    pub kit: Kit,
    pub less: Kit,
    pub at: usize,
    /// What was done, one of `CASES`.
    pub edit: &'static str,
    /// Whether it is the longer kit that was made.
    pub longer_is_new: bool,
}

fn idle(gap: u32) -> Event {
    Event { gap, action: Action::Idle }
}

// ---- the four edits

/// Two idles, at a place and behind it, made one.
fn join(kit: &Kit, at: usize) -> Option<Pair> {
    let [a, b] = kit.events.get(at..at + 2)? else { return None };
    let sum = a.gap + b.gap;
    if a.action != Action::Idle || b.action != Action::Idle || sum > TICKS {
        return None;
    }
    let less = replaced(kit, at, 2, &[idle(sum)]);
    Some(Pair { kit: kit.clone(), less, at, edit: "idles: two made one", longer_is_new: false })
}

/// The idle at a place cut in two, the first part having so many ticks.
fn cut(kit: &Kit, at: usize, part: u32) -> Pair {
    let longer = replaced(kit, at, 1, &[idle(part), idle(kit.events[at].gap - part)]);
    Pair { kit: longer, less: kit.clone(), at, edit: "idles: one cut in two", longer_is_new: true }
}

/// The idle of 0 at a place taken out.
fn take_out(kit: &Kit, at: usize) -> Pair {
    let less = replaced(kit, at, 1, &[]);
    Pair { kit: kit.clone(), less, at, edit: "idles: 0 taken out", longer_is_new: false }
}

/// An idle of 0 put in at a place.
fn put_in(kit: &Kit, at: usize) -> Pair {
    let longer = replaced(kit, at, 0, &[idle(0)]);
    Pair { kit: longer, less: kit.clone(), at, edit: "idles: 0 put in", longer_is_new: true }
}

/// Some edits of a kit, of each sort one if there is a place for it; of cuts two, and one more where somebody gets late in an idle.
pub fn edits(kit: &Kit, random: &mut Random) -> Vec<Pair> {
    let places = |good: &dyn Fn(usize) -> bool| (0..kit.events.len()).filter(|&at| good(at)).collect::<Vec<usize>>();
    let is_idle = |at: usize| kit.events[at].action == Action::Idle;
    let mut all = vec![put_in(kit, random.below(kit.events.len() + 1))];
    let cuts = [places(&is_idle), places(&is_idle), late_at(kit).filter(|&at| is_idle(at)).into_iter().collect()];
    for places in cuts {
        all.extend(random.one_of(&places).map(|at| cut(kit, at, cut_point(kit, at, random))));
    }
    all.extend(random.one_of(&places(&|at| join(kit, at).is_some())).and_then(|at| join(kit, at)));
    all.extend(random.one_of(&places(&|at| kit.events[at] == idle(0))).map(|at| take_out(kit, at)));
    if let Some(at) = place_one_tick_before(kit) {
        all.push(put_in(kit, at));
    }
    all
}

/// The event that makes somebody late.
fn late_at(kit: &Kit) -> Option<usize> {
    let mut room = Room::new(kit);
    kit.events.iter().position(|event| {
        room.step(event);
        room.late.is_some()
    })
}

/// How many ticks the first part has: any number of them, none, all, or so many that somebody is late just then, or a tick sooner or later.
fn cut_point(kit: &Kit, at: usize, random: &mut Random) -> u32 {
    let gap = kit.events[at].gap;
    let until = ticks_left(&after(kit, at)).unwrap_or(gap);
    let any = random.below(gap as usize + 1) as u32;
    random.pick(&[0, gap, any, until, until.saturating_add(1), until.saturating_sub(1)]).min(gap)
}

/// Nobody is late, and the patience of somebody who is not answered is over at the next tick.
fn is_nearly_late(room: &Room) -> bool {
    let due = |tick: u64| tick + u64::from(room.kit.patience) == room.clock + 1;
    room.late.is_none() && room.submitted.iter().any(|&(request, tick)| due(tick) && !room.is_answered(request))
}

/// The first place where somebody is nearly late.
fn place_one_tick_before(kit: &Kit) -> Option<usize> {
    let mut room = Room::new(kit);
    for (i, event) in kit.events.iter().enumerate() {
        room.step(event);
        if is_nearly_late(&room) {
            return Some(i + 1);
        }
    }
    None
}

// ---- what is the same

/// The first thing in which the two kits differ though they should not. Tells the cases that it met.
pub fn check(pair: &Pair, meet: &mut dyn FnMut(&'static str)) -> Result<(), String> {
    meet(pair.edit);
    if !both_good(pair, meet)? {
        return Ok(());
    }
    rooms(pair, meet)?;
    if play_of(&pair.less) != without_line(&play_of(&pair.kit), pair.kit.events.len(), pair.at) {
        return Err("the printed plays".to_string());
    }
    if kit::bytes(&pair.less).len() <= INPUT && kit::bytes(&pair.kit).len() > INPUT {
        meet("idles: past 65,536 bytes");
    }
    Ok(())
}

/// Two neighbouring idles whose sum no gap can be: the kit with one of that gap is refused.
pub fn check_long_sums(kit: &Kit, meet: &mut dyn FnMut(&'static str)) -> Result<(), String> {
    let is_long = |at: &usize| {
        let [a, b] = &kit.events[*at..*at + 2] else { unreachable!("two events") };
        a.action == Action::Idle && b.action == Action::Idle && a.gap + b.gap > TICKS
    };
    let Some(at) = (1..kit.events.len()).map(|behind| behind - 1).find(is_long) else { return Ok(()) };
    meet("idles: a sum past 2^28-1");
    let joined = replaced(kit, at, 2, &[idle(kit.events[at].gap + kit.events[at + 1].gap)]);
    match kit::read(&kit::bytes(&joined)) {
        Err(4) => Ok(()),
        other => Err(format!("a gap past 2^28-1 is read as {:?}", other.map(|kit| kit.events[at].gap))),
    }
}

/// Both are kits, but where the longer one has an event too many: it is refused with 4.
fn both_good(pair: &Pair, meet: &mut dyn FnMut(&'static str)) -> Result<bool, String> {
    match (number(&pair.kit), number(&pair.less)) {
        (0, 0) => Ok(true),
        (4, 0) if pair.kit.events.len() as u32 == EVENTS + 1 => {
            meet("idles: an event too many");
            Ok(false)
        }
        (one, other) => Err(format!("one is refused with {one}, the other with {other}")),
    }
}

/// Both plays side by side: every room and every answer.
fn rooms(pair: &Pair, meet: &mut dyn FnMut(&'static str)) -> Result<(), String> {
    let (mut room, mut beside) = (Room::new(&pair.kit), Room::new(&pair.less));
    let mut refused = false;
    for n in 0..=pair.less.events.len() {
        if n == pair.at {
            place_cases(pair, &room, meet);
            if pair.kit.events[n].action != Action::Idle || room.step(&pair.kit.events[n]) != 0 {
                return Err(format!("the event at place {n} is no idle, or is refused"));
            }
            if pair.kit.events[n] == idle(0) && !same_room(&room, &beside) {
                return Err(format!("an idle of 0 at place {n} changes the room"));
            }
        }
        let Some(event) = pair.less.events.get(n) else { break };
        let answer = beside.step(event);
        if room.step(&pair.kit.events[n + usize::from(n >= pair.at)]) != answer || !same_room(&room, &beside) {
            return Err(format!("the event at place {n} of the kit with one idle less"));
        }
        refused |= n > pair.at && answer != 0;
    }
    if refused {
        meet("idles: a refused event behind");
    }
    Ok(())
}

/// What the place of the edit is like; the room is the one before it.
fn place_cases(pair: &Pair, room: &Room, meet: &mut dyn FnMut(&'static str)) {
    let (n, gap) = (pair.at, pair.kit.events[pair.at].gap);
    if gap == 0 && pair.at == 0 {
        meet("idles: 0 before the first event");
    }
    if gap == 0 && pair.at + 1 == pair.kit.events.len() {
        meet("idles: 0 behind the last event");
    }
    if gap == 0 && is_nearly_late(room) {
        meet("idles: 0 one tick before somebody is late");
    }
    let Some(next) = pair.kit.events.get(n + 1).filter(|next| next.action == Action::Idle) else { return };
    if gap == 0 || next.gap == 0 {
        meet("idles: one of two neighbours is of 0");
    }
    let (mut first, mut second) = (room.clone(), room.clone());
    first.step(&pair.kit.events[n]);
    second.step(&idle(gap + next.gap));
    match (room.late, first.late, second.late) {
        (None, Some(tick), _) if tick == first.clock => meet("idles: late where the first of two ends"),
        (None, Some(_), _) => meet("idles: late in the first of two"),
        (None, None, Some(_)) => meet("idles: late in the second of two"),
        (None, None, None) => meet("idles: nobody late by the end of the two"),
        (Some(_), ..) => meet("idles: late before the two"),
    }
}

/// A printed play without the line of an event, the later events numbered one lower.
pub fn without_line(text: &str, events: usize, at: usize) -> String {
    let lines = text.split_inclusive('\n').enumerate().filter(|&(i, _)| i != at);
    let lowered = lines.map(|(i, line)| match line.split_once(' ') {
        Some((_, rest)) if i > at && i < events => format!("{i} {rest}"),
        _ => line.to_string(),
    });
    lowered.collect()
}
