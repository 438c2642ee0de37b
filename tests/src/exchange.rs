//! The order of two deliveries (document 02, L11): neighbouring events 3 to different receivers, the second with gap 0, both certificates issued
//! before the first. With the two exchanged, the gap staying in front, a kit plays as before: every room but the one between the two is the same,
//! and the answers go with the events. Some such pairs stand in a kit; more are made by putting a delivery in behind one that is there.

use crate::edit::{after, number, replaced, same_room, ticks_left};
use crate::kit::{Action, Event, Kit, EVENTS, TICKS};
use crate::play::{Condition, Room, AG, SW, UP};
use crate::print::play_of;
use crate::random::Random;
use std::ops::Range;

/// Every case that a run has to meet.
pub const CASES: &[&str] = &[
    "deliveries: neighbours in a kit",
    "deliveries: the second put in",
    "deliveries: both taken",
    "deliveries: one taken, one refused",
    "deliveries: both refused",
    "deliveries: one is answered 16",
    "deliveries: one is answered 17",
    "deliveries: one is answered 18",
    "deliveries: one is answered 19",
    "deliveries: one is answered 20",
    "deliveries: one is answered 21",
    "deliveries: two on ag",
    "deliveries: two on up",
    "deliveries: two on sw",
    "deliveries: on two names",
    "deliveries: one certificate to two receivers",
    "deliveries: two certificates of one sender",
    "deliveries: each to the sender of the other",
    "deliveries: one of the two issues",
    "deliveries: both issue",
    "deliveries: both settle",
    "deliveries: one issues on the counter that the other is read from",
    "deliveries: one answers a request",
    "deliveries: one of the two closes",
    "deliveries: both close",
    "deliveries: one closes the sender of the other",
    "deliveries: late before the two",
    "deliveries: late at the first of the two",
    "deliveries: late at the first of the two, which answer a request",
    "deliveries: nobody late by the end of the two",
    "deliveries: a gap in front",
    "deliveries: right behind the first event",
    "deliveries: the last two events",
    "deliveries: a refused event behind",
    "deliveries: the second certificate is issued by the first",
];

/// A kit and the same kit with two deliveries exchanged: its events `at` and `at + 1`, counted from 0.
pub struct Pair {
    pub kit: Kit,
    pub exchanged: Kit,
    pub at: usize,
    /// Whether the second of the two was put in to make the pair.
    pub made: bool,
}

impl Pair {
    /// The two events change places, their gaps do not.
    pub fn new(kit: Kit, at: usize, made: bool) -> Pair {
        let [a, b] = [at, at + 1].map(|n| kit.events[n].clone());
        let exchanged = replaced(&kit, at, 2, &[Event { gap: a.gap, ..b }, Event { gap: b.gap, ..a }]);
        Pair { kit, exchanged, at, made }
    }
}

/// What an event 3 delivers, and to whom.
#[derive(Clone, Copy, PartialEq, Debug)]
struct Delivery {
    sender: usize,
    name: usize,
    value: u32,
    to: usize,
}

impl Delivery {
    fn of(event: &Event) -> Option<Delivery> {
        match event.action {
            Action::Deliver { sender, name, value, to } => Some(Delivery { sender, name, value, to }),
            _ => None,
        }
    }

    /// The event, with gap 0.
    fn event(self) -> Event {
        let Delivery { sender, name, value, to } = self;
        Event { gap: 0, action: Action::Deliver { sender, name, value, to } }
    }

    fn is_issued(self, room: &Room) -> bool {
        room.issued(self.sender, self.name, self.value).is_some()
    }
}

/// Two neighbouring deliveries to different receivers, the second with gap 0.
fn two(kit: &Kit, at: usize) -> Option<[Delivery; 2]> {
    let [a, b] = kit.events.get(at..at + 2)? else { return None };
    let two = [Delivery::of(a)?, Delivery::of(b)?];
    (b.gap == 0 && two[0].to != two[1].to).then_some(two)
}

// ---- pairs

/// Places of a kit, counted from 0: its deliveries of what is issued.
#[derive(Default)]
struct Places {
    all: Vec<usize>,
    /// The next event may be exchanged with it.
    neighbours: Vec<usize>,
    /// The next event might be, but delivers what only this one issues.
    chains: Vec<usize>,
    /// Its receiver, an active one, settles, or it closes, or somebody gets late at its tick.
    turns: Vec<usize>,
}

fn places(kit: &Kit) -> Places {
    let mut places = Places::default();
    let mut room = Room::new(kit);
    for (n, event) in kit.events.iter().enumerate() {
        let Some(first) = Delivery::of(event).filter(|first| first.is_issued(&room)) else {
            room.step(event);
            continue;
        };
        let second = two(kit, n).map(|two| two[1]);
        let known = second.is_some_and(|second| second.is_issued(&room));
        let state = |room: &Room| (room.late, room.replicas[first.to].condition, room.counters[first.to][UP].len());
        let before = state(&room);
        room.step(event);
        places.all.push(n);
        if known {
            places.neighbours.push(n);
        } else if second.is_some_and(|second| second.is_issued(&room)) {
            places.chains.push(n);
        }
        if state(&room) != before {
            places.turns.push(n);
        }
    }
    places
}

/// Some pairs of a kit, four at most: a pair of neighbours that it has; a pair of which the first issues what the second delivers; and two pairs that
/// are made, with any delivery and with one at which an active replica settles, or one closes, or somebody gets late.
pub fn exchanges(kit: &Kit, random: &mut Random) -> Vec<Pair> {
    let places = places(kit);
    let found = [random.one_of(&places.neighbours), random.one_of(&places.chains)];
    let mut all: Vec<Pair> = found.into_iter().flatten().map(|at| Pair::new(kit.clone(), at, false)).collect();
    if (kit.events.len() as u32) < EVENTS {
        let behind = [random.one_of(&places.all), random.one_of(&places.turns)];
        all.extend(behind.into_iter().flatten().map(|at| put_in(kit, at, random)));
    }
    all
}

/// A delivery put in behind the one at a place; sometimes the gap in front of the two ends just where somebody gets late.
fn put_in(kit: &Kit, at: usize, random: &mut Random) -> Pair {
    let (first, room) = (&kit.events[at], after(kit, at));
    let second = another(&room, Delivery::of(first).expect("a delivery"), random);
    let due = ticks_left(&room).filter(|&gap| room.late.is_none() && gap <= TICKS && random.once_in(4));
    let first = Event { gap: due.unwrap_or(first.gap), ..first.clone() };
    Pair::new(replaced(kit, at, 1, &[first, second.event()]), at, true)
}

/// A delivery of something issued, to another receiver: mostly one that would be taken, sometimes of the same certificate, or of any.
fn another(room: &Room, first: Delivery, random: &mut Random) -> Delivery {
    let receivers: Vec<usize> = (0..room.replicas.len()).filter(|&x| x != first.to).collect();
    let counters = (0..room.replicas.len()).flat_map(|x| [AG, UP, SW].map(|name| (x, name)));
    let filled: Vec<(usize, usize)> = counters.filter(|&(x, name)| !room.counters[x][name].is_empty()).collect();
    let same = Delivery { to: random.pick(&receivers), ..first };
    match random.below(8) {
        0 => same,
        1 | 2 => {
            let (sender, name) = random.pick(&filled);
            Delivery { sender, name, value: 1 + random.below(room.counters[sender][name].len()) as u32, to: same.to }
        }
        _ => {
            let is_taken = |d: &Delivery| d.is_issued(room) && room.clone().step(&d.event()) == 0;
            let next = receivers.iter().flat_map(|&to| filled.iter().map(move |&counter| next(room, counter, to)));
            let taken: Vec<Delivery> = next.filter(is_taken).collect();
            random.one_of(&taken).unwrap_or(same)
        }
    }
}

/// What a receiver waits for on a counter.
fn next(room: &Room, (sender, name): (usize, usize), to: usize) -> Delivery {
    Delivery { sender, name, value: room.replicas[to].accepted[sender][name] + 1, to }
}

// ---- what is the same

/// The first thing in which the two kits differ though they should not. Tells the cases that it met.
pub fn check(pair: &Pair, meet: &mut dyn FnMut(&'static str)) -> Result<(), String> {
    let numbers = (number(&pair.kit), number(&pair.exchanged));
    if numbers != (0, 0) {
        return Err(format!("one is refused with {}, the other with {}", numbers.0, numbers.1));
    }
    let two = two(&pair.kit, pair.at).ok_or("no two deliveries to exchange")?;
    let (mut room, mut beside) = (Room::new(&pair.kit), Room::new(&pair.exchanged));
    in_step(pair, 0..pair.at, &mut room, &mut beside)?;
    if !two[0].is_issued(&room) {
        return Err("the first certificate is not issued before".to_string());
    }
    if !two[1].is_issued(&room) {
        chained(pair, two, room, beside)?;
        meet("deliveries: the second certificate is issued by the first");
        return Ok(());
    }
    let before = room.clone();
    let answers = both_orders(pair, &mut room, &mut beside)?;
    place_cases(pair, meet);
    delivery_cases(two, answers, meet);
    room_cases(two, &before, &room, meet);
    client_cases(&before, &room, meet);
    if in_step(pair, pair.at + 2..pair.kit.events.len(), &mut room, &mut beside)? {
        meet("deliveries: a refused event behind");
    }
    if play_of(&pair.exchanged) != with_answers_exchanged(&play_of(&pair.kit), pair.at) {
        return Err("the printed plays".to_string());
    }
    Ok(())
}

/// Both plays side by side, where the kits have the same events: every room and every answer. Gives whether one was refused.
fn in_step(pair: &Pair, places: Range<usize>, room: &mut Room, beside: &mut Room) -> Result<bool, String> {
    let mut refused = false;
    for n in places {
        let answer = room.step(&pair.kit.events[n]);
        if beside.step(&pair.exchanged.events[n]) != answer || !same_room(room, beside) {
            return Err(format!("the event at place {n}"));
        }
        refused |= answer != 0;
    }
    Ok(refused)
}

/// The two in one order and in the other: the answers go with them, and the rooms behind them are the same. Gives the answers.
fn both_orders(pair: &Pair, room: &mut Room, beside: &mut Room) -> Result<[u32; 2], String> {
    let one = room.step(&pair.kit.events[pair.at]);
    let other = beside.step(&pair.exchanged.events[pair.at]);
    let between = (room.clock, room.late);
    if between != (beside.clock, beside.late) {
        return Err("the clock or the late tick between the two".to_string());
    }
    let answers = [one, room.step(&pair.kit.events[pair.at + 1])];
    let crossed = [beside.step(&pair.exchanged.events[pair.at + 1]), other];
    if answers != crossed {
        return Err(format!("the two are answered {answers:?}, and {crossed:?} in the other order"));
    }
    if !same_room(room, beside) || between != (room.clock, room.late) {
        return Err("the room behind the two".to_string());
    }
    Ok(answers)
}

/// The second delivers what the first issues, and L11 says nothing of such two: coming first, the second is refused, and the room behind both is
/// the one behind the first alone.
fn chained(pair: &Pair, two: [Delivery; 2], mut room: Room, mut beside: Room) -> Result<(), String> {
    let refusal = if room.replicas[two[1].to].condition == Condition::Faulty { 16 } else { 15 };
    let answer = room.step(&pair.kit.events[pair.at]);
    if !two[1].is_issued(&room) {
        return Err("the second certificate is not issued by the first".to_string());
    }
    let answers = [pair.at, pair.at + 1].map(|n| beside.step(&pair.exchanged.events[n]));
    if answers != [refusal, answer] || !same_room(&room, &beside) {
        return Err(format!("a certificate delivered before it is issued, and what issues it, are answered {answers:?}"));
    }
    Ok(())
}

// ---- what was met

/// Where the two stand.
fn place_cases(pair: &Pair, meet: &mut dyn FnMut(&'static str)) {
    meet(if pair.made { "deliveries: the second put in" } else { "deliveries: neighbours in a kit" });
    if pair.kit.events[pair.at].gap > 0 {
        meet("deliveries: a gap in front");
    }
    if pair.at == 1 {
        meet("deliveries: right behind the first event");
    }
    if pair.at + 2 == pair.kit.events.len() {
        meet("deliveries: the last two events");
    }
}

/// The two themselves, and how they are answered.
fn delivery_cases([a, b]: [Delivery; 2], answers: [u32; 2], meet: &mut dyn FnMut(&'static str)) {
    meet(match answers {
        [0, 0] => "deliveries: both taken",
        [0, _] | [_, 0] => "deliveries: one taken, one refused",
        _ => "deliveries: both refused",
    });
    for answer in answers {
        CASES.iter().filter(|case| case.ends_with(&format!("is answered {answer}"))).for_each(|case| meet(case));
    }
    meet(match (a.name, b.name) {
        (AG, AG) => "deliveries: two on ag",
        (UP, UP) => "deliveries: two on up",
        (SW, SW) => "deliveries: two on sw",
        _ => "deliveries: on two names",
    });
    if (Delivery { to: b.to, ..a }) == b {
        meet("deliveries: one certificate to two receivers");
    } else if a.sender == b.sender {
        meet("deliveries: two certificates of one sender");
    }
    if (a.sender, a.to) == (b.to, b.sender) {
        meet("deliveries: each to the sender of the other");
    }
}

/// What the two issue, and whom they close.
fn room_cases([a, b]: [Delivery; 2], before: &Room, behind: &Room, meet: &mut dyn FnMut(&'static str)) {
    let issues = |d: Delivery, name: usize| behind.counters[d.to][name].len() > before.counters[d.to][name].len();
    let is_closed = |room: &Room, d: Delivery| room.replicas[d.to].condition == Condition::Closed;
    let closes = |d: Delivery| is_closed(behind, d) && !is_closed(before, d);
    match [a, b].map(|d| [AG, UP, SW].into_iter().any(|name| issues(d, name))) {
        [true, true] => meet("deliveries: both issue"),
        [false, false] => {}
        _ => meet("deliveries: one of the two issues"),
    }
    if issues(a, UP) && issues(b, UP) {
        meet("deliveries: both settle");
    }
    match [a, b].map(closes) {
        [true, true] => meet("deliveries: both close"),
        [false, false] => {}
        _ => meet("deliveries: one of the two closes"),
    }
    for (one, other) in [(a, b), (b, a)] {
        if one.to == other.sender && issues(one, other.name) {
            meet("deliveries: one issues on the counter that the other is read from");
        }
        if one.to == other.sender && closes(one) {
            meet("deliveries: one closes the sender of the other");
        }
    }
}

/// What becomes of the clients.
fn client_cases(before: &Room, behind: &Room, meet: &mut dyn FnMut(&'static str)) {
    let answered = |room: &Room| room.submitted.iter().filter(|s| room.is_answered(s.0)).count();
    let answers = answered(behind) > answered(before);
    if answers {
        meet("deliveries: one answers a request");
    }
    meet(match (before.late, behind.late) {
        (Some(_), _) => "deliveries: late before the two",
        (None, None) => "deliveries: nobody late by the end of the two",
        (None, Some(_)) if answers => "deliveries: late at the first of the two, which answer a request",
        (None, Some(_)) => "deliveries: late at the first of the two",
    });
}

/// A printed play with the answers of two neighbouring events exchanged; the numbers and clocks of their lines stay.
pub fn with_answers_exchanged(text: &str, at: usize) -> String {
    let lines: Vec<&str> = text.split_inclusive('\n').collect();
    let parts = |i: usize| lines[i].rsplit_once(' ').expect("number, clock and answer");
    let ((one, first), (other, second)) = (parts(at), parts(at + 1));
    format!("{}{one} {second}{other} {first}{}", lines[..at].concat(), lines[at + 2..].concat())
}
