//! A correct switch leader is believed (document 02, L12): the history that event 7 built, handed with its own two values at any later moment to any
//! correct replica that is halted, holds none and did not build it, is answered 0; and where the switch leader is correct, no correct replica ever
//! holds another. Both are tried after every event of a kit, none left out. Where a correct switch leader builds nothing, an event 7 that is taken is
//! put in; and the hand is put into a kit that has one. What no longer fits into a kit is not put in.

use crate::edit::{after, number, replaced, same_room, ticks_left};
use crate::kit::{Action, Content, Event, Kit, EVENTS, TICKS};
use crate::play::{Condition, History, Room, AG, FILED, SUBMISSIONS, SW, UP};
use crate::print::play_of;
use crate::random::Random;

/// Every case that a run has to meet.
pub const CASES: &[&str] = &[
    "believed: event 7 in a kit",
    "believed: event 7 put in",
    "believed: f = 1",
    "believed: f = 2",
    "believed: f = 3",
    "believed: j below k",
    "believed: j = k, above 0",
    "believed: j = k = 0",
    "believed: nothing submitted",
    "believed: requests behind the first k",
    "believed: a list of 64",
    "believed: a history filed before",
    "believed: a twin filed before",
    "believed: the leader is faulty",
    "believed: another active replica is faulty",
    "believed: right behind event 7",
    "believed: behind the last event",
    "believed: after a later submission",
    "believed: after a later filing",
    "believed: after another replica holds it",
    "believed: after the builder closed",
    "believed: after a correct leader prepared more",
    "believed: after a faulty leader issued more",
    "believed: nobody is left to hand it to",
    "believed: to the leader",
    "believed: to another active replica",
    "believed: to a passive replica",
    "believed: to one that halted before event 7",
    "believed: to one that halted later",
    "believed: to one that runs, behind a PANIC",
    "believed: to an active replica that settled fewer than j",
    "believed: to an active replica that settled more than j",
    "believed: to a passive replica that settled some",
    "believed: to one that noted another request at a place",
    "believed: late before the hand",
    "believed: late at the hand",
    "believed: nobody late by the hand",
    "believed: another ag value is answered 22",
    "believed: another up value is answered 22",
    "believed: a value not issued is answered 15",
    "believed: a hand put in",
    "believed: a PANIC and a hand put in",
    "believed: no event 7 is taken, and nobody holds any",
    "believed: a faulty switch leader's history is held",
];

/// A kit on which L12 is tried.
pub struct Trial {
    pub kit: Kit,
    /// The place of the event 7 that is taken, counted from 0.
    pub built_at: Option<usize>,
    /// Whether that event was put in.
    pub made: bool,
    /// The kit with a hand put in.
    pub handed: Option<Handed>,
}

/// A kit with the hand of its built history put in, behind a PANIC to the receiver if that still ran: so many events from the place `at` on.
pub struct Handed {
    pub kit: Kit,
    pub at: usize,
    pub many: usize,
}

impl Trial {
    /// Which event 7 it has.
    pub fn event_7(&self) -> String {
        match self.built_at {
            None => "no event 7".to_string(),
            Some(at) if self.made => format!("event 7 put in at place {at}"),
            Some(at) => format!("event 7 at place {at}"),
        }
    }
}

/// The history that event 7 built.
struct Built<'a> {
    /// The room right behind event 7.
    then: Room<'a>,
    number: usize,
    history: History,
    /// The values of the switch leader's ag and up at which it stands.
    ag: u32,
    up: u32,
}

impl<'a> Built<'a> {
    fn new(then: &Room<'a>) -> Result<Built<'a>, String> {
        let number = then.replicas[then.switch_leader()].held.ok_or("the builder holds nothing")?;
        let history = then.histories.get(number).ok_or("the builder holds what is not filed")?.clone();
        let (ag, up) = (history.k as u32 + 1, history.j as u32 + 1);
        Ok(Built { then: then.clone(), number, history, ag, up })
    }

    fn hand(&self, gap: u32, to: usize) -> Event {
        Event { gap, action: Action::Hand { ag: self.ag, up: self.up, to } }
    }

    /// The history is as it was filed, and HISTORY of it stands at its own two values of the switch leader's counters; no other value says HISTORY.
    fn stands(&self, room: &Room) -> Result<(), String> {
        let values = |name: usize| -> Vec<(u32, Content)> {
            let all = (1..).zip(room.counters[room.switch_leader()][name].iter().copied());
            all.filter(|(_, content)| matches!(content, Content::History(_))).collect()
        };
        let content = Content::History(self.number as u32);
        if (values(AG), values(UP)) != (vec![(self.ag, content)], vec![(self.up, content)]) {
            return Err(format!("HISTORY stands at {:?} of ag and {:?} of up", values(AG), values(UP)));
        }
        if room.histories.get(self.number) != Some(&self.history) {
            return Err("the history is another than was filed".to_string());
        }
        Ok(())
    }
}

/// Those to whom a history may be handed, once they are halted: the correct replicas other than the switch leader that hold none.
fn receivers(room: &Room) -> Vec<usize> {
    let all = 0..room.replicas.len();
    let waits = |x: &usize| is_correct(room, *x) && room.replicas[*x].held.is_none() && *x != room.switch_leader();
    all.filter(waits).collect()
}

fn is_correct(room: &Room, x: usize) -> bool {
    room.replicas[x].condition != Condition::Faulty
}

fn runs(room: &Room, x: usize) -> bool {
    room.replicas[x].condition == Condition::Running
}

/// Some gap: often one at whose end somebody gets late.
fn some_gap(room: &Room, random: &mut Random) -> u32 {
    match random.below(4) {
        0 => random.below(20) as u32,
        1 => random.below(TICKS as usize + 1) as u32,
        _ if room.late.is_some() => 0,
        _ => ticks_left(room).filter(|&gap| gap <= TICKS).unwrap_or(0),
    }
}

// ---- kits

/// The kit; where its correct switch leader builds nothing, also the kit with an event 7 put in. With each that has an event 7 goes the kit with a
/// hand put in. What no longer fits into a kit is not put in.
pub fn trials(kit: &Kit, random: &mut Random) -> Vec<Trial> {
    let built_at = built_at(kit);
    let handed = built_at.and_then(|at| with_a_hand(kit, at, random));
    let mut all = vec![Trial { kit: kit.clone(), built_at, made: false, handed }];
    let start = Room::new(kit);
    if built_at.is_none() && is_correct(&start, start.switch_leader()) && kit.events.len() + 3 <= EVENTS as usize {
        let (kit, at) = with_event_7(kit, random);
        let handed = with_a_hand(&kit, at, random);
        all.push(Trial { kit, built_at: Some(at), made: true, handed });
    }
    all
}

/// The place of the event 7 that is taken.
fn built_at(kit: &Kit) -> Option<usize> {
    let mut room = Room::new(kit);
    kit.events.iter().position(|event| room.step(event) == 0 && event.action == Action::Build)
}

/// The kit with event 7 put in anywhere, and its place; a PANIC to the switch leader in front of it, if that still runs, and sometimes a filing of
/// the very history that it builds.
fn with_event_7(kit: &Kit, random: &mut Random) -> (Kit, usize) {
    let at = random.below(kit.events.len() + 1);
    let mut room = after(kit, at);
    let gap = some_gap(&room, random);
    let mut new = Vec::new();
    if runs(&room, room.switch_leader()) {
        new.push(Event { gap, action: Action::Panic(room.switch_leader()) });
    }
    new.push(Event { gap: 0, action: Action::Build });
    let can_file = room.filed < FILED;
    new.iter().for_each(|event| _ = room.step(event));
    if let Some(History { j, k, list }) = room.histories.pop().filter(|_| can_file && random.once_in(4)) {
        new.insert(0, Event { gap: 0, action: Action::File { j: j as u32, k: k as u32, list } });
    }
    (replaced(kit, at, 0, &new), at + new.len() - 1)
}

/// The hand of what the event 7 at this place built, put in at any later moment, to any receiver; right behind event 7, if there is none
/// at that moment.
fn with_a_hand(kit: &Kit, built_at: usize, random: &mut Random) -> Option<Handed> {
    let built = Built::new(&after(kit, built_at + 1)).ok()?;
    let any = built_at + 1 + random.below(kit.events.len() - built_at);
    let (at, room) =
        [any, built_at + 1].map(|at| (at, after(kit, at))).into_iter().find(|(_, room)| !receivers(room).is_empty())?;
    let to = random.pick(&receivers(&room));
    let gaps = [some_gap(&room, random), random.below(3) as u32];
    let new = if runs(&room, to) {
        vec![Event { gap: gaps[0], action: Action::Panic(to) }, built.hand(gaps[1], to)]
    } else {
        vec![built.hand(gaps[0], to)]
    };
    let has_room = kit.events.len() + new.len() <= EVENTS as usize;
    has_room.then(|| Handed { kit: replaced(kit, at, 0, &new), at, many: new.len() })
}

// ---- what holds

/// The first thing that is not as L12 says, at the first moment at which it is not. Tells the cases that it met.
pub fn check(trial: &Trial, random: &mut Random, meet: &mut dyn FnMut(&'static str)) -> Result<(), String> {
    if number(&trial.kit) != 0 {
        return Err(format!("the kit is refused with {}", number(&trial.kit)));
    }
    let mut room = Room::new(&trial.kit);
    let mut built = None;
    held(&room, None)?;
    for (n, event) in trial.kit.events.iter().enumerate() {
        let told = |what: String| format!("after event {}: {what}", n + 1);
        if room.step(event) == 0 && event.action == Action::Build {
            let new = Built::new(&room).map_err(told)?;
            if built.is_some() || trial.built_at != Some(n) {
                return Err(told("event 7 is taken, and not for the first time".to_string()));
            }
            built_cases(&new, trial.made, meet);
            built = Some(new);
        }
        held(&room, built.as_ref()).map_err(told)?;
        if let Some(built) = &built {
            moment_cases(&room, built, [Some(n) == trial.built_at, n + 1 == trial.kit.events.len()], meet);
            at_this_moment(&room, built, random, meet).map_err(told)?;
        }
    }
    if built.is_some() != trial.built_at.is_some() {
        return Err("event 7 is not taken".to_string());
    }
    end_cases(&room, meet);
    trial.handed.as_ref().map_or(Ok(()), |handed| put_in(trial, handed, meet))
}

/// Whoever holds a history is correct, and where the switch leader is correct, it is the one that event 7 built.
fn held(room: &Room, built: Option<&Built>) -> Result<(), String> {
    let number = built.map(|built| built.number);
    let may_hold = |x: usize, h: usize| is_correct(room, x) && (Some(h) == number || !is_correct(room, room.switch_leader()));
    match room.replicas.iter().enumerate().find_map(|(x, p)| p.held.filter(|&h| !may_hold(x, h)).map(|h| (x, h))) {
        Some((x, h)) => Err(format!("replica {x} holds history {h}, and event 7 built {number:?}")),
        None => Ok(()),
    }
}

/// The built history, handed now to each receiver, to one that still runs behind a PANIC: with gap 0, and with some gap.
fn at_this_moment(room: &Room, built: &Built, random: &mut Random, meet: &mut dyn FnMut(&'static str)) -> Result<(), String> {
    built.stands(room)?;
    for to in receivers(room) {
        let mut ready = room.clone();
        if runs(room, to) && ready.step(&Event { gap: 0, action: Action::Panic(to) }) != 0 {
            return Err(format!("a PANIC does not reach replica {to}"));
        }
        other_values(&mut ready, built, to, random, meet)?;
        taken(&mut ready, built, 0, to)?;
        // but for the SWITCH, the held history and the PANIC nothing has changed
        ready.counters[to][SW].pop();
        ready.replicas[to].held = None;
        let condition = std::mem::replace(&mut ready.replicas[to].condition, room.replicas[to].condition);
        if condition != Condition::Halted || !same_room(&ready, room) {
            return Err(format!("the hand to replica {to} changes more than that"));
        }
        ready.replicas[to].condition = Condition::Halted;
        taken(&mut ready, built, some_gap(room, random), to)?;
        receiver_cases(room, built, to, meet);
        meet(match (room.late, ready.late) {
            (Some(_), _) => "believed: late before the hand",
            (None, Some(_)) => "believed: late at the hand",
            (None, None) => "believed: nobody late by the hand",
        });
    }
    Ok(())
}

/// The hand is answered 0; its receiver holds the history and has issued SWITCH of it, the first on its sw.
fn taken(ready: &mut Room, built: &Built, gap: u32, to: usize) -> Result<(), String> {
    let answer = ready.step(&built.hand(gap, to));
    if answer != 0 {
        return Err(format!("handed with {} and {} to replica {to}, gap {gap}, it is answered {answer}", built.ag, built.up));
    }
    let switch = Content::Switch(built.number as u32);
    if ready.replicas[to].held != Some(built.number) || ready.counters[to][SW] != [switch] {
        return Err(format!(
            "replica {to} was handed it, holds {:?} and issued {:?}",
            ready.replicas[to].held, ready.counters[to][SW]
        ));
    }
    Ok(())
}

/// Handed with other values: those next to its own, and any. Each hand is refused, for a value not issued or since there is no history at it.
fn other_values(
    ready: &mut Room,
    built: &Built,
    to: usize,
    random: &mut Random,
    meet: &mut dyn FnMut(&'static str),
) -> Result<(), String> {
    let s = ready.switch_leader();
    let near = |own: u32| [own - 1, own, own + 1];
    let mut pairs: Vec<(u32, u32)> = near(built.ag).into_iter().flat_map(|ag| near(built.up).map(|up| (ag, up))).collect();
    pairs.extend((0..3).map(|_| (random.below(built.ag as usize + 1) as u32, random.below(built.up as usize + 1) as u32)));
    pairs.extend([(random.bits() as u32, built.up), (built.ag, random.bits() as u32)]);
    for (ag, up) in pairs.into_iter().filter(|&pair| pair != (built.ag, built.up)) {
        let issued = ready.issued(s, AG, ag).is_some() && ready.issued(s, UP, up).is_some();
        let answer = ready.step(&Event { gap: 0, action: Action::Hand { ag, up, to } });
        if answer != if issued { 22 } else { 15 } {
            return Err(format!("handed with {ag} and {up} to replica {to}, it is answered {answer}"));
        }
        if !issued {
            meet("believed: a value not issued is answered 15");
        } else if ag != built.ag {
            meet("believed: another ag value is answered 22");
        } else {
            meet("believed: another up value is answered 22");
        }
    }
    Ok(())
}

/// The kit with the hand put in: up to there it is played as before, and then the events put in are answered 0.
fn put_in(trial: &Trial, handed: &Handed, meet: &mut dyn FnMut(&'static str)) -> Result<(), String> {
    let refusal = number(&handed.kit);
    if refusal != 0 {
        return Err(format!("with the hand put in, the kit is refused with {refusal}"));
    }
    let (before, behind) = (play_of(&trial.kit), play_of(&handed.kit));
    let Handed { at, many, .. } = *handed;
    let lines: Vec<&str> = behind.lines().collect();
    if !before.lines().take(at).eq(lines[..at].iter().copied()) {
        return Err("the printed play before the hand that is put in".to_string());
    }
    if let Some(line) = lines[at..at + many].iter().find(|line| !line.ends_with(" 0")) {
        return Err(format!("the printed line of what is put in: {line}"));
    }
    meet(if many == 1 { "believed: a hand put in" } else { "believed: a PANIC and a hand put in" });
    Ok(())
}

// ---- what was met

/// What was built.
fn built_cases(built: &Built, made: bool, meet: &mut dyn FnMut(&'static str)) {
    let (History { j, k, list }, then) = (&built.history, &built.then);
    let (s, leader) = (then.switch_leader(), then.kit.leader);
    meet(if made { "believed: event 7 put in" } else { "believed: event 7 in a kit" });
    meet(["believed: f = 1", "believed: f = 2", "believed: f = 3"][then.kit.f as usize - 1]);
    meet(match (*j, *k) {
        (0, 0) => "believed: j = k = 0",
        (j, k) if j == k => "believed: j = k, above 0",
        _ => "believed: j below k",
    });
    match list.len() {
        0 => meet("believed: nothing submitted"),
        SUBMISSIONS => meet("believed: a list of 64"),
        _ => {}
    }
    if list.len() > *k {
        meet("believed: requests behind the first k");
    }
    if built.number > 0 {
        meet("believed: a history filed before");
    }
    if then.histories[..built.number].contains(&built.history) {
        meet("believed: a twin filed before");
    }
    if !is_correct(then, leader) {
        meet("believed: the leader is faulty");
    }
    if then.actives().any(|y| y != s && y != leader && !is_correct(then, y)) {
        meet("believed: another active replica is faulty");
    }
}

/// What has happened since, and who is left.
fn moment_cases(room: &Room, built: &Built, [first, last]: [bool; 2], meet: &mut dyn FnMut(&'static str)) {
    let (s, leader) = (room.switch_leader(), room.kit.leader);
    if receivers(room).is_empty() {
        return meet("believed: nobody is left to hand it to");
    }
    if first {
        meet("believed: right behind event 7");
    }
    if last {
        meet("believed: behind the last event");
    }
    if room.submitted.len() > built.then.submitted.len() {
        meet("believed: after a later submission");
    }
    if room.histories.len() > built.then.histories.len() {
        meet("believed: after a later filing");
    }
    if (0..room.replicas.len()).any(|x| x != s && room.replicas[x].held.is_some()) {
        meet("believed: after another replica holds it");
    }
    if room.replicas[s].condition == Condition::Closed {
        meet("believed: after the builder closed");
    }
    if is_correct(room, leader) && room.counters[leader][AG].len() > built.then.counters[leader][AG].len() {
        meet("believed: after a correct leader prepared more");
    }
    if !is_correct(room, leader) && room.counters[leader] != built.then.counters[leader] {
        meet("believed: after a faulty leader issued more");
    }
}

/// Whom it is handed to.
fn receiver_cases(room: &Room, built: &Built, to: usize, meet: &mut dyn FnMut(&'static str)) {
    let (settled, History { j, list, .. }) = (room.settled(to).len(), &built.history);
    meet(match room.is_active(to) {
        true if to == room.kit.leader => "believed: to the leader",
        true => "believed: to another active replica",
        false => "believed: to a passive replica",
    });
    meet(match (runs(&built.then, to), runs(room, to)) {
        (_, true) => "believed: to one that runs, behind a PANIC",
        (true, false) => "believed: to one that halted later",
        (false, false) => "believed: to one that halted before event 7",
    });
    if room.is_active(to) && settled < *j {
        meet("believed: to an active replica that settled fewer than j");
    }
    if room.is_active(to) && settled > *j {
        meet("believed: to an active replica that settled more than j");
    }
    if !room.is_active(to) && settled > 0 {
        meet("believed: to a passive replica that settled some");
    }
    if room.replicas[to].noted.iter().zip(list).any(|(noted, listed)| noted != listed) {
        meet("believed: to one that noted another request at a place");
    }
}

/// Who holds what, behind the last event.
fn end_cases(room: &Room, meet: &mut dyn FnMut(&'static str)) {
    let s = room.switch_leader();
    if is_correct(room, s) && room.replicas[s].held.is_none() {
        meet("believed: no event 7 is taken, and nobody holds any");
    }
    if !is_correct(room, s) && room.replicas.iter().any(|p| p.held.is_some()) {
        meet("believed: a faulty switch leader's history is held");
    }
}
