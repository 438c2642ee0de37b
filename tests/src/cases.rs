//! Names for what an event met: which clause refused it, or what a taken one did. The report counts them, so that a run shows that every
//! clause of document 01 was tried.

use crate::kit::{Action, Content};
use crate::play::{mark_of, Condition, History, Room, AG, PLACES, SUBMISSIONS, SW, UP};

/// Every case that a run has to meet.
pub const CASES: &[&str] = &[
    "11 submitted already",
    "12 64 submitted",
    "13 not faulty",
    "14 counter full",
    "15 kind 3, value 0",
    "15 kind 3, not issued",
    "15 kind 4, ag",
    "15 kind 4, up",
    "16 kind 3",
    "16 kind 4",
    "16 kind 5",
    "17 ag to a halted",
    "17 ag to a closed",
    "17 up to a halted",
    "17 up to a closed",
    "17 sw to a closed",
    "17 hand to one that holds",
    "17 hand to a closed",
    "17 PANIC to a halted",
    "17 PANIC to a closed",
    "18 sw to a running",
    "18 sw to a halted",
    "18 hand to a running",
    "18 hand to the running switch leader",
    "19 ag again",
    "19 ag ahead",
    "19 up again",
    "19 up ahead",
    "19 sw again",
    "19 sw ahead",
    "20 ag to itself",
    "20 ag from a passive",
    "20 ag to a passive",
    "20 up to itself",
    "20 up from a passive",
    "20 up to an active",
    "20 sw to itself",
    "20 hand to the switch leader",
    "20 before 19",
    "21 kind 2, HISTORY",
    "21 kind 2, SWITCH",
    "21 leader: no PREPARE",
    "21 leader: not submitted",
    "21 leader: noted",
    "21 leader: HISTORY",
    "21 active: no COMMIT",
    "21 active: HISTORY",
    "21 active: b",
    "21 active: a",
    "21 active: noted too few",
    "21 up: no UPDATE",
    "21 up: request of a pair",
    "21 up: mark of a pair",
    "21 up: not submitted",
    "21 up: noted",
    "21 sw: no SWITCH",
    "21 sw: another history",
    "21 sw: a twin of the history",
    "22 ag: no HISTORY",
    "22 up: no HISTORY",
    "22 two histories",
    "22 p below k+1",
    "22 p above k+1",
    "22 q below j+1",
    "22 q above j+1",
    "22 a COMMIT of the switch leader",
    "22 a PREPARE",
    "22 a COMMIT of another",
    "22 an UPDATE's request",
    "22 an UPDATE's mark",
    "22 not submitted",
    "22 repeated",
    "23 seven filed",
    "24 faulty",
    "24 running",
    "24 running, though late",
    "24 holding",
    "24 closed",
    "taken: submit, PREPARE",
    "taken: submit, leader faulty",
    "taken: submit, leader halted",
    "taken: submit, leader closed",
    "taken: issue",
    "taken: issue on an odd counter",
    "taken: PREPARE",
    "taken: PREPARE of a faulty leader",
    "taken: COMMIT",
    "taken: COMMIT of a faulty replica",
    "taken: settles",
    "taken: first UPDATE",
    "taken: equal UPDATE",
    "taken: UPDATE with a wrong mark",
    "taken: SWITCH",
    "taken: SWITCH again of the same sender",
    "taken: SWITCH of a faulty replica",
    "taken: closes on a built history",
    "taken: closes on a filed history",
    "taken: closes on a longer list",
    "taken: hand of a built history",
    "taken: hand of a filed history",
    "taken: hand, j below k",
    "taken: hand, with a tail",
    "taken: PANIC, nobody late",
    "taken: PANIC, after the late tick",
    "taken: idle",
    "taken: build, k above j",
    "taken: build, with a tail",
    "taken: build, empty",
    "taken: file",
    "taken: file, empty",
    "late: at the very tick",
    "late: noticed later",
    "late: missed by one tick",
    "late: a long wait, answered",
    "late: answered with a faulty replica's UPDATE",
    "late: nobody runs",
    "late: all correct have closed",
    "late: at a refused event",
    "late: not the first submission",
    "late: a submission is prepared after it",
    "late: ag or up is taken after it",
    "late: answered after all",
    "late: a PANIC reaches all in the end",
    "late: a PANIC reaches some and never others",
    "late: no PANIC reaches anybody",
    "clock past 32 bits",
    "a counter with 96",
    "64 submissions",
    "8 histories",
    "a correct replica's 65th value",
    "f = 1",
    "f = 2",
    "f = 3",
];

/// The case of an event that was refused: the room is as its clock left it, since nothing else has changed.
pub fn refused(room: &Room, action: &Action, answer: u32) -> &'static str {
    match (answer, action) {
        (11, _) => "11 submitted already",
        (12, _) => "12 64 submitted",
        (13, _) => "13 not faulty",
        (14, _) => "14 counter full",
        (15, Action::Deliver { value: 0, .. }) => "15 kind 3, value 0",
        (15, Action::Deliver { .. }) => "15 kind 3, not issued",
        (15, Action::Hand { ag, .. }) if room.issued(room.switch_leader(), AG, *ag).is_none() => "15 kind 4, ag",
        (15, _) => "15 kind 4, up",
        (16, Action::Deliver { .. }) => "16 kind 3",
        (16, Action::Hand { .. }) => "16 kind 4",
        (16, _) => "16 kind 5",
        (17, _) => too_late(room, action),
        (18, Action::Hand { to, .. }) if *to == room.switch_leader() => "18 hand to the running switch leader",
        (18, Action::Hand { .. }) => "18 hand to a running",
        (18, Action::Deliver { to, .. }) if room.replicas[*to].condition == Condition::Running => "18 sw to a running",
        (18, _) => "18 sw to a halted",
        (20, _) => roles(room, action),
        (19, Action::Deliver { sender, name, value, to }) => {
            let again = *value <= room.replicas[*to].accepted[*sender][*name];
            [["19 ag ahead", "19 ag again"], ["19 up ahead", "19 up again"], ["19 sw ahead", "19 sw again"]][*name]
                [again as usize]
        }
        (21, Action::Issue { content: Content::History(_), .. }) => "21 kind 2, HISTORY",
        (21, Action::Issue { .. }) => "21 kind 2, SWITCH",
        (21, _) => unexpected(room, action),
        (22, Action::Hand { ag, up, .. }) => not_valid(room, *ag, *up),
        (23, _) => "23 seven filed",
        (24, _) => no_building(room),
        _ => panic!("no event is answered {answer} so: {action:?}"),
    }
}

fn no_building(room: &Room) -> &'static str {
    match room.replicas[room.switch_leader()].condition {
        Condition::Faulty => "24 faulty",
        Condition::Running if room.late.is_some() => "24 running, though late",
        Condition::Running => "24 running",
        Condition::Halted => "24 holding",
        Condition::Closed => "24 closed",
    }
}

fn too_late(room: &Room, action: &Action) -> &'static str {
    let closed = |to: usize| (room.replicas[to].condition == Condition::Closed) as usize;
    match *action {
        Action::Deliver { name: AG, to, .. } => ["17 ag to a halted", "17 ag to a closed"][closed(to)],
        Action::Deliver { name: UP, to, .. } => ["17 up to a halted", "17 up to a closed"][closed(to)],
        Action::Deliver { .. } => "17 sw to a closed",
        Action::Hand { to, .. } => ["17 hand to one that holds", "17 hand to a closed"][closed(to)],
        Action::Panic(to) => ["17 PANIC to a halted", "17 PANIC to a closed"][closed(to)],
        _ => panic!("17 to {action:?}"),
    }
}

fn roles(room: &Room, action: &Action) -> &'static str {
    let Action::Deliver { sender, name, value, to } = *action else { return "20 hand to the switch leader" };
    match name {
        _ if sender != to && value != room.replicas[to].accepted[sender][name] + 1 => "20 before 19",
        AG if sender == to => "20 ag to itself",
        AG if room.is_active(sender) => "20 ag to a passive",
        AG => "20 ag from a passive",
        UP if sender == to => "20 up to itself",
        UP if room.is_active(sender) => "20 up to an active",
        UP => "20 up from a passive",
        _ => "20 sw to itself",
    }
}

fn unexpected(room: &Room, action: &Action) -> &'static str {
    let Action::Deliver { sender, name, value, to } = *action else { panic!("21 to {action:?}") };
    let content = room.issued(sender, name, value).expect("15 otherwise");
    let p = &room.replicas[to];
    let i = value as usize - 1;
    match (name, content) {
        (AG, Content::Prepare(r)) if sender == room.kit.leader && !room.was_submitted(r) => "21 leader: not submitted",
        (AG, Content::Prepare(_)) if sender == room.kit.leader => "21 leader: noted",
        (AG, Content::History(_)) if sender == room.kit.leader => "21 leader: HISTORY",
        (AG, _) if sender == room.kit.leader => "21 leader: no PREPARE",
        (AG, Content::Commit(..)) if i >= p.noted.len() => "21 active: noted too few",
        (AG, Content::Commit(_, b)) if b != value => "21 active: b",
        (AG, Content::Commit(..)) => "21 active: a",
        (AG, Content::History(_)) => "21 active: HISTORY",
        (AG, _) => "21 active: no COMMIT",
        (UP, Content::Update(r, _)) if i < p.noted.len() && p.noted[i] != r => "21 up: request of a pair",
        (UP, Content::Update(..)) if i < p.noted.len() => "21 up: mark of a pair",
        (UP, Content::Update(r, _)) if !room.was_submitted(r) => "21 up: not submitted",
        (UP, Content::Update(..)) => "21 up: noted",
        (UP, _) => "21 up: no UPDATE",
        (_, Content::Switch(h)) if room.histories[h as usize] == room.histories[p.held.expect("18 otherwise")] => {
            "21 sw: a twin of the history"
        }
        (_, Content::Switch(_)) => "21 sw: another history",
        _ => "21 sw: no SWITCH",
    }
}

/// The first clause of a valid history that does not hold.
fn not_valid(room: &Room, p: u32, q: u32) -> &'static str {
    let s = room.switch_leader();
    let Some(Content::History(h)) = room.issued(s, AG, p) else { return "22 ag: no HISTORY" };
    match room.issued(s, UP, q) {
        Some(Content::History(g)) if g == h => {}
        Some(Content::History(_)) => return "22 two histories",
        _ => return "22 up: no HISTORY",
    }
    let history = &room.histories[h as usize];
    let (p, q) = (p as usize, q as usize);
    if p != history.k + 1 {
        return if p < history.k + 1 { "22 p below k+1" } else { "22 p above k+1" };
    }
    if q != history.j + 1 {
        return if q < history.j + 1 { "22 q below j+1" } else { "22 q above j+1" };
    }
    if let Some(case) = (1..=history.k).find_map(|i| not_valid_at(room, history, i)) {
        return case;
    }
    if history.list.iter().any(|&r| !room.was_submitted(r)) {
        "22 not submitted"
    } else {
        "22 repeated"
    }
}

/// The same for request i of the first k.
fn not_valid_at(room: &Room, history: &History, i: usize) -> Option<&'static str> {
    let (s, leader) = (room.switch_leader(), room.kit.leader);
    let at = |x: usize, name: usize| room.issued(x, name, i as u32);
    let r = history.list[i - 1];
    let commit = Some(Content::Commit(r, i as u32));
    if at(s, AG) != commit {
        return Some("22 a COMMIT of the switch leader");
    }
    if at(leader, AG) != Some(Content::Prepare(r)) {
        return Some("22 a PREPARE");
    }
    if i > history.j {
        return None;
    }
    if room.actives().any(|y| y != s && y != leader && at(y, AG) != commit) {
        return Some("22 a COMMIT of another");
    }
    match at(s, UP) {
        Some(Content::Update(a, m)) if a == r && m == mark_of(&history.list[..i]) => None,
        Some(Content::Update(a, _)) if a == r => Some("22 an UPDATE's mark"),
        _ => Some("22 an UPDATE's request"),
    }
}

/// What is known of the room before an event, for the cases of a taken one and of lateness.
pub struct Before {
    pub late: Option<u64>,
    /// Who runs.
    pub running: Vec<usize>,
    closed: bool,
    up_issued: usize,
    settled: usize,
    accepted: u32,
    noted: usize,
}

impl Before {
    pub fn new(room: &Room, action: &Action) -> Before {
        let correct = || room.replicas.iter().filter(|p| p.condition != Condition::Faulty);
        let (accepted, to) = match *action {
            Action::Deliver { sender, name, to, .. } => (room.replicas[to].accepted[sender][name], to),
            Action::Hand { to, .. } | Action::Panic(to) => (0, to),
            _ => (0, 0),
        };
        Before {
            late: room.late,
            running: (0..room.replicas.len()).filter(|&x| room.replicas[x].condition == Condition::Running).collect(),
            closed: correct().all(|p| p.condition == Condition::Closed),
            up_issued: room.counters[to][UP].len(),
            settled: room.settled(to).len(),
            accepted,
            noted: room.replicas[to].noted.len(),
        }
    }
}

/// The cases of an event that was taken.
pub fn taken(room: &Room, before: &Before, action: &Action, meet: &mut impl FnMut(&'static str)) {
    match action {
        Action::Submit(_) => {
            let leader = room.replicas[room.kit.leader].condition;
            meet(match leader {
                Condition::Running => "taken: submit, PREPARE",
                Condition::Faulty => "taken: submit, leader faulty",
                Condition::Halted => "taken: submit, leader halted",
                Condition::Closed => "taken: submit, leader closed",
            });
            if leader == Condition::Running && room.late.is_some() {
                meet("late: a submission is prepared after it");
            }
        }
        Action::Issue { name, content, .. } => {
            let usual = match content {
                Content::Prepare(_) | Content::Commit(..) => *name == AG,
                Content::Update(..) => *name == UP,
                Content::History(_) => *name != SW,
                Content::Switch(_) => *name == SW,
            };
            meet(if usual { "taken: issue" } else { "taken: issue on an odd counter" });
        }
        Action::Deliver { sender, name, value, to } => delivered(room, before, (*sender, *name, *value, *to), meet),
        Action::Hand { to, .. } => handed(room, room.replicas[*to].held.expect("handed"), meet),
        Action::Panic(_) => {
            meet(if room.late.is_some() { "taken: PANIC, after the late tick" } else { "taken: PANIC, nobody late" });
        }
        Action::Idle => meet("taken: idle"),
        Action::Build => built(room.histories.last().expect("built"), meet),
        Action::File { list, .. } => meet(if list.is_empty() { "taken: file, empty" } else { "taken: file" }),
    }
}

fn handed(room: &Room, h: usize, meet: &mut impl FnMut(&'static str)) {
    if is_built(room, h) {
        return meet("taken: hand of a built history");
    }
    meet("taken: hand of a filed history");
    let history = &room.histories[h];
    if history.j < history.k {
        meet("taken: hand, j below k");
    }
    if history.k < history.list.len() {
        meet("taken: hand, with a tail");
    }
}

fn built(history: &History, meet: &mut impl FnMut(&'static str)) {
    if history.k > history.j {
        meet("taken: build, k above j");
    }
    if history.list.len() > history.k {
        meet("taken: build, with a tail");
    }
    if history.list.is_empty() {
        meet("taken: build, empty");
    }
}

/// Whether the history was built by event 7: a correct switch leader holds no other.
fn is_built(room: &Room, h: usize) -> bool {
    room.replicas[room.switch_leader()].held == Some(h)
}

fn delivered(
    room: &Room,
    before: &Before,
    (sender, name, value, to): (usize, usize, u32, usize),
    meet: &mut impl FnMut(&'static str),
) {
    let p = &room.replicas[to];
    let sender_is_faulty = room.replicas[sender].condition == Condition::Faulty;
    match name {
        AG if sender == room.kit.leader => {
            meet(if sender_is_faulty { "taken: PREPARE of a faulty leader" } else { "taken: PREPARE" })
        }
        AG => meet(if sender_is_faulty { "taken: COMMIT of a faulty replica" } else { "taken: COMMIT" }),
        UP => {
            meet(if p.noted.len() > before.noted { "taken: first UPDATE" } else { "taken: equal UPDATE" });
            if mark_of(&p.noted[..value as usize]) != p.marks[value as usize - 1] {
                meet("taken: UPDATE with a wrong mark");
            }
        }
        _ => {
            meet(if before.accepted > 0 { "taken: SWITCH again of the same sender" } else { "taken: SWITCH" });
            if sender_is_faulty {
                meet("taken: SWITCH of a faulty replica");
            }
            if p.condition == Condition::Closed {
                let built = is_built(room, p.held.expect("closed on one"));
                meet(if built { "taken: closes on a built history" } else { "taken: closes on a filed history" });
                if room.settled(to).len() > before.settled {
                    meet("taken: closes on a longer list");
                }
            }
        }
    }
    if room.counters[to][UP].len() > before.up_issued {
        meet("taken: settles");
    }
    if name != SW && room.late.is_some() {
        meet("late: ag or up is taken after it");
    }
}

/// The cases of the clock, and of the room's limits, after an event.
pub fn clock(room: &Room, before: &Before, answer: u32, meet: &mut impl FnMut(&'static str)) {
    let patience = u64::from(room.kit.patience);
    match (before.late, room.late) {
        (None, Some(tick)) => {
            meet(if tick == room.clock { "late: at the very tick" } else { "late: noticed later" });
            if before.closed {
                meet("late: all correct have closed");
            }
            if answer != 0 {
                meet("late: at a refused event");
            }
            if room.submitted[0].1 + patience < tick {
                meet("late: not the first submission");
            }
        }
        (None, None) => {
            for &(r, t) in &room.submitted {
                if room.clock - t + 1 == patience && !room.is_answered(r) {
                    meet("late: missed by one tick");
                }
                if room.clock - t >= patience && room.is_answered(r) {
                    meet("late: a long wait, answered");
                    if room.actives().any(|y| room.replicas[y].condition == Condition::Faulty) {
                        meet("late: answered with a faulty replica's UPDATE");
                    }
                }
            }
        }
        _ => {}
    }
    if room.clock >> 32 != 0 {
        meet("clock past 32 bits");
    }
}

/// The cases of the room after the last event.
pub fn limits(room: &Room, meet: &mut impl FnMut(&'static str)) {
    meet(["f = 1", "f = 2", "f = 3"][room.kit.f as usize - 1]);
    if room.counters.iter().flatten().any(|c| c.len() == PLACES) {
        meet("a counter with 96");
    }
    if room.submitted.len() == SUBMISSIONS {
        meet("64 submissions");
    }
    if room.histories.len() == 8 {
        meet("8 histories");
    }
    let correct = (0..room.replicas.len()).filter(|&x| room.replicas[x].condition != Condition::Faulty);
    if correct.into_iter().any(|x| room.counters[x].iter().any(|c| c.len() > SUBMISSIONS)) {
        meet("a correct replica's 65th value");
    }
}

/// What became of a late client, at the end of a play: of its request, and of its PANIC to those who ran when it became late.
pub fn after_the_late_tick(room: &Room, running: &[usize], meet: &mut impl FnMut(&'static str)) {
    let Some(late) = room.late else { return };
    let patience = u64::from(room.kit.patience);
    if room.submitted.iter().filter(|s| s.1 + patience == late).all(|s| room.is_answered(s.0)) {
        meet("late: answered after all");
    }
    let run_on = running.iter().filter(|&&x| room.replicas[x].condition == Condition::Running).count();
    meet(match run_on {
        _ if running.is_empty() => "late: nobody runs",
        0 => "late: a PANIC reaches all in the end",
        n if n == running.len() => "late: no PANIC reaches anybody",
        _ => "late: a PANIC reaches some and never others",
    });
}
