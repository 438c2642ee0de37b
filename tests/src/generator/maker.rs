//! One kit in the making: the room so far, and the choice of the next event.

use super::protocol::{any_action, any_content, any_file, shuffle, Style};
use crate::kit::{Action, Content, Event, Kit, TICKS};
use crate::play::{mark_of, Condition, Room, AG, FILED, PLACES, SW, UP};
use crate::random::Random;
use std::collections::VecDeque;

pub struct Maker<'a> {
    random: &'a mut Random,
    style: &'a Style,
    room: Room<'a>,
    events: Vec<Event>,
    /// Events that come next, one after the other.
    plan: VecDeque<Action>,
    /// What was refused and is not worth trying soon again.
    refused: Vec<Action>,
    /// How many histories the faulty switch leader has tried.
    tries: usize,
    /// How many events there were when it became late, until the PANICs that this brings are on their way.
    late_at: Option<usize>,
}

/// A history in the making, and what the switch leader issues for it.
#[derive(Clone, PartialEq)]
struct Draft {
    j: usize,
    k: usize,
    list: Vec<u32>,
    /// What the leader has prepared next, if it has.
    next: Option<u32>,
    first: Vec<Action>,
    on_ag: Content,
    on_up: Content,
}

impl<'a> Maker<'a> {
    pub fn new(random: &'a mut Random, style: &'a Style, frame: &'a Kit) -> Maker<'a> {
        let room = Room::new(frame);
        Maker { random, style, room, events: Vec::new(), plan: VecDeque::new(), refused: Vec::new(), tries: 0, late_at: None }
    }

    pub fn run(mut self) -> Kit {
        if self.style.filing {
            self.plan_filings();
        }
        if self.style.flood {
            self.plan_flood();
        }
        while self.events.len() < self.style.events {
            let action = self.next_action();
            let event = Event { gap: self.gap(), action };
            let was_late = self.room.late.is_some();
            if self.room.step(&event) != 0 {
                self.refused.push(event.action.clone());
            }
            if self.room.late.is_some() && !was_late {
                self.late_at = Some(self.events.len());
            }
            self.send_panics();
            if self.random.once_in(20) {
                self.refused.clear();
            }
            self.events.push(event);
        }
        Kit { events: self.events, ..self.room.kit.clone() }
    }

    fn next_action(&mut self) -> Action {
        if !self.plan.is_empty() && !self.random.once_in(25) {
            return self.plan.pop_front().expect("not empty");
        }
        if self.random.below(100) < self.style.noise {
            return self.odd_action();
        }
        self.sensible_action()
    }

    // ---- time

    fn gap(&mut self) -> u32 {
        if self.random.once_in(self.style.near) {
            if let Some(gap) = self.gap_to_an_edge() {
                return gap;
            }
        }
        match self.random.below(2000) {
            0 if self.style.near < 100_000 => TICKS,
            0..=999 => 0,
            _ => self.random.below(self.style.gaps) as u32,
        }
    }

    /// A gap that ends one tick before the first late tick, on it, or one after.
    fn gap_to_an_edge(&mut self) -> Option<u32> {
        let patience = u64::from(self.room.kit.patience);
        let edge = self.room.submitted.iter().find(|&&(r, _)| !self.room.is_answered(r)).map(|&(_, t)| t + patience)?;
        let gap = (edge + self.random.pick(&[0, 0, 1, 2])).checked_sub(self.room.clock + 1)?;
        Some(u32::try_from(gap).unwrap_or(TICKS).min(TICKS))
    }

    // ---- what the protocol would do next

    fn sensible_action(&mut self) -> Action {
        for _ in 0..6 {
            let found = match self.random.below(if self.is_switching() { 110 } else { 68 }) {
                0..=41 => self.delivery(),
                42..=51 => self.submission(),
                52..=67 => self.faulty_action(),
                68..=77 => self.panic(),
                78..=82 => self.building(),
                83..=89 => self.handing(),
                90..=96 => self.switching(),
                _ => self.try_history(),
            };
            if let Some(action) = found {
                if !self.refused.contains(&action) {
                    return action;
                }
            }
        }
        self.odd_action()
    }

    fn is_switching(&self) -> bool {
        let travelled = self.room.late.is_some() && self.late_at.is_none();
        self.events.len() >= self.style.switch_at || travelled
    }

    /// Once the PANIC of a late client has travelled: to some replicas it comes in a row, to others one by one as everything else, to the deaf never.
    fn send_panics(&mut self) {
        let Some(late_at) = self.late_at else { return };
        if self.events.len() < late_at.saturating_add(self.style.travel) {
            return;
        }
        self.late_at = None;
        let mut reached: Vec<usize> = (0..self.size()).filter(|&x| self.hears(x)).collect();
        shuffle(self.random, &mut reached);
        reached.truncate(self.random.below(2 * reached.len() + 1));
        self.plan.extend(reached.into_iter().map(Action::Panic));
    }

    fn hears(&self, x: usize) -> bool {
        self.style.deaf >> x & 1 == 0
    }

    fn size(&self) -> usize {
        self.room.replicas.len()
    }

    fn is_faulty(&self, x: usize) -> bool {
        self.room.replicas[x].condition == Condition::Faulty
    }

    /// A certificate of ag or up that a running replica waits for: the oldest, or any.
    fn delivery(&mut self) -> Option<Action> {
        let size = self.size();
        let first = self.random.below(size * size);
        let mut oldest: Option<(usize, Action)> = None;
        for pair in (first..size * size).chain(0..first) {
            let (sender, to) = (pair % size, pair / size);
            let p = &self.room.replicas[to];
            if sender == to || p.condition != Condition::Running || !self.room.is_active(sender) {
                continue;
            }
            let name = if self.room.is_active(to) { AG } else { UP };
            let i = p.accepted[sender][name] as usize;
            let action = Action::Deliver { sender, name, value: i as u32 + 1, to };
            if i < self.room.counters[sender][name].len() && !self.refused.contains(&action) {
                if !self.style.in_order {
                    return Some(action);
                }
                if oldest.as_ref().is_none_or(|o| i < o.0) {
                    oldest = Some((i, action));
                }
            }
        }
        oldest.map(|o| o.1)
    }

    fn submission(&mut self) -> Option<Action> {
        if self.room.submitted.len() >= self.style.submissions {
            return None;
        }
        Some(Action::Submit(match self.random.below(12) {
            0 => u32::MAX - self.random.below(3) as u32,
            1 => (self.random.bits() as u32).max(1),
            2 => 1 << 31,
            _ => 1 + self.random.below(100) as u32,
        }))
    }

    fn panic(&mut self) -> Option<Action> {
        let to = self.random.below(self.size());
        (self.room.replicas[to].condition == Condition::Running && self.hears(to)).then_some(Action::Panic(to))
    }

    fn building(&mut self) -> Option<Action> {
        let p = &self.room.replicas[self.room.switch_leader()];
        (p.condition == Condition::Halted && p.held.is_none()).then_some(Action::Build)
    }

    /// A HISTORY of the switch leader's ag and one of its up, to somebody who waits for one.
    fn handing(&mut self) -> Option<Action> {
        let to = self.random.below(self.size());
        let p = &self.room.replicas[to];
        let s = self.room.switch_leader();
        if p.condition != Condition::Halted || p.held.is_some() || to == s {
            return None;
        }
        let places = |name: usize| -> Vec<u32> {
            let all = self.room.counters[s][name].iter().enumerate();
            all.filter(|(_, c)| matches!(c, Content::History(_))).map(|(i, _)| i as u32 + 1).collect()
        };
        let (ag, up) = (places(AG), places(UP));
        if ag.is_empty() || up.is_empty() {
            return None;
        }
        Some(Action::Hand { ag: self.random.pick(&ag), up: self.random.pick(&up), to })
    }

    /// A SWITCH that somebody waits for.
    fn switching(&mut self) -> Option<Action> {
        let to = self.random.below(self.size());
        let p = &self.room.replicas[to];
        if p.held.is_none() || p.condition != Condition::Halted {
            return None;
        }
        let next = |x: usize| p.accepted[x][SW];
        let senders = (0..self.size()).filter(|&x| x != to && (next(x) as usize) < self.room.counters[x][SW].len());
        let waiting: Vec<Action> = senders.map(|x| Action::Deliver { sender: x, name: SW, value: next(x) + 1, to }).collect();
        if waiting.is_empty() {
            None
        } else {
            Some(waiting[self.random.below(waiting.len())].clone())
        }
    }

    // ---- faulty replicas

    /// The requests that the leader has prepared, as long as it has done nothing else.
    fn prepared(&self) -> Vec<u32> {
        let issued = self.room.counters[self.room.kit.leader][AG].iter();
        issued.map_while(|c| if let Content::Prepare(r) = c { Some(*r) } else { None }).collect()
    }

    /// A faulty replica issues what a correct one would, or nearly.
    fn faulty_action(&mut self) -> Option<Action> {
        let faulty: Vec<usize> = (0..self.size()).filter(|&x| self.is_faulty(x)).collect();
        let x = if faulty.is_empty() { return None } else { self.random.pick(&faulty) };
        if self.room.filed < FILED && self.random.once_in(40) {
            // a history of no use to anybody
            let content = Content::History(self.room.histories.len() as u32);
            self.plan.push_back(Action::Issue { replica: x, name: self.random.below(2), content });
            return Some(any_file(self.random, &[1, 2, 3]));
        }
        let (name, content) = self.imitation(x)?;
        if self.room.counters[x][name].len() == PLACES && !self.random.once_in(10) {
            return None;
        }
        let lies = if x == self.room.switch_leader() { 6 * self.style.lies } else { self.style.lies };
        if self.random.once_in(lies) {
            let lie = self.lie(content);
            let name = if self.random.once_in(12) { self.random.below(3) } else { name };
            return Some(Action::Issue { replica: x, name, content: lie });
        }
        Some(Action::Issue { replica: x, name, content })
    }

    fn imitation(&mut self, x: usize) -> Option<(usize, Content)> {
        let prepared = self.prepared();
        let own = |name: usize| self.room.counters[x][name].len();
        let sort = self.random.below(5);
        if sort < 2 && !self.room.is_active(x) {
            return self.room.counters[self.room.kit.leader][sort].get(own(sort)).map(|c| (sort, *c));
        }
        if sort == 0 || !self.room.is_active(x) {
            let held: Vec<usize> = self.room.replicas.iter().filter_map(|p| p.held).collect();
            let h = if held.is_empty() { self.room.histories.len().checked_sub(1)? } else { self.random.pick(&held) };
            return (own(SW) < 3).then_some((SW, Content::Switch(h as u32)));
        }
        if sort < 3 && x == self.room.kit.leader {
            let next = self.room.submitted.iter().map(|s| s.0).find(|r| !prepared.contains(r))?;
            return Some((AG, Content::Prepare(next)));
        }
        if sort < 3 {
            let i = own(AG);
            return Some((AG, Content::Commit(*prepared.get(i)?, i as u32 + 1)));
        }
        let i = own(UP);
        Some((UP, Content::Update(*prepared.get(i)?, mark_of(&prepared[..i + 1]))))
    }

    fn any_request(&mut self) -> u32 {
        match self.room.submitted.len() {
            0 => 1 + self.random.below(100) as u32,
            n if !self.random.once_in(4) => self.room.submitted[self.random.below(n)].0,
            _ => self.random.below(100) as u32,
        }
    }

    /// The content with one thing wrong.
    fn lie(&mut self, content: Content) -> Content {
        let other = self.any_request();
        let filed = self.room.histories.len();
        match (content, self.random.below(3)) {
            (_, 2) if self.random.once_in(2) => any_content(self.random),
            (_, 2) if filed > 0 && self.random.once_in(2) => Content::History(self.random.below(filed) as u32),
            (Content::Prepare(_), _) => Content::Prepare(other),
            (Content::Commit(_, b), 0) => Content::Commit(other, b),
            (Content::Commit(a, b), _) => Content::Commit(a, b.wrapping_add(self.random.pick(&[1, 2, u32::MAX]))),
            (Content::Update(_, m), 0) => Content::Update(other, m),
            (Content::Update(a, m), _) => Content::Update(a, m.wrapping_add(1)),
            (Content::History(h), _) => Content::History(h + 1),
            (Content::Switch(h), 0) => Content::Switch(h + 1),
            (Content::Switch(h), _) => Content::Switch(h.saturating_sub(1)),
        }
    }

    // ---- a faulty switch leader's history

    /// A valid history as far as the counters allow one, from what the leader has prepared.
    fn draft(&mut self) -> Draft {
        let (s, leader) = (self.room.switch_leader(), self.room.kit.leader);
        let mut prepared = self.prepared();
        // a filed list has 64 requests at most, and there may be one more
        prepared.truncate(60);
        let commit =
            |x: usize, i: usize| self.room.issued(x, AG, i as u32 + 1) == Some(Content::Commit(prepared[i], i as u32 + 1));
        let update = |i: usize| Content::Update(prepared[i], mark_of(&prepared[..i + 1]));
        let updated = |i: usize| self.room.issued(s, UP, i as u32 + 1) == Some(update(i));
        let k = (0..prepared.len()).take_while(|&i| commit(s, i)).count();
        let updates = (0..k).take_while(|&i| updated(i)).count();
        let settled = (0..updates).take_while(|&i| self.room.actives().all(|y| y == leader || commit(y, i))).count();
        let mut list = prepared[..k].to_vec();
        let mut tail: Vec<u32> = self.room.submitted.iter().map(|x| x.0).filter(|r| !list.contains(r)).collect();
        shuffle(self.random, &mut tail);
        tail.truncate(self.random.below(tail.len() + 1));
        list.extend(&tail);
        list.truncate(62);
        let j = if self.random.once_in(4) { updates } else { settled };
        let h = self.room.histories.len() as u32;
        let next = prepared.get(k).copied();
        Draft { j, k, list, next, first: Vec::new(), on_ag: Content::History(h), on_up: Content::History(h) }
    }

    /// The draft with one thing wrong, if the one that is drawn applies.
    fn spoil(&mut self, draft: &mut Draft) {
        if self.random.once_in(2) {
            return self.spoil_counters(draft);
        }
        let Draft { j, k, list, on_ag, on_up, .. } = draft;
        let h = self.room.histories.len() as u32;
        match self.random.below(13) {
            0 if *k > *j => *k -= 1,
            1 if *k < list.len() => *k += 1,
            2 if *j > 0 => *j -= 1,
            3 | 12 if *j < *k => *j += 1,
            4 if *k > 0 => list[*k - 1] = 1 + self.random.below(200) as u32,
            5 if *k > 1 => list.swap(*k - 1, *k - 2),
            6 => list.push(1_000_000 + self.random.below(9) as u32),
            7 if !list.is_empty() => list.push(list[self.random.below(list.len())]),
            8 => *on_up = Content::History(h + 1),
            9 => *on_ag = Content::History(h + 1),
            10 => *on_ag = Content::Switch(h),
            11 => *on_up = Content::Switch(h),
            _ => {}
        }
    }

    /// The draft with one more certificate of the switch leader, and something wrong in it or before it.
    fn spoil_counters(&mut self, draft: &mut Draft) {
        let replica = self.room.switch_leader();
        let Draft { j, k, list, next, first, .. } = draft;
        let mut one_more = |name: usize, content: Content| first.push(Action::Issue { replica, name, content });
        match self.random.below(3) {
            // a COMMIT of what the leader has not prepared there, or of another request than the list has
            0 if *k < list.len() => {
                one_more(AG, Content::Commit(list[*k] ^ self.random.below(2) as u32, *k as u32 + 1));
                *k += 1;
            }
            // what the leader has prepared next, with a COMMIT that is not the one for it
            1 if next.is_some_and(|r| !list[..*k].contains(&r)) => {
                let request = next.expect("tested");
                list.retain(|r| *r != request);
                list.insert(*k, request);
                let lies = self.random.pick(&[(0, 1), (1, 0), (0, 2)]);
                one_more(AG, Content::Commit(request ^ lies.0, *k as u32 + 1 + lies.1));
                *k += 1;
            }
            // an UPDATE, though the others have not all committed; with another mark; of another request
            2 if *j < *k => {
                let lies = self.random.pick(&[(0, 0), (0, 1), (0, 1), (1, 0), (1, 0)]);
                one_more(UP, Content::Update(list[*j] ^ lies.0, mark_of(&list[..*j + 1]) ^ lies.1));
                *j += 1;
            }
            _ => {}
        }
    }

    /// Plans a history: filed, certified on all counters and handed round; valid, or nearly.
    fn try_history(&mut self) -> Option<Action> {
        let s = self.room.switch_leader();
        if !self.is_faulty(s) || self.room.filed == FILED || self.tries > 1 {
            return None;
        }
        let halted = self.room.replicas.iter().any(|p| p.condition == Condition::Halted);
        if !halted && !self.random.once_in(8) {
            return None;
        }
        self.tries += 1;
        let mut draft = self.draft();
        if !self.random.once_in(3) {
            let right = draft.clone();
            for _ in 0..4 {
                if draft == right {
                    self.spoil(&mut draft);
                }
            }
        }
        let Draft { j, k, list, first, on_ag, on_up, .. } = draft;
        let more = |name: usize| first.iter().filter(|a| matches!(a, Action::Issue { name: n, .. } if *n == name)).count();
        let next = |name: usize| (self.room.counters[s][name].len() + more(name)) as u32 + 1;
        let (ag, up) = (next(AG), next(UP));
        let h = self.room.histories.len() as u32;
        let filing = Action::File { j: j as u32, k: k as u32, list };
        let issue = |name: usize, content: Content| Action::Issue { replica: s, name, content };
        self.plan.extend(first);
        self.plan.push_back(filing.clone());
        if on_ag != on_up || self.random.once_in(6) {
            self.plan.push_back(filing);
        }
        self.plan.extend([issue(AG, on_ag), issue(UP, on_up), issue(SW, Content::Switch(h))]);
        for to in 0..self.size() {
            if to != s && !self.random.once_in(3) {
                self.plan.push_back(Action::Hand { ag, up, to });
            }
        }
        self.plan.pop_front()
    }

    // ---- what no protocol would do

    fn odd_action(&mut self) -> Action {
        let size = self.size();
        let (x, to) = (self.random.below(size), self.random.below(size));
        match self.random.below(16) {
            0 => Action::Submit(self.any_request().max(1)),
            1..=3 => self.odd_delivery(x, to),
            4..=7 => self.usual_delivery(to),
            8 => self.odd_hand(to),
            9 if self.is_switching() && self.hears(to) || self.is_faulty(to) => Action::Panic(to),
            10 => Action::Build,
            11 => Action::Issue { replica: x, name: self.random.below(3), content: any_content(self.random) },
            12 => {
                if !self.room.histories.is_empty() && self.random.once_in(2) {
                    let twin = &self.room.histories[self.random.below(self.room.histories.len())];
                    return Action::File { j: twin.j as u32, k: twin.k as u32, list: twin.list.clone() };
                }
                let requests: Vec<u32> = (0..4).map(|_| self.any_request().max(1)).collect();
                any_file(self.random, &requests)
            }
            13 if self.random.once_in(4) => match any_action(self.random, size) {
                Action::Panic(_) => Action::Idle,
                action => action,
            },
            14 if self.random.once_in(8) => Action::Submit((self.random.bits() as u32).max(1)),
            _ => Action::Idle,
        }
    }

    /// Any certificate to anybody, a faulty replica's more often than others.
    fn odd_delivery(&mut self, sender: usize, to: usize) -> Action {
        let name = self.random.below(3);
        let faulty = (0..self.size()).find(|&x| self.is_faulty(x) && !self.room.counters[x][name].is_empty());
        let sender = if self.random.once_in(4) { faulty.unwrap_or(sender) } else { sender };
        let issued = self.room.counters[sender][name].len() as u32;
        let next = self.room.replicas[to].accepted[sender][name] + 1;
        let value = match self.random.below(10) {
            0 => 0,
            1 => issued + 1,
            2 => self.random.bits() as u32,
            3..=5 => self.random.below(issued as usize + 1) as u32,
            _ => next,
        };
        let sender = if self.random.once_in(12) { to } else { sender };
        Action::Deliver { sender, name, value, to }
    }

    /// A certificate that was issued, on a counter that its receiver may listen to: an old one, a new one, or one further on.
    fn usual_delivery(&mut self, to: usize) -> Action {
        let name = match self.room.replicas[to].held {
            Some(_) => SW,
            None if self.room.is_active(to) => AG,
            None => UP,
        };
        let issued = |x: usize| self.room.counters[x][name].len();
        let senders: Vec<usize> = (0..self.size()).filter(|&x| x != to && issued(x) > 0).collect();
        if senders.is_empty() {
            return Action::Idle;
        }
        let sender = self.random.pick(&senders);
        Action::Deliver { sender, name, value: 1 + self.random.below(issued(sender)) as u32, to }
    }

    fn odd_hand(&mut self, to: usize) -> Action {
        let s = self.room.switch_leader();
        let mut value = |name: usize| {
            let issued = self.room.counters[s][name].len();
            if self.random.once_in(8) {
                self.random.bits() as u32
            } else {
                self.random.below(issued + 2) as u32
            }
        };
        Action::Hand { ag: value(AG), up: value(UP), to: if self.random.once_in(4) { s } else { to } }
    }

    // ---- full tables

    fn plan_filings(&mut self) {
        for _ in 0..FILED + 1 {
            let requests: Vec<u32> = (0..4).map(|_| 1 + self.random.below(100) as u32).collect();
            let filing = any_file(self.random, &requests);
            self.plan.push_back(filing);
        }
    }

    /// A faulty replica fills one of its counters.
    fn plan_flood(&mut self) {
        let faulty: Vec<usize> = (0..self.size()).filter(|&x| self.is_faulty(x)).collect();
        if faulty.is_empty() {
            return;
        }
        let (replica, name) = (self.random.pick(&faulty), self.random.below(3));
        for i in 0..PLACES as u32 + 2 {
            let content = match self.random.below(4) {
                0 => Content::Prepare(i),
                1 => Content::Commit(i, i + 1),
                _ => Content::Update(i, i),
            };
            self.plan.push_back(Action::Issue { replica, name, content });
        }
    }
}
