//! The room and what each event does to it, in place.

use crate::kit::{Action, Content, Event, Kit};

pub const AG: usize = 0;
pub const UP: usize = 1;
pub const SW: usize = 2;

/// Places of a counter.
pub const PLACES: usize = 96;
/// The most submissions.
pub const SUBMISSIONS: usize = 64;
/// The most histories that events 8 file.
pub const FILED: usize = 7;

#[derive(Clone, Copy, PartialEq, Eq, Debug)]
pub enum Condition {
    Running,
    Halted,
    Closed,
    Faulty,
}

#[derive(Clone, PartialEq, Eq, Debug)]
pub struct Replica {
    pub condition: Condition,
    pub noted: Vec<u32>,
    /// Of a passive replica: the marks of its pairs.
    pub marks: Vec<u32>,
    pub mark: u32,
    /// Last accepted value, by sender and name.
    pub accepted: Vec<[u32; 3]>,
    pub held: Option<usize>,
}

#[derive(Clone, PartialEq, Eq, Debug)]
pub struct History {
    pub j: usize,
    pub k: usize,
    pub list: Vec<u32>,
}

#[derive(Clone)]
pub struct Room<'a> {
    pub kit: &'a Kit,
    pub clock: u64,
    pub late: Option<u64>,
    pub submitted: Vec<(u32, u64)>,
    pub histories: Vec<History>,
    pub filed: usize,
    /// By replica and name: what was issued, value 1 first.
    pub counters: Vec<[Vec<Content>; 3]>,
    pub replicas: Vec<Replica>,
}

fn next_mark(mark: u32, request: u32) -> u32 {
    mark.wrapping_mul(2).wrapping_add(request)
}

/// The mark after executing a list from the start.
pub fn mark_of(list: &[u32]) -> u32 {
    list.iter().fold(0, |m, &r| next_mark(m, r))
}

impl<'a> Room<'a> {
    pub fn new(kit: &'a Kit) -> Room<'a> {
        let n = kit.table.len();
        let replicas = kit
            .table
            .iter()
            .map(|&t| Replica {
                condition: if t & 2 != 0 { Condition::Faulty } else { Condition::Running },
                noted: Vec::new(),
                marks: Vec::new(),
                mark: 0,
                accepted: vec![[0; 3]; n],
                held: None,
            })
            .collect();
        Room {
            kit,
            clock: 0,
            late: None,
            submitted: Vec::new(),
            histories: Vec::new(),
            filed: 0,
            counters: vec![Default::default(); n],
            replicas,
        }
    }

    pub fn is_active(&self, x: usize) -> bool {
        self.kit.table[x] & 1 != 0
    }

    pub fn actives(&self) -> impl Iterator<Item = usize> + '_ {
        (0..self.kit.table.len()).filter(|&x| self.is_active(x))
    }

    pub fn switch_leader(&self) -> usize {
        self.actives().find(|&x| x != self.kit.leader).expect("f+1 are active")
    }

    pub fn was_submitted(&self, request: u32) -> bool {
        self.submitted.iter().any(|&(r, _)| r == request)
    }

    /// The content of a certificate, if it was issued; value 0 never is.
    pub fn issued(&self, x: usize, name: usize, value: u32) -> Option<Content> {
        let i = (value as usize).checked_sub(1)?;
        self.counters[x][name].get(i).copied()
    }

    fn issue(&mut self, x: usize, name: usize, content: Content) {
        self.counters[x][name].push(content);
    }

    /// How many of its noted requests a correct replica that has not closed has settled.
    fn count(&self, x: usize) -> usize {
        let p = &self.replicas[x];
        let least = self.actives().map(|y| {
            if !self.is_active(x) {
                p.accepted[y][UP] as usize
            } else if y == x {
                self.counters[x][AG].len()
            } else {
                p.accepted[y][AG] as usize
            }
        });
        least.min().expect("f+1 are active")
    }

    /// The settled requests of a replica.
    pub fn settled(&self, x: usize) -> &[u32] {
        let p = &self.replicas[x];
        match p.condition {
            Condition::Faulty => &[],
            Condition::Closed => &self.histories[p.held.expect("closed on one")].list,
            _ => &p.noted[..self.count(x)],
        }
    }

    pub fn is_answered(&self, request: u32) -> bool {
        let first = self.kit.leader;
        self.counters[first][UP].iter().enumerate().any(|(i, c)| {
            matches!(c, Content::Update(r, _) if *r == request) && self.actives().all(|y| self.counters[y][UP].get(i) == Some(c))
        })
    }

    /// Clock first: the gap, then lateness, which halts nobody.
    pub fn tick(&mut self, gap: u32) {
        self.clock += u64::from(gap);
        if self.late.is_some() {
            return;
        }
        let patience = u64::from(self.kit.patience);
        let overdue =
            self.submitted.iter().filter(|&&(r, t)| self.clock - t >= patience && !self.is_answered(r)).map(|&(_, t)| t).min();
        if let Some(t) = overdue {
            self.late = Some(t + patience);
        }
    }

    /// Plays one event and gives its answer.
    pub fn step(&mut self, event: &Event) -> u32 {
        self.tick(event.gap);
        match self.act(&event.action) {
            Ok(()) => 0,
            Err(answer) => answer,
        }
    }

    /// Then the event.
    pub fn act(&mut self, action: &Action) -> Result<(), u32> {
        match action {
            Action::Submit(r) => self.submit(*r),
            Action::Issue { replica, name, content } => self.fake(*replica, *name, *content),
            Action::Deliver { sender, name, value, to } => self.deliver(*sender, *name, *value, *to),
            Action::Hand { ag, up, to } => self.hand(*ag, *up, *to),
            Action::Panic(to) => self.panic(*to),
            Action::Idle => Ok(()),
            Action::Build => self.build(),
            Action::File { j, k, list } => self.file(*j as usize, *k as usize, list),
        }
    }

    fn submit(&mut self, request: u32) -> Result<(), u32> {
        refuse(self.was_submitted(request), 11)?;
        refuse(self.submitted.len() == SUBMISSIONS, 12)?;
        self.submitted.push((request, self.clock));
        let leader = self.kit.leader;
        if self.replicas[leader].condition == Condition::Running {
            self.replicas[leader].noted.push(request);
            self.issue(leader, AG, Content::Prepare(request));
        }
        Ok(())
    }

    fn fake(&mut self, x: usize, name: usize, content: Content) -> Result<(), u32> {
        refuse(self.replicas[x].condition != Condition::Faulty, 13)?;
        if let Content::History(h) | Content::Switch(h) = content {
            refuse(h as usize >= self.histories.len(), 21)?;
        }
        refuse(self.counters[x][name].len() == PLACES, 14)?;
        self.issue(x, name, content);
        Ok(())
    }

    fn deliver(&mut self, sender: usize, name: usize, value: u32, to: usize) -> Result<(), u32> {
        let p = &self.replicas[to];
        refuse(p.condition == Condition::Faulty, 16)?;
        let content = self.issued(sender, name, value).ok_or(15u32)?;
        refuse(if name == SW { p.condition == Condition::Closed } else { p.condition != Condition::Running }, 17)?;
        refuse(name == SW && p.held.is_none(), 18)?;
        let (from_active, to_active) = (self.is_active(sender), self.is_active(to));
        let roles = match name {
            AG => from_active && to_active,
            UP => from_active && !to_active,
            _ => true,
        };
        refuse(sender == to || !roles, 20)?;
        refuse(u64::from(value) != u64::from(p.accepted[sender][name]) + 1, 19)?;
        match name {
            AG => self.deliver_ag(sender, value, to, content),
            UP => self.deliver_up(sender, value, to, content),
            _ => self.deliver_sw(sender, value, to, content),
        }
    }

    fn deliver_ag(&mut self, sender: usize, value: u32, to: usize, content: Content) -> Result<(), u32> {
        let before = self.count(to);
        if sender == self.kit.leader {
            let Content::Prepare(request) = content else { return Err(21) };
            refuse(!self.was_submitted(request) || self.replicas[to].noted.contains(&request), 21)?;
            self.replicas[to].noted.push(request);
            self.issue(to, AG, Content::Commit(request, value));
        } else {
            let expected = self.replicas[to].noted.get(value as usize - 1).map(|&r| Content::Commit(r, value));
            refuse(expected != Some(content), 21)?;
        }
        self.replicas[to].accepted[sender][AG] = value;
        if self.count(to) > before {
            let request = self.replicas[to].noted[before];
            let mark = next_mark(self.replicas[to].mark, request);
            self.replicas[to].mark = mark;
            self.issue(to, UP, Content::Update(request, mark));
        }
        Ok(())
    }

    fn deliver_up(&mut self, sender: usize, value: u32, to: usize, content: Content) -> Result<(), u32> {
        let Content::Update(request, mark) = content else { return Err(21) };
        let i = value as usize - 1;
        let p = &self.replicas[to];
        if i < p.noted.len() {
            refuse((p.noted[i], p.marks[i]) != (request, mark), 21)?;
        } else {
            refuse(!self.was_submitted(request) || p.noted.contains(&request), 21)?;
            self.replicas[to].noted.push(request);
            self.replicas[to].marks.push(mark);
        }
        self.replicas[to].accepted[sender][UP] = value;
        let c = self.count(to);
        let p = &mut self.replicas[to];
        p.mark = if c == 0 { 0 } else { p.marks[c - 1] };
        Ok(())
    }

    fn deliver_sw(&mut self, sender: usize, value: u32, to: usize, content: Content) -> Result<(), u32> {
        let h = self.replicas[to].held.expect("18 otherwise");
        refuse(content != Content::Switch(h as u32), 21)?;
        let p = &mut self.replicas[to];
        p.accepted[sender][SW] = value;
        let heard = p.accepted.iter().filter(|a| a[SW] > 0).count();
        if heard >= self.kit.f as usize {
            p.condition = Condition::Closed;
            p.mark = mark_of(&self.histories[h].list);
        }
        Ok(())
    }

    fn panic(&mut self, to: usize) -> Result<(), u32> {
        let p = &mut self.replicas[to];
        refuse(p.condition == Condition::Faulty, 16)?;
        refuse(p.condition != Condition::Running, 17)?;
        p.condition = Condition::Halted;
        Ok(())
    }

    fn build(&mut self) -> Result<(), u32> {
        let s = self.switch_leader();
        let p = &self.replicas[s];
        refuse(matches!(p.condition, Condition::Faulty | Condition::Running) || p.held.is_some(), 24)?;
        let mut list = p.noted.clone();
        list.extend(self.submitted.iter().map(|&(r, _)| r).filter(|r| !p.noted.contains(r)));
        let history = History { j: self.count(s), k: self.counters[s][AG].len(), list };
        let h = self.histories.len();
        self.histories.push(history);
        self.replicas[s].held = Some(h);
        self.issue(s, AG, Content::History(h as u32));
        self.issue(s, UP, Content::History(h as u32));
        self.issue(s, SW, Content::Switch(h as u32));
        Ok(())
    }

    fn hand(&mut self, p: u32, q: u32, to: usize) -> Result<(), u32> {
        let s = self.switch_leader();
        let receiver = &self.replicas[to];
        refuse(receiver.condition == Condition::Faulty, 16)?;
        let ag = self.issued(s, AG, p).ok_or(15u32)?;
        let up = self.issued(s, UP, q).ok_or(15u32)?;
        refuse(receiver.held.is_some() || receiver.condition == Condition::Closed, 17)?;
        refuse(receiver.condition == Condition::Running, 18)?;
        refuse(to == s, 20)?;
        let Content::History(h) = ag else { return Err(22) };
        refuse(up != ag || !self.is_valid(p as usize, q as usize, h as usize), 22)?;
        self.replicas[to].held = Some(h as usize);
        self.issue(to, SW, Content::Switch(h));
        Ok(())
    }

    fn is_valid(&self, p: usize, q: usize, h: usize) -> bool {
        let s = self.switch_leader();
        let leader = self.kit.leader;
        let History { j, k, list } = &self.histories[h];
        let commit = |i: usize| Content::Commit(list[i - 1], i as u32);
        let at = |x: usize, name: usize, i: usize| self.issued(x, name, i as u32);
        p == k + 1
            && q == j + 1
            && (1..=*k).all(|i| at(s, AG, i) == Some(commit(i)) && at(leader, AG, i) == Some(Content::Prepare(list[i - 1])))
            && (1..=*j).all(|i| {
                let others = self.actives().filter(|&y| y != s && y != leader);
                others.into_iter().all(|y| at(y, AG, i) == Some(commit(i)))
                    && at(s, UP, i) == Some(Content::Update(list[i - 1], mark_of(&list[..i])))
            })
            && list.iter().all(|&r| self.was_submitted(r))
            && (1..list.len()).all(|i| !list[..i].contains(&list[i]))
    }

    fn file(&mut self, j: usize, k: usize, list: &[u32]) -> Result<(), u32> {
        refuse(self.filed == FILED, 23)?;
        self.histories.push(History { j, k, list: list.to_vec() });
        self.filed += 1;
        Ok(())
    }
}

fn refuse(test: bool, answer: u32) -> Result<(), u32> {
    if test {
        Err(answer)
    } else {
        Ok(())
    }
}
