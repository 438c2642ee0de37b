//! The same play written for speed, to measure against: one pass over the bytes judges them, a second plays straight out of them; every
//! table is an array in place, and nothing but the printed text is on the heap.

use crate::kit::{Content, EVENTS, LISTED, TICKS};
use crate::play::{Condition, AG, FILED, PLACES, SUBMISSIONS, SW, UP};

// ---- reading

struct Cursor<'a> {
    bytes: &'a [u8],
    at: usize,
}

/// An event's kind and operands; a filed list stays in the bytes.
enum Action {
    Submit(u32),
    Issue { replica: usize, name: usize, content: Content },
    Deliver { sender: usize, name: usize, value: usize, to: usize },
    Hand { ag: usize, up: usize, to: usize },
    Panic(usize),
    Idle,
    Build,
    File { j: usize, k: usize, length: usize, at: usize },
}

impl Cursor<'_> {
    #[inline]
    fn number(&mut self) -> Result<u32, u8> {
        match self.bytes.get(self.at) {
            Some(&byte) if byte < 0x80 => {
                self.at += 1;
                Ok(u32::from(byte))
            }
            _ => self.long_number(),
        }
    }

    fn long_number(&mut self) -> Result<u32, u8> {
        let mut value = 0;
        for group in 0..5 {
            let byte = *self.bytes.get(self.at + group).ok_or(1)?;
            if group == 4 && byte > 0x0f {
                return Err(2);
            }
            value |= u32::from(byte & 0x7f) << (7 * group);
            if byte < 0x80 {
                self.at += group + 1;
                return if byte == 0 && group > 0 { Err(2) } else { Ok(value) };
            }
        }
        Err(2)
    }

    #[inline]
    fn below(&mut self, limit: u32, fault: u8) -> Result<usize, u8> {
        let n = self.number()?;
        if n < limit {
            Ok(n as usize)
        } else {
            Err(fault)
        }
    }

    #[inline]
    fn request(&mut self) -> Result<u32, u8> {
        let n = self.number()?;
        if n == 0 {
            Err(4)
        } else {
            Ok(n)
        }
    }

    #[inline]
    fn event(&mut self, size: u32) -> Result<(u32, Action), u8> {
        let gap = self.below(TICKS + 1, 4)? as u32;
        let action = match self.number()? {
            1 => Action::Submit(self.request()?),
            2 => {
                let (replica, name) = (self.below(size, 4)?, self.below(3, 4)?);
                let kind = self.number()?;
                if !(1..=5).contains(&kind) {
                    return Err(4);
                }
                let (a, b) = (self.number()?, self.number()?);
                Action::Issue { replica, name, content: Content::of(kind, a, b).ok_or(4)? }
            }
            3 => {
                let (sender, name) = (self.below(size, 4)?, self.below(3, 4)?);
                Action::Deliver { sender, name, value: self.number()? as usize, to: self.below(size, 4)? }
            }
            4 => Action::Hand { ag: self.number()? as usize, up: self.number()? as usize, to: self.below(size, 4)? },
            5 => Action::Panic(self.below(size, 4)?),
            6 => Action::Idle,
            7 => Action::Build,
            8 => self.filing()?,
            _ => return Err(4),
        };
        Ok((gap, action))
    }

    fn filing(&mut self) -> Result<Action, u8> {
        let j = self.number()?;
        let k = self.number()?;
        if j > k {
            return Err(4);
        }
        let length = u64::from(k) + u64::from(self.number()?);
        if length > LISTED {
            return Err(4);
        }
        let at = self.at;
        for _ in 0..length {
            self.request()?;
        }
        Ok(Action::File { j: j as usize, k: k as usize, length: length as usize, at })
    }
}

#[derive(Clone, Copy)]
struct Settings {
    f: usize,
    size: usize,
    leader: usize,
    switch_leader: usize,
    patience: u64,
    table: [usize; 7],
    events: usize,
    first: usize,
}

impl Settings {
    fn read(s: &mut Cursor) -> Result<Settings, u8> {
        let f = s.below(4, 3)?;
        if f == 0 {
            return Err(3);
        }
        let size = 2 * f + 1;
        let leader = s.below(size as u32, 3)?;
        let patience = s.below(TICKS + 1, 3)? as u64;
        if patience == 0 {
            return Err(3);
        }
        let mut table = [0; 7];
        for entry in &mut table[..size] {
            *entry = s.below(4, 3)?;
        }
        let active = table.iter().filter(|&n| n & 1 != 0).count();
        let faulty = table.iter().filter(|&n| n & 2 != 0).count();
        if active != f + 1 || faulty > f || table[leader] & 1 == 0 {
            return Err(3);
        }
        let switch_leader = (0..size).find(|&x| x != leader && table[x] & 1 != 0).expect("f+1 are active");
        let events = s.below(EVENTS + 1, 4)?;
        Ok(Settings { f, size, leader, switch_leader, patience, table, events, first: s.at })
    }

    #[inline]
    fn is_active(&self, x: usize) -> bool {
        self.table[x] & 1 != 0
    }

    #[inline]
    fn actives(&self) -> impl Iterator<Item = usize> + '_ {
        (0..self.size).filter(|&x| self.is_active(x))
    }
}

/// The kit number of any bytes.
pub fn kit_number(bytes: &[u8]) -> u8 {
    settings(bytes).err().unwrap_or(0)
}

fn settings(bytes: &[u8]) -> Result<Settings, u8> {
    let mut s = Cursor { bytes, at: 0 };
    let settings = Settings::read(&mut s)?;
    for _ in 0..settings.events {
        s.event(settings.size as u32)?;
    }
    if s.at == bytes.len() {
        Ok(settings)
    } else {
        Err(5)
    }
}

// ---- the room

#[derive(Clone, Copy)]
struct Counter {
    total: usize,
    places: [Content; PLACES],
}

#[derive(Clone, Copy)]
struct Replica {
    condition: Condition,
    count: usize,
    noted: [u32; SUBMISSIONS],
    marks: [u32; SUBMISSIONS],
    mark: u32,
    accepted: [[u32; 3]; 7],
    held: Option<usize>,
}

#[derive(Clone, Copy)]
struct History {
    j: usize,
    k: usize,
    length: usize,
    list: [u32; SUBMISSIONS],
}

struct Room<'a> {
    kit: Settings,
    bytes: &'a [u8],
    clock: u64,
    late: Option<u64>,
    /// So many of the first submissions are known to be answered.
    known: usize,
    submitted: usize,
    requests: [u32; SUBMISSIONS],
    ticks: [u64; SUBMISSIONS],
    filed: usize,
    histories: usize,
    history: [History; FILED + 1],
    counters: [[Counter; 3]; 7],
    replicas: [Replica; 7],
}

impl<'a> Room<'a> {
    fn new(kit: Settings, bytes: &'a [u8]) -> Room<'a> {
        let counter = Counter { total: 0, places: [Content::Prepare(0); PLACES] };
        let history = History { j: 0, k: 0, length: 0, list: [0; SUBMISSIONS] };
        let replica = Replica {
            condition: Condition::Running,
            count: 0,
            noted: [0; SUBMISSIONS],
            marks: [0; SUBMISSIONS],
            mark: 0,
            accepted: [[0; 3]; 7],
            held: None,
        };
        let mut replicas = [replica; 7];
        for (p, entry) in replicas.iter_mut().zip(kit.table) {
            if entry & 2 != 0 {
                p.condition = Condition::Faulty;
            }
        }
        Room {
            kit,
            bytes,
            clock: 0,
            late: None,
            known: 0,
            submitted: 0,
            requests: [0; SUBMISSIONS],
            ticks: [0; SUBMISSIONS],
            filed: 0,
            histories: 0,
            history: [history; FILED + 1],
            counters: [[counter; 3]; 7],
            replicas,
        }
    }

    #[inline]
    fn was_submitted(&self, request: u32) -> bool {
        self.requests[..self.submitted].contains(&request)
    }

    #[inline]
    fn issued(&self, x: usize, name: usize, value: usize) -> Option<Content> {
        let counter = &self.counters[x][name];
        if value == 0 || value > counter.total {
            None
        } else {
            Some(counter.places[value - 1])
        }
    }

    #[inline]
    fn issue(&mut self, x: usize, name: usize, content: Content) {
        let counter = &mut self.counters[x][name];
        counter.places[counter.total] = content;
        counter.total += 1;
    }

    #[inline]
    fn settled(&self, x: usize) -> usize {
        let accepted = &self.replicas[x].accepted;
        let name = if self.kit.is_active(x) { AG } else { UP };
        let least = self.kit.actives().map(|y| if x == y { self.counters[x][AG].total } else { accepted[y][name] as usize });
        least.min().unwrap_or(0)
    }

    fn is_answered(&self, request: u32) -> bool {
        let leader = &self.counters[self.kit.leader][UP];
        (0..leader.total).any(|i| {
            let content = leader.places[i];
            matches!(content, Content::Update(r, _) if r == request)
                && self.kit.actives().all(|y| self.issued(y, UP, i + 1) == Some(content))
        })
    }

    #[inline]
    fn tick(&mut self, gap: u32) {
        self.clock += u64::from(gap);
        while self.late.is_none() && self.known < self.submitted && self.clock - self.ticks[self.known] >= self.kit.patience {
            if self.is_answered(self.requests[self.known]) {
                self.known += 1;
            } else {
                self.late = Some(self.ticks[self.known] + self.kit.patience);
            }
        }
    }

    fn act(&mut self, action: Action) -> Result<(), u32> {
        match action {
            Action::Submit(request) => self.submit(request),
            Action::Issue { replica, name, content } => self.forge(replica, name, content),
            Action::Deliver { sender, name, value, to } => self.deliver(sender, name, value, to),
            Action::Hand { ag, up, to } => self.hand(ag, up, to),
            Action::Panic(to) => match self.replicas[to].condition {
                Condition::Faulty => Err(16),
                Condition::Running => {
                    self.replicas[to].condition = Condition::Halted;
                    Ok(())
                }
                _ => Err(17),
            },
            Action::Idle => Ok(()),
            Action::Build => self.build(),
            Action::File { j, k, length, at } => self.file(j, k, length, at),
        }
    }

    fn submit(&mut self, request: u32) -> Result<(), u32> {
        if self.was_submitted(request) {
            return Err(11);
        }
        if self.submitted == SUBMISSIONS {
            return Err(12);
        }
        self.requests[self.submitted] = request;
        self.ticks[self.submitted] = self.clock;
        self.submitted += 1;
        let leader = &mut self.replicas[self.kit.leader];
        if leader.condition == Condition::Running {
            leader.noted[leader.count] = request;
            leader.count += 1;
            self.issue(self.kit.leader, AG, Content::Prepare(request));
        }
        Ok(())
    }

    fn forge(&mut self, x: usize, name: usize, content: Content) -> Result<(), u32> {
        if self.replicas[x].condition != Condition::Faulty {
            return Err(13);
        }
        if let Content::History(h) | Content::Switch(h) = content {
            if h as usize >= self.histories {
                return Err(21);
            }
        }
        if self.counters[x][name].total == PLACES {
            return Err(14);
        }
        self.issue(x, name, content);
        Ok(())
    }

    fn deliver(&mut self, sender: usize, name: usize, value: usize, to: usize) -> Result<(), u32> {
        let p = &self.replicas[to];
        if p.condition == Condition::Faulty {
            return Err(16);
        }
        let content = self.issued(sender, name, value).ok_or(15u32)?;
        if p.condition == Condition::Closed || p.condition == Condition::Halted && name != SW {
            return Err(17);
        }
        if name == SW && p.held.is_none() {
            return Err(18);
        }
        let (from, receiver) = (self.kit.is_active(sender), self.kit.is_active(to));
        if sender == to || name != SW && !from || name == AG && !receiver || name == UP && receiver {
            return Err(20);
        }
        if value != p.accepted[sender][name] as usize + 1 {
            return Err(19);
        }
        match name {
            AG => self.deliver_ag(sender, value, to, content),
            UP => self.deliver_up(sender, value, to, content),
            _ => self.deliver_sw(sender, value, to, content),
        }
    }

    fn deliver_ag(&mut self, sender: usize, value: usize, to: usize, content: Content) -> Result<(), u32> {
        let before = self.settled(to);
        let p = &mut self.replicas[to];
        if sender == self.kit.leader {
            let Content::Prepare(request) = content else { return Err(21) };
            if !self.requests[..self.submitted].contains(&request) || p.noted[..p.count].contains(&request) {
                return Err(21);
            }
            p.noted[p.count] = request;
            p.count += 1;
            p.accepted[sender][AG] = value as u32;
            self.issue(to, AG, Content::Commit(request, value as u32));
        } else {
            if value > p.count || content != Content::Commit(p.noted[value - 1], value as u32) {
                return Err(21);
            }
            p.accepted[sender][AG] = value as u32;
        }
        if self.settled(to) > before {
            let p = &mut self.replicas[to];
            let request = p.noted[before];
            p.mark = p.mark.wrapping_add(p.mark).wrapping_add(request);
            let mark = p.mark;
            self.issue(to, UP, Content::Update(request, mark));
        }
        Ok(())
    }

    fn deliver_up(&mut self, sender: usize, value: usize, to: usize, content: Content) -> Result<(), u32> {
        let Content::Update(request, mark) = content else { return Err(21) };
        let p = &mut self.replicas[to];
        if value <= p.count {
            if p.noted[value - 1] != request || p.marks[value - 1] != mark {
                return Err(21);
            }
        } else {
            if !self.requests[..self.submitted].contains(&request) || p.noted[..p.count].contains(&request) {
                return Err(21);
            }
            p.noted[p.count] = request;
            p.marks[p.count] = mark;
            p.count += 1;
        }
        p.accepted[sender][UP] = value as u32;
        let c = self.settled(to);
        let p = &mut self.replicas[to];
        p.mark = if c == 0 { 0 } else { p.marks[c - 1] };
        Ok(())
    }

    fn deliver_sw(&mut self, sender: usize, value: usize, to: usize, content: Content) -> Result<(), u32> {
        let p = &mut self.replicas[to];
        let h = p.held.ok_or(18u32)?;
        if content != Content::Switch(h as u32) {
            return Err(21);
        }
        p.accepted[sender][SW] = value as u32;
        if p.accepted.iter().filter(|a| a[SW] > 0).count() >= self.kit.f {
            let history = &self.history[h];
            p.condition = Condition::Closed;
            p.mark = mark_of(&history.list[..history.length]);
        }
        Ok(())
    }

    fn build(&mut self) -> Result<(), u32> {
        let s = self.kit.switch_leader;
        let p = &self.replicas[s];
        if p.held.is_some() || p.condition == Condition::Faulty || p.condition == Condition::Running {
            return Err(24);
        }
        let mut history = History { j: self.settled(s), k: self.counters[s][AG].total, length: p.count, list: p.noted };
        for &r in &self.requests[..self.submitted] {
            if !p.noted[..p.count].contains(&r) {
                history.list[history.length] = r;
                history.length += 1;
            }
        }
        let h = self.histories;
        self.history[h] = history;
        self.histories += 1;
        self.replicas[s].held = Some(h);
        self.issue(s, AG, Content::History(h as u32));
        self.issue(s, UP, Content::History(h as u32));
        self.issue(s, SW, Content::Switch(h as u32));
        Ok(())
    }

    fn hand(&mut self, ag: usize, up: usize, to: usize) -> Result<(), u32> {
        let s = self.kit.switch_leader;
        let p = &self.replicas[to];
        if p.condition == Condition::Faulty {
            return Err(16);
        }
        let (on_ag, on_up) = (self.issued(s, AG, ag).ok_or(15u32)?, self.issued(s, UP, up).ok_or(15u32)?);
        if p.held.is_some() || p.condition == Condition::Closed {
            return Err(17);
        }
        if p.condition == Condition::Running {
            return Err(18);
        }
        if to == s {
            return Err(20);
        }
        match on_ag {
            Content::History(h) if on_ag == on_up && self.is_valid(h as usize, ag, up) => {
                self.replicas[to].held = Some(h as usize);
                self.issue(to, SW, Content::Switch(h));
                Ok(())
            }
            _ => Err(22),
        }
    }

    fn is_valid(&self, h: usize, ag: usize, up: usize) -> bool {
        let (s, leader) = (self.kit.switch_leader, self.kit.leader);
        let History { j, k, length, list } = &self.history[h];
        let list = &list[..*length];
        if ag != k + 1 || up != j + 1 {
            return false;
        }
        let mut mark = 0u32;
        for (i, &r) in list.iter().enumerate() {
            let value = i + 1;
            let commit = Some(Content::Commit(r, value as u32));
            mark = mark.wrapping_add(mark).wrapping_add(r);
            let committed =
                value > *k || self.issued(s, AG, value) == commit && self.issued(leader, AG, value) == Some(Content::Prepare(r));
            let settled = value > *j
                || self.issued(s, UP, value) == Some(Content::Update(r, mark))
                    && self.kit.actives().all(|y| y == s || y == leader || self.issued(y, AG, value) == commit);
            if !committed || !settled || !self.was_submitted(r) || list[..i].contains(&r) {
                return false;
            }
        }
        true
    }

    fn file(&mut self, j: usize, k: usize, length: usize, at: usize) -> Result<(), u32> {
        if self.filed == FILED {
            return Err(23);
        }
        let history = &mut self.history[self.histories];
        (history.j, history.k, history.length) = (j, k, length);
        let mut s = Cursor { bytes: self.bytes, at };
        for place in &mut history.list[..length] {
            *place = s.number().unwrap_or(0);
        }
        self.filed += 1;
        self.histories += 1;
        Ok(())
    }

    fn list(&self, x: usize) -> &[u32] {
        let p = &self.replicas[x];
        match (p.condition, p.held) {
            (Condition::Faulty, _) => &[],
            (Condition::Closed, Some(h)) => &self.history[h].list[..self.history[h].length],
            _ => &p.noted[..self.settled(x)],
        }
    }
}

fn mark_of(list: &[u32]) -> u32 {
    list.iter().fold(0, |m: u32, &r| m.wrapping_add(m).wrapping_add(r))
}

// ---- playing and printing

/// Plays a kit and tells each event's clock and answer; gives the room at the end.
fn played(bytes: &[u8], settings: Settings, mut tell: impl FnMut(u64, u32)) -> Room<'_> {
    let mut room = Room::new(settings, bytes);
    let mut s = Cursor { bytes, at: settings.first };
    for _ in 0..settings.events {
        let Ok((gap, action)) = s.event(settings.size as u32) else { break };
        room.tick(gap);
        let answer = room.act(action).err().unwrap_or(0);
        tell(room.clock, answer);
    }
    room
}

/// Reads and plays without printing: the sum of the answers, or the kit number.
pub fn play(bytes: &[u8]) -> Result<u64, u8> {
    let settings = settings(bytes)?;
    let mut sum = 0;
    let room = played(bytes, settings, |_, answer| sum += u64::from(answer));
    Ok(sum + room.clock)
}

fn decimal(out: &mut Vec<u8>, mut n: u64) {
    let mut digits = [0; 20];
    let mut at = 20;
    loop {
        at -= 1;
        digits[at] = b'0' + (n % 10) as u8;
        n /= 10;
        if n == 0 {
            break;
        }
    }
    out.extend_from_slice(&digits[at..]);
}

/// The printed play.
pub fn play_text(bytes: &[u8]) -> Vec<u8> {
    let mut out = Vec::with_capacity(16 * bytes.len().min(8 * EVENTS as usize) / 4 + 4000);
    let settings = match settings(bytes) {
        Ok(settings) => settings,
        Err(number) => {
            out.extend_from_slice(b"kit ");
            decimal(&mut out, u64::from(number));
            out.push(b'\n');
            return out;
        }
    };
    let mut i = 0;
    let room = played(bytes, settings, |clock, answer| {
        i += 1;
        for (n, end) in [(i, b' '), (clock, b' '), (u64::from(answer), b'\n')] {
            decimal(&mut out, n);
            out.push(end);
        }
    });
    for x in 0..settings.size {
        replica_line(&mut out, &room, x);
    }
    out.extend_from_slice(b"late ");
    match room.late {
        Some(tick) => decimal(&mut out, tick),
        None => out.extend_from_slice(b"none"),
    }
    out.push(b'\n');
    out
}

fn replica_line(out: &mut Vec<u8>, room: &Room, x: usize) {
    let p = &room.replicas[x];
    let list = room.list(x);
    out.extend_from_slice(b"replica ");
    decimal(out, x as u64);
    out.extend_from_slice(match p.condition {
        Condition::Running => b" running ",
        Condition::Halted => b" halted ",
        Condition::Closed => b" closed ",
        Condition::Faulty => b" faulty ",
    });
    decimal(out, list.len() as u64);
    out.push(b' ');
    decimal(out, u64::from(p.mark));
    for &r in list {
        out.push(b' ');
        decimal(out, u64::from(r));
    }
    out.push(b'\n');
}
