//! A kit: its value, its bytes, its numbers.

/// What a certificate says.
#[derive(Clone, Copy, PartialEq, Eq, Debug)]
pub enum Content {
    Prepare(u32),
    Commit(u32, u32),
    Update(u32, u32),
    History(u32),
    Switch(u32),
}

impl Content {
    pub fn numbers(self) -> (u32, u32, u32) {
        match self {
            Content::Prepare(a) => (1, a, 0),
            Content::Commit(a, b) => (2, a, b),
            Content::Update(a, b) => (3, a, b),
            Content::History(a) => (4, a, 0),
            Content::Switch(a) => (5, a, 0),
        }
    }

    pub fn of(kind: u32, a: u32, b: u32) -> Option<Content> {
        Some(match (kind, b) {
            (1, 0) => Content::Prepare(a),
            (2, _) => Content::Commit(a, b),
            (3, _) => Content::Update(a, b),
            (4, 0) => Content::History(a),
            (5, 0) => Content::Switch(a),
            _ => return None,
        })
    }
}

#[derive(Clone, PartialEq, Eq, Debug)]
pub enum Action {
    Submit(u32),
    Issue { replica: usize, name: usize, content: Content },
    Deliver { sender: usize, name: usize, value: u32, to: usize },
    Hand { ag: u32, up: u32, to: usize },
    Panic(usize),
    Idle,
    Build,
    File { j: u32, k: u32, list: Vec<u32> },
}

#[derive(Clone, PartialEq, Eq, Debug)]
pub struct Event {
    pub gap: u32,
    pub action: Action,
}

#[derive(Clone, PartialEq, Eq, Debug)]
pub struct Kit {
    pub f: u32,
    pub leader: usize,
    pub patience: u32,
    pub table: Vec<u32>,
    pub events: Vec<Event>,
}

/// The most ticks of a patience or a gap.
pub const TICKS: u32 = (1 << 28) - 1;

/// The most events.
pub const EVENTS: u32 = 4096;

/// The most requests of a filed history.
pub const LISTED: u64 = 64;

// ---- where the numbers of a kit come from

/// A kit's numbers, one after the other, out of bytes or out of a list.
trait Numbers {
    /// The next number, or 1 (they end too soon) or 2 (it is misspelled).
    fn number(&mut self) -> Result<u32, u8>;

    fn is_over(&self) -> bool;

    /// The next number if it is good; if not, the fault.
    fn checked(&mut self, fault: u8, good: impl Fn(u32) -> bool) -> Result<u32, u8> {
        let n = self.number()?;
        if good(n) {
            Ok(n)
        } else {
            Err(fault)
        }
    }
}

struct Spelled<'a> {
    bytes: &'a [u8],
    at: usize,
}

impl Numbers for Spelled<'_> {
    fn number(&mut self) -> Result<u32, u8> {
        let mut value: u64 = 0;
        for group in 0..5 {
            let byte = *self.bytes.get(self.at).ok_or(1)?;
            self.at += 1;
            if group == 4 && byte > 0x0f {
                return Err(2);
            }
            value += u64::from(byte & 0x7f) << (7 * group);
            if byte < 0x80 {
                return if byte == 0 && group > 0 { Err(2) } else { Ok(value as u32) };
            }
        }
        unreachable!("a fifth byte above 0f was refused")
    }

    fn is_over(&self) -> bool {
        self.at == self.bytes.len()
    }
}

struct Listed<'a> {
    numbers: &'a [u32],
    at: usize,
}

impl Numbers for Listed<'_> {
    fn number(&mut self) -> Result<u32, u8> {
        let n = *self.numbers.get(self.at).ok_or(1)?;
        self.at += 1;
        Ok(n)
    }

    fn is_over(&self) -> bool {
        self.at == self.numbers.len()
    }
}

// ---- what is a kit

/// Reads a kit out of bytes: the kit, or its number 1 to 5.
pub fn read(bytes: &[u8]) -> Result<Kit, u8> {
    whole(&mut Spelled { bytes, at: 0 })
}

/// Reads a kit out of its numbers: the kit, or its number 1, 3, 4 or 5.
pub fn of_numbers(numbers: &[u32]) -> Result<Kit, u8> {
    whole(&mut Listed { numbers, at: 0 })
}

/// The numbers that bytes spell, as far as they spell any.
pub fn spelled(bytes: &[u8]) -> Vec<u32> {
    let mut s = Spelled { bytes, at: 0 };
    std::iter::from_fn(|| s.number().ok()).collect()
}

/// How many of a list's numbers are read before it is accepted or refused.
pub fn judged(numbers: &[u32]) -> usize {
    let mut s = Listed { numbers, at: 0 };
    let _ = whole(&mut s);
    s.at
}

fn whole(s: &mut impl Numbers) -> Result<Kit, u8> {
    let f = s.checked(3, |n| (1..=3).contains(&n))?;
    let size = 2 * f + 1;
    let leader = s.checked(3, |n| n < size)? as usize;
    let patience = s.checked(3, |n| (1..=TICKS).contains(&n))?;
    let mut table = Vec::with_capacity(size as usize);
    for _ in 0..size {
        table.push(s.checked(3, |n| n <= 3)?);
    }
    let active = table.iter().filter(|&&n| n & 1 == 1).count() as u32;
    let faulty = table.iter().filter(|&&n| n & 2 == 2).count() as u32;
    if active != f + 1 || faulty > f || table[leader] & 1 == 0 {
        return Err(3);
    }
    let count = s.checked(4, |n| n <= EVENTS)?;
    let mut events = Vec::with_capacity(count as usize);
    for _ in 0..count {
        let gap = s.checked(4, |n| n <= TICKS)?;
        let action = action(s, size)?;
        events.push(Event { gap, action });
    }
    if s.is_over() {
        Ok(Kit { f, leader, patience, table, events })
    } else {
        Err(5)
    }
}

fn action(s: &mut impl Numbers, size: u32) -> Result<Action, u8> {
    let kind = s.checked(4, |n| (1..=8).contains(&n))?;
    Ok(match kind {
        1 => Action::Submit(request(s)?),
        2 => issue(s, size)?,
        3 => {
            let (sender, name) = (replica(s, size)?, name(s)?);
            Action::Deliver { sender, name, value: s.number()?, to: replica(s, size)? }
        }
        4 => Action::Hand { ag: s.number()?, up: s.number()?, to: replica(s, size)? },
        5 => Action::Panic(replica(s, size)?),
        6 => Action::Idle,
        7 => Action::Build,
        _ => file(s)?,
    })
}

fn replica(s: &mut impl Numbers, size: u32) -> Result<usize, u8> {
    Ok(s.checked(4, |n| n < size)? as usize)
}

fn name(s: &mut impl Numbers) -> Result<usize, u8> {
    Ok(s.checked(4, |n| n <= 2)? as usize)
}

fn request(s: &mut impl Numbers) -> Result<u32, u8> {
    s.checked(4, |n| n != 0)
}

fn issue(s: &mut impl Numbers, size: u32) -> Result<Action, u8> {
    let (replica, name) = (replica(s, size)?, name(s)?);
    let kind = s.checked(4, |n| (1..=5).contains(&n))?;
    let (a, b) = (s.number()?, s.number()?);
    // no content: an unused b that is not 0
    let content = Content::of(kind, a, b).ok_or(4)?;
    Ok(Action::Issue { replica, name, content })
}

fn file(s: &mut impl Numbers) -> Result<Action, u8> {
    let j = s.number()?;
    let k = s.checked(4, |n| j <= n)?;
    let e = s.checked(4, |n| u64::from(k) + u64::from(n) <= LISTED)?;
    let list: Result<Vec<u32>, u8> = (0..k + e).map(|_| request(s)).collect();
    Ok(Action::File { j, k, list: list? })
}

// ---- numbers and bytes of a kit

/// A kit's numbers, in the order in which its bytes spell them.
pub fn numbers(kit: &Kit) -> Vec<u32> {
    let mut out = vec![kit.f, kit.leader as u32, kit.patience];
    out.extend(&kit.table);
    out.push(kit.events.len() as u32);
    for event in &kit.events {
        out.push(event.gap);
        match &event.action {
            Action::Submit(r) => out.extend([1, *r]),
            Action::Issue { replica, name, content } => {
                let (kind, a, b) = content.numbers();
                out.extend([2, *replica as u32, *name as u32, kind, a, b]);
            }
            Action::Deliver { sender, name, value, to } => out.extend([3, *sender as u32, *name as u32, *value, *to as u32]),
            Action::Hand { ag, up, to } => out.extend([4, *ag, *up, *to as u32]),
            Action::Panic(to) => out.extend([5, *to as u32]),
            Action::Idle => out.push(6),
            Action::Build => out.push(7),
            Action::File { j, k, list } => {
                out.extend([8, *j, *k, list.len() as u32 - k]);
                out.extend(list);
            }
        }
    }
    out
}

/// One number's bytes, at the end of others.
pub fn spell(mut n: u32, out: &mut Vec<u8>) {
    while n > 0x7f {
        out.push(n as u8 | 0x80);
        n >>= 7;
    }
    out.push(n as u8);
}

pub fn spell_all(numbers: &[u32]) -> Vec<u8> {
    let mut out = Vec::new();
    for &n in numbers {
        spell(n, &mut out);
    }
    out
}

/// The bytes of a good kit.
pub fn bytes(kit: &Kit) -> Vec<u8> {
    spell_all(&numbers(kit))
}

/// The writer: a kit's numbers into a lent buffer. Gives how many bytes it filled, or the kit's number; then no byte is changed.
pub fn write(numbers: &[u32], out: &mut [u8]) -> Result<usize, u8> {
    of_numbers(numbers)?;
    let bytes = spell_all(numbers);
    out.get_mut(..bytes.len()).ok_or(6)?.copy_from_slice(&bytes);
    Ok(bytes.len())
}
