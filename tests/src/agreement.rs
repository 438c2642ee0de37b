//! Demand 3, run: of any two settled lists of correct replicas, at any two moments, one is a prefix of the other; a replica's list only
//! grows; no list repeats a request; each request was submitted by then.

use crate::play::Room;

pub struct Agreement {
    /// The longest settled list met: all others are prefixes of it.
    longest: Vec<u32>,
    /// How much each replica had settled.
    lengths: Vec<usize>,
}

impl Agreement {
    pub fn new(replicas: usize) -> Agreement {
        Agreement { longest: Vec::new(), lengths: vec![0; replicas] }
    }

    /// One replica's settled list at the next moment.
    pub fn take(&mut self, x: usize, list: &[u32], was_submitted: impl Fn(u32) -> bool) -> Result<(), String> {
        if list.len() < self.lengths[x] {
            return Err(format!("replica {x} had settled {}, now {}", self.lengths[x], list.len()));
        }
        let before = std::mem::replace(&mut self.lengths[x], list.len());
        let both = list.len().min(self.longest.len());
        if list[..both] != self.longest[..both] {
            return Err(format!("replica {x} settled {list:?}, another {:?}", self.longest));
        }
        for (i, r) in list.iter().enumerate().skip(both) {
            if list[..i].contains(r) {
                return Err(format!("replica {x} settled {r} twice"));
            }
            self.longest.push(*r);
        }
        match list[before..].iter().find(|&&r| !was_submitted(r)) {
            Some(r) => Err(format!("replica {x} settled {r}, which was not submitted")),
            None => Ok(()),
        }
    }

    /// All lists of the model's room.
    pub fn take_room(&mut self, room: &Room) -> Result<(), String> {
        (0..room.replicas.len()).try_for_each(|x| self.take(x, room.settled(x), |r| room.was_submitted(r)))
    }

    /// All lists of a printed room.
    pub fn take_text(&mut self, text: &str) -> Result<(), String> {
        let mut submitted: Vec<u32> = Vec::new();
        let mut replicas = 0;
        for line in text.lines() {
            let mut words = line.split(' ');
            match words.next() {
                Some("submitted") => {
                    for word in words {
                        let (r, _) = word.split_once('@').ok_or_else(|| format!("no submission: {word}"))?;
                        submitted.push(r.parse().map_err(|_| format!("no request: {r}"))?);
                    }
                }
                Some("replica") => {
                    let list = line.rsplit_once(" list=").ok_or_else(|| format!("no list: {line}"))?.1;
                    let list: Result<Vec<u32>, _> = list.split(',').filter(|r| *r != "-").map(str::parse).collect();
                    let list = list.map_err(|_| format!("no list: {line}"))?;
                    self.take(replicas, &list, |r| submitted.contains(&r))?;
                    replicas += 1;
                }
                _ => {}
            }
        }
        if replicas == self.lengths.len() {
            Ok(())
        } else {
            Err(format!("{replicas} replicas printed"))
        }
    }
}
