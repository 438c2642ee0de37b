//! How often each kit number, each answer, each condition and each case was met.

use crate::agreement::Agreement;
use crate::believed;
use crate::cases::{after_the_late_tick, clock, limits, refused, taken, Before, CASES};
use crate::exchange;
use crate::idle;
use crate::kit::{self, Kit};
use crate::play::{Condition, Room};
use crate::random::Random;
use std::collections::BTreeMap;
use std::fmt::Write;

const KIT_NUMBERS: [usize; 8] = [0, 1, 2, 3, 4, 5, 6, 9];
const ANSWERS: [usize; 15] = [0, 11, 12, 13, 14, 15, 16, 17, 18, 19, 20, 21, 22, 23, 24];
const CONDITIONS: [Condition; 4] = [Condition::Running, Condition::Halted, Condition::Closed, Condition::Faulty];

/// Every case that a run has to meet.
fn all_cases() -> impl Iterator<Item = &'static str> {
    CASES.iter().chain(idle::CASES).chain(exchange::CASES).chain(believed::CASES).copied()
}

#[derive(Default)]
pub struct Tally {
    pub kits: u64,
    pub events: u64,
    pub edits: u64,
    pub exchanges: u64,
    pub built: u64,
    kit_numbers: [u64; 10],
    answers: [u64; 25],
    conditions: [u64; 4],
    cases: BTreeMap<&'static str, u64>,
}

impl Tally {
    /// Counts a kit that was given this number, and plays it if that is 0. Gives the first breach of demand 3, if there is one.
    pub fn take(&mut self, number: u8, kit: Option<&Kit>) -> Result<(), String> {
        self.kits += 1;
        self.kit_numbers[number as usize] += 1;
        // 6 is the writer's: a buffer that is one byte too short
        if let Some(kit) = kit {
            let mut short = vec![0; kit::bytes(kit).len() - 1];
            if let Err(number) = kit::write(&kit::numbers(kit), &mut short) {
                self.kit_numbers[number as usize] += 1;
            }
        }
        kit.map_or(Ok(()), |kit| self.play(kit))
    }

    fn play(&mut self, kit: &Kit) -> Result<(), String> {
        let mut room = Room::new(kit);
        let mut agreement = Agreement::new(room.replicas.len());
        let mut verdict = Ok(());
        let mut running = Vec::new();
        for (i, event) in kit.events.iter().enumerate() {
            let before = Before::new(&room, &event.action);
            let answer = room.step(event);
            self.events += 1;
            self.answers[answer as usize] += 1;
            let mut meet = |case| *self.cases.entry(case).or_insert(0) += 1;
            match answer {
                0 => taken(&room, &before, &event.action, &mut meet),
                _ => meet(refused(&room, &event.action, answer)),
            }
            clock(&room, &before, answer, &mut meet);
            if before.late.is_none() {
                running = before.running;
            }
            verdict = verdict.and_then(|()| agreement.take_room(&room).map_err(|e| format!("after event {}: {e}", i + 1)));
        }
        let mut meet = |case| *self.cases.entry(case).or_insert(0) += 1;
        limits(&room, &mut meet);
        after_the_late_tick(&room, &running, &mut meet);
        for p in &room.replicas {
            self.conditions[p.condition as usize] += 1;
        }
        verdict
    }

    /// Counts an edit of idle time. Gives the first thing in which the two kits differ though they should not, if there is one.
    pub fn edited(&mut self, pair: &idle::Pair) -> Result<(), String> {
        self.edits += 1;
        idle::check(pair, &mut |case| *self.cases.entry(case).or_insert(0) += 1)
    }

    /// Tries to join what is too long to be joined, if the kit has it.
    pub fn joined_too_long(&mut self, kit: &Kit) -> Result<(), String> {
        idle::check_long_sums(kit, &mut |case| *self.cases.entry(case).or_insert(0) += 1)
    }

    /// Counts an exchange of two deliveries. Gives the first thing in which the two kits differ though they should not, if there is one.
    pub fn exchanged(&mut self, pair: &exchange::Pair) -> Result<(), String> {
        self.exchanges += 1;
        exchange::check(pair, &mut |case| *self.cases.entry(case).or_insert(0) += 1)
    }

    /// Counts a history that event 7 built, if the kit has one. Gives the first thing that is not as L12 says, if there is one.
    pub fn believed(&mut self, trial: &believed::Trial, random: &mut Random) -> Result<(), String> {
        self.built += u64::from(trial.built_at.is_some());
        believed::check(trial, random, &mut |case| *self.cases.entry(case).or_insert(0) += 1)
    }

    fn rows(&self) -> Vec<(String, u64)> {
        let kits = KIT_NUMBERS.iter().map(|&n| (format!("kit {n}"), self.kit_numbers[n]));
        let answers = ANSWERS.iter().map(|&n| (format!("answer {n}"), self.answers[n]));
        let conditions = CONDITIONS.iter().map(|&c| (format!("condition {c:?}").to_lowercase(), self.conditions[c as usize]));
        let cases = all_cases().map(|c| (c.to_string(), self.cases.get(c).copied().unwrap_or(0)));
        kits.chain(answers).chain(conditions).chain(cases).collect()
    }

    /// What was never met.
    pub fn missing(&self) -> Vec<String> {
        assert!(self.cases.keys().all(|&case| all_cases().any(|c| c == case)), "a case that is not listed");
        self.rows().into_iter().filter(|row| row.1 == 0).map(|row| row.0).collect()
    }

    pub fn report(&self) -> String {
        let mut out = String::new();
        let Tally { kits, events, edits, exchanges, built, .. } = self;
        write!(out, "{kits} kits, {events} events, {edits} edits of idle time, ").unwrap();
        writeln!(out, "{exchanges} exchanges of two deliveries, {built} built histories handed").unwrap();
        for (name, count) in self.rows() {
            writeln!(out, "{count:>10}  {name}").unwrap();
        }
        out
    }
}
