//! compare N [SEED]: so many kits, each played by the model and by what is held against it, byte for byte.
//!
//! Held against the model: the programs that KITPLAY and KITROOM name (or --kitplay PATH, --kitroom PATH), on every M-th kit
//! (--every M), and, built with the feature `library`, the library. Every kit is also checked for demand 3 at every moment, and, with its idle
//! time cut, joined, and an idle of 0 put in and taken out, for what L9 says of the two kits, and with two deliveries exchanged for what L11 says;
//! and for what L12 says, with the history that event 7 built, one of the kit or one put in, handed at every later moment. One kit of each is then
//! played like the others.
//! --from NUMBER starts at that kit. A kit on which two differ is made as short as it can be and put into target/differences.
//! The report counts what was met; a run that did not meet everything fails.

use model::believed;
use model::exchange;
use model::generator;
use model::idle;
use model::kit::{self, Kit};
use model::print::{self, kitplay, kitroom, INPUT};
use model::programs::Programs;
use model::random::Random;
use model::tally::Tally;
use model::tuned;
use std::fmt::Debug;
use std::process::ExitCode;

struct Options {
    kits: u64,
    seed: u64,
    from: u64,
    every: u64,
    programs: Programs,
}

fn options() -> Result<Options, String> {
    let mut plain = Vec::new();
    let programs = Programs { kitplay: std::env::var("KITPLAY").ok(), kitroom: std::env::var("KITROOM").ok() };
    let mut options = Options { kits: 0, seed: 1, from: 0, every: 1, programs };
    let mut words = std::env::args().skip(1);
    while let Some(word) = words.next() {
        let mut value = || words.next().ok_or(format!("{word} wants a value"));
        let number = |text: String| text.parse::<u64>().map_err(|_| format!("{text} is no number"));
        match word.as_str() {
            "--kitplay" => options.programs.kitplay = Some(value()?),
            "--kitroom" => options.programs.kitroom = Some(value()?),
            "--every" => options.every = number(value()?)?.max(1),
            "--from" => options.from = number(value()?)?,
            _ => plain.push(number(word.clone())?),
        }
    }
    match plain[..] {
        [kits] => options.kits = kits,
        [kits, seed] => (options.kits, options.seed) = (kits, seed),
        _ => return Err("compare N [SEED] [--kitplay PATH] [--kitroom PATH] [--every M] [--from NUMBER]".to_string()),
    }
    Ok(options)
}

fn main() -> ExitCode {
    let options = match options() {
        Ok(options) => options,
        Err(what) => {
            eprintln!("{what}");
            return ExitCode::FAILURE;
        }
    };
    let fixed = if options.from == 0 { generator::fixed() } else { Vec::new() };
    let mut run = Run {
        options,
        tally: Tally::default(),
        differences: 0,
        breaches: 0,
        breaches_of_l9: 0,
        breaches_of_l11: 0,
        breaches_of_l12: 0,
    };
    for (i, bytes) in fixed.iter().enumerate() {
        run.take(format!("fixed-{i}"), bytes, i as u64);
        run.edit(format!("fixed-{i}"), bytes, i as u64);
        run.exchange(format!("fixed-{i}"), bytes, i as u64);
        run.believe(format!("fixed-{i}"), bytes, i as u64);
    }
    for number in run.options.from..run.options.from + run.options.kits {
        let (seed, bytes) = (run.options.seed, generator::kit_bytes(run.options.seed, number));
        run.count(&format!("{seed}-{number}"), &bytes);
        run.take(format!("{seed}-{number}"), &bytes, number);
        run.edit(format!("{seed}-{number}"), &bytes, number);
        run.exchange(format!("{seed}-{number}"), &bytes, number);
        run.believe(format!("{seed}-{number}"), &bytes, number);
    }
    run.verdict(fixed.len())
}

struct Run {
    options: Options,
    tally: Tally,
    differences: usize,
    breaches: usize,
    breaches_of_l9: usize,
    breaches_of_l11: usize,
    breaches_of_l12: usize,
}

impl Run {
    /// Holds all against the model on this kit, the programs on every M-th.
    fn take(&mut self, name: String, bytes: &[u8], number: u64) {
        let none = Programs::default();
        let programs = if number.is_multiple_of(self.options.every) { &self.options.programs } else { &none };
        if self.differences < 10 {
            if let Err(what) = compare(bytes, programs) {
                self.differences += 1;
                report_difference(&name, bytes, &what, programs);
            }
        }
    }

    /// Counts what the kit meets, and looks for breaches of demand 3.
    fn count(&mut self, name: &str, bytes: &[u8]) {
        let kit = kit::read(bytes);
        let number = if bytes.len() > INPUT { 9 } else { kit.as_ref().err().copied().unwrap_or(0) };
        if let Err(what) = self.tally.take(number, kit.ok().as_ref()) {
            self.breaches += 1;
            println!("kit {name}, demand 3: {what}");
        }
    }

    /// Edits the kit's idle time: the kit that is made is to play as this one does, but for one event. One such kit is then taken as the others are.
    fn edit(&mut self, name: String, bytes: &[u8], number: u64) {
        let Ok(kit) = kit::read(bytes) else { return };
        let mut random = Random::new(self.options.seed.wrapping_mul(0x1_0000_0003).wrapping_add(number));
        let pairs = idle::edits(&kit, &mut random);
        let mut verdicts: Vec<(String, Result<(), String>)> =
            pairs.iter().map(|pair| (format!("{} at place {}", pair.edit, pair.at), self.tally.edited(pair))).collect();
        verdicts.push(("idles: a sum past 2^28-1".to_string(), self.tally.joined_too_long(&kit)));
        for (edit, verdict) in verdicts {
            if let Err(what) = verdict {
                self.breaches_of_l9 += 1;
                println!("kit {name}, {edit}: {what}");
            }
        }
        let made: Vec<Vec<u8>> =
            pairs.iter().map(|pair| kit::bytes(if pair.longer_is_new { &pair.kit } else { &pair.less })).collect();
        self.take(format!("{name}-edited"), &made[random.below(made.len())], number);
    }

    /// Exchanges two deliveries of the kit, one of them put in or none: the two kits are to play alike, but where the first issues what the second
    /// delivers: there the second is to be refused when it comes first. One such kit is then taken as the others are.
    fn exchange(&mut self, name: String, bytes: &[u8], number: u64) {
        let Ok(kit) = kit::read(bytes) else { return };
        let mut random = Random::new(self.options.seed.wrapping_mul(0x1_0000_0005).wrapping_add(number));
        let pairs = exchange::exchanges(&kit, &mut random);
        for pair in &pairs {
            if let Err(what) = self.tally.exchanged(pair) {
                self.breaches_of_l11 += 1;
                let two = &pair.kit.events[pair.at..pair.at + 2];
                println!("kit {name}, at place {}, {:?} and {:?}: {what}", pair.at, two[0].action, two[1].action);
            }
        }
        if !pairs.is_empty() {
            let made = kit::bytes(&pairs[random.below(pairs.len())].exchanged);
            self.take(format!("{name}-exchanged"), &made, number);
        }
    }

    /// Hands the history that event 7 built, one of the kit or one put in, at every later moment to each correct replica that holds none: the hand is
    /// to be answered 0, and no correct replica is to hold another history. The kit with one such hand put in is then taken as the others are.
    fn believe(&mut self, name: String, bytes: &[u8], number: u64) {
        let Ok(kit) = kit::read(bytes) else { return };
        let mut random = Random::new(self.options.seed.wrapping_mul(0x1_0000_0007).wrapping_add(number));
        for trial in &believed::trials(&kit, &mut random) {
            if let Err(what) = self.tally.believed(trial, &mut random) {
                self.breaches_of_l12 += 1;
                println!("kit {name}, {}: {what}", trial.event_7());
            }
            if let Some(handed) = &trial.handed {
                self.take(format!("{name}-handed"), &kit::bytes(&handed.kit), number);
            }
        }
    }

    fn verdict(&self, fixed: usize) -> ExitCode {
        print!("{}", self.tally.report());
        let missing = if self.options.from == 0 { self.tally.missing() } else { Vec::new() };
        for what in &missing {
            println!("never met: {what}");
        }
        println!(
            "{fixed} fixed kits and {} others of seed {}: {} differences, {} breaches of demand 3, {} of L9, {} of L11, {} of L12, {} cases not met",
            self.tally.kits,
            self.options.seed,
            self.differences,
            self.breaches,
            self.breaches_of_l9,
            self.breaches_of_l11,
            self.breaches_of_l12,
            missing.len()
        );
        let breaches = self.breaches + self.breaches_of_l9 + self.breaches_of_l11 + self.breaches_of_l12;
        if self.differences + breaches + missing.len() == 0 {
            ExitCode::SUCCESS
        } else {
            ExitCode::FAILURE
        }
    }
}

// ---- one kit

fn same<T: PartialEq + Debug>(what: &str, wanted: T, got: T) -> Result<(), String> {
    if wanted == got {
        Ok(())
    } else {
        Err(format!("{what}\n  the model: {wanted:?}\n  the other: {got:?}"))
    }
}

/// The first line that differs.
fn same_text(what: &str, wanted: &str, got: &str) -> Result<(), String> {
    if wanted == got {
        return Ok(());
    }
    let (mut a, mut b) = (wanted.split_inclusive('\n'), got.split_inclusive('\n'));
    let first = (1..).map(|i| (i, a.next(), b.next())).find(|(_, a, b)| a != b).expect("two texts that differ");
    Err(format!("{what}, line {}\n  the model: {:?}\n  the other: {:?}", first.0, first.1, first.2))
}

/// The first difference on this kit.
fn compare(bytes: &[u8], programs: &Programs) -> Result<(), String> {
    let kit = kit::read(bytes);
    own_writer(bytes, &kit)?;
    same_text("the tuned player", &print::play_text(bytes), &String::from_utf8_lossy(&tuned::play_text(bytes)))?;
    let moments = moments(bytes, kit.as_ref().map_or(0, |kit| kit.events.len()));
    if let Some(text) = programs.play(bytes) {
        same_text("kitplay", &kitplay(bytes), &text?)?;
    }
    for n in moments.iter().map(|&n| Some(n)).chain([None]) {
        if let Some(text) = programs.room(bytes, n) {
            same_text(&format!("kitroom {n:?}"), &kitroom(bytes, n), &text?)?;
        }
    }
    #[cfg(feature = "library")]
    library::compare(bytes, &kit, &moments)?;
    Ok(())
}

/// Moments at which the room is looked at: the first and the last, one past the end, and some between.
fn moments(bytes: &[u8], events: usize) -> Vec<usize> {
    let mut random = Random::new(bytes.len() as u64);
    let mut all = vec![0, random.below(events + 1), random.below(events + 1), events, events + 1];
    all.sort_unstable();
    all.dedup();
    all
}

/// The model's own reader and writer undo each other, and a kit has one spelling.
fn own_writer(bytes: &[u8], kit: &Result<Kit, u8>) -> Result<(), String> {
    let Ok(kit) = kit else { return Ok(()) };
    same("the model's spelling", bytes, &kit::bytes(kit))?;
    same("the model's kit of numbers", Ok(kit), kit::of_numbers(&kit::numbers(kit)).as_ref())
}

#[cfg(feature = "library")]
mod library {
    use super::{same, same_text};
    use model::agreement::Agreement;
    use model::kit::{self, Kit};
    use model::library::{kit_number, plain_room_text, play_text, read_kit, room_text, write_kit, REFUSES_LONG_KITS};
    use model::print;

    pub fn compare(bytes: &[u8], kit: &Result<Kit, u8>, moments: &[usize]) -> Result<(), String> {
        let number = kit.as_ref().map_or_else(|&number| u32::from(number), |_| 0);
        same("the library's kit number", number, kit_number(bytes)?)?;
        let limited = |text: String| if REFUSES_LONG_KITS && bytes.len() > print::INPUT { "kit 9\n".to_string() } else { text };
        let play = limited(print::play_text(bytes));
        texts("the library's play", &play, |room| play_text(bytes, room))?;
        for &n in moments {
            let room = limited(print::room_text(bytes, Some(n)));
            texts(&format!("the library's room after {n}"), &room, |size| room_text(bytes, n, size))?;
        }
        writer(&kit::spelled(bytes))?;
        reader(bytes, kit)?;
        kit.as_ref().map_or(Ok(()), |kit| agreement(bytes, kit))
    }

    /// A text in a buffer with room to spare, in one of its length, and in one that is a byte too short.
    fn texts(what: &str, wanted: &str, text: impl Fn(usize) -> Result<Vec<u8>, String>) -> Result<(), String> {
        let length = wanted.len();
        for room in [length + 1000, length, length.saturating_sub(1)] {
            let fits = &wanted[..length.min(room)];
            same_text(&format!("{what}, in {room} bytes"), fits, &String::from_utf8_lossy(&text(room)?))?;
        }
        Ok(())
    }

    /// Numbers written into buffers that are large enough, just so, and one byte too short.
    fn writer(numbers: &[u32]) -> Result<(), String> {
        let length = kit::spell_all(numbers).len();
        for room in [length + 9, length, length.saturating_sub(1), 0] {
            let mut out = vec![0; room];
            let wanted = kit::write(numbers, &mut out).map(|count| out[..count].to_vec());
            same(&format!("the library's writer, into {room} bytes"), wanted, write_kit(numbers, room)?)?;
        }
        Ok(())
    }

    /// Numbers read into buffers that are large enough, just so, and one place too short.
    fn reader(bytes: &[u8], kit: &Result<Kit, u8>) -> Result<(), String> {
        let wanted = kit.as_ref().map(kit::numbers).map_err(|&number| number);
        let length = wanted.as_ref().map_or(3, Vec::len);
        same("the library's reader", wanted.clone(), read_kit(bytes, length + 9)?)?;
        same("the library's reader, just so", wanted.clone(), read_kit(bytes, length)?)?;
        let short = wanted.and(Err(6));
        same("the library's reader, too short", short, read_kit(bytes, length - 1)?)
    }

    /// Demand 3 on the library's printed rooms: at every moment of a kit of up to 199 events, at 100 and more of a longer one.
    fn agreement(bytes: &[u8], kit: &Kit) -> Result<(), String> {
        let mut agreement = Agreement::new(kit.table.len());
        let step = kit.events.len() / 200 + 1;
        let mut out = vec![0; 1 << 17];
        for n in (0..=kit.events.len()).step_by(step) {
            let count = plain_room_text(bytes, n, &mut out);
            let text = out.get(..count).ok_or("a room of more than 2^17 bytes")?;
            let told = |e: String| format!("demand 3 on the library's room after {n}: {e}");
            agreement.take_text(&String::from_utf8_lossy(text)).map_err(told)?;
        }
        Ok(())
    }
}

// ---- a difference

fn report_difference(name: &str, bytes: &[u8], what: &str, programs: &Programs) {
    let short = shortened(bytes, |bytes| compare(bytes, programs).is_err());
    let what = compare(&short, programs).err().unwrap_or(what.to_string());
    let path = std::path::Path::new("target/differences");
    let file = path.join(format!("{name}.kit"));
    let saved = std::fs::create_dir_all(path).and_then(|()| std::fs::write(&file, &short));
    let place = saved.map_or_else(|e| format!("not saved: {e}"), |()| file.display().to_string());
    println!("kit {name} ({} bytes, shortened to {}; {place}): {what}", bytes.len(), short.len());
}

/// The kit with as few events as still make the two differ.
fn shortened(bytes: &[u8], differs: impl Fn(&[u8]) -> bool) -> Vec<u8> {
    let Ok(mut kit) = kit::read(bytes) else { return bytes.to_vec() };
    let mut size = kit.events.len().div_ceil(2).max(1);
    let mut tries = 3000;
    while tries > 0 {
        let mut at = 0;
        let before = kit.events.len();
        while at < kit.events.len() && tries > 0 {
            tries -= 1;
            let mut other = kit.clone();
            other.events.drain(at..(at + size).min(kit.events.len()));
            if differs(&kit::bytes(&other)) {
                kit = other
            } else {
                at += size
            }
        }
        if size == 1 && before == kit.events.len() {
            break;
        }
        size = (size / 2).max(1);
    }
    kit::bytes(&kit)
}
