//! Kits with something wrong in their bytes.

use super::protocol;
use crate::kit::{self, spell};
use crate::random::Random;

/// Numbers at the edge of some range of document 01.
const EDGES: [u32; 26] = [
    0,
    1,
    2,
    3,
    4,
    5,
    6,
    7,
    8,
    9,
    63,
    64,
    65,
    95,
    96,
    97,
    127,
    128,
    4095,
    4096,
    4097,
    (1 << 28) - 1,
    1 << 28,
    (1 << 28) + 1,
    1 << 31,
    u32::MAX,
];

/// A small kit's numbers, damaged once or twice on the way to its bytes.
pub fn bytes(random: &mut Random) -> Vec<u8> {
    let mut kit = protocol::kit(random);
    kit.events.truncate(random.below(25));
    let mut numbers = kit::numbers(&kit);
    if random.once_in(3) {
        let at = random.below(numbers.len());
        numbers[at] = random.pick(&EDGES);
    }
    let mut bytes = match random.below(6) {
        0 => misspelled(&numbers, random.below(numbers.len()), random.below(5)),
        _ => kit::spell_all(&numbers),
    };
    match random.below(7) {
        0 | 1 => bytes.truncate(random.below(bytes.len() + 1)),
        2 => {
            let at = random.below(bytes.len());
            bytes[at] = random.bits() as u8;
        }
        3 => {
            let at = random.below(bytes.len());
            bytes[at] ^= 1 << random.below(8);
        }
        4 => (0..1 + random.below(6)).for_each(|_| bytes.push(random.bits() as u8)),
        5 => {
            bytes.remove(random.below(bytes.len()));
        }
        _ => bytes.insert(random.below(bytes.len() + 1), random.bits() as u8),
    }
    bytes
}

/// The numbers' bytes, with one number misspelled.
fn misspelled(numbers: &[u32], wrong: usize, way: usize) -> Vec<u8> {
    let mut out = Vec::new();
    for (i, &n) in numbers.iter().enumerate() {
        spell(n, &mut out);
        if i == wrong {
            let last = out.len() - 1;
            match way {
                // not shortest: groups of zero at the end
                0 | 1 => {
                    out[last] |= 0x80;
                    out.resize(out.len() + way, 0x80);
                    out.push(0);
                }
                // a fifth group that is too large, one that goes on, a sixth group
                _ => {
                    out[last] |= 0x80;
                    while out.len() < last + 5 {
                        out.push(0x80);
                    }
                    out.pop();
                    out.extend([[0x10, 0], [0x8f, 0x01], [0xff, 0x00]][way - 2]);
                }
            }
        }
    }
    out
}

/// A kit that has each kind of event.
pub fn sample() -> Vec<u32> {
    let mut numbers = vec![2, 1, 300, 1, 3, 0, 1, 2];
    let events: [&[u32]; 12] = [
        &[0, 1, 7],
        &[3, 1, 4_000_000_000],
        &[0, 2, 1, 0, 1, 7, 0],
        &[5, 2, 4, 2, 2, 9, 300],
        &[0, 2, 1, 1, 3, 7, u32::MAX],
        &[0, 3, 1, 0, 1, 0],
        &[200, 3, 0, 0, 1, 3],
        &[0, 5, 0],
        &[1, 7],
        &[0, 4, 2, 1, 3],
        &[70_000, 6],
        &[0, 8, 1, 2, 1, 7, 4_000_000_000, 5],
    ];
    numbers.push(events.len() as u32);
    events.iter().for_each(|e| numbers.extend_from_slice(e));
    numbers
}

/// The sample cut at every length, with each byte flipped, each number misspelled in every way, each at every edge, and more after it.
pub fn every() -> Vec<Vec<u8>> {
    let numbers = sample();
    let good = kit::spell_all(&numbers);
    let mut all: Vec<Vec<u8>> = (0..=good.len()).map(|n| good[..n].to_vec()).collect();
    for at in 0..good.len() {
        for bit in 0..8 {
            let mut bytes = good.clone();
            bytes[at] ^= 1 << bit;
            all.push(bytes);
        }
    }
    for at in 0..numbers.len() {
        all.extend((0..5).map(|way| misspelled(&numbers, at, way)));
        for edge in EDGES {
            let mut other = numbers.clone();
            other[at] = edge;
            all.push(kit::spell_all(&other));
            other.truncate(at + 1);
            all.push(kit::spell_all(&other));
        }
    }
    all.extend((0..=255).map(|extra| [good.as_slice(), &[extra]].concat()));
    all
}
