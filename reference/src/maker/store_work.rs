//! Long work on a loose store, at every load.

use super::Lines;
use super::random::Random;

pub fn make(random: &mut Random, lines: &mut Lines) {
    let slots = match random.below(20) {
        0 => 0,
        1 => 1,
        2..=12 => random.between(2, 12),
        13..=17 => random.between(2, 60),
        18 => random.between(60, 400),
        _ => random.pick(&[65_535, 65_536, 65_537, 70_000]),
    };
    let mut work = Work::begin(random, lines, slots);
    let most = if slots > 400 { 100 } else { slots };
    for _ in 0..random.between(1, 6) {
        let load = match random.below(5) {
            0 => 0,
            1 => most,
            2 => most.saturating_sub(1),
            3 => most + 3,
            _ => random.below(most + 1),
        };
        for _ in 0..random.below(3 * most.min(60) + 10) {
            work.call(random, lines, load);
        }
    }
}

/// A store of the largest size, filled, emptied in part, and asked.
pub fn make_largest(random: &mut Random, lines: &mut Lines) {
    let slots = random.pick(&[65_536, 65_536, 65_537, 70_000]);
    let mut work = Work::begin(random, lines, slots);
    let first = random.pick(&[0, 0, 1, 65_536, 100_000]);
    for k in 0..65_537 {
        lines.add(format!("put {} code {k}", first + k));
    }
    for _ in 0..40 {
        work.call(random, lines, 65_536);
        let address = first + random.near(65_536);
        lines.add(format!("{} {address}", random.pick(&["get", "takes", "drop"])));
        lines.add(format!("put {} code 1", random.word()));
    }
}

struct Work {
    /// Addresses that are worked on, many of them with the same home.
    pool: Vec<u32>,
    /// How many are held, or were put at least.
    held: Vec<u32>,
}

impl Work {
    fn begin(random: &mut Random, lines: &mut Lines, slots: u32) -> Work {
        let make = random.pick(&["array", "hash", "hash"]);
        let base = match random.below(6) {
            0 => 0u32.wrapping_sub(random.between(1, 30)),
            1 => random.word(),
            _ => random.below(slots + 2),
        };
        let len = match random.below(5) {
            0 => u32::MAX,
            1 => random.word(),
            _ => random.below(3 * slots + 3),
        };
        if random.chance(40) {
            lines.add(format!("store window {base} {len} {make} {slots}"));
        } else {
            lines.add(format!("store {make} {slots}"));
        }
        let mut pool = Vec::new();
        let homes = random.between(1, 4);
        let size = slots.max(1);
        for _ in 0..2 * slots.min(400) + 6 {
            pool.push(match random.below(10) {
                0 => random.word(),
                1 => random.near(slots),
                2 => len.wrapping_sub(random.below(3)),
                3 => 0u32.wrapping_sub(base).wrapping_sub(random.below(4)),
                4..=6 => random.below(homes) + size.wrapping_mul(random.below(50)),
                _ => random.below(2 * size),
            });
        }
        Work { pool, held: Vec::new() }
    }

    /// One call that leads towards the load, or asks.
    fn call(&mut self, random: &mut Random, lines: &mut Lines, load: u32) {
        let address = random.pick(&self.pool);
        if random.chance(30) {
            lines.add(format!("{} {address}", random.pick(&["get", "takes"])));
        } else if random.chance(15) {
            lines.add(format!("drop {address}"));
            self.held.retain(|held| *held != address);
        } else if self.held.len() <= load as usize {
            if random.chance(50) {
                lines.add(format!("put {address} code {}", random.word()));
            } else {
                let low = random.below(65_536);
                let high = if random.chance(20) { 65_536 } else { random.between(low + 1, 65_536) };
                lines.add(format!("put {address} data {} {low} {high}", random.word()));
            }
            if !self.held.contains(&address) {
                self.held.push(address);
            }
        } else {
            let place = random.below(self.held.len() as u32) as usize;
            lines.add(format!("drop {}", self.held.swap_remove(place)));
        }
    }
}
