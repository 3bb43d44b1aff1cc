//! A maker of random scripts.

mod bad_lines;
mod body;
mod bounds;
mod damage;
mod module;
mod random;
mod session;
mod store_work;
mod types;

use random::Random;

/// A script of so many rounds; each is a module that is run, damaged images, store work or bad
/// lines.
pub fn script(seed: u64, rounds: u32) -> Vec<u8> {
    let mut random = Random::new(seed);
    let mut lines = Lines(format!("# seed {seed}, {rounds} rounds\n").into_bytes());
    for _ in 0..rounds {
        match random.below(100) {
            0..=64 => session::make(&mut random, &mut lines),
            65..=78 => damage::make(&mut random, &mut lines),
            79..=92 => store_work::make(&mut random, &mut lines),
            93 if random.chance(20) => store_work::make_largest(&mut random, &mut lines),
            _ => bad_lines::make(&mut random, &mut lines),
        }
    }
    if random.chance(20) {
        lines.0.pop();
    }
    lines.0
}

/// The lines of a script so far.
pub struct Lines(Vec<u8>);

impl Lines {
    fn add(&mut self, line: impl AsRef<[u8]>) {
        self.0.extend(line.as_ref());
        self.0.push(b'\n');
    }
}
