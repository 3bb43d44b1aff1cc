//! A module that is run: on stores of every kind, with the panel's writes in between.

use super::random::Random;
use super::{Lines, module};
use crate::image::Module;
use crate::script::hex;

pub fn make(random: &mut Random, lines: &mut Lines) {
    let module = module::draw(random);
    let image = module.image();
    lines.add(format!("image {}", hex(&image)));
    if random.chance(30) {
        lines.add("sensitive");
    }
    if random.chance(10) {
        lines.add(format!("write {}", image.len()));
    }
    if random.chance(2) {
        lines.add("begin");
    }
    for _ in 0..random.between(1, 3) {
        run(random, lines, &module);
    }
}

fn run(random: &mut Random, lines: &mut Lines, module: &Module) {
    lines.add(store(random, module.memory));
    if random.chance(8) {
        // Few slots, and one of them held by an address that the run doesn't have.
        lines.add(format!("store hash {}", random.between(1, 3)));
        lines.add(format!("put {} code 7", module.memory));
    }
    for _ in 0..if random.chance(50) { 0 } else { random.below(30) } {
        put(random, lines, module.memory);
    }
    lines.add("begin");
    if random.chance(5) {
        lines.add(random.pick(&["begin", "get 0", "put 0 code 0", "takes 0", "drop 0"]));
    }
    set_memory(random, lines, module);
    if random.chance(20) {
        lines.add(random.pick(&["status", "frames", "entries"]));
    }
    for _ in 0..random.between(1, 25) {
        act(random, lines, module);
    }
    for line in ["digest", "entries", "frames", "status"] {
        lines.add(line);
    }
    if random.chance(50) {
        lines.add(random.pick(&["step", "go 0", "go 5"]));
    }
}

fn act(random: &mut Random, lines: &mut Lines, module: &Module) {
    match random.below(100) {
        0..=29 => {
            for _ in 0..random.between(1, 6) {
                lines.add("step");
            }
        }
        30..=59 => {
            let most = match random.below(1_000) {
                0..=99 => 0,
                100..=599 => random.below(30),
                600..=994 => random.below(1_000),
                995..=997 => random.below(65_537),
                _ => 65_536,
            };
            lines.add(format!("go {most}"));
        }
        60..=79 => {
            for _ in 0..random.between(1, 5) {
                poke(random, lines, module);
            }
        }
        80..=84 => lines.add(format!("peek {}", address(random, module))),
        85..=87 => lines.add("digest"),
        88 | 89 => lines.add("status"),
        90..=92 => lines.add("frames"),
        93..=95 => lines.add("entries"),
        96 | 97 => {
            let wrong = match random.below(4) {
                0 => 0,
                1 => module.memory - 1,
                2 => module.memory + 1,
                _ => random.below(65_538),
            };
            lines.add(format!("memory {wrong}"));
            lines.add(random.pick(&["step", "go 0", "go 3"]));
            set_memory(random, lines, module);
        }
        98 => lines.add("image 00"),
        _ => set_memory(random, lines, module),
    }
}

fn set_memory(random: &mut Random, lines: &mut Lines, module: &Module) {
    lines.add(format!("memory {}", module.memory));
    if random.chance(60) {
        for _ in 0..random.below(20) {
            poke(random, lines, module);
        }
    }
}

fn poke(random: &mut Random, lines: &mut Lines, module: &Module) {
    let word = if random.chance(40) { random.below(module.memory) } else { random.word() };
    lines.add(format!("poke {} {word}", address(random, module)));
}

/// An address, often one of a global.
fn address(random: &mut Random, module: &Module) -> u32 {
    let globals = module.globals_room() as u32;
    match random.below(20) {
        0 => random.near(module.memory),
        1 => random.word(),
        2..=5 => random.below(module.memory),
        _ => random.below(globals.clamp(1, 300)),
    }
}

fn put(random: &mut Random, lines: &mut Lines, memory: u32) {
    let address = match random.below(10) {
        0 => random.word(),
        1 => random.near(memory),
        2 => memory,
        3 => random.between(memory, memory + 100),
        _ => random.below(memory),
    };
    if random.chance(50) {
        lines.add(format!("put {address} code {}", random.word()));
    } else {
        let low = random.below(65_536);
        let high = random.between(low + 1, 65_536);
        lines.add(format!("put {address} data {} {low} {high}", random.word()));
    }
}

/// A line that makes a store for a run, mostly one that is large enough.
fn store(random: &mut Random, memory: u32) -> String {
    let array = random.chance(50);
    let slots = match random.below(20) {
        0 => 0,
        1..=3 => random.between(1, 8),
        4 => random.below(100),
        5 if array => random.pick(&[65_535, 65_537, 70_000]),
        6 if !array => random.pick(&[65_536, 65_537]),
        7 | 8 => random.near(memory).min(70_000),
        9 => random.below(2_000),
        _ if array => memory,
        _ => memory.min(3_000),
    };
    let make = if array { "array" } else { "hash" };
    if random.chance(60) {
        return format!("store {make} {slots}");
    }
    let base = match random.below(8) {
        0..=2 => 0,
        3 => random.below(10),
        4 if !array => 0u32.wrapping_sub(memory),
        5 if !array => 0u32.wrapping_sub(random.between(1, memory)),
        6 => 0u32.wrapping_sub(random.between(1, 50)),
        _ if array => 0,
        _ => random.word(),
    };
    let len = match random.below(8) {
        0 => random.near(memory),
        1 => u32::MAX,
        2 => random.below(memory),
        3 => random.word(),
        _ => memory,
    };
    format!("store window {base} {len} {make} {slots}")
}
