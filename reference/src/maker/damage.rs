//! Images with one fault or some, and writes of every length.

use super::random::Random;
use super::{Lines, module};
use crate::image::{
    CODE, FIELDS, FRONT, FUNCTIONS, GLOBALS, LOCALS, Module, TYPES, WORDS_OF_A_RECORD,
};
use crate::script::hex;

pub fn make(random: &mut Random, lines: &mut Lines) {
    let module = module::draw(random);
    let image = module.image();
    for _ in 0..random.between(5, 40) {
        let mut bytes = image.clone();
        for _ in 0..random.pick(&[1, 1, 1, 2, 3]) {
            damage(random, &module, &mut bytes);
        }
        lines.add(format!("image {}", hex(&bytes)));
        if random.chance(10) {
            lines.add(random.pick(&["sensitive", "write 600", "write 103", "write 104"]));
        }
    }
    lines.add(format!("image {}", hex(&image)));
    for _ in 0..random.between(1, 3) {
        let len = image.len() as u32;
        let room = match random.below(6) {
            0 => 0,
            1 => len - 1,
            2 => len,
            3 => len + random.below(10),
            4 => random.below(200),
            _ => random.below(len),
        };
        lines.add(format!("write {room}"));
    }
    if random.chance(2) {
        lines.add("write 65536");
    }
}

fn damage(random: &mut Random, module: &Module, bytes: &mut Vec<u8>) {
    match random.below(36) {
        0 => bytes.truncate(random.below(62) as usize),
        1 => set(bytes, 0, random.pick(&[0, 2, 257, u32::MAX])),
        2 => {
            let memory = random.pick(&[0, 1, 65_536, 65_537, u32::MAX]);
            set(bytes, 4, memory);
        }
        3 => {
            let room = module.globals_room() as u32;
            set(bytes, 4, random.pick(&[room, room.wrapping_sub(1), room / 2 + 1]));
        }
        4 => set(bytes, 8, random.pick(&[0, 16, 17, 1 << 31, u32::MAX])),
        5 => {
            let list = random.below(6) as usize;
            let counts = [0, 1, 64, 65, 256, 257, 1_024, 1_025, u32::MAX];
            set(bytes, 16 + 8 * list, random.pick(&counts));
        }
        6 => {
            let place = 12 + 8 * random.below(6) as usize;
            let by = random.pick(&[1, 4, 8, u32::MAX, u32::MAX - 3, 1 << 31]);
            let moved = get(bytes, place).wrapping_add(by);
            set(bytes, place, moved);
        }
        7 => {
            for _ in 0..random.between(1, 20) {
                bytes.push(random.below(256) as u8);
            }
        }
        8 => bytes.truncate(bytes.len().saturating_sub(random.between(1, 20) as usize)),
        9 => {
            if !bytes.is_empty() {
                let place = random.below(bytes.len() as u32) as usize;
                bytes[place] ^= 1 << random.below(8);
            }
        }
        10 => {
            // The place of an instruction becomes another instruction.
            let (from, to) = (record(random, module, CODE), record(random, module, CODE));
            for k in 0..4 {
                let word = get(bytes, from + 4 * k);
                set(bytes, to + 4 * k, word);
            }
        }
        11 => function_word(random, module, bytes),
        12..=15 => operand(random, module, bytes),
        16 => last_instruction(random, module, bytes),
        17 | 18 => limit(random, module, bytes),
        23..=27 => any_instruction(random, module, bytes),
        19..=22 => another_type(random, module, bytes),
        _ => {
            let list = random.below(6) as usize;
            if count(module, list) > 0 {
                let place = record(random, module, list);
                let place = place + 4 * random.below(WORDS_OF_A_RECORD[list] as u32) as usize;
                let word = any_word(random, module, get(bytes, place));
                set(bytes, place, word);
            }
        }
    }
}

/// Ranges at their bounds and beyond 2^32.
fn function_word(random: &mut Random, module: &Module, bytes: &mut [u8]) {
    let place = record(random, module, FUNCTIONS);
    let k = random.below(4) as usize;
    let whole = if k < 2 { count(module, CODE) } else { count(module, LOCALS) };
    let other = get(bytes, place + 4 * (k ^ 1));
    let word = match random.below(6) {
        0 => whole,
        1 => whole.wrapping_sub(other),
        2 => whole.wrapping_sub(other).wrapping_add(1),
        3 => 0u32.wrapping_sub(other),
        4 => random.below(10),
        _ => u32::MAX,
    };
    set(bytes, place + 4 * k, word);
}

/// Counts in a record at their limits.
fn limit(random: &mut Random, module: &Module, bytes: &mut [u8]) {
    let list = random.pick(&[TYPES, GLOBALS, FUNCTIONS]);
    if count(module, list) == 0 {
        return;
    }
    let place = record(random, module, list);
    match list {
        TYPES if get(bytes, place) == 4 => set(bytes, place + 8, random.pick(&[0, 1, 64, 65])),
        GLOBALS => set(bytes, place + 4, random.pick(&[0, 1, 4_096, 4_097])),
        FUNCTIONS if random.chance(50) => set(bytes, place + 4, random.pick(&[0, 1])),
        FUNCTIONS => set(bytes, place + 12, random.pick(&[0, 8, 9])),
        _ => {}
    }
}

/// Another local, or another field, for an instruction; every op as often as any other.
fn operand(random: &mut Random, module: &Module, bytes: &mut [u8]) {
    let op = random.below(16);
    let places: Vec<usize> = (0..module.code.len())
        .map(|k| place_of(module, CODE, k))
        .filter(|place| get(bytes, *place) == op)
        .collect();
    if let Some(place) = random.some(&places) {
        let k = if op == 11 && random.chance(50) { 3 } else { random.between(1, 3) as usize };
        set(bytes, place + 4 * k, random.below(8));
    }
}

/// Any op with small numbers behind it, in the place of an instruction.
fn any_instruction(random: &mut Random, module: &Module, bytes: &mut [u8]) {
    let place = record(random, module, CODE);
    let op = random.below(17);
    let used = [2, 3, 3, 3, 2, 1, 2, 2, 2, 2, 3, 3, 2, 2, 1, 1, 0][op as usize];
    set(bytes, place, op);
    for k in 1..4 {
        set(bytes, place + 4 * k, if k <= used { random.below(8) } else { 0 });
    }
}

/// Another instruction of a function in the place of its last.
fn last_instruction(random: &mut Random, module: &Module, bytes: &mut [u8]) {
    let function = random.pick(&module.functions);
    let last = place_of(module, CODE, (function.first + function.count - 1) as usize);
    let from = (function.first + random.below(function.count)) as usize;
    let from = place_of(module, CODE, from);
    for k in 0..4 {
        let word = get(bytes, from + 4 * k);
        set(bytes, last + 4 * k, word);
    }
}

/// Another type, often one of the same words, for a field, a global or a local.
fn another_type(random: &mut Random, module: &Module, bytes: &mut [u8]) {
    let list = random.pick(&[FIELDS, GLOBALS, LOCALS, LOCALS]);
    if count(module, list) == 0 {
        return;
    }
    let place = record(random, module, list);
    let old = module.types.get(get(bytes, place) as usize);
    let alike: Vec<u32> =
        (0..count(module, TYPES)).filter(|t| module.types.get(*t as usize) == old).collect();
    let typ = match random.some(&alike) {
        Some(typ) if random.chance(60) => typ,
        _ => random.below(count(module, TYPES)),
    };
    set(bytes, place, typ);
}

fn any_word(random: &mut Random, module: &Module, word: u32) -> u32 {
    match random.below(6) {
        0 => word.wrapping_add(1),
        1 => word.wrapping_sub(1),
        2 => random.below(18),
        3 => count(module, random.below(6) as usize),
        4 => random.pick(&[64, 65, 4_096, 4_097]),
        _ => random.word(),
    }
}

fn count(module: &Module, list: usize) -> u32 {
    let counts = [
        module.types.len(),
        module.fields.len(),
        module.globals.len(),
        module.locals.len(),
        module.functions.len(),
        module.code.len(),
    ];
    counts[list] as u32
}

/// Where a record of a list stands in the image; the list isn't empty.
fn record(random: &mut Random, module: &Module, list: usize) -> usize {
    place_of(module, list, random.below(count(module, list)) as usize)
}

fn place_of(module: &Module, list: usize, record: usize) -> usize {
    let before: usize = (0..list).map(|l| count(module, l) as usize * WORDS_OF_A_RECORD[l]).sum();
    FRONT + 4 * (before + record * WORDS_OF_A_RECORD[list])
}

fn get(bytes: &[u8], place: usize) -> u32 {
    match bytes.get(place..place + 4) {
        Some(word) => u32::from_le_bytes([word[0], word[1], word[2], word[3]]),
        None => 0,
    }
}

/// Sets a word, if the bytes reach so far.
fn set(bytes: &mut [u8], place: usize, word: u32) {
    if let Some(old) = bytes.get_mut(place..place + 4) {
        old.copy_from_slice(&word.to_le_bytes());
    }
}
