//! Types, fields and globals of a random module.

use super::random::Random;
use crate::image::{Global, Module, Type};

/// Types that all belong together, and some drawn at random, in any order.
pub fn draw(random: &mut Random) -> (Vec<Type>, Vec<u32>) {
    let mut types = vec![
        Type::Number,
        Type::Function,
        Type::Pointer { to: 1 },
        Type::Pointer { to: 0 },
        Type::Pointer { to: 2 },
        Type::Void,
        Type::Pointer { to: 5 },
        Type::Pointer { to: 6 },
        Type::Pointer { to: 3 },
        // A record with a function pointer, which points to its kind.
        Type::Record { first: 0, count: 3 },
        Type::Pointer { to: 9 },
        Type::Pointer { to: 10 },
        // A circle of pointers, not sensitive.
        Type::Record { first: 3, count: 3 },
        Type::Pointer { to: 12 },
        Type::Pointer { to: 13 },
        // A pointer to itself.
        Type::Pointer { to: 15 },
        // A record with a void pointer and a pointer to function pointers.
        Type::Record { first: 6, count: 2 },
        Type::Pointer { to: 16 },
    ];
    let mut fields = vec![0, 2, 10, 0, 3, 13, 6, 4];
    let extra = if random.chance(50) { 0 } else { random.below(47) };
    for _ in 0..extra {
        draw_one(random, &mut types, &mut fields);
    }
    if random.chance(50) {
        reorder(random, &mut types, &mut fields);
    }
    (types, fields)
}

fn draw_one(random: &mut Random, types: &mut Vec<Type>, fields: &mut Vec<u32>) {
    let known = types.len() as u32;
    let typ = match random.below(10) {
        0 => random.pick(&[Type::Number, Type::Void, Type::Function]),
        1..=6 => Type::Pointer { to: random.below(known + 1) },
        _ => {
            let count =
                if random.chance(90) { random.between(1, 6) } else { random.between(1, 64) };
            let held = fields.len() as u32;
            if random.chance(20) && held >= count {
                Type::Record { first: random.below(held - count + 1), count }
            } else if held + count <= 256 {
                let atomic: Vec<u32> =
                    (0..known).filter(|t| is_atomic(types[*t as usize])).collect();
                fields.extend((0..count).map(|_| random.pick(&atomic)));
                Type::Record { first: held, count }
            } else {
                Type::Number
            }
        }
    };
    types.push(typ);
}

pub fn is_atomic(typ: Type) -> bool {
    matches!(typ, Type::Number | Type::Pointer { .. })
}

/// Numbers the types anew.
fn reorder(random: &mut Random, types: &mut Vec<Type>, fields: &mut [u32]) {
    let mut new: Vec<u32> = (0..types.len() as u32).collect();
    random.shuffle(&mut new);
    let mut moved = types.clone();
    for (old, typ) in types.iter().enumerate() {
        moved[new[old] as usize] = match *typ {
            Type::Pointer { to } => Type::Pointer { to: new[to as usize] },
            typ => typ,
        };
    }
    *types = moved;
    for field in fields {
        *field = new[*field as usize];
    }
}

/// Globals, and a memory size in which they have room.
pub fn draw_globals(random: &mut Random, module: &mut Module) {
    let pointed: Vec<u32> = module.types.iter().filter_map(|t| target(*t)).collect();
    let sized = |types: &[u32]| -> Vec<u32> {
        types.iter().copied().filter(|t| module.size(*t).is_some()).collect()
    };
    let pointed = sized(&pointed);
    let all = sized(&(0..module.types.len() as u32).collect::<Vec<_>>());
    let many = match random.below(10) {
        0 => 0,
        9 => random.below(65),
        _ => random.between(3, 14),
    };
    let mut total = 0;
    for _ in 0..many {
        let typ = if random.chance(90) { random.pick(&pointed) } else { random.pick(&all) };
        let count = match random.below(20) {
            0 if random.chance(30) => 4_096,
            0 => random.between(1, 4_096),
            1..=5 => random.between(1, 40),
            _ => random.between(1, 4),
        };
        let global = Global { typ, count };
        let room = module.global_room(&global) as u32;
        if total + room <= 65_536 {
            total += room;
            module.globals.push(global);
        }
    }
    let spare = 65_536 - total;
    let room = match random.below(20) {
        0 | 1 => 0,
        2 => spare,
        3 | 4 => random.below(spare + 1),
        5..=9 => random.below(spare.min(4_096) + 1),
        _ => random.below(spare.min(100) + 1),
    };
    module.memory = (total + room).max(1);
}

pub fn target(typ: Type) -> Option<u32> {
    match typ {
        Type::Pointer { to } => Some(to),
        _ => None,
    }
}
