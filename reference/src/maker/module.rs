//! A random module that follows every rule.

use super::body::Body;
use super::random::Random;
use super::types;
use crate::image::{Function, Module, Type};
use crate::rules;

/// What a module is made to come to.
#[derive(Clone, Copy, PartialEq, Eq, Debug)]
pub enum Aim {
    /// Only steps that are made, as long as functions and memory hold.
    Long,
    /// A function that calls itself, at last 25.
    Recursion,
    /// One try at the bounds of 21, 22, 23, 24 or 26.
    Bound(u32),
    /// Any instruction with right types, so many in a hundred.
    Wild(u32),
}

/// How often a module is drawn anew, if its function hasn't the locals for the try.
const TRIES: u32 = 30;

pub fn draw(random: &mut Random) -> Module {
    let aim = match random.below(20) {
        0..=7 => Aim::Long,
        8 | 9 => Aim::Recursion,
        10..=16 => Aim::Bound(random.pick(&[21, 22, 23, 23, 24, 26])),
        _ => Aim::Wild(random.pick(&[1, 5, 20, 60])),
    };
    let mut drawn = draw_for(random, aim);
    for _ in 0..TRIES {
        if drawn.is_some() {
            break;
        }
        drawn = draw_for(random, aim);
    }
    let module = drawn.unwrap_or(Module::smallest());
    assert_eq!(Module::read(&module.image()).as_ref(), Ok(&module));
    module
}

/// A module, if what is aimed at could be put in.
fn draw_for(random: &mut Random, aim: Aim) -> Option<Module> {
    let mut module = Module::smallest();
    module.depth = if random.chance(70) { 0 } else { random.between(1, 16) };
    (module.types, module.fields) = types::draw(random);
    types::draw_globals(random, &mut module);
    let many = if random.chance(90) { random.between(1, 9) } else { random.between(1, 64) };
    module.functions.clear();
    for _ in 0..many {
        let function = draw_locals(random, &mut module);
        module.functions.push(function);
    }
    let tried = draw_code(random, &mut module, aim);
    if random.chance(50) {
        share(random, &mut module);
    }
    tried.then_some(module)
}

/// A function with a range of locals and no code yet.
fn draw_locals(random: &mut Random, module: &mut Module) -> Function {
    let held = module.locals.len() as u32;
    let ready = |first_local, locals| Function { first: 0, count: 0, first_local, locals };
    if let Some(earlier) = random.some(&module.functions)
        && random.chance(40)
    {
        return ready(earlier.first_local, earlier.locals);
    }
    let chosen = if random.chance(3) { Vec::new() } else { palette(random, module) };
    if random.chance(10) || held as usize + chosen.len() > 256 {
        let first_local = random.below(held + 1);
        return ready(first_local, random.below((held - first_local).min(8) + 1));
    }
    module.locals.extend(&chosen);
    ready(held, chosen.len() as u32)
}

/// Types of locals that have something to do with each other.
fn palette(random: &mut Random, module: &Module) -> Vec<u32> {
    let of_kind = |good: &dyn Fn(Type) -> bool| -> Vec<u32> {
        (0..module.types.len() as u32).filter(|t| good(module.types[*t as usize])).collect()
    };
    let numbers = of_kind(&|t| t == Type::Number);
    let pointers = of_kind(&|t| types::target(t).is_some());
    let to_functions = of_kind(&|t| {
        types::target(t).is_some_and(|to| module.types[to as usize] == Type::Function)
    });
    let many = random.between(3, 8) as usize;
    let mut chosen = Vec::new();
    for _ in 0..random.between(1, 3) {
        chosen.push(random.pick(&numbers));
    }
    if random.chance(40) {
        chosen.push(random.pick(&to_functions));
    }
    while chosen.len() < many {
        if random.chance(30) {
            let to_function = random.pick(&to_functions);
            chosen.push(to_function);
            chosen.extend(random.some(&of_kind(&|t| types::target(t) == Some(to_function))));
            continue;
        }
        let pointer = random.pick(&pointers);
        chosen.push(pointer);
        let Some(to) = types::target(module.types[pointer as usize]) else { continue };
        match module.types[to as usize] {
            Type::Record { first, count } => {
                let field = module.fields[(first + random.below(count)) as usize];
                chosen.extend(random.some(&of_kind(&|t| types::target(t) == Some(field))));
                chosen.push(field);
            }
            typ if types::is_atomic(typ) => chosen.push(to),
            _ => {}
        }
    }
    chosen.truncate(many);
    random.shuffle(&mut chosen);
    chosen
}

/// Gives every function its code; says whether the try at a bound is in, if one is aimed at.
fn draw_code(random: &mut Random, module: &mut Module, aim: Aim) -> bool {
    let many = module.functions.len() as u32;
    let room_of = |function| if function == 0 { 512 } else { 512 / (many - 1) };
    let tried_in = if random.chance(75) { 0 } else { random.below(many) };
    let mut tried = true;
    module.code.clear();
    for function in 0..many {
        let of_this = if function == tried_in { aim } else { without_bound(aim) };
        let (code, has_tried) =
            Body::draw(random, module, function, room_of(function) as usize, of_this);
        if matches!(of_this, Aim::Bound(_)) {
            tried = has_tried;
        }
        module.functions[function as usize].first = module.code.len() as u32;
        module.functions[function as usize].count = code.len() as u32;
        module.code.extend(code);
    }
    tried
}

fn without_bound(aim: Aim) -> Aim {
    match aim {
        Aim::Bound(_) => Aim::Long,
        aim => aim,
    }
}

/// Lets some functions share instructions, as far as the rules allow it.
fn share(random: &mut Random, module: &mut Module) {
    let many = module.functions.len() as u32;
    for _ in 0..random.between(1, 20) {
        let function = random.below(many) as usize;
        let of_code = random.pick(&module.functions);
        let of_locals = random.pick(&module.functions);
        let later = random.below(of_code.count);
        let end = if random.chance(80) {
            of_code.first + of_code.count
        } else {
            random.between(of_code.first + later + 1, module.code.len() as u32)
        };
        let shared = Function {
            first: of_code.first + later,
            count: end - of_code.first - later,
            first_local: of_locals.first_local,
            locals: of_locals.locals,
        };
        if function != 0 && follows(module, &shared) {
            module.functions[function] = shared;
        }
    }
}

/// Whether a function follows the rules.
fn follows(module: &Module, function: &Function) -> bool {
    let code = module.code_of(function);
    code.last().is_some_and(|last| rules::ends(*last))
        && code.iter().all(|i| rules::named(module, function, *i))
        && code.iter().all(|i| rules::typed(module, function, *i))
}
