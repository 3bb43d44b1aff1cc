//! The rules of a module (IMAGE.md, REFUSALS.md 6 to 8), and its sensitive types.

use crate::image::{
    CODE, FIELDS, FUNCTIONS, Function, GLOBALS, Instruction, LOCALS, Module, Refusal, TYPES, Type,
};

/// The first fault of a module whose records mean something by themselves.
pub fn judge(module: &Module) -> Result<(), Refusal> {
    names(module)?;
    types(module)?;
    if module.globals_room() > u64::from(module.memory) {
        return Err(Refusal::of_image(8));
    }
    Ok(())
}

/// Every number names something; refusal 6.
fn names(module: &Module) -> Result<(), Refusal> {
    each(6, TYPES, &module.types, |typ| match *typ {
        Type::Pointer { to } => names_one(to, module.types.len()),
        Type::Record { first, count } => names_range(first, count, module.fields.len()),
        _ => true,
    })?;
    each(6, FIELDS, &module.fields, |typ| names_one(*typ, module.types.len()))?;
    each(6, GLOBALS, &module.globals, |global| names_one(global.typ, module.types.len()))?;
    each(6, LOCALS, &module.locals, |typ| names_one(*typ, module.types.len()))?;
    each(6, FUNCTIONS, &module.functions, |function| {
        names_range(function.first, function.count, module.code.len())
            && names_range(function.first_local, function.locals, module.locals.len())
    })?;
    each_instruction(6, module, |function, _, instruction| named(module, function, instruction))
}

/// Every type is what its use asks for; refusal 7.
fn types(module: &Module) -> Result<(), Refusal> {
    let atomic =
        |typ: &u32| matches!(module.types[*typ as usize], Type::Number | Type::Pointer { .. });
    each(7, FIELDS, &module.fields, atomic)?;
    each(7, GLOBALS, &module.globals, |global| module.size(global.typ).is_some())?;
    each(7, LOCALS, &module.locals, atomic)?;
    each_instruction(7, module, |function, place, instruction| {
        (place + 1 < function.count || ends(instruction)) && typed(module, function, instruction)
    })
}

/// Whether a function may end with it.
pub fn ends(instruction: Instruction) -> bool {
    matches!(instruction, Instruction::Jump { .. } | Instruction::Return)
}

fn each<R>(
    number: u32,
    list: usize,
    records: &[R],
    good: impl Fn(&R) -> bool,
) -> Result<(), Refusal> {
    match records.iter().position(|record| !good(record)) {
        Some(record) => Err(Refusal::of_record(number, list, record)),
        None => Ok(()),
    }
}

fn each_instruction(
    number: u32,
    module: &Module,
    good: impl Fn(&Function, u32, Instruction) -> bool,
) -> Result<(), Refusal> {
    for function in &module.functions {
        for (place, instruction) in (0..).zip(module.code_of(function)) {
            if !good(function, place, *instruction) {
                return Err(Refusal::of_record(number, CODE, (function.first + place) as usize));
            }
        }
    }
    Ok(())
}

fn names_one(number: u32, count: usize) -> bool {
    (number as usize) < count
}

fn names_range(first: u32, count: u32, len: usize) -> bool {
    u64::from(first) + u64::from(count) <= len as u64
}

/// Whether all that the instruction names is there.
pub fn named(module: &Module, function: &Function, instruction: Instruction) -> bool {
    use Instruction::*;
    let local = |x: u32| x < function.locals;
    let place = |to: u32| to < function.count;
    match instruction {
        Set { x, .. } | CallThrough { x } => local(x),
        Add { x, y, z } | Subtract { x, y, z } | Less { x, y, z } | Move { x, y, z } => {
            local(x) && local(y) && local(z)
        }
        Cast { x, y } | Allocate { x, y } | Field { x, y, .. } | Load { x, y } | Store { x, y } => {
            local(x) && local(y)
        }
        Jump { to } => place(to),
        Branch { x, to } => local(x) && place(to),
        Function { x, f } => local(x) && names_one(f, module.functions.len()),
        Global { x, g } => local(x) && names_one(g, module.globals.len()),
        Call { f } => names_one(f, module.functions.len()),
        Return => true,
    }
}

/// Whether the types of an instruction that names what is there are right.
pub fn typed(module: &Module, function: &Function, instruction: Instruction) -> bool {
    use Instruction::*;
    let locals = module.locals_of(function);
    let type_of = |x: u32| locals[x as usize];
    let number = |x: u32| module.types[type_of(x) as usize] == Type::Number;
    let target = |x: u32| match module.types[type_of(x) as usize] {
        Type::Pointer { to } => Some(to),
        _ => None,
    };
    let points_to = |x: u32, typ: u32| target(x) == Some(typ);
    let points_to_sized = |x: u32| target(x).is_some_and(|to| module.size(to).is_some());
    let points_to_function =
        |x: u32| target(x).is_some_and(|to| module.types[to as usize] == Type::Function);
    match instruction {
        Set { x, .. } | Branch { x, .. } => number(x),
        Add { x, y, z } | Subtract { x, y, z } | Less { x, y, z } => {
            number(x) && number(y) && number(z)
        }
        Cast { .. } | Jump { .. } | Call { .. } | Return => true,
        Function { x, .. } | CallThrough { x } => points_to_function(x),
        Global { x, g } => points_to(x, module.globals[g as usize].typ),
        Allocate { x, y } => points_to_sized(x) && number(y),
        Move { x, y, z } => type_of(x) == type_of(y) && points_to_sized(x) && number(z),
        Field { x, y, k } => match target(y).map(|to| module.types[to as usize]) {
            Some(Type::Record { first, count }) => {
                k < count && points_to(x, module.fields[(first + k) as usize])
            }
            _ => false,
        },
        Load { x, y } | Store { x, y } => points_to(y, type_of(x)),
    }
}

/// For each type whether a chain of links leads from it to void or function.
pub fn sensitive(module: &Module) -> Vec<bool> {
    let mut found: Vec<bool> =
        module.types.iter().map(|typ| matches!(typ, Type::Void | Type::Function)).collect();
    loop {
        let before = found.clone();
        for (number, typ) in module.types.iter().enumerate() {
            let linked = match *typ {
                Type::Pointer { to } => before[to as usize],
                Type::Record { first, count } => {
                    let fields = &module.fields[first as usize..(first + count) as usize];
                    fields.iter().any(|field| before[*field as usize])
                }
                _ => false,
            };
            found[number] |= linked;
        }
        if found == before {
            return found;
        }
    }
}
