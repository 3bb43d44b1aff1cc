//! Images: bytes to a module and back (IMAGE.md).

use crate::rules;

/// Why an image isn't a module (REFUSALS.md), numbers 1 to 8.
#[derive(Clone, Copy, PartialEq, Eq, Debug)]
pub struct Refusal {
    pub number: u32,
    pub list: u32,
    pub record: u32,
}

impl Refusal {
    pub fn of_image(number: u32) -> Refusal {
        Refusal { number, list: 0, record: 0 }
    }

    pub fn of_record(number: u32, list: usize, record: usize) -> Refusal {
        Refusal { number, list: list as u32, record: record as u32 }
    }
}

pub const TYPES: usize = 0;
pub const FIELDS: usize = 1;
pub const GLOBALS: usize = 2;
pub const LOCALS: usize = 3;
pub const FUNCTIONS: usize = 4;
pub const CODE: usize = 5;

/// Where the first list begins.
pub const FRONT: usize = 60;
pub const WORDS_OF_A_RECORD: [usize; 6] = [3, 1, 2, 1, 4, 4];
const FEWEST: [u32; 6] = [1, 0, 0, 0, 1, 1];
const MOST: [u32; 6] = [64, 256, 64, 256, 64, 1_024];

#[derive(Clone, Copy, PartialEq, Eq, Debug)]
pub enum Type {
    Number,
    Void,
    Function,
    Pointer { to: u32 },
    Record { first: u32, count: u32 },
}

#[derive(Clone, Copy, PartialEq, Eq, Debug)]
pub struct Global {
    pub typ: u32,
    pub count: u32,
}

#[derive(Clone, Copy, PartialEq, Eq, Debug)]
pub struct Function {
    pub first: u32,
    pub count: u32,
    pub first_local: u32,
    pub locals: u32,
}

#[derive(Clone, Copy, PartialEq, Eq, Debug)]
pub enum Instruction {
    Set { x: u32, n: u32 },
    Add { x: u32, y: u32, z: u32 },
    Subtract { x: u32, y: u32, z: u32 },
    Less { x: u32, y: u32, z: u32 },
    Cast { x: u32, y: u32 },
    Jump { to: u32 },
    Branch { x: u32, to: u32 },
    Function { x: u32, f: u32 },
    Global { x: u32, g: u32 },
    Allocate { x: u32, y: u32 },
    Move { x: u32, y: u32, z: u32 },
    Field { x: u32, y: u32, k: u32 },
    Load { x: u32, y: u32 },
    Store { x: u32, y: u32 },
    Call { f: u32 },
    CallThrough { x: u32 },
    Return,
}

#[derive(Clone, PartialEq, Eq, Debug)]
pub struct Module {
    pub memory: u32,
    /// As the image says it: 0 stands for 16.
    pub depth: u32,
    pub types: Vec<Type>,
    pub fields: Vec<u32>,
    pub globals: Vec<Global>,
    pub locals: Vec<u32>,
    pub functions: Vec<Function>,
    pub code: Vec<Instruction>,
}

impl Module {
    /// What a module is before any image is read.
    pub fn smallest() -> Module {
        Module {
            memory: 1,
            depth: 1,
            types: vec![Type::Number],
            fields: vec![],
            globals: vec![],
            locals: vec![],
            functions: vec![Function { first: 0, count: 1, first_local: 0, locals: 0 }],
            code: vec![Instruction::Return],
        }
    }

    /// The module that the bytes say, if they follow every rule.
    pub fn read(bytes: &[u8]) -> Result<Module, Refusal> {
        let lists = layout(bytes)?;
        let module = meaning(bytes, &lists)?;
        rules::judge(&module)?;
        Ok(module)
    }

    pub fn image(&self) -> Vec<u8> {
        let lists: [Vec<u32>; 6] = [
            self.types.iter().flat_map(|t| t.words()).collect(),
            self.fields.clone(),
            self.globals.iter().flat_map(|g| [g.typ, g.count]).collect(),
            self.locals.clone(),
            self.functions
                .iter()
                .flat_map(|f| [f.first, f.count, f.first_local, f.locals])
                .collect(),
            self.code.iter().flat_map(|i| i.words()).collect(),
        ];
        let mut words = vec![1, self.memory, self.depth];
        let mut place = FRONT;
        for (list, size) in lists.iter().zip(WORDS_OF_A_RECORD) {
            words.push(place as u32);
            words.push((list.len() / size) as u32);
            place += 4 * list.len();
        }
        words.extend(lists.iter().flatten());
        words.iter().flat_map(|word| word.to_le_bytes()).collect()
    }

    /// How many words a sized type takes; none for another type.
    pub fn size(&self, typ: u32) -> Option<u32> {
        match self.types[typ as usize] {
            Type::Number | Type::Pointer { .. } => Some(1),
            Type::Record { count, .. } => Some(count),
            Type::Void | Type::Function => None,
        }
    }

    /// How many words all globals take, in whole numbers.
    pub fn globals_room(&self) -> u64 {
        self.globals.iter().map(|g| self.global_room(g)).sum()
    }

    pub fn global_room(&self, global: &Global) -> u64 {
        u64::from(self.size(global.typ).unwrap_or(0)) * u64::from(global.count)
    }

    /// The locals' types of a function.
    pub fn locals_of(&self, function: &Function) -> &[u32] {
        let first = function.first_local as usize;
        &self.locals[first..first + function.locals as usize]
    }

    /// The instructions of a function.
    pub fn code_of(&self, function: &Function) -> &[Instruction] {
        let first = function.first as usize;
        &self.code[first..first + function.count as usize]
    }
}

impl Type {
    fn from_words(words: &[u32]) -> Option<Type> {
        match *words {
            [0, 0, 0] => Some(Type::Number),
            [1, 0, 0] => Some(Type::Void),
            [2, 0, 0] => Some(Type::Function),
            [3, to, 0] => Some(Type::Pointer { to }),
            [4, first, count @ 1..=64] => Some(Type::Record { first, count }),
            _ => None,
        }
    }

    fn words(self) -> [u32; 3] {
        match self {
            Type::Number => [0, 0, 0],
            Type::Void => [1, 0, 0],
            Type::Function => [2, 0, 0],
            Type::Pointer { to } => [3, to, 0],
            Type::Record { first, count } => [4, first, count],
        }
    }
}

impl Instruction {
    fn from_words(words: &[u32]) -> Option<Instruction> {
        use Instruction::*;
        Some(match *words {
            [0, x, n, 0] => Set { x, n },
            [1, x, y, z] => Add { x, y, z },
            [2, x, y, z] => Subtract { x, y, z },
            [3, x, y, z] => Less { x, y, z },
            [4, x, y, 0] => Cast { x, y },
            [5, to, 0, 0] => Jump { to },
            [6, x, to, 0] => Branch { x, to },
            [7, x, f, 0] => Function { x, f },
            [8, x, g, 0] => Global { x, g },
            [9, x, y, 0] => Allocate { x, y },
            [10, x, y, z] => Move { x, y, z },
            [11, x, y, k] => Field { x, y, k },
            [12, x, y, 0] => Load { x, y },
            [13, x, y, 0] => Store { x, y },
            [14, f, 0, 0] => Call { f },
            [15, x, 0, 0] => CallThrough { x },
            [16, 0, 0, 0] => Return,
            _ => return None,
        })
    }

    fn words(self) -> [u32; 4] {
        use Instruction::*;
        match self {
            Set { x, n } => [0, x, n, 0],
            Add { x, y, z } => [1, x, y, z],
            Subtract { x, y, z } => [2, x, y, z],
            Less { x, y, z } => [3, x, y, z],
            Cast { x, y } => [4, x, y, 0],
            Jump { to } => [5, to, 0, 0],
            Branch { x, to } => [6, x, to, 0],
            Function { x, f } => [7, x, f, 0],
            Global { x, g } => [8, x, g, 0],
            Allocate { x, y } => [9, x, y, 0],
            Move { x, y, z } => [10, x, y, z],
            Field { x, y, k } => [11, x, y, k],
            Load { x, y } => [12, x, y, 0],
            Store { x, y } => [13, x, y, 0],
            Call { f } => [14, f, 0, 0],
            CallThrough { x } => [15, x, 0, 0],
            Return => [16, 0, 0, 0],
        }
    }
}

fn word(bytes: &[u8], place: usize) -> u32 {
    u32::from_le_bytes([bytes[place], bytes[place + 1], bytes[place + 2], bytes[place + 3]])
}

/// The words of the six lists; refusals 1 to 4.
fn layout(bytes: &[u8]) -> Result<[Vec<u32>; 6], Refusal> {
    if bytes.len() < FRONT {
        return Err(Refusal::of_image(1));
    }
    if word(bytes, 0) != 1 {
        return Err(Refusal::of_image(2));
    }
    let (memory, depth) = (word(bytes, 4), word(bytes, 8));
    let counts: Vec<u32> = (0..6).map(|l| word(bytes, 16 + 8 * l)).collect();
    let in_range = (1..=65_536).contains(&memory)
        && depth <= 16
        && (0..6).all(|l| (FEWEST[l]..=MOST[l]).contains(&counts[l]));
    if !in_range {
        return Err(Refusal::of_image(3));
    }
    let mut places = vec![FRONT];
    for l in 0..6 {
        places.push(places[l] + 4 * WORDS_OF_A_RECORD[l] * counts[l] as usize);
    }
    let lists_stand = (0..6).all(|l| word(bytes, 12 + 8 * l) as usize == places[l]);
    if !lists_stand || bytes.len() != places[6] {
        return Err(Refusal::of_image(4));
    }
    Ok(std::array::from_fn(|l| {
        (places[l]..places[l + 1]).step_by(4).map(|place| word(bytes, place)).collect()
    }))
}

/// What each record's words mean by themselves; refusal 5.
fn meaning(bytes: &[u8], lists: &[Vec<u32>; 6]) -> Result<Module, Refusal> {
    Ok(Module {
        memory: word(bytes, 4),
        depth: word(bytes, 8),
        types: records(lists, TYPES, Type::from_words)?,
        fields: lists[FIELDS].clone(),
        globals: records(lists, GLOBALS, |words| {
            (1..=4_096).contains(&words[1]).then_some(Global { typ: words[0], count: words[1] })
        })?,
        locals: lists[LOCALS].clone(),
        functions: records(lists, FUNCTIONS, |words| {
            let [first, count, first_local, locals] = *words else { return None };
            (count >= 1 && locals <= 8).then_some(Function { first, count, first_local, locals })
        })?,
        code: records(lists, CODE, Instruction::from_words)?,
    })
}

fn records<R>(
    lists: &[Vec<u32>; 6],
    list: usize,
    of_words: impl Fn(&[u32]) -> Option<R>,
) -> Result<Vec<R>, Refusal> {
    lists[list]
        .chunks(WORDS_OF_A_RECORD[list])
        .enumerate()
        .map(|(record, words)| of_words(words).ok_or(Refusal::of_record(5, list, record)))
        .collect()
}
