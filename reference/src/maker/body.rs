//! The code of a random function. It is made of parts, each of which sets up all that it uses, so
//! that a jump to any part's begin is good.

use super::module::Aim;
use super::random::Random;
use super::types;
use crate::image::{Function, Instruction, Module, Type};
use crate::rules;

/// No part has more instructions.
const LONGEST_PART: usize = 27;
/// How often a loaded pointer is gone on with.
const DEEPEST: u32 = 2;

pub struct Body<'a> {
    pub random: &'a mut Random,
    pub module: &'a Module,
    pub sensitive: Vec<bool>,
    /// The types of the function's locals.
    pub locals: Vec<u32>,
    function: u32,
    /// A number that counts the rounds of loops.
    counter: Option<u32>,
    aim: Aim,
    /// Jumps and branches name a part until all parts stand.
    code: Vec<Instruction>,
    parts: u32,
}

impl Body<'_> {
    /// At most `room` instructions for a function whose locals are settled, and whether a try at
    /// a bound is among them.
    pub fn draw(
        random: &mut Random,
        module: &Module,
        function: u32,
        room: usize,
        aim: Aim,
    ) -> (Vec<Instruction>, bool) {
        let locals = module.locals_of(&module.functions[function as usize]).to_vec();
        let parts = if random.chance(80) { random.between(2, 12) } else { random.between(1, 40) };
        let sensitive = rules::sensitive(module);
        let counter = None;
        let code = Vec::new();
        let mut body =
            Body { random, module, sensitive, locals, function, counter, aim, code, parts };
        let numbers = body.numbers();
        if numbers.len() > 1 {
            body.counter = body.random.some(&numbers);
        }
        body.whole(room)
    }

    fn whole(mut self, room: usize) -> (Vec<Instruction>, bool) {
        let first_try = self.random.below(self.parts);
        let mut tried = false;
        let mut starts = Vec::new();
        for part in 0..self.parts {
            let left = room - 1 - self.code.len();
            starts.push(self.code.len() as u32);
            if part == 0 && left >= LONGEST_PART {
                self.begin_count();
            }
            match self.aim {
                _ if left < LONGEST_PART => self.short_part(left),
                Aim::Bound(number) if part >= first_try => tried |= self.bound(number),
                Aim::Recursion if part == first_try => self.recursion(),
                Aim::Wild(percent) if self.random.chance(percent) => self.wild(),
                _ => self.part(part),
            }
        }
        starts.push(self.code.len() as u32);
        self.end();
        for instruction in &mut self.code {
            match instruction {
                Instruction::Jump { to } | Instruction::Branch { to, .. } => {
                    *to = starts[*to as usize];
                }
                _ => {}
            }
        }
        (self.code, tried)
    }

    fn end(&mut self) {
        let goes_on = match self.function {
            _ if self.code.is_empty() => 1,
            0 => 75,
            _ => 4,
        };
        if self.random.chance(goes_on) {
            let to = if self.random.chance(80) { 0 } else { self.random.below(self.parts) };
            self.code.push(Instruction::Jump { to });
        } else {
            self.code.push(Instruction::Return);
        }
    }

    fn short_part(&mut self, left: usize) {
        if left >= 3 {
            match self.random.below(3) {
                0 => self.call(),
                1 => self.arithmetic(),
                _ => {}
            }
        }
    }

    fn part(&mut self, part: u32) {
        match self.random.below(100) {
            0..=9 => self.arithmetic(),
            10..=57 => self.visit(),
            58..=67 => self.through_pointer(),
            68..=71 => self.cast(),
            72..=81 => self.skip(part),
            82..=87 => self.loop_back(part),
            88..=90 => self.begin_count(),
            _ => self.call(),
        }
    }

    pub fn add(&mut self, instruction: Instruction) {
        self.code.push(instruction);
    }

    pub fn len(&self) -> usize {
        self.code.len()
    }

    pub fn cut(&mut self, len: usize) {
        self.code.truncate(len);
    }

    fn arithmetic(&mut self) {
        let Some(x) = self.number() else { return };
        let numbers = self.numbers();
        let (y, z) = (self.random.pick(&numbers), self.random.pick(&numbers));
        let n = self.random.word();
        let instruction = match self.random.below(4) {
            0 => Instruction::Set { x, n },
            1 => Instruction::Add { x, y, z },
            2 => Instruction::Subtract { x, y, z },
            _ => Instruction::Less { x, y, z },
        };
        self.add(instruction);
    }

    /// Goes to a global or to new words, moves about there, and loads and stores.
    fn visit(&mut self) {
        let Some((p, to)) = self.pointer_to_sized() else { return };
        let Some(count) = self.place(p, to) else { return };
        if count > 1 {
            self.wander(p, count);
        }
        self.reach(p, to, 0);
    }

    /// Lets p point at so many things of what it points to.
    pub fn place(&mut self, p: u32, to: u32) -> Option<u32> {
        if let Some(g) = self.global_of(to)
            && self.random.chance(90)
        {
            self.add(Instruction::Global { x: p, g });
            return Some(self.module.globals[g as usize].count);
        }
        let spare = u64::from(self.module.memory) - self.module.globals_room();
        let percent = if spare > 3_000 { 30 } else { 3 };
        let y = self.number()?;
        if !self.random.chance(percent) {
            return None;
        }
        let n = self.random.between(1, 5);
        self.add(Instruction::Set { x: y, n });
        self.add(Instruction::Allocate { x: p, y });
        Some(n)
    }

    fn wander(&mut self, p: u32, count: u32) {
        let Some(z) = self.number() else { return };
        let n = self.random.below(count);
        if self.random.chance(20) {
            let far = self.random.word();
            self.shift(p, z, far);
            self.shift(p, z, n.wrapping_sub(far));
        } else if self.random.chance(70) {
            self.shift(p, z, n);
        }
    }

    pub fn shift(&mut self, p: u32, z: u32, n: u32) {
        self.add(Instruction::Set { x: z, n });
        self.add(Instruction::Move { x: p, y: p, z });
    }

    fn reach(&mut self, p: u32, to: u32, depth: u32) {
        match self.field(p, to) {
            Some((q, typ)) => self.access(q, typ, depth),
            None if types::is_atomic(self.module.types[to as usize]) => self.access(p, to, depth),
            None => {}
        }
    }

    /// A step to a field of the record that p points to, if a local is there for it.
    pub fn field(&mut self, p: u32, to: u32) -> Option<(u32, u32)> {
        let Type::Record { first, count } = self.module.types[to as usize] else { return None };
        let mut ways = Vec::new();
        for k in 0..count {
            let typ = self.module.fields[(first + k) as usize];
            ways.extend(self.pointers_to(typ).into_iter().map(|q| (q, k, typ)));
        }
        let (q, k, typ) = self.random.some(&ways)?;
        self.add(Instruction::Field { x: q, y: p, k });
        Some((q, typ))
    }

    fn access(&mut self, q: u32, typ: u32, depth: u32) {
        let Some(x) = self.local_of(typ) else { return };
        let filled = self.random.chance(70) && self.fill(x, typ);
        match self.random.below(5) {
            0 => self.add(Instruction::Load { x, y: q }),
            1 => self.add(Instruction::Store { x, y: q }),
            _ => {
                self.add(Instruction::Store { x, y: q });
                self.add(Instruction::Load { x, y: q });
                if filled && x != q && self.random.chance(60) {
                    self.follow(x, typ, depth);
                }
            }
        }
    }

    /// Gives x a value that leads somewhere, if it can.
    pub fn fill(&mut self, x: u32, typ: u32) -> bool {
        match self.module.types[typ as usize] {
            Type::Number => {
                let n = self.random.word();
                self.add(Instruction::Set { x, n });
            }
            Type::Pointer { to } if self.module.types[to as usize] == Type::Function => {
                let Some(f) = self.callee() else { return false };
                self.add(Instruction::Function { x, f });
            }
            Type::Pointer { to } => {
                let Some(g) = self.global_of(to) else { return false };
                self.add(Instruction::Global { x, g });
            }
            _ => return false,
        }
        true
    }

    /// Goes on with a filled value.
    fn follow(&mut self, x: u32, typ: u32, depth: u32) {
        let Type::Pointer { to } = self.module.types[typ as usize] else { return };
        if self.module.types[to as usize] == Type::Function {
            self.add(Instruction::CallThrough { x });
        } else if depth < DEEPEST {
            self.reach(x, to, depth + 1);
        }
    }

    fn through_pointer(&mut self) {
        let (Some(x), Some(f)) = (self.function_pointer(), self.callee()) else { return };
        self.add(Instruction::Function { x, f });
        if let Some(v) = self.sensitive_local()
            && self.random.chance(40)
        {
            self.add(Instruction::Cast { x: v, y: x });
            self.add(Instruction::Cast { x, y: v });
        }
        self.add(Instruction::CallThrough { x });
    }

    fn cast(&mut self) {
        let locals: Vec<u32> = self.places(|_, _| true);
        if let (Some(x), Some(y)) = (self.random.some(&locals), self.random.some(&locals))
            && !self.is_counter(x)
        {
            self.add(Instruction::Cast { x, y });
        }
    }

    /// A branch to a later part, on a comparison or on a word of memory.
    fn skip(&mut self, part: u32) {
        let Some(x) = self.number() else { return };
        let numbers = self.numbers();
        let y = self.random.pick(&numbers);
        let typ = self.locals[x as usize];
        let pointers = self.pointers_to(typ);
        if let (Some(p), Some(g)) = (self.random.some(&pointers), self.global_of(typ)) {
            self.add(Instruction::Global { x: p, g });
            self.add(Instruction::Load { x, y: p });
        } else {
            let n = self.random.word();
            self.add(Instruction::Set { x, n });
        }
        if self.random.chance(60) {
            self.add(Instruction::Less { x, y, z: x });
        }
        let to = self.random.between(part + 1, self.parts.min(part + 3));
        self.add(Instruction::Branch { x, to });
    }

    fn begin_count(&mut self) {
        if let Some(x) = self.counter {
            let n = self.random.between(2, 30);
            self.add(Instruction::Set { x, n });
        }
    }

    fn loop_back(&mut self, part: u32) {
        let (Some(counter), Some(one)) = (self.counter, self.number()) else { return };
        if part == 0 {
            return;
        }
        self.add(Instruction::Set { x: one, n: 1 });
        self.add(Instruction::Subtract { x: counter, y: counter, z: one });
        let to = self.random.between(1, part);
        self.add(Instruction::Branch { x: counter, to });
        self.begin_count();
    }

    fn call(&mut self) {
        if let Some(f) = self.callee() {
            self.add(Instruction::Call { f });
        }
    }

    /// A function that comes later, so that calls end.
    fn callee(&mut self) -> Option<u32> {
        let many = self.module.functions.len() as u32;
        (self.function + 1 < many).then(|| self.random.between(self.function + 1, many - 1))
    }

    fn recursion(&mut self) {
        let f = if self.random.chance(70) { self.function } else { 0 };
        match self.function_pointer() {
            Some(x) if self.random.chance(50) => {
                self.add(Instruction::Function { x, f });
                self.add(Instruction::CallThrough { x });
            }
            _ => self.add(Instruction::Call { f }),
        }
    }

    /// Any instruction that follows the rules.
    fn wild(&mut self) {
        let function =
            Function { count: self.parts + 1, ..self.module.functions[self.function as usize] };
        for _ in 0..300 {
            let instruction = self.any();
            if rules::named(self.module, &function, instruction)
                && rules::typed(self.module, &function, instruction)
            {
                self.add(instruction);
                return;
            }
        }
    }

    fn any(&mut self) -> Instruction {
        use Instruction::*;
        let locals = self.locals.len().max(1) as u32;
        let [x, y, z] = [0; 3].map(|_| self.random.below(locals));
        let (n, k) = (self.random.word(), self.random.below(4));
        let f = self.random.below(self.module.functions.len() as u32);
        let g = self.random.below(64);
        let to = self.random.below(self.parts + 1);
        let all = [
            Set { x, n },
            Add { x, y, z },
            Subtract { x, y, z },
            Less { x, y, z },
            Cast { x, y },
            Jump { to },
            Branch { x, to },
            Function { x, f },
            Global { x, g },
            Allocate { x, y },
            Move { x, y: x, z },
            Field { x, y, k },
            Load { x, y },
            Store { x, y },
            Call { f },
            CallThrough { x },
            Return,
        ];
        self.random.pick(&all)
    }

    fn places(&self, good: impl Fn(&Module, u32) -> bool) -> Vec<u32> {
        let good = |x: &u32| good(self.module, self.locals[*x as usize]);
        (0..self.locals.len() as u32).filter(good).collect()
    }

    pub fn numbers(&self) -> Vec<u32> {
        self.places(|module, typ| module.types[typ as usize] == Type::Number)
    }

    /// A number other than the counter.
    pub fn number(&mut self) -> Option<u32> {
        let mut numbers = self.numbers();
        numbers.retain(|x| !self.is_counter(*x));
        self.random.some(&numbers)
    }

    pub fn is_counter(&self, x: u32) -> bool {
        self.counter == Some(x)
    }

    pub fn local_of(&mut self, typ: u32) -> Option<u32> {
        let mut locals = self.places(|_, of| of == typ);
        locals.retain(|x| !self.is_counter(*x));
        self.random.some(&locals)
    }

    pub fn pointers_to(&self, to: u32) -> Vec<u32> {
        self.places(|module, typ| types::target(module.types[typ as usize]) == Some(to))
    }

    /// A pointer to a sized type, and that type.
    pub fn pointer_to_sized(&mut self) -> Option<(u32, u32)> {
        let pointers: Vec<(u32, u32)> = self
            .places(|_, _| true)
            .into_iter()
            .filter_map(|x| {
                let to = types::target(self.module.types[self.locals[x as usize] as usize])?;
                self.module.size(to).map(|_| (x, to))
            })
            .collect();
        self.random.some(&pointers)
    }

    pub fn function_pointer(&mut self) -> Option<u32> {
        let pointers = self.places(|module, typ| {
            types::target(module.types[typ as usize])
                .is_some_and(|to| module.types[to as usize] == Type::Function)
        });
        self.random.some(&pointers)
    }

    pub fn sensitive_local(&mut self) -> Option<u32> {
        let locals = self.places(|_, typ| self.sensitive[typ as usize]);
        self.random.some(&locals)
    }

    pub fn global_of(&mut self, typ: u32) -> Option<u32> {
        let globals: Vec<u32> = (0..self.module.globals.len() as u32)
            .filter(|g| self.module.globals[*g as usize].typ == typ)
            .collect();
        self.random.some(&globals)
    }
}
