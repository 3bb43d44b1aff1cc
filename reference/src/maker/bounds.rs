//! Tries at the bounds of the stops, on either side. Where a function hasn't the locals for one,
//! nothing is added.

use super::body::Body;
use super::types;
use crate::image::{Instruction, Type};

/// How often another try is drawn, if the locals for the first aren't there.
const TRIES: u32 = 6;

impl Body<'_> {
    /// Whether a try was added.
    pub fn bound(&mut self, number: u32) -> bool {
        for _ in 0..TRIES {
            let before = self.len();
            let added = match number {
                21 => self.end_of_memory(),
                22 => self.not_data(),
                23 => self.ends_of_bounds(),
                24 => self.not_code(),
                _ => self.end_of_heap(),
            };
            if added.is_some() {
                return true;
            }
            self.cut(before);
        }
        false
    }

    /// 21: a word of memory's end that isn't sensitive.
    fn end_of_memory(&mut self) -> Option<()> {
        let (p, x) = self.pointer_and_local(false)?;
        let n = self.number()?;
        let memory = self.module.memory;
        self.add(Instruction::Set { x: n, n: memory - 1 });
        self.add(Instruction::Cast { x: p, y: n });
        self.load_or_store(x, p);
        let word = match self.random.below(4) {
            0 => self.random.word(),
            1 => u32::MAX,
            _ => self.random.between(memory.saturating_sub(2), memory + 1),
        };
        self.add(Instruction::Set { x: n, n: word });
        self.add(Instruction::Cast { x: p, y: n });
        self.load_or_store(x, p);
        Some(())
    }

    /// 22: a place that is plain or code.
    fn not_data(&mut self) -> Option<()> {
        let (p, to) = self.sensitive_pointer()?;
        match self.function_pointer() {
            Some(y) if self.random.chance(50) => {
                self.add(Instruction::Function { x: y, f: 0 });
                self.add(Instruction::Cast { x: p, y });
            }
            _ => {
                let n = self.number()?;
                let word = self.random.below(self.module.memory);
                self.add(Instruction::Set { x: n, n: word });
                self.add(Instruction::Cast { x: p, y: n });
            }
        }
        self.use_of(p, to)
    }

    /// 23: the first and last words within bounds, and those next to them.
    fn ends_of_bounds(&mut self) -> Option<()> {
        let (p, to) = self.sensitive_pointer()?;
        let count = self.place(p, to)?;
        let n = self.number()?;
        let size = self.module.size(to)?;
        let inside = self.random.pick(&[0, count - 1]);
        let mut at = inside;
        self.shift(p, n, inside);
        self.use_of(p, to)?;
        // Single words are stepped through another pointer, if there is one.
        let single = self.single_stepper();
        if let Some(r) = single
            && size > 1
        {
            self.add(Instruction::Cast { x: r, y: p });
            let last = (count - 1) * size;
            let goal = match self.random.below(4) {
                0 => u32::MAX,
                1 => last + 1,
                2 => last.wrapping_sub(self.random.below(size)),
                _ => self.random.below(last + size + 2),
            };
            self.shift(r, n, goal.wrapping_sub(at * size));
            self.add(Instruction::Cast { x: p, y: r });
            return self.use_of(p, to);
        }
        for _ in 0..2 {
            let goal = self.random.pick(&[0, count - 1, count - 1, count, count + 1, u32::MAX]);
            self.shift(p, n, goal.wrapping_sub(at));
            self.use_of(p, to)?;
            at = goal;
        }
        Some(())
    }

    /// 24: a call through what isn't code, or no longer.
    fn not_code(&mut self) -> Option<()> {
        let x = self.function_pointer()?;
        let f = self.random.below(self.module.functions.len() as u32);
        match self.random.below(4) {
            0 => {
                let n = self.number()?;
                self.add(Instruction::Set { x: n, n: f });
                self.add(Instruction::Cast { x, y: n });
            }
            1 => {
                let n = self.number()?;
                self.add(Instruction::Function { x, f });
                self.add(Instruction::Cast { x: n, y: x });
                self.add(Instruction::Cast { x, y: n });
            }
            2 => {
                let (p, to) = self.sensitive_pointer()?;
                self.place(p, to)?;
                self.add(Instruction::Cast { x, y: p });
            }
            _ => {
                let (p, _) = self.sensitive_pointer()?;
                let n = self.number()?;
                self.add(Instruction::Function { x, f });
                self.add(Instruction::Cast { x: p, y: x });
                self.shift(p, n, 0);
                self.add(Instruction::Cast { x, y: p });
            }
        }
        self.add(Instruction::CallThrough { x });
        Some(())
    }

    /// 26: as much as the heap has left, none, more, and products beyond 2^32.
    fn end_of_heap(&mut self) -> Option<()> {
        let (mut p, mut to) = self.pointer_to_sized()?;
        if self.module.size(to) == Some(1) {
            (p, to) = self.pointer_to_sized()?;
        }
        let y = self.number()?;
        let size = self.module.size(to)?;
        let left = self.module.memory - self.module.globals_room() as u32;
        let wrap = ((1u64 << 32) / u64::from(size)) as u32;
        let n = match self.random.below(6) {
            _ if size > 1 && self.random.chance(50) => wrap.wrapping_add(self.random.below(3)),
            0 => 0,
            1 | 2 => left / size,
            3 => left / size + 1,
            4 => self.random.word(),
            _ => left,
        };
        self.add(Instruction::Set { x: y, n });
        self.add(Instruction::Allocate { x: p, y });
        self.shift(p, y, n.wrapping_sub(1));
        self.use_of(p, to);
        Some(())
    }

    fn load_or_store(&mut self, x: u32, y: u32) {
        let load = self.random.chance(50);
        self.add(if load { Instruction::Load { x, y } } else { Instruction::Store { x, y } });
    }

    /// Loads, stores or takes a field step through p.
    fn use_of(&mut self, p: u32, to: u32) -> Option<()> {
        if let Some(x) = self.local_of(to) {
            if x != p && self.random.chance(50) {
                self.fill(x, to);
            }
            self.load_or_store(x, p);
            return Some(());
        }
        self.field(p, to).map(|_| ())
    }

    /// A pointer to an atomic type that is sensitive or isn't, and a local of that type.
    fn pointer_and_local(&mut self, sensitive: bool) -> Option<(u32, u32)> {
        let mut found = Vec::new();
        for x in 0..self.locals.len() as u32 {
            let typ = self.locals[x as usize];
            if self.sensitive[typ as usize] == sensitive && !self.is_counter(x) {
                found.extend(self.pointers_to(typ).into_iter().map(|p| (p, x)));
            }
        }
        self.random.some(&found)
    }

    /// A sensitive pointer to a sized type that a load, store or field step can go through.
    fn sensitive_pointer(&mut self) -> Option<(u32, u32)> {
        let mut found = Vec::new();
        for p in 0..self.locals.len() as u32 {
            let typ = self.locals[p as usize];
            let Some(to) = types::target(self.module.types[typ as usize]) else { continue };
            let usable = match self.module.types[to as usize] {
                Type::Record { first, count } => {
                    let fields = &self.module.fields[first as usize..(first + count) as usize];
                    fields.iter().any(|field| !self.pointers_to(*field).is_empty())
                }
                _ => self.locals.contains(&to),
            };
            if self.sensitive[typ as usize] && usable {
                found.push((p, to));
            }
        }
        self.random.some(&found)
    }

    /// A sensitive pointer to a type of one word.
    fn single_stepper(&mut self) -> Option<u32> {
        let mut found = Vec::new();
        for x in 0..self.locals.len() as u32 {
            let typ = self.locals[x as usize];
            let to = types::target(self.module.types[typ as usize]);
            if self.sensitive[typ as usize] && to.and_then(|to| self.module.size(to)) == Some(1) {
                found.push(x);
            }
        }
        self.random.some(&found)
    }
}
