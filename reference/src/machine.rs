//! A run of a module (MACHINE.md).

use crate::image::{Instruction, Module, Type};
use crate::rules;
use crate::store::Store;
use crate::value::Value;

#[derive(Clone, Copy, PartialEq, Eq, Debug)]
pub struct Event {
    pub kind: u32,
    pub word: u32,
}

const NOTHING: Event = Event { kind: 0, word: 0 };

/// Why no step was made.
#[derive(Clone, Copy, PartialEq, Eq, Debug)]
pub enum Unmade {
    /// 11 or 12; nothing has changed.
    Refused(u32),
    /// 21 to 27; the run is marked as stopped.
    Stopped(u32),
}

/// Why a go came to its end.
#[derive(Clone, Copy, PartialEq, Eq, Debug)]
pub enum Came {
    Full,
    Ended,
    Stopped(u32),
}

#[derive(Clone, Copy, PartialEq, Eq, Debug)]
pub enum Status {
    Running,
    Ended,
    Stopped,
}

#[derive(Clone, Debug)]
pub struct Frame {
    pub function: u32,
    pub place: u32,
    pub locals: [Value; 8],
}

#[derive(Clone, Debug)]
pub struct Run {
    module: Module,
    sensitive: Vec<bool>,
    /// The first word of each global.
    global_starts: Vec<u32>,
    frames: Vec<Frame>,
    /// The first unused word of the heap.
    heap: u32,
    stopped: bool,
    store: Store,
}

impl Run {
    pub fn begin(module: &Module, mut store: Store) -> Run {
        for address in 0..module.memory {
            store.drop(address);
        }
        let mut global_starts = Vec::new();
        let mut heap = 0;
        for global in &module.globals {
            global_starts.push(heap);
            heap += module.global_room(global) as u32;
        }
        let mut run = Run {
            module: module.clone(),
            sensitive: rules::sensitive(module),
            global_starts,
            frames: Vec::new(),
            heap,
            stopped: false,
            store,
        };
        run.enter(0);
        run
    }

    pub fn status(&self) -> Status {
        if self.stopped {
            Status::Stopped
        } else if self.frames.is_empty() {
            Status::Ended
        } else {
            Status::Running
        }
    }

    /// The frames that stand, the oldest first.
    pub fn frames(&self) -> &[Frame] {
        &self.frames
    }

    /// What the store holds below the memory size, by rising address.
    pub fn entries(&self) -> Vec<(u32, Value)> {
        let held = |address| self.store.get(address).map(|value| (address, value));
        (0..self.module.memory).filter_map(held).collect()
    }

    pub fn step(&mut self, memory: &mut [u32]) -> Result<Event, Unmade> {
        self.ready(memory).map_err(Unmade::Refused)?;
        self.make(memory).map_err(|stop| {
            self.stopped = true;
            Unmade::Stopped(stop)
        })
    }

    /// Steps until `most` are made, the run has ended or a step stops.
    pub fn go(&mut self, memory: &mut [u32], most: u32) -> Result<(Vec<Event>, Came), u32> {
        self.ready(memory)?;
        let mut events = Vec::new();
        loop {
            if self.frames.is_empty() {
                return Ok((events, Came::Ended));
            }
            if events.len() == most as usize {
                return Ok((events, Came::Full));
            }
            match self.make(memory) {
                Ok(event) => events.push(event),
                Err(stop) => {
                    self.stopped = true;
                    return Ok((events, Came::Stopped(stop)));
                }
            }
        }
    }

    fn ready(&self, memory: &[u32]) -> Result<(), u32> {
        if self.status() != Status::Running {
            return Err(11);
        }
        if memory.len() != self.module.memory as usize {
            return Err(12);
        }
        Ok(())
    }

    /// Makes the instruction whose turn it is, or answers the stop and changes nothing.
    fn make(&mut self, memory: &mut [u32]) -> Result<Event, u32> {
        use Instruction::*;
        let Some(instruction) = self.turn() else { return Err(24) };
        let word = |x: u32| self.local(x).word();
        match instruction {
            Set { x, n } => self.set(x, Value::Plain(n)),
            Add { x, y, z } => self.set(x, Value::Plain(word(y).wrapping_add(word(z)))),
            Subtract { x, y, z } => self.set(x, Value::Plain(word(y).wrapping_sub(word(z)))),
            Less { x, y, z } => self.set(x, Value::Plain(u32::from(word(y) < word(z)))),
            Cast { x, y } => self.set(x, self.local(y)),
            Jump { to } => {
                self.newest().place = to;
                return Ok(NOTHING);
            }
            Branch { x, to } => {
                let taken = word(x) != 0;
                let frame = self.newest();
                frame.place = if taken { to } else { frame.place + 1 };
                return Ok(Event { kind: 5, word: u32::from(taken) });
            }
            Function { x, f } => self.set(x, Value::Code(f)),
            Global { x, g } => {
                let low = self.global_starts[g as usize];
                let room = self.module.global_room(&self.module.globals[g as usize]) as u32;
                self.set(x, Value::Data { word: low, low, high: low + room });
            }
            Allocate { x, y } => return self.allocate(x, word(y)),
            Move { x, y, z } => {
                let by = word(z);
                let word = word(y).wrapping_add(by.wrapping_mul(self.target_size(y)));
                match self.local(y) {
                    Value::Data { low, high, .. } => {
                        self.set(x, Value::Data { word, low, high });
                        self.go_on();
                        return Ok(Event { kind: 6, word: by });
                    }
                    _ => self.set(x, Value::Plain(word)),
                }
            }
            Field { x, y, k } => {
                if self.is_sensitive(y) {
                    self.within(y, self.target_size(y))?;
                }
                let moved = match self.local(y) {
                    Value::Plain(word) => Value::Plain(word.wrapping_add(k)),
                    Value::Code(word) => Value::Code(word.wrapping_add(k)),
                    Value::Data { word, low, high } => {
                        Value::Data { word: word.wrapping_add(k), low, high }
                    }
                };
                self.set(x, moved);
            }
            Load { x, y } => {
                let value = self.load(x, y, memory)?;
                self.set(x, value);
            }
            Store { x, y } => self.store(x, y, memory)?,
            Call { f } => return self.call(f, 1),
            CallThrough { x } => match self.local(x) {
                Value::Code(f) => return self.call(f, 2),
                _ => return Err(24),
            },
            Return => {
                self.frames.pop();
                let kind = if self.frames.is_empty() { 4 } else { 3 };
                return Ok(Event { kind, word: 0 });
            }
        }
        self.go_on();
        Ok(NOTHING)
    }

    fn allocate(&mut self, x: u32, asked: u32) -> Result<Event, u32> {
        let words = u64::from(asked) * u64::from(self.target_size(x));
        let left = self.module.memory - self.heap;
        if words == 0 || words > u64::from(left) {
            return Err(26);
        }
        let low = self.heap;
        self.heap += words as u32;
        self.set(x, Value::Data { word: low, low, high: self.heap });
        self.go_on();
        Ok(Event { kind: 7, word: asked })
    }

    fn load(&self, x: u32, y: u32, memory: &[u32]) -> Result<Value, u32> {
        let address = self.local(y).word();
        if self.is_sensitive(x) {
            self.within(y, 1)?;
            let held = self.store.get(address);
            Ok(held.unwrap_or_else(|| Value::Plain(memory[address as usize])))
        } else if address < self.module.memory {
            Ok(Value::Plain(memory[address as usize]))
        } else {
            Err(21)
        }
    }

    fn store(&mut self, x: u32, y: u32, memory: &mut [u32]) -> Result<(), u32> {
        let address = self.local(y).word();
        let value = self.local(x);
        if self.is_sensitive(x) {
            self.within(y, 1)?;
            if value.is_marked() {
                return if self.store.put(address, value) { Ok(()) } else { Err(27) };
            }
            self.store.drop(address);
        } else if address >= self.module.memory {
            return Err(21);
        }
        memory[address as usize] = value.word();
        Ok(())
    }

    fn call(&mut self, f: u32, kind: u32) -> Result<Event, u32> {
        if self.frames.len() == self.most_frames() {
            return Err(25);
        }
        self.go_on();
        self.enter(f);
        Ok(Event { kind, word: f })
    }

    /// 22 unless y is data, 23 unless so many words at y lie within its bounds.
    fn within(&self, y: u32, words: u32) -> Result<(), u32> {
        let Value::Data { word, low, high } = self.local(y) else { return Err(22) };
        if low <= word && u64::from(word) + u64::from(words) <= u64::from(high) {
            Ok(())
        } else {
            Err(23)
        }
    }

    fn most_frames(&self) -> usize {
        if self.module.depth == 0 { 16 } else { self.module.depth as usize }
    }

    fn enter(&mut self, function: u32) {
        self.frames.push(Frame { function, place: 0, locals: [Value::Plain(0); 8] });
    }

    /// The instruction whose turn it is.
    fn turn(&self) -> Option<Instruction> {
        let frame = self.frames.last()?;
        let function = &self.module.functions[frame.function as usize];
        self.module.code_of(function).get(frame.place as usize).copied()
    }

    fn newest(&mut self) -> &mut Frame {
        self.frames.last_mut().expect("a frame stands while the run is running")
    }

    fn go_on(&mut self) {
        self.newest().place += 1;
    }

    fn local(&self, x: u32) -> Value {
        self.frames[self.frames.len() - 1].locals[x as usize]
    }

    /// Puts a value into a local; it becomes plain if the local's type isn't sensitive.
    fn set(&mut self, x: u32, value: Value) {
        let value = if self.is_sensitive(x) { value } else { Value::Plain(value.word()) };
        self.newest().locals[x as usize] = value;
    }

    fn type_of(&self, x: u32) -> u32 {
        let frame = &self.frames[self.frames.len() - 1];
        self.module.locals_of(&self.module.functions[frame.function as usize])[x as usize]
    }

    fn is_sensitive(&self, x: u32) -> bool {
        self.sensitive[self.type_of(x) as usize]
    }

    /// The size of what a local points at.
    fn target_size(&self, x: u32) -> u32 {
        match self.module.types[self.type_of(x) as usize] {
            Type::Pointer { to } => self.module.size(to).expect("the rules ask for a sized type"),
            _ => unreachable!("the rules ask for a pointer"),
        }
    }
}
