//! The replay script (REPLAY.md, and the lines about runs).

use crate::image::Module;
use crate::lines::{Call, Words};
use crate::machine::{Came, Event, Run, Status, Unmade};
use crate::store::Store;
use std::fmt::Write;

/// All that a script works on.
pub struct Replay {
    module: Module,
    loose: Option<Store>,
    memory: Vec<u32>,
    run: Option<Run>,
}

/// Does a whole script and answers its transcript.
pub fn transcript(script: &[u8]) -> Vec<u8> {
    let mut replay = Replay::new();
    let mut written = Vec::new();
    for (number, line) in (1..).zip(script.split(|byte| *byte == b'\n')) {
        written.extend(replay.line(number, line).bytes());
    }
    written
}

/// The images of a script that are accepted, in order, and the same one once.
pub fn accepted(script: &[u8]) -> Vec<Vec<u8>> {
    let mut images = Vec::new();
    for line in script.split(|byte| *byte == b'\n') {
        let mut words = Words::of(line);
        if words.are_passed_over() {
            continue;
        }
        if let Ok(Call::Image(bytes)) = words.call()
            && Module::read(&bytes).is_ok()
            && !images.contains(&bytes)
        {
            images.push(bytes);
        }
    }
    images
}

impl Default for Replay {
    fn default() -> Replay {
        Replay::new()
    }
}

impl Replay {
    pub fn new() -> Replay {
        Replay { module: Module::smallest(), loose: None, memory: Vec::new(), run: None }
    }

    /// Does a line and answers what it writes, each answer's line with its end.
    pub fn line(&mut self, number: u64, line: &[u8]) -> String {
        let mut words = Words::of(line);
        if words.are_passed_over() {
            return String::new();
        }
        let mut answer = match words.call() {
            Ok(call) => self.answer(call),
            Err(fault) => format!("error line {number}: {}", fault.reason()),
        };
        answer.push('\n');
        answer
    }

    fn answer(&mut self, call: Call) -> String {
        match call {
            Call::Image(bytes) => match Module::read(&bytes) {
                Ok(module) => {
                    self.module = module;
                    "accepted".to_string()
                }
                Err(fault) => format!("refused {} {} {}", fault.number, fault.list, fault.record),
            },
            Call::Write(room) => written(&self.module.image(), room as usize),
            Call::Sensitive => sensitive(&self.module),
            Call::Store(store) => {
                self.loose = Some(store);
                "store made".to_string()
            }
            Call::Put(address, value) => self.of_loose(|store| {
                (if store.put(address, value) { "put" } else { "not taken" }).to_string()
            }),
            Call::Drop(address) => self.of_loose(|store| {
                store.drop(address);
                "dropped".to_string()
            }),
            Call::Get(address) => self.of_loose(|store| match store.get(address) {
                Some(value) => value.to_string(),
                None => "nothing".to_string(),
            }),
            Call::Takes(address) => {
                self.of_loose(|store| (if store.takes(address) { "yes" } else { "no" }).to_string())
            }
            Call::Begin => match self.loose.take() {
                Some(store) => {
                    self.run = Some(Run::begin(&self.module, store));
                    "begun".to_string()
                }
                None => "no store".to_string(),
            },
            Call::Memory(words) => {
                self.memory = vec![0; words as usize];
                format!("memory {words}")
            }
            Call::Poke(address, word) => match self.memory.get_mut(address as usize) {
                Some(place) => {
                    *place = word;
                    format!("poked {address} {word}")
                }
                None => "outside".to_string(),
            },
            Call::Peek(address) => match self.memory.get(address as usize) {
                Some(word) => format!("word {word}"),
                None => "outside".to_string(),
            },
            Call::Digest => format!("digest {}", digest(&self.memory)),
            Call::Step => self.of_run(|run, memory| match run.step(memory) {
                Ok(event) => told(event),
                Err(Unmade::Refused(number)) => format!("refused {number}"),
                Err(Unmade::Stopped(number)) => format!("stopped {number}"),
            }),
            Call::Go(most) => self.of_run(|run, memory| went(run.go(memory, most))),
            Call::Frames => self.of_run(|run, _| frames(run)),
            Call::Entries => self.of_run(|run, _| entries(run)),
            Call::Status => self.of_run(|run, _| {
                let status = match run.status() {
                    Status::Running => "running",
                    Status::Ended => "ended",
                    Status::Stopped => "stopped",
                };
                status.to_string()
            }),
        }
    }

    fn of_loose(&mut self, call: impl FnOnce(&mut Store) -> String) -> String {
        match &mut self.loose {
            Some(store) => call(store),
            None => "no store".to_string(),
        }
    }

    fn of_run(&mut self, call: impl FnOnce(&mut Run, &mut [u32]) -> String) -> String {
        match &mut self.run {
            Some(run) => call(run, &mut self.memory),
            None => "no run".to_string(),
        }
    }
}

/// Writes an image into so many bytes of 165.
fn written(image: &[u8], room: usize) -> String {
    let mut bytes = vec![165; room];
    let first = if image.len() <= room {
        bytes[..image.len()].copy_from_slice(image);
        format!("wrote {}", image.len())
    } else {
        "refused 9 0 0".to_string()
    };
    format!("{first}\nbytes {}", hex(&bytes))
}

pub fn hex(bytes: &[u8]) -> String {
    let mut text = String::with_capacity(2 * bytes.len());
    for byte in bytes {
        write!(text, "{byte:02x}").unwrap();
    }
    text
}

fn sensitive(module: &Module) -> String {
    let mut text = "sensitive".to_string();
    for (number, sensitive) in crate::rules::sensitive(module).iter().enumerate() {
        if *sensitive {
            write!(text, " {number}").unwrap();
        }
    }
    text
}

fn digest(memory: &[u32]) -> u32 {
    let mut sum = 0u32;
    for (word, weight) in memory.iter().zip(1u32..) {
        sum = sum.wrapping_add(word.wrapping_mul(weight));
    }
    sum
}

fn told(event: Event) -> String {
    format!("event {} {}", event.kind, event.word)
}

fn went(answer: Result<(Vec<Event>, Came), u32>) -> String {
    let (events, came) = match answer {
        Ok(went) => went,
        Err(number) => return format!("refused {number}"),
    };
    let came = match came {
        Came::Full => "full".to_string(),
        Came::Ended => "ended".to_string(),
        Came::Stopped(number) => format!("stopped {number}"),
    };
    let mut text = format!("made {} {came}", events.len());
    for event in events {
        write!(text, "\n{}", told(event)).unwrap();
    }
    text
}

fn frames(run: &Run) -> String {
    let mut text = format!("frames {}", run.frames().len());
    for frame in run.frames() {
        write!(text, "\nframe {} {}", frame.function, frame.place).unwrap();
        for value in frame.locals {
            write!(text, " {value}").unwrap();
        }
    }
    text
}

fn entries(run: &Run) -> String {
    let entries = run.entries();
    let mut text = format!("entries {}", entries.len());
    for (address, value) in entries {
        write!(text, "\nentry {address} {value}").unwrap();
    }
    text
}
