//! One workload of bench/run, so often; prints nanoseconds of the processor's time, steps in all,
//! and the memory's first word, or the sum of what was got.
//!
//!     bench run IMAGE TIMES KIND SLOTS EVENTS SLICES
//!     bench begin IMAGE TIMES KIND SLOTS
//!     bench store ORDERS TIMES KIND SLOTS
//!     bench judge IMAGE TIMES
//!
//! Kinds are 0 array store, 1 hash store, 2 hash store behind a window.

use reference::image::Module;
use reference::machine::{Came, Run};
use reference::store::{Make, Store};
use reference::value::Value;
use std::hint::black_box;
use std::process::ExitCode;

/// Where the window's addresses begin in the store below.
const BASE: u32 = 1000;

/// Seconds and nanoseconds, as the C library tells them.
#[repr(C)]
struct Time {
    seconds: i64,
    nanoseconds: i64,
}

unsafe extern "C" {
    fn clock_gettime(clock: i32, time: *mut Time) -> i32;
}

/// Of the processor's time that the program has had.
fn now() -> u64 {
    const OF_THE_PROCESS: i32 = 2;
    let mut time = Time { seconds: 0, nanoseconds: 0 };
    unsafe { clock_gettime(OF_THE_PROCESS, &mut time) };
    time.seconds as u64 * 1_000_000_000 + time.nanoseconds as u64
}

fn store(kind: u32, slots: u32, len: u32) -> Store {
    match kind {
        0 => Store::new(Make::Array, slots),
        1 => Store::new(Make::Hash, slots),
        _ => Store::new(Make::Hash, slots).behind_window(BASE, len),
    }
}

struct Workload {
    bytes: Vec<u8>,
    times: u64,
    numbers: Vec<u32>,
}

impl Workload {
    fn module(&self) -> Module {
        Module::read(&self.bytes).expect("an image that is accepted")
    }

    fn store(&self, len: u32) -> Store {
        store(self.numbers[0], self.numbers[1], len)
    }

    fn run(&self) -> (u64, u64) {
        let (mut steps, mut left) = (0, 0);
        for _ in 0..self.times {
            let module = self.module();
            let mut memory = vec![0; module.memory as usize];
            let mut run = Run::begin(&module, self.store(module.memory));
            for _ in 0..self.numbers[3] {
                let Ok((events, came)) = run.go(&mut memory, self.numbers[2]) else { break };
                steps += black_box(&events).len() as u64;
                if came != Came::Full {
                    break;
                }
            }
            left = memory[0];
        }
        (steps, u64::from(left))
    }

    fn begin(&self) -> (u64, u64) {
        let mut frames = 0;
        for _ in 0..self.times {
            let module = self.module();
            let run = black_box(Run::begin(&module, self.store(module.memory)));
            frames = run.frames().len() as u64;
        }
        (0, frames)
    }

    fn orders(&self) -> (u64, u64) {
        let mut sum = 0u32;
        for _ in 0..self.times {
            let mut store = self.store(65_536);
            sum = 0;
            for word in self.bytes.chunks_exact(4) {
                let word = u32::from_le_bytes([word[0], word[1], word[2], word[3]]);
                let address = word % 65_536;
                match word / 65_536 {
                    0 => sum = sum.wrapping_add(store.get(address).map_or(0, Value::word)),
                    1 => {
                        store.put(address, Value::Code(address));
                    }
                    _ => store.drop(address),
                }
            }
        }
        (0, u64::from(sum))
    }

    fn judge(&self) -> (u64, u64) {
        let mut accepted = 0;
        for _ in 0..self.times {
            accepted = u64::from(black_box(Module::read(black_box(&self.bytes))).is_err());
        }
        (0, accepted)
    }

    fn done(&self, what: &str) -> Option<(u64, u64)> {
        Some(match (what, self.numbers.len()) {
            ("run", 4) => self.run(),
            ("begin", 2) => self.begin(),
            ("store", 2) => self.orders(),
            ("judge", 0) => self.judge(),
            _ => return None,
        })
    }
}

fn main() -> ExitCode {
    let words: Vec<String> = std::env::args().skip(1).collect();
    let [what, file, times, numbers @ ..] = words.as_slice() else { return ExitCode::FAILURE };
    let number = |word: &String| word.parse().expect("a number");
    let workload = Workload {
        bytes: std::fs::read(file).expect("a file"),
        times: u64::from(number(times)),
        numbers: numbers.iter().map(number).collect(),
    };
    let from = now();
    let Some((steps, sum)) = workload.done(what) else { return ExitCode::FAILURE };
    println!("{} {steps} {sum}", now() - from);
    ExitCode::SUCCESS
}
