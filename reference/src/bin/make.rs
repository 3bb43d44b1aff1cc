//! Writes a random script: make SEED [HOW MANY rounds, 8 if not said].

use std::io::{self, Write};
use std::process::ExitCode;

fn main() -> ExitCode {
    let numbers: Option<Vec<u64>> =
        std::env::args().skip(1).map(|word| word.parse().ok()).collect();
    let (seed, rounds) = match numbers.as_deref() {
        Some([seed]) => (*seed, 8),
        Some([seed, rounds]) => (*seed, *rounds),
        _ => {
            eprintln!("make SEED [HOW MANY]");
            return ExitCode::FAILURE;
        }
    };
    let script = reference::maker::script(seed, rounds as u32);
    match io::stdout().lock().write_all(&script) {
        Ok(()) => ExitCode::SUCCESS,
        Err(_) => ExitCode::FAILURE,
    }
}
