//! Reads a script from standard input and writes its transcript.

use std::io::{self, BufWriter, Read, Write};

fn main() -> io::Result<()> {
    let mut script = Vec::new();
    io::stdin().read_to_end(&mut script)?;
    let mut out = BufWriter::new(io::stdout().lock());
    out.write_all(&reference::script::transcript(&script))?;
    out.flush()
}
