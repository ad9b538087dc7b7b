//! The program `frames` of document 01 over the library, for the comparisons of reference/. `long` lifts the limits of 4,096 bytes.
use station::frames::{Frames, LIMIT};
use std::io::{self, BufRead, BufWriter, Write};

fn main() -> io::Result<()> {
    let long = std::env::args().nth(1).as_deref() == Some("long");
    let mut frames = match long {
        true => Frames::open(1024, 1 << 20, 1024, 1 << 20, usize::MAX),
        false => Frames::open(1024, 32_768, 1024, 32_768, LIMIT),
    };
    let mut out = BufWriter::new(io::stdout().lock());
    for line in io::stdin().lock().split(b'\n') {
        writeln!(out, "{}", frames.line(&line?))?;
    }
    out.flush()
}
