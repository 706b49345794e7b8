//! The reference as a program: a task text from standard input, the answer on standard output.

use bench::plan::plan;
use std::io::{self, Read, Write};

fn main() -> io::Result<()> {
    let mut text = Vec::new();
    io::stdin().lock().read_to_end(&mut text)?;
    io::stdout().lock().write_all(&plan(&text).printed())
}
