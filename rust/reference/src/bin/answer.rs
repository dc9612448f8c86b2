//! Reads a script of commands from standard input and prints the answers.

#![forbid(unsafe_code)]

use std::io::{self, BufRead, BufWriter, Write};

use reference::console::Console;

fn main() -> io::Result<()> {
    let mut console = Console::new();
    let mut answers = BufWriter::new(io::stdout().lock());
    for line in io::stdin().lock().split(b'\n') {
        let line = line?;
        answers.write_all(console.answer(&String::from_utf8_lossy(&line)).as_bytes())?;
    }
    answers.flush()
}
