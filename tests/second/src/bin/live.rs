//! The live bench: a plate on standard input, its text on standard output.

use second::drawn::MOST_INPUT;
use second::live::live;
use std::io::{self, Read, Write};

fn main() -> io::Result<()> {
    let mut plate = Vec::new();
    io::stdin().take(MOST_INPUT as u64 + 1).read_to_end(&mut plate)?;
    io::stdout().write_all(live(&plate).as_bytes())
}
