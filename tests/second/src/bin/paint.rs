//! The picture of a plate on standard input, on standard output: a binary PPM file. A refusal goes to standard error.

use second::cell::shown;
use second::drawn::{drawn, MOST_INPUT};
use second::ppm::ppm;
use std::io::{self, Read, Write};

fn main() -> io::Result<()> {
    let mut plate = Vec::new();
    io::stdin().take(MOST_INPUT as u64 + 1).read_to_end(&mut plate)?;
    match drawn(&plate) {
        Ok((s, cells)) => {
            let colours: Vec<u16> = cells.iter().map(|cell| shown(*cell).colour).collect();
            io::stdout().write_all(&ppm(s.n, s.v, &colours))
        }
        Err(refusal) => writeln!(io::stderr(), "{refusal}"),
    }
}
