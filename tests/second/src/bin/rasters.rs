//! Marks per raster: a plate on standard input, its text on standard output; the first argument is the threshold.

use second::drawn::MOST_INPUT;
use second::rasters::rasters;
use second::text::THRESHOLD;
use std::error::Error;
use std::io::{self, Read, Write};

fn main() -> Result<(), Box<dyn Error>> {
    let threshold = match std::env::args().nth(1) {
        Some(given) => given.parse()?,
        None => THRESHOLD,
    };
    let mut plate = Vec::new();
    io::stdin().take(MOST_INPUT as u64 + 1).read_to_end(&mut plate)?;
    io::stdout().write_all(rasters(&plate, threshold).as_bytes())?;
    Ok(())
}
