//! A plate over a camera picture, their paths as arguments: the mixed picture on standard output, or, on standard error, why
//! there is none.

use second::drawn::MOST_INPUT;
use second::overlay::overlay;
use std::error::Error;
use std::fs::{self, File};
use std::io::{self, Read, Write};

fn main() -> Result<(), Box<dyn Error>> {
    let mut paths = std::env::args_os().skip(1);
    let both = paths.next().zip(paths.next());
    let (plate_path, camera_path) =
        both.ok_or("two paths are needed: the plate's and the camera picture's")?;
    let mut plate = Vec::new();
    File::open(plate_path)?.take(MOST_INPUT as u64 + 1).read_to_end(&mut plate)?;
    match overlay(&plate, &fs::read(camera_path)?) {
        Ok(picture) => io::stdout().write_all(&picture)?,
        Err(reason) => writeln!(io::stderr(), "{reason}")?,
    }
    Ok(())
}
