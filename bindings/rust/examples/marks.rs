//! How bright a plate is: its marks at a threshold of 128. `marks FILE`
use std::error::Error;
use vombelishi::{plate, Record};

fn marks() -> Result<String, Box<dyn Error>> {
    let file = std::fs::read(std::env::args().nth(1).ok_or("usage: marks FILE")?)?;
    let places = plate::read(&file)?;
    let mut words = vec![0; places.r];
    plate::copy(&file, &mut words)?;
    let [registers, video, cursor, _sound] = places.sections(&words);
    let accepted = Record::new().load_and_check(registers)?;
    let setting = accepted.setting();
    let marks = accepted.marks(video, cursor, 128)?;
    Ok(format!("{} x {}, {marks} marks", setting.n, setting.v))
}

fn main() {
    match marks() {
        Ok(line) => println!("{line}"),
        Err(error) => {
            eprintln!("marks: {error}");
            std::process::exit(1);
        }
    }
}
