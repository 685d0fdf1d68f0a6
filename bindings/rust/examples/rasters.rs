//! A plate's marks per raster at a threshold of 128, kept while one video word is replaced. `rasters FILE INDEX WORD`
use std::error::Error;
use vombelishi::{plate, Record};

const USAGE: &str = "usage: rasters FILE INDEX WORD, the word in hexadecimal";

fn rasters() -> Result<(), Box<dyn Error>> {
    let given: Vec<String> = std::env::args().skip(1).collect();
    let [file, index, word] = <[String; 3]>::try_from(given).map_err(|_| USAGE)?;
    let (file, index, word) = (std::fs::read(file)?, index.parse()?, u32::from_str_radix(&word, 16)?);
    let places = plate::read(&file)?;
    let mut words = vec![0; places.r];
    plate::copy(&file, &mut words)?;
    let [registers, video, cursor, _sound] = places.sections(&words);
    let accepted = Record::new().load_and_check(registers)?;
    let (setting, mut video) = (accepted.setting(), video.to_vec());
    let before = accepted.summaries(&video, cursor, 128)?;
    let mut after = before.clone();
    accepted.replace(&mut video, cursor, 128, index, word, &mut after)?;
    assert_eq!(after, accepted.summaries(&video, cursor, 128)?, "what is kept is what is made afresh");
    println!("{} displayed rasters", after.len());
    for (y, (was, is)) in (setting.vds..).zip(before.iter().zip(&after)).filter(|(_, (was, is))| was != is) {
        println!("raster {y} had {} marks, greys {} to {}", was.marks, was.least, was.greatest);
        println!("raster {y} has {} marks, greys {} to {}", is.marks, is.least, is.greatest);
    }
    Ok(())
}

fn main() {
    if let Err(error) = rasters() {
        eprintln!("rasters: {error}");
        std::process::exit(1);
    }
}
