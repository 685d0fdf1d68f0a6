//! How many places of a plate a camera of one colour changes: `mix FILE COLOUR`
use std::error::Error;
use vombelishi::{plate, Record};

const USAGE: &str = "usage: mix FILE COLOUR, the colour in hexadecimal";

fn mix() -> Result<(), Box<dyn Error>> {
    let given: Vec<String> = std::env::args().skip(1).collect();
    let [file, colour] = <[String; 2]>::try_from(given).map_err(|_| USAGE)?;
    let (file, colour) = (std::fs::read(file)?, u16::from_str_radix(&colour, 16)?);
    let places = plate::read(&file)?;
    let mut words = vec![0; places.r];
    plate::copy(&file, &mut words)?;
    let [registers, video, cursor, _sound] = places.sections(&words);
    let accepted = Record::new().load_and_check(registers)?;
    let setting = accepted.setting();
    let camera = vec![colour; setting.n as usize];
    let (mut cells, mut mixed) = (camera.clone(), camera.clone());
    let mut changed = 0;
    for y in 0..setting.v as u16 {
        accepted.raster(video, cursor, y, &mut cells)?;
        accepted.mix(&cells, &camera, &mut mixed)?;
        changed += cells.iter().zip(&mixed).filter(|(cell, seen)| **cell % 4096 != **seen).count();
    }
    println!("{} x {}, {changed} places changed", setting.n, setting.v);
    Ok(())
}

fn main() {
    if let Err(error) = mix() {
        eprintln!("mix: {error}");
        std::process::exit(1);
    }
}
