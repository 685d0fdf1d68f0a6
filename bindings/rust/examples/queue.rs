//! A plate's video words through a video queue, raster after raster, as a bench feeds and reads it. `queue FILE`
use std::error::Error;
use vombelishi::{plate, Queue, Record, Refusal};

const CONTROL: usize = 0xE0 / 4;

/// The words that are left, then filler.
fn next(words: &mut &[u32]) -> u32 {
    let (first, rest) = words.split_first().unwrap_or((&u32::MAX, &[]));
    *words = rest;
    *first
}

/// Four words at a time, while the queue asks and has room for them.
fn feed(queue: &mut Queue, words: &mut &[u32], mut asks: bool) -> Result<(), Refusal> {
    while asks && queue.held <= 4 {
        for _ in 0..4 {
            let loaded = queue.load(next(words));
            loaded.answer?;
            asks = loaded.asks;
        }
    }
    Ok(())
}

fn frame() -> Result<String, Box<dyn Error>> {
    let file = std::fs::read(std::env::args().nth(1).ok_or("usage: queue FILE")?)?;
    let places = plate::read(&file)?;
    let mut words = vec![0; places.r];
    plate::copy(&file, &mut words)?;
    let [registers, video, _cursor, _sound] = places.sections(&words);
    let accepted = Record::new().load_and_check(registers)?;
    let (record, mut left) = (accepted.record(), video);
    let mut queue = Queue::fresh(Queue::VIDEO);
    let mut read = 0;
    for y in 0..accepted.setting().v {
        queue.vertical_sync(y);
        let mut asks = queue.ask(record.sync_ask(Queue::VIDEO, y)).asks;
        for byte in accepted.raster_words(video, y as u16)?.iter().flat_map(|word| word.to_le_bytes()) {
            feed(&mut queue, &mut left, asks)?;
            let reply = queue.read(record.values[CONTROL]);
            assert_eq!(reply.answer, Ok(byte), "the queue gives the frame's own bytes");
            (asks, read) = (reply.asks, read + 1);
        }
    }
    Ok(format!("{} video words: {} words loaded, {read} bytes read", video.len(), queue.count))
}

fn main() {
    match frame() {
        Ok(line) => println!("{line}"),
        Err(error) => {
            eprintln!("queue: {error}");
            std::process::exit(1);
        }
    }
}
