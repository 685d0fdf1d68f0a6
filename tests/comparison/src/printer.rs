//! The programs that print a text of a plate: plates on their standard input, the text compared.

use crate::bench::Bench;
use crate::judged::Judged;
use crate::make_plate::picture_file;
use crate::make_record::{MIDDLING, SMALL, TALL, WIDE};
use crate::random::Random;
use crate::show;
use second::live::live;
use second::rasters::rasters;
use second::text::{picture, text, THRESHOLD};
use std::io::{self, Write};
use std::process::{Child, Command, Stdio};
use std::thread;

pub const PLATES: u64 = 600;

pub struct Printer {
    pub name: &'static str,
    /// The words that it is given besides a plate, and what it should print then.
    asked: fn(&mut Random, &[u8]) -> (Vec<String>, String),
}

pub const PRINTERS: [Printer; 3] = [
    Printer { name: "printer", asked: |_, plate| (Vec::new(), text(plate)) },
    Printer { name: "live", asked: |_, plate| (Vec::new(), live(plate)) },
    Printer { name: "tally", asked: tally },
];

/// A threshold, with zeros before it now and then, or none.
fn tally(random: &mut Random, plate: &[u8]) -> (Vec<String>, String) {
    let any = random.word() as u8;
    let threshold = random.pick(&[0, 1, 127, 128, 255, any, any, any]);
    match random.between(0, 4) {
        0 => (Vec::new(), rasters(plate, THRESHOLD)),
        1 => (vec![format!("{threshold:03}")], rasters(plate, threshold)),
        _ => (vec![threshold.to_string()], rasters(plate, threshold)),
    }
}

/// The same plate in each round for each of them, and the same refusals.
pub fn compare_printer(bench: &mut Bench, printer: &Printer, command: &[String], round: u64) {
    bench.begin(printer.name, round);
    let mut random = Random::new(bench.seed, "printer", round);
    let file = plate(&mut random);
    let (words, text) = (printer.asked)(&mut random, &file);
    let command = [command, words.as_slice()].concat();
    let printed = run(&command, &file).unwrap_or_else(|error| format!("could not be run: {error}"));
    let mut judged = Judged { refused: picture(&file).err(), ..Judged::default() };
    judged.same("text", &text, &printed);
    bench.count(printer.name, judged, || format!("file {}\nwords {words:?}", show::list(&file)));
}

fn plate(random: &mut Random) -> Vec<u8> {
    let size = if random.one_in(20) { random.pick(&[WIDE, TALL, MIDDLING]) } else { SMALL };
    picture_file(random, size)
}

/// What the command prints, or how it failed.
fn run(command: &[String], input: &[u8]) -> io::Result<String> {
    let mut start = Command::new(&command[0]);
    let mut child = start.args(&command[1..]).stdin(Stdio::piped()).stdout(Stdio::piped()).spawn()?;
    let feeder = feed(&mut child, input.to_vec());
    let output = child.wait_with_output()?;
    feeder.join().expect("the feeding thread does not panic");
    if !output.status.success() {
        return Err(io::Error::new(io::ErrorKind::Other, output.status.to_string()));
    }
    Ok(String::from_utf8_lossy(&output.stdout).into_owned())
}

/// Feeds the input from a thread; the program may stop reading when it has seen too much.
fn feed(child: &mut Child, input: Vec<u8>) -> thread::JoinHandle<()> {
    let mut stdin = child.stdin.take().expect("standard input is piped");
    thread::spawn(move || drop(stdin.write_all(&input)))
}
